"""What the astronomers of the example ask for, as request groups of an observation portal."""

from __future__ import annotations

from datetime import datetime, timedelta
from typing import Any, Iterable

from purvelj.moments import in_utc

Document = dict[str, Any]
CAMERAS = {"1m0": "1M0-SCICAM-SINISTRO", "0m4": "0M4-SCICAM-QHY600"}
CONSTRAINTS = {"max_airmass": 1.8, "min_lunar_distance": 20}

MESSIER = ("M1", "M2", "M15", "M27", "M31", "M33", "M35", "M42", "M44", "M45", "M46", "M67", "M74", "M79", "M97")
GALAXIES = (
    "NGC 253",
    "NGC 300",
    "NGC 891",
    "NGC 1097",
    "NGC 1365",
    "NGC 1566",
    "NGC 2403",
    "NGC 7793",
    "M77",
    "M95",
)
CLUSTERS = ("NGC 104", "M2", "M15", "M79", "NGC 869", "M45")
VARIABLES = ("M35", "M44", "M45", "M46", "M67", "NGC 104", "NGC 869", "M79")
TRANSITS = ("HD 209458", "WASP-12", "WASP-18", "TRAPPIST-1")


class Campaign:
    """Request groups over so many days from a moment on, each with its priority and its fade."""

    def __init__(self, date: str, days: int, targets: Iterable[Document]) -> None:
        self._start = in_utc(date)
        self._end = self._start + timedelta(days=days)
        self._days = days
        self._targets = {target["name"]: target for target in targets}

    def groups(self) -> list[tuple[Document, int, int]]:
        """All request groups."""
        return [
            *((self._messier(name), 10, 0) for name in MESSIER),
            *((self._pair(first, second), 14, 0) for first, second in zip(GALAXIES[::2], GALAXIES[1::2])),
            *((self._monitoring(name), 18, 0) for name in ("M81", "M82", "NGC 2070", "SN 1987A")),
            *((self._transit(name, hours), 25, 0) for hours, name in enumerate(TRANSITS)),
            (self._one_cluster(), 8, 0),
            (self._variables(), 12, 0),
            *((self._survey(name), 6, 0) for name in GALAXIES),
            *((self._alert(name), 30, 20) for name in ("NGC 1365", "M77")),
        ]

    def _messier(self, name: str) -> Document:
        exposures = [(60, 3), (90, 3), (120, 3)]
        return self._group(
            f"{name} in three colours", "2026B-messier", "SINGLE", self._request(name, "0m4", exposures)
        )

    def _pair(self, first: str, second: str) -> Document:
        requests = [self._request(name, "1m0", [(300, 4)]) for name in (first, second)]
        return self._group(f"{first} and {second}", "2026B-galaxies", "MANY", *requests)

    def _survey(self, name: str) -> Document:
        return self._group(f"{name} deep", "2026B-galaxies", "SINGLE", self._request(name, "1m0", [(600, 9)]))

    def _one_cluster(self) -> Document:
        requests = [self._request(name, "1m0", [(30, 20)]) for name in CLUSTERS]
        return self._group("any cluster", "2026B-clusters", "ONEOF", *requests)

    def _variables(self) -> Document:
        requests = [self._request(name, "1m0", [(60, 60)]) for name in VARIABLES]
        return self._group("variables in clusters", "2026B-variables", "MANY", *requests)

    def _monitoring(self, name: str) -> Document:
        request = self._request(name, "0m4", [(120, 3)])
        del request["windows"]
        request["cadence"] = {"start": _text(self._start), "end": _text(self._end), "period": 24, "jitter": 20}
        return self._group(f"{name} every day", "2026B-monitoring", "SINGLE", request)

    def _transit(self, name: str, hours: int) -> Document:
        """An hour before and an hour after, or nothing: each within half a day."""
        noon = self._start + timedelta(hours=12 + 2 * hours)
        before, after = (self._request(name, "1m0", [(60, 30)]) for _ in range(2))
        before["windows"] = [_window(noon - timedelta(hours=12), noon)]
        after["windows"] = [_window(noon, noon + timedelta(hours=24))]
        return self._group(f"{name} twice", "2026B-transits", "AND", before, after, kind="TIME_CRITICAL", ipp=1.2)

    def _alert(self, name: str) -> Document:
        request = self._request(name, "1m0", [(180, 5)])
        return self._group(f"alert in {name}", "2026B-alerts", "SINGLE", request, kind="RAPID_RESPONSE")

    def _request(self, name: str, telescope_class: str, exposures: list[tuple[int, int]]) -> Document:
        target = self._targets[name]
        return {
            "acceptability_threshold": 90,
            "location": {"telescope_class": telescope_class},
            "windows": [_window(self._start, self._end)],
            "configurations": [
                {
                    "type": "EXPOSE",
                    "instrument_type": CAMERAS[telescope_class],
                    "target": {"type": "ICRS", "name": name, "ra": target["ra"], "dec": target["dec"]},
                    "constraints": CONSTRAINTS,
                    "instrument_configs": [
                        {"exposure_time": seconds, "exposure_count": count} for seconds, count in exposures
                    ],
                }
            ],
        }

    @staticmethod
    def _group(
        name: str, proposal: str, operator: str, *requests: Document, kind: str = "NORMAL", ipp: float = 1.0
    ) -> Document:
        return {
            "name": name,
            "proposal": proposal,
            "operator": operator,
            "observation_type": kind,
            "ipp_value": ipp,
            "requests": list(requests),
        }


#: Proposal, account, telescope class (none for ipp) and hours of each grant.
GRANTS = (
    ("2026B-messier", "standard", "0m4", 8),
    ("2026B-galaxies", "standard", "1m0", 24),
    ("2026B-clusters", "standard", "1m0", 2),
    ("2026B-monitoring", "standard", "0m4", 6),
    ("2026B-variables", "standard", "1m0", 14),
    ("2026B-transits", "time_critical", "1m0", 12),
    ("2026B-transits", "ipp", None, 2),
    ("2026B-alerts", "rapid_response", "1m0", 3),
)


def _window(start: datetime, end: datetime) -> Document:
    return {"start": _text(start), "end": _text(end)}


def _text(moment: datetime) -> str:
    return moment.strftime("%Y-%m-%dT%H:%M:%SZ")
