"""A request group of an observation portal as a group that the desk takes.

The portal's is the request model of the Las Cumbres Observatory. What the desk wouldn't heed, or would
read otherwise, is named: as a warning where the observation is still the one that was asked for, as a
fault where it wouldn't be.
"""

from __future__ import annotations

from dataclasses import dataclass
from decimal import Decimal
from typing import Any

from purvelj.documents import Document
from purvelj.lines import Line, submit_line
from purvelj.portal.notes import Note, Notes, PortalError, Severity
from purvelj.portal.quantities import milliseconds, percent, seconds_of_hours, thousandths, window
from purvelj.portal.unheeded import name_unheeded

OPERATORS = ("SINGLE", "MANY", "ONEOF", "AND")
OBSERVATION_TYPES = ("NORMAL", "TIME_CRITICAL", "RAPID_RESPONSE")
#: The types of configuration that are exposures on their target.
EXPOSURES = ("EXPOSE", "SPECTRUM", "STANDARD")
MOST_REQUESTS, MOST_WINDOWS, MOST_CONFIGURATIONS = 32, 32, 16

Members = dict[str, Any]


@dataclass(frozen=True)
class Conversion:
    """What became of a request group: the desk's group, or None where there are faults, and all notes."""

    group: Members | None
    notes: tuple[Note, ...]

    def line(self) -> Line:
        """The ``submit`` line; ``PortalError`` where there are faults."""
        if self.group is None:
            raise PortalError(self.notes)
        return submit_line(self.group)


def convert(value: object, priority: int, fade: int = 0, path: str = "") -> Conversion:
    """Turns a portal's request group into the desk's.

    ``priority`` (1 to 100) multiplies the group's values. ``fade`` (0 to 1000) is the thousandths of
    its value that each request loses with each slice of delay. ``path`` names the document in notes.
    """
    if not 1 <= priority <= 100 or not 0 <= fade <= 1000:
        raise ValueError("priority is 1 to 100, and fade 0 to 1000")
    notes = Notes()
    document = notes.attempt("document", lambda: Document(value, path))
    group = None if document is None else _Converter(notes, priority, fade).group(document)
    faults = any(note.severity is Severity.FAULT for note in notes.all())
    return Conversion(None if faults else group, notes.all())


class _Converter:
    """Reads a request group level by level. Where a part can't be read, a fault is noted, and the rest is read."""

    def __init__(self, notes: Notes, priority: int, fade: int) -> None:
        self._notes = notes
        self._priority = priority
        self._fade = fade

    def group(self, document: Document) -> Members:
        """The group's members."""
        attempt = self._notes.attempt
        name_unheeded(document, "group", self._notes)
        operator = attempt("operator", lambda: document.word("operator", OPERATORS))
        return {
            "name": attempt("document", lambda: document.text("name")),
            "proposal": attempt("document", lambda: document.text("proposal")),
            "operator": operator,
            "observation_type": attempt(
                "observation-type", lambda: document.word("observation_type", OBSERVATION_TYPES)
            ),
            "ipp_thousandths": attempt("ipp", lambda: self._ipp(document)),
            "priority": self._priority,
            "requests": attempt("document", lambda: self._requests(document, operator)),
        }

    def _ipp(self, document: Document) -> int:
        return thousandths(document, "ipp_value", self._notes) if document.has("ipp_value") else 1000

    def _requests(self, document: Document, operator: str | None) -> list[Members | None]:
        requests = document.objects("requests")
        least, most = (1, 1) if operator == "SINGLE" else (2, MOST_REQUESTS)
        if operator and not least <= len(requests) <= most:
            wanted = str(least) if least == most else f"{least} to {most}"
            text = f"{len(requests)} stand here, where the desk takes {wanted} in a {operator}"
            self._notes.fault("group-size", document.path_of("requests"), text)
        return [self._notes.attempt("document", lambda: self._request(each, operator)) for each in requests]

    def _request(self, document: Document, operator: str | None) -> Members:
        name_unheeded(document, "request", self._notes, ("optimization_type", "configuration_repeats"))
        self._test_optimization(document)
        request: Members = {
            "location": self._location(document.object("location")),
            **self._when(document, operator),
            "configurations": self._configurations(document),
            "acceptability_threshold": self._threshold(document),
        }
        if self._fade:
            request["fade"] = self._fade
        return request

    def _test_optimization(self, document: Document) -> None:
        if not document.has("optimization_type"):
            return
        path, word = document.path_of("optimization_type"), document.raw("optimization_type")
        if word != "TIME":
            self._notes.warn("optimization", path, f"the desk doesn't heed {word}")
        elif not self._fade:
            self._notes.warn("optimization", path, "the desk likes early starts no better, unless fade is given")

    def _location(self, document: Document) -> Members:
        name_unheeded(document, "location", self._notes)
        location = {"telescope_class": document.text("telescope_class")}
        for member in ("site", "enclosure", "telescope"):
            if document.raw_or(member, "") != "":
                location[member] = document.text(member)
        return location

    def _when(self, document: Document, operator: str | None) -> Members:
        windows = document.list("windows", 0, MOST_WINDOWS) if document.has("windows") else []
        if not document.has("cadence"):
            if not windows:
                self._notes.fault("window", document.path_of("windows"), "there is no window")
            read = [
                self._notes.attempt("window", lambda: window(each, self._notes))
                for each in (document.objects("windows") if windows else ())
            ]
            return {"windows": read}
        path = document.path_of("cadence")
        if windows:
            self._notes.fault("cadence", path, "the desk would ignore the windows that stand beside it")
        if operator != "SINGLE":
            self._notes.fault("cadence", path, "the desk takes a cadence only in a SINGLE")
        return {"cadence": self._notes.attempt("cadence", lambda: self._cadence(document.object("cadence")))}

    def _cadence(self, document: Document) -> Members:
        return {
            **window(document, self._notes),
            "period": seconds_of_hours(document, "period", self._notes),
            "jitter": seconds_of_hours(document, "jitter", self._notes),
        }

    def _threshold(self, document: Document) -> int | None:
        name = "acceptability_threshold"
        if not document.has(name):
            path = document.path_of(name)
            self._notes.warn("threshold", path, "none is given, and the desk takes 90 percent")
            return 90
        return self._notes.attempt("threshold", lambda: percent(document, name, self._notes))

    def _configurations(self, document: Document) -> list[Members | None]:
        path = document.path_of("configurations")
        configurations = document.objects("configurations", 1, MOST_CONFIGURATIONS)
        # What is no text is a fault of its configuration.
        named = (each.raw_or("instrument_type", None) for each in configurations)
        types = {name for name in named if isinstance(name, str)}
        if len(types) > 1:
            text = f"the instrument types {', '.join(sorted(types))} are mixed in one request"
            self._notes.fault("mixed-instruments", path, text)
        order = [each.raw_or("priority", 0) for each in configurations]
        if order != sorted(order, key=lambda each: each if isinstance(each, (int, float, Decimal)) else 0):
            self._notes.warn("order", path, "the desk takes them as they stand, not by their priorities")
        read = [self._notes.attempt("document", lambda: self._configuration(each)) for each in configurations]
        return read * self._repeats(document, len(read))

    def _repeats(self, document: Document, count: int) -> int:
        name = "configuration_repeats"
        repeats = document.whole_or(name, 1, 1, 10_000)
        path = document.path_of(name)
        if repeats * count > MOST_CONFIGURATIONS:
            text = f"{repeats} times {count} configurations, where the desk takes {MOST_CONFIGURATIONS}"
            self._notes.fault("configuration-repeats", path, text)
            return 1
        if repeats > 1:
            text = f"the desk has no repeats: the configurations are written out {repeats} times"
            self._notes.warn("configuration-repeats", path, text)
        return repeats

    def _configuration(self, document: Document) -> Members:
        name_unheeded(document, "configuration", self._notes, ("priority",))
        self._test_type(document)
        if document.has("constraints"):
            name_unheeded(document.object("constraints"), "constraints", self._notes)
        return {
            "instrument_type": document.text("instrument_type"),
            "target": self._target(document.object("target")),
            "instrument_configs": [
                self._exposures(each) for each in document.objects("instrument_configs", 1, MOST_CONFIGURATIONS)
            ],
        }

    def _test_type(self, document: Document) -> None:
        kind = document.raw_or("type", "EXPOSE")
        path = document.path_of("type")
        if str(kind).startswith("REPEAT") or document.has("repeat_duration"):
            text = f"{kind} repeats its exposures for repeat_duration; the desk would plan for one pass"
            self._notes.fault("repeat", path, text)
        elif kind == "SCRIPT":
            self._notes.fault("script", path, "how long a script takes isn't known from its exposures")
        elif kind not in EXPOSURES:
            self._notes.warn("type", path, f"{kind} is planned as exposures on the target")

    def _target(self, document: Document) -> Members:
        kind = document.raw_or("type", "ICRS")
        if kind != "ICRS":
            text = f"{kind}: when a target that is no fixed star can be seen isn't known here"
            self._notes.fault("moving-target", document.path_of("type"), text)
        else:
            name_unheeded(document, "target", self._notes)
        return {"name": document.text("name")}

    def _exposures(self, document: Document) -> Members:
        name_unheeded(document, "instrument config", self._notes)
        return {
            "exposure_time_ms": milliseconds(document, "exposure_time", self._notes),
            "exposure_count": document.whole("exposure_count", 1, 10_000),
        }
