"""Request groups of a portal, rule by rule."""

from __future__ import annotations

import json
from copy import deepcopy
from decimal import Decimal

import pytest

from portal_document import DOCUMENT
from purvelj.documents import parse
from purvelj.portal import PortalError, convert, summary

GROUP = {
    "name": "M 51 in r",
    "proposal": "LCO2026B-001",
    "operator": "SINGLE",
    "observation_type": "NORMAL",
    "ipp_thousandths": 1050,
    "priority": 12,
    "requests": [
        {
            "location": {"telescope_class": "1m0"},
            "windows": [{"start": 1795737600, "end": 1795955400}],
            "configurations": [
                {
                    "instrument_type": "1M0-SCICAM-SINISTRO",
                    "target": {"name": "M51"},
                    "instrument_configs": [{"exposure_time_ms": 30500, "exposure_count": 3}],
                }
            ],
            "acceptability_threshold": 90,
        }
    ],
}
REQUEST, CONFIGURATION = "requests[0]", "requests[0].configurations[0]"
PLACES = {"": (), "request": ("requests", 0), "configuration": ("requests", 0, "configurations", 0)}
PLACES["exposures"] = (*PLACES["configuration"], "instrument_configs", 0)
PLACES["target"] = (*PLACES["configuration"], "target")
PLACES["location"] = (*PLACES["request"], "location")
ABSENT = object()


def document(place: str = "", **members) -> dict:
    """The document with members of one of its objects changed, or taken away where they are ``ABSENT``."""
    value = parse(DOCUMENT, "test")
    part = value
    for step in PLACES[place]:
        part = part[step]
    part.update(members)
    for name in [name for name, member in members.items() if member is ABSENT]:
        del part[name]
    return value


def notes_of(value: object, fade: int = 0) -> list[str]:
    return [str(note) for note in convert(value, 12, fade).notes]


def test_a_document_becomes_a_line() -> None:
    conversion = convert(parse(DOCUMENT, "test"), 12)
    assert conversion.notes == ()
    assert conversion.line() == {"do": "submit", "group": GROUP}


def test_a_dict_with_floats_is_read_the_same() -> None:
    assert convert(json.loads(DOCUMENT), 12).group == GROUP


QUANTITIES = [
    ("exposures", {"exposure_time": 30}, ("exposure_time_ms", 30_000)),
    ("exposures", {"exposure_time": Decimal("30.1")}, ("exposure_time_ms", 30_100)),
    ("exposures", {"exposure_time": 30.1}, ("exposure_time_ms", 30_100)),
    ("exposures", {"exposure_time": Decimal("0.0301")}, ("exposure_time_ms", 31)),
    ("exposures", {"exposure_time": 86_400}, ("exposure_time_ms", 86_400_000)),
    ("", {"ipp_value": 0.5}, ("ipp_thousandths", 500)),
    ("", {"ipp_value": 2}, ("ipp_thousandths", 2000)),
    ("", {"ipp_value": Decimal("1.0005")}, ("ipp_thousandths", 1000)),
    ("", {"ipp_value": Decimal("1.0015")}, ("ipp_thousandths", 1002)),
    ("", {"ipp_value": ABSENT}, ("ipp_thousandths", 1000)),
    ("request", {"acceptability_threshold": 100}, ("acceptability_threshold", 100)),
    ("request", {"acceptability_threshold": Decimal("89.5")}, ("acceptability_threshold", 90)),
    ("request", {"acceptability_threshold": Decimal("90.0")}, ("acceptability_threshold", 90)),
    ("request", {"acceptability_threshold": ABSENT}, ("acceptability_threshold", 90)),
    ("location", {"site": "coj", "enclosure": "doma", "telescope": "1m0a"}, ("telescope", "1m0a")),
]


@pytest.mark.parametrize("place, members, wanted", QUANTITIES)
def test_quantities(place: str, members: dict, wanted: tuple[str, object]) -> None:
    part = convert(document(place, **members), 12).group
    for step in PLACES[place]:
        part = part[step]
    assert part[wanted[0]] == wanted[1]


@pytest.mark.parametrize(
    "start, end, wanted",
    [
        ("2026-11-27", "2026-11-28", (1795737600, 1795824000)),
        ("2026-11-27T01:00:00+01:00", "2026-11-28T00:00:00.000Z", (1795737600, 1795824000)),
        ("2026-11-27T00:00:00.25Z", "2026-11-28T00:00:00.75Z", (1795737601, 1795824000)),
    ],
)
def test_windows_are_rounded_inwards(start: str, end: str, wanted: tuple[int, int]) -> None:
    conversion = convert(document("request", windows=[{"start": start, "end": end}]), 12)
    assert conversion.group["requests"][0]["windows"] == [{"start": wanted[0], "end": wanted[1]}]
    assert len(conversion.notes) == 2 * (".25" in start)


def test_a_cadence_is_in_seconds() -> None:
    cadence = {"start": "2026-11-27", "end": "2026-12-27", "period": Decimal("36.5"), "jitter": 4}
    conversion = convert(document("request", windows=ABSENT, cadence=cadence), 12)
    assert conversion.notes == ()
    assert conversion.group["requests"][0]["cadence"] == {
        "start": 1795737600,
        "end": 1798329600,
        "period": 131_400,
        "jitter": 14_400,
    }


def test_repeats_are_written_out() -> None:
    conversion = convert(document("request", configuration_repeats=3), 12)
    assert len(conversion.group["requests"][0]["configurations"]) == 3
    assert [note.rule for note in conversion.notes] == ["configuration-repeats"]


def test_a_fade_stands_in_each_request() -> None:
    assert convert(document(), 12, fade=5).group["requests"][0]["fade"] == 5


WARNINGS = [
    ("exposures", {"exposure_time": Decimal("30.0001")}, "rounded: @.exposure_time: 30.0001 is sent as 30001 ms"),
    ("", {"ipp_value": Decimal("1.0504")}, "rounded: ipp_value: 1.0504 is sent as 1050 thousandths"),
    (
        "request",
        {"acceptability_threshold": Decimal("90.5")},
        "rounded: @.acceptability_threshold: 90.5 is sent as 91",
    ),
    ("request", {"acceptability_threshold": ABSENT}, "threshold: @.acceptability_threshold: none is given"),
    (
        "request",
        {"configuration_repeats": 2},
        "configuration-repeats: @.configuration_repeats: the desk has no repeats",
    ),
    (
        "request",
        {"optimization_type": "AIRMASS"},
        "optimization: @.optimization_type: the desk doesn't heed AIRMASS",
    ),
    (
        "request",
        {"optimization_type": "TIME"},
        "optimization: @.optimization_type: the desk likes early starts no",
    ),
    (
        "request",
        {"observation_note": "clouds"},
        "not-kept: @.observation_note: the desk neither heeds nor keeps it",
    ),
    ("request", {"extra_params": {"a": 1}}, "not-kept: @.extra_params"),
    ("request", {"state": "COMPLETED"}, "state: @.state: the desk takes it as new"),
    ("request", {"dithering": "yes"}, "unknown: @.dithering: the desk doesn't know it"),
    ("", {"state": "CANCELED"}, "state: state: the desk takes it as new"),
    ("configuration", {"type": "ARC"}, "type: @.type: ARC is planned as exposures on the target"),
    ("configuration", {"guiding_config": {"mode": "ON", "optional": True}}, "guiding: @.guiding_config"),
    ("configuration", {"acquisition_config": {"mode": "BRIGHTEST"}}, "acquisition: @.acquisition_config"),
    (
        "configuration",
        {"constraints": {"max_airmass": 1.6}},
        "constraints: @.constraints.max_airmass: the desk heeds",
    ),
    (
        "configuration",
        {"constraints": {"min_lunar_distance": 30}},
        "constraints: @.constraints.min_lunar_distance",
    ),
    (
        "configuration",
        {"constraints": {"max_lunar_phase": Decimal("0.5")}},
        "constraints: @.constraints.max_lunar_phase",
    ),
    (
        "configuration",
        {"constraints": {"max_seeing": 2}},
        "constraints: @.constraints.max_seeing: the desk knows of no",
    ),
    ("exposures", {"optical_elements": {"filter": "rp"}}, "not-kept: @.optical_elements"),
    ("exposures", {"mode": "full_frame"}, "not-kept: @.mode"),
    ("exposures", {"rois": [{"x1": 0}]}, "not-kept: @.rois"),
    ("target", {"parallax": Decimal("12.5")}, "not-kept: @.parallax"),
]


@pytest.mark.parametrize("place, members, wanted", WARNINGS)
def test_what_is_not_heeded_is_a_warning(place: str, members: dict, wanted: str) -> None:
    conversion = convert(document(place, **members), 12)
    (note,) = conversion.notes
    assert str(note).startswith(f"warning: {wanted.replace('@', path_of(place))}")
    assert conversion.group is not None


def path_of(place: str) -> str:
    path = ""
    for step in PLACES[place]:
        path += f"[{step}]" if isinstance(step, int) else f".{step}" if path else step
    return path


@pytest.mark.parametrize(
    "priorities, warned",
    [
        ("1, 2", False),
        ("2, 1", True),
        ("1.5, 2.5", False),
        ("2.5, 1.5", True),
        ("2, 1.5", True),
        ("1, 1.5", False),
        ("null, 1", False),
        ("1, null", True),
        ('"b", "a"', False),
    ],
)
def test_configurations_in_another_order_than_their_priorities_are_a_warning(priorities: str, warned: bool) -> None:
    value = document()
    configuration = value["requests"][0]["configurations"][0]
    value["requests"][0]["configurations"] = [
        {**configuration, "priority": priority} for priority in parse(f"[{priorities}]", "test")
    ]
    text = "warning: order: requests[0].configurations: the desk takes them as they stand, not by their priorities"
    assert notes_of(value) == [text] * warned


SILENT = [
    ("", {"id": 7, "submitter": "me", "created": "x", "modified": "y", "state": "PENDING"}),
    ("request", {"id": 8, "duration": 120, "state": "PENDING", "extra_params": {}, "observation_note": ""}),
    ("request", {"configuration_repeats": 1, "cadence": None}),
    ("configuration", {"id": 9, "priority": 1, "repeat_duration": None, "guiding_config": {"mode": "OFF"}}),
    ("configuration", {"acquisition_config": {"mode": "OFF", "exposure_time": None}, "type": "SPECTRUM"}),
    ("configuration", {"constraints": {"min_lunar_distance": 0, "max_lunar_phase": Decimal("1.0")}}),
    ("configuration", {"constraints": {"extra_params": {}, "max_seeing": None}}),
    ("exposures", {"optical_elements": {}, "mode": "", "rotator_mode": "", "extra_params": {}}),
    ("target", {"parallax": 0, "proper_motion_ra": 1, "proper_motion_dec": 2, "epoch": 2000, "hour_angle": None}),
]


@pytest.mark.parametrize("place, members", SILENT)
def test_what_asks_for_nothing_is_not_named(place: str, members: dict) -> None:
    assert notes_of(document(place, **members)) == []


def test_an_early_start_is_heeded_with_a_fade() -> None:
    assert notes_of(document("request", optimization_type="TIME"), fade=3) == []


def requests(count: int) -> list:
    return [deepcopy(document()["requests"][0]) for _ in range(count)]


def configurations(*types: str) -> list:
    base = document()["requests"][0]["configurations"][0]
    return [{**base, "instrument_type": each} for each in types]


CADENCE = {"start": "2026-11-27", "end": "2026-12-27", "period": 24, "jitter": 4}
FAULTS = [
    ("", {"name": ABSENT}, "document: name: is missing"),
    ("", {"name": "x" * 129}, "document: name: a text here has 1 to 128 bytes"),
    ("", {"proposal": 7}, "document: proposal: a number stands where a text should be"),
    ("", {"operator": "SOME"}, "operator: operator: 'SOME' is none of SINGLE, MANY, ONEOF, AND"),
    ("", {"observation_type": "DIRECT"}, "observation-type: observation_type: 'DIRECT' is none of NORMAL"),
    ("", {"ipp_value": Decimal("2.001")}, "ipp: ipp_value: 2.001 is out of 500 to 2000 thousandths"),
    ("", {"ipp_value": "much"}, "ipp: ipp_value: a text stands where a number should be"),
    ("", {"requests": ABSENT}, "document: requests: is missing"),
    ("", {"requests": {}}, "document: requests: an object stands where a list should be"),
    ("", {"requests": requests(2)}, "group-size: requests: 2 stand here, where the desk takes 1 in a SINGLE"),
    ("", {"operator": "MANY"}, "group-size: requests: 1 stand here, where the desk takes 2 to 32 in a MANY"),
    (
        "",
        {"operator": "MANY", "requests": requests(33)},
        "group-size: requests: 33 stand here, where the desk takes 2",
    ),
    ("", {"requests": [5]}, "document: requests[0]: a number stands where an object should be"),
    ("request", {"location": ABSENT}, "document: @.location: is missing"),
    ("location", {"telescope_class": ABSENT}, "document: @.telescope_class: is missing"),
    ("request", {"windows": ABSENT}, "window: @.windows: there is no window"),
    ("request", {"windows": []}, "window: @.windows: there is no window"),
    ("request", {"windows": [{"start": "2026-11-27"}]}, "window: @.windows[0].end: is missing"),
    ("request", {"windows": [{"start": "soon", "end": "late"}]}, "window: @.windows[0].start: 'soon' is no date"),
    (
        "request",
        {"windows": [{"start": "2026-11-27T00:00:00.1Z", "end": "2026-11-27T00:00:01.9Z"}]},
        "window: @.windows[0]: it ends before it has lasted a second",
    ),
    ("request", {"cadence": CADENCE}, "cadence: @.cadence: the desk would ignore the windows"),
    (
        "request",
        {"cadence": {**CADENCE, "jitter": 0}, "windows": ABSENT},
        "cadence: @.cadence.jitter: 0 is out of 1",
    ),
    ("request", {"configurations": []}, "document: @.configurations: 0 elements, where 1 to 16 may be"),
    (
        "request",
        {"configurations": configurations("A", "B")},
        "mixed-instruments: @.configurations: the instrument",
    ),
    ("request", {"configuration_repeats": 17}, "configuration-repeats: @.configuration_repeats: 17 times 1"),
    ("configuration", {"type": "REPEAT_EXPOSE", "repeat_duration": 600}, "repeat: @.type: REPEAT_EXPOSE repeats"),
    (
        "configuration",
        {"repeat_duration": 600},
        "repeat: @.type: EXPOSE repeats its exposures for repeat_duration",
    ),
    ("configuration", {"type": "SCRIPT"}, "script: @.type: how long a script takes"),
    ("configuration", {"target": ABSENT}, "document: @.target: is missing"),
    ("configuration", {"instrument_configs": []}, "document: @.instrument_configs: 0 elements, where 1 to 16"),
    ("target", {"type": "ORBITAL_ELEMENTS"}, "moving-target: @.type: ORBITAL_ELEMENTS: when a target that is no"),
    ("target", {"type": "HOUR_ANGLE"}, "moving-target: @.type: HOUR_ANGLE"),
    ("exposures", {"exposure_time": 0}, "document: @.exposure_time: 0 is out of 1 to 86400000 ms"),
    ("exposures", {"exposure_time": 86_401}, "document: @.exposure_time: 86401 is out of 1 to 86400000 ms"),
    ("exposures", {"exposure_count": 0}, "document: @.exposure_count: 0 is out of 1 to 10000"),
    ("exposures", {"exposure_count": Decimal("1.5")}, "document: @.exposure_count: 1.5 isn't written as a whole"),
]


@pytest.mark.parametrize("place, members, wanted", FAULTS)
def test_what_would_be_read_otherwise_is_a_fault(place: str, members: dict, wanted: str) -> None:
    conversion = convert(document(place, **members), 12)
    assert conversion.group is None
    faults = [str(note) for note in conversion.notes if note.severity.value == "fault"]
    assert faults[0].startswith(f"fault: {wanted.replace('@', path_of(place))}")
    with pytest.raises(PortalError) as caught:
        conversion.line()
    assert caught.value.notes == conversion.notes


def test_all_faults_are_told_at_once() -> None:
    value = document("exposures", exposure_time=0)
    value["ipp_value"] = 3
    value["requests"][0]["windows"][0]["start"] = "2027-01-01"
    assert [note.rule for note in convert(value, 12).notes] == ["ipp", "window", "document"]


@pytest.mark.parametrize("value", [None, 5, [], "x", {}])
def test_what_is_no_request_group(value: object) -> None:
    assert convert(value, 12).group is None


def test_priority_and_fade_are_the_callers() -> None:
    for priority, fade in ((0, 0), (101, 0), (1, -1), (1, 1001)):
        with pytest.raises(ValueError):
            convert(document(), priority, fade)


def test_notes_that_say_the_same_are_one_line() -> None:
    value = document("", operator="MANY", requests=requests(3))
    for request in value["requests"]:
        request["optimization_type"] = "AIRMASS"
    assert summary(convert(value, 12).notes) == [
        "warning: optimization: requests[0].optimization_type and 2 more: the desk doesn't heed AIRMASS"
    ]
