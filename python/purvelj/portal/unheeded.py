"""The members of a portal's request group that the desk doesn't heed, and what is said of each.

Every member is heeded, or silent because it is the portal's book-keeping, or named here. A member that
is in none of these lists is named as one that isn't known.
"""

from __future__ import annotations

from decimal import Decimal
from typing import Callable, Mapping

from purvelj.documents import Document
from purvelj.portal.notes import Notes

NOT_KEPT = "the desk neither heeds nor keeps it"
BY_VISIBILITY = "the desk heeds it only by `visibility` lines, of which a target has one a site"
WEATHER = "the desk knows of no weather"
TAKES_TIME = "the time that it takes isn't counted"

#: Members that the conversion reads or the desk needs.
HEEDED = {
    "group": ("name", "proposal", "operator", "observation_type", "ipp_value", "requests"),
    "request": ("location", "windows", "cadence", "configurations", "acceptability_threshold"),
    "location": ("telescope_class", "site", "enclosure", "telescope"),
    "configuration": ("instrument_type", "target", "instrument_configs", "type", "repeat_duration"),
    "instrument config": ("exposure_time", "exposure_count"),
    "target": ("name", "type", "ra", "dec", "proper_motion_ra", "proper_motion_dec", "epoch"),
    "constraints": (),
}

#: The portal's book-keeping.
SILENT = {
    "group": ("id", "submitter", "created", "modified"),
    "request": ("id", "created", "modified", "duration"),
    "location": (),
    "configuration": ("id",),
    "instrument config": ("id",),
    "target": ("id",),
    "constraints": ("id",),
}

Says = Callable[[object], str | None]


def _if_any(text: str) -> Says:
    """The text, where the member holds anything."""
    return lambda value: text if value not in ({}, [], "") else None


def _unless(text: str, *harmless: object) -> Says:
    """The text, unless the member holds a value that asks for nothing."""
    return lambda value: None if value in harmless else text


def _mode(text: str) -> Says:
    """The text, unless the member's ``mode`` is ``OFF`` or it has none."""
    return lambda value: text if isinstance(value, dict) and value.get("mode") not in (None, "OFF") else None


#: What is said of a member, under which rule.
NAMED: Mapping[str, Mapping[str, tuple[str, Says]]] = {
    "group": {
        "state": ("state", _unless("the desk takes it as new", "PENDING")),
        "extra_params": ("not-kept", _if_any(NOT_KEPT)),
    },
    "request": {
        "state": ("state", _unless("the desk takes it as new", "PENDING")),
        "observation_note": ("not-kept", _if_any(NOT_KEPT)),
        "extra_params": ("not-kept", _if_any(NOT_KEPT)),
    },
    "location": {},
    "configuration": {
        "constraints": ("constraints", lambda value: None),
        "guiding_config": ("guiding", _mode(f"guiding isn't planned, and {TAKES_TIME}")),
        "acquisition_config": ("acquisition", _mode(f"acquisition isn't planned, and {TAKES_TIME}")),
        "instrument_name": ("not-kept", _if_any(NOT_KEPT)),
        "extra_params": ("not-kept", _if_any(NOT_KEPT)),
        "state": ("state", _unless("the desk takes it as new", "PENDING")),
    },
    "instrument config": {
        "optical_elements": ("not-kept", _if_any(NOT_KEPT)),
        "mode": ("not-kept", _if_any(NOT_KEPT)),
        "rotator_mode": ("not-kept", _if_any(NOT_KEPT)),
        "rois": ("not-kept", _if_any(NOT_KEPT)),
        "extra_params": ("not-kept", _if_any(NOT_KEPT)),
    },
    "target": {
        "parallax": ("not-kept", _unless(NOT_KEPT, 0)),
        "hour_angle": ("not-kept", lambda value: NOT_KEPT),
        "extra_params": ("not-kept", _if_any(NOT_KEPT)),
    },
    "constraints": {
        "max_airmass": ("constraints", lambda value: BY_VISIBILITY),
        "min_lunar_distance": ("constraints", _unless(BY_VISIBILITY, 0)),
        "max_lunar_phase": ("constraints", _unless("the desk doesn't heed it, nor do `visibility` lines", 1)),
        "max_seeing": ("constraints", lambda value: WEATHER),
        "min_transparency": ("constraints", lambda value: WEATHER),
        "extra_params": ("not-kept", _if_any(NOT_KEPT)),
    },
}


def name_unheeded(document: Document, level: str, notes: Notes, read: tuple[str, ...] = ()) -> None:
    """Warns of every member of an object that isn't heeded; ``read`` are members that the caller reads."""
    for member in document:
        if member in HEEDED[level] or member in SILENT[level] or member in read:
            continue
        path, value = document.path_of(member), document.raw(member)
        if member not in NAMED[level]:
            notes.warn("unknown", path, "the desk doesn't know it")
            continue
        rule, says = NAMED[level][member]
        text = says(float(value) if isinstance(value, Decimal) else value)
        if text:
            notes.warn(rule, path, text)
