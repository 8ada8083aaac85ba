"""The targets of a portal's request groups."""

from __future__ import annotations

import pytest

from purvelj.documents import Document
from purvelj.errors import DocumentError
from purvelj.places import Limits, Target
from purvelj.portal import Notes, summary, targets_of
from test_portal import document, requests


def test_targets_have_the_strictest_limits() -> None:
    value = document("", operator="MANY", requests=requests(3))
    limits = ({"max_airmass": 2.0}, {"max_airmass": 1.5, "min_lunar_distance": 30}, None)
    for request, constraints in zip(value["requests"], limits):
        request["configurations"][0]["constraints"] = constraints
    notes = Notes()
    targets = targets_of([("a.json:", value)], Limits(20.0), notes)
    assert targets == {Target("M51", 202.4696, 47.1952): Limits(20.0, 1.5, 30.0)}
    assert [note.path for note in notes.all()] == [
        f"a.json: requests[{place}].configurations[0].target" for place in (1, 2)
    ]


def test_a_name_for_two_places_in_the_sky() -> None:
    value = document("", operator="MANY", requests=requests(2))
    value["requests"][1]["configurations"][0]["target"]["ra"] = 202.5
    with pytest.raises(DocumentError, match="M51 stands for two places in the sky"):
        targets_of([("a.json", value)], Limits(), Notes())


def test_a_position_is_in_degrees() -> None:
    value = document("target", ra="00:47:33")
    with pytest.raises(DocumentError, match=r"target.ra: a text stands where a number should be; it is in degrees$"):
        targets_of([("a.json:", value)], Limits(), Notes())
    with pytest.raises(DocumentError, match=r"^dec: 91 is out of -90 to 90; it is in degrees$"):
        Target.read(Document({"name": "x", "ra": 1, "dec": 91}))


def test_two_spellings_of_a_target_are_a_warning() -> None:
    value = document("", operator="MANY", requests=requests(5))
    names = ("NGC 253", "ngc  253", "NGC 253", "NGC 253 ", "ngc  253")
    for request, name in zip(value["requests"], names):
        request["configurations"][0]["target"]["name"] = name
    notes = Notes()
    targets = targets_of([("a.json:", value)], Limits(), notes)
    assert [target.name for target in targets] == ["NGC 253", "ngc  253", "NGC 253 "]
    path = "configurations[0].target.name"
    assert summary(notes.all()) == [
        f"warning: spelling: a.json: requests[1].{path} and 1 more: "
        "`ngc  253` is spelt as `NGC 253` elsewhere, and the two are two targets",
        f"warning: spelling: a.json: requests[3].{path}: "
        "`NGC 253 ` is spelt as `NGC 253` elsewhere, and the two are two targets",
    ]
