"""The command that prints request groups of a portal as lines."""

from __future__ import annotations

import json
from pathlib import Path

import pytest

from portal_document import DOCUMENT


def test_portal(run) -> None:
    value = json.loads(DOCUMENT)
    value["requests"][0]["configurations"][0]["constraints"] = {"max_airmass": 1.6, "min_lunar_distance": 30}
    ran = run("portal", "m51.json", "--priority", "12", "--targets", "t.json", files={"m51.json": value})
    assert ran.status == 0
    assert ran.lines()[0]["group"]["priority"] == 12
    assert ran.err.count("\n") == 1 and ran.err.startswith("purvelj: warning: constraints: m51.json: requests[0]")
    target = {"name": "M51", "ra": 202.4696, "dec": 47.1952, "airmass": 1.6, "moon": 30.0}
    assert json.loads(Path("t.json").read_text()) == [target]
    strict = run("portal", "m51.json", "--priority", "12", "--strict", "--targets", "strict.json")
    assert (strict.status, strict.out) == (5, "")
    assert not Path("strict.json").exists()


@pytest.mark.parametrize(
    "wrap", [lambda value: [value, value], lambda value: {"count": 2, "results": [value, value]}]
)
def test_portal_takes_lists_and_pages(run, wrap) -> None:
    ran = run("portal", "page.json", "--priority", "1", files={"page.json": wrap(json.loads(DOCUMENT))})
    assert (ran.status, len(ran.lines()), ran.err) == (0, 2, "")


def test_portal_tells_of_a_name_for_two_places_in_the_sky(run) -> None:
    files = {name: json.loads(DOCUMENT) for name in ("one.json", "same.json", "other.json")}
    files["other.json"]["requests"][0]["configurations"][0]["target"]["ra"] = 202.5
    ran = run("portal", "one.json", "same.json", "--priority", "1", files=files)
    assert (ran.status, len(ran.lines()), ran.err) == (0, 2, "")
    ran = run("portal", "one.json", "other.json", "--priority", "1")
    where = "other.json: requests[0].configurations[0].target"
    wanted = f"{where}: `M51` stands for two places in the sky, and the desk knows a target by its name alone"
    assert (ran.status, len(ran.lines()), ran.err) == (0, 2, f"purvelj: warning: target: {wanted}\n")
    ran = run("portal", "one.json", "other.json", "--priority", "1", "--targets", "t.json")
    assert (ran.status, ran.out, ran.err) == (4, "", f"purvelj: {where}: M51 stands for two places in the sky\n")


def test_portal_keeps_what_it_reads(run) -> None:
    files = {"m51.json": json.loads(DOCUMENT)}
    ran = run("portal", "m51.json", "--priority", "1", "--targets", "./m51.json", files=files)
    assert (ran.status, ran.out) == (2, "")
    assert "--targets names ./m51.json, which is read: the targets are written there" in ran.err
    assert run("portal", "m51.json", "--priority", "1").status == 0


def test_portal_tells_of_groups_on_further_pages(run) -> None:
    value = json.loads(DOCUMENT)
    pages = {f"{name}.json": {"count": 3, "results": [value] * count} for name, count in (("first", 2), ("last", 1))}
    ran = run("portal", "first.json", "--priority", "1", files=pages)
    wanted = "first.json: count: 3 request groups are counted, and 2 were read: others are on further pages"
    assert (ran.status, len(ran.lines()), ran.err) == (0, 2, f"purvelj: warning: page: {wanted}\n")
    ran = run("portal", "first.json", "last.json", "--priority", "1", "--strict")
    assert (ran.status, len(ran.lines()), ran.err) == (0, 3, "")
