"""Pictures, by what they show and by the structure of their files."""

from __future__ import annotations

import json
import os
import re
import struct
from collections import Counter
from dataclasses import replace
from pathlib import Path
from random import Random
from xml.etree import ElementTree

import pytest

from purvelj.chart import Story, draw_plan, draw_shares, plan_view, save, shares, story_of
from purvelj.desk import Desk
from purvelj.documents import compact
from purvelj.errors import DocumentError, FileError
from purvelj.history import History, read_history
from purvelj.model import Claim, Placement, Telescope
from purvelj.replies import Exported
from purvelj.spans import Span
from purvelj.story import Named, Owner
from purvelj.views import Bar, Row, Share
from script import LINES, REPLIES
from snapshots import single, snapshot

EXAMPLES = Path(__file__).resolve().parents[2] / "examples"
GROUP = json.loads(LINES[6])["group"]
CAMERA = "1M0-SCICAM-SINISTRO"


@pytest.fixture(scope="module")
def history(netsched: list[str]) -> History:
    """Two proposals on two telescopes, of which one is closed at first; one request runs, one was reported."""
    with Desk(netsched, timeout=60) as desk:
        desk.replay(LINES[:3])
        desk.telescope("coj", "domb", "1m0a", "1m0", [CAMERA])
        desk.replay(LINES[3:7])
        desk.grant("P2", "time_critical", 5000, CAMERA)
        desk.submit({**GROUP, "proposal": "P2", "observation_type": "TIME_CRITICAL"})
        desk.submit({**GROUP, "proposal": "P2", "observation_type": "TIME_CRITICAL", "priority": 3})
        desk.close_telescope("coj", "domb", "1m0a", [(0, 600)])
        desk.plan()
        desk.clock(1)
        desk.report(1, 100, 290)
        desk.clock(350)
        desk.plan()
        desk.export()
        desk.balances()
        return desk.history


def test_a_history_with_its_script_tells_names_nights_and_what_runs(history: History) -> None:
    view = plan_view(story_of(history))
    assert view.rows == (
        Row("coj doma 1m0a", (Span(600, 3600),), (Span(600, 3600),), ()),
        Row("coj domb 1m0a", (Span(600, 3600),), (Span(600, 3600),), ()),
    )
    assert view.bars == (
        Bar(0, Span(300, 600), 2, 2, "P2", running=True),
        Bar(0, Span(600, 900), 3, 3, "P2"),
    )
    assert (view.horizon, view.now, view.proposals) == (Span(300, 4200), 350, ("P1", "P2"))


def test_an_output_alone_tells_numbers(history: History) -> None:
    story = story_of(read_history(history.output()))
    view = plan_view(story)
    assert [row.name for row in view.rows] == ["telescope 0, site 0", "telescope 1, site 0"]
    assert view.bars == (Bar(0, Span(600, 900), 3, 3, None),)
    assert story.notes == ["request 2 is running, and how long isn't known without the lines that were sent"]


def test_a_night_is_told_from_what_was_kept_of_it() -> None:
    output, script = ((EXAMPLES / f"night.{ending}").read_text(encoding="utf-8") for ending in ("replies", "jsonl"))
    story = story_of(read_history(output, script))
    view = plan_view(story)
    assert story.notes == []
    assert [(bar.request, bar.running) for bar in sorted(view.bars, key=lambda bar: bar.request)] == [
        (3, False),
        (7, False),
        (9, False),
        (10, False),
        (11, False),
        (14, True),
    ]
    assert Share(("2026B-TRANSITS", "time_critical", CAMERA), 2700, 2748, 2748, 552) in shares(story)


def test_shares_are_of_the_grants(history: History) -> None:
    assert shares(story_of(history)) == (
        Share(("P1", "standard", CAMERA), 290, 0, 0, 710),
        Share(("P2", "time_critical", CAMERA), 0, 600, 600, 4400),
    )
    alone = shares(story_of(read_history(history.output())))
    assert alone == (
        Share(("P1", "standard", CAMERA), None, 0, 0, 710),
        Share(("P2", "time_critical", CAMERA), None, 600, 0, 4400),
    )


def test_shares_are_of_the_last_balances(netsched: list[str]) -> None:
    """Neither what was granted since, nor what was observed since the last export, counts."""
    with Desk(netsched, timeout=60) as desk:
        desk.replay(LINES)
        desk.clock(1)
        desk.report(1, 100, 280)
        desk.submit(GROUP)
        desk.balances()
        desk.grant("P1", "standard", 3600, CAMERA)
        assert shares(story_of(desk.history)) == (Share(("P1", "standard", CAMERA), 280, 300, 0, 420),)


def test_shares_are_of_the_plan_at_the_last_balances(netsched: list[str]) -> None:
    """No export is asked for, and what is done since doesn't count."""
    account = ("P1", "standard", CAMERA)
    with Desk(netsched, timeout=60) as desk:
        desk.replay(LINES[:8])
        desk.balances()
        desk.clock(1)
        desk.report(1, 100, 280)
        desk.plan()
        assert shares(story_of(desk.history)) == (Share(account, 0, 300, 300, 700),)
        desk.balances()
        assert shares(story_of(desk.history)) == (Share(account, 280, 0, 0, 720),)


def test_shares_are_not_of_an_export_before_another_plan(netsched: list[str]) -> None:
    with Desk(netsched, timeout=60) as desk:
        desk.replay(LINES)
        desk.close_site("coj", [(0, 3600)])
        desk.plan()
        desk.balances()
        assert shares(story_of(desk.history)) == (Share(("P1", "standard", CAMERA), 0, 300, 0, 700),)


def test_closures_are_known_with_the_script(netsched: list[str]) -> None:
    with Desk(netsched, timeout=60) as desk:
        desk.replay(LINES[:7])
        desk.close_site("coj", [(0, 900), (1200, 5000)])
        desk.reopen_site("coj", [(0, 300)])
        desk.plan()
        desk.export()
        (row,) = plan_view(story_of(desk.history)).rows
    assert row == Row(
        "coj doma 1m0a",
        (Span(0, 300), Span(900, 1200)),
        (Span(0, 3600),),
        (Span(300, 900), Span(1200, 3600)),
    )


def test_an_export_alone_is_a_view() -> None:
    view = plan_view(story_of(read_history(REPLIES[-1])))
    assert view.bars == (Bar(0, Span(0, 300), 1, 1, None),)
    assert (view.claim.value, view.version) == (50_000, 7)


def test_what_has_nothing_to_draw() -> None:
    story = story_of(read_history(REPLIES[0]))
    with pytest.raises(DocumentError, match="no reply to an `export` line"):
        plan_view(story)
    with pytest.raises(DocumentError, match="no reply to a `balances` line"):
        shares(story)


def test_what_ends_after_the_year_9999_is_told() -> None:
    base = replace(snapshot(single(1), slices=1440), first=844_674_335)
    for shot, placements in ((base, ()), (replace(base, first=0), (Placement(1, 0, base.first + 1440),))):
        with pytest.raises(DocumentError, match="^snapshot: its horizon ends after the year 9999, which can't be drawn"):
            plan_view(Story(exported=exported(shot, placements, 0)))
    assert plan_view(Story(exported=exported(replace(base, first=844_674_335 - 1440), (), 0))).bars == ()


def test_a_telescope_that_can_be_used_after_the_horizon_is_drawn(tmp_path: Path) -> None:
    shot = replace(snapshot(single(1)), telescopes=(Telescope(0, (Span(900, 10**12),)),))
    view = plan_view(Story(exported=exported(shot, (), 0)))
    assert view.rows[0].usable == (Span(900, 3600),)
    save(draw_plan(view), tmp_path / "plan.svg")


def test_a_plan_of_what_the_snapshot_does_not_have_is_told() -> None:
    with pytest.raises(DocumentError, match="^claim: it places the request 7, which the snapshot doesn't have$"):
        plan_view(Story(exported=exported(snapshot(single(1)), (Placement(7, 0, 0),), 0)))


def test_what_runs_is_where_a_later_plan_has_it() -> None:
    story = Story(exported=exported(snapshot(single(1)), (Placement(1, 0, 4),), 50_000))
    story.running[1] = Placement(1, 0, 2)
    assert plan_view(story).bars == (Bar(0, Span(600, 900), 1, 1, None, running=True),)


def test_what_runs_on_a_telescope_that_the_export_does_not_have_is_told() -> None:
    story = Story(exported=exported(snapshot(single(1)), (), 0))
    story.running[2] = Placement(2, 1, 3)
    story.owners[2] = Owner(2, ("P1", "standard", CAMERA), 300)
    assert plan_view(story).bars == ()
    assert story.notes == ["request 2 is running on telescope 1, which the last export doesn't have"]


@pytest.mark.parametrize(
    "place, line, message",
    [
        (0, '{"do":"open","now":0.5}', "line 1: now: 0.5 isn't written as a whole number"),
        (0, '{"do":"open","now":253402300800}', "line 1: now: 253402300800 is out of 0 to 253402300799"),
        (3, '{"do":"night","site":"coj","spans":[[0]]}', r"line 4: spans\[0\]: 1 elements, where 2 to 2 may be"),
        (3, '{"do":"night","site":"coj","spans":[[0,[]]]}', r"line 4: spans\[0\]: a list stands where a whole number"),
        (3, '{"do":"night","site":"coj","spans":[[9,9]]}', r"line 4: spans\[0\]: a span from 9 to 9 is empty"),
        (6, LINES[6].replace('"requests":[', '"requests":[],"r":['), "line 7: group.requests: 0 elements, where 1"),
    ],
    ids=["a fraction", "too late", "one moment", "no moment", "an empty span", "no request"],
)
def test_a_script_of_another_output_is_told(place: int, line: str, message: str) -> None:
    script = [*LINES[:place], line, *LINES[place + 1 :]]
    with pytest.raises(DocumentError, match=f"^{message}"):
        story_of(read_history("\n".join(REPLIES), "\n".join(script)))


def test_a_report_among_several_that_run_needs_the_script(netsched: list[str]) -> None:
    with Desk(netsched, timeout=60) as desk:
        desk.replay(LINES[:3])
        desk.telescope("coj", "domb", "1m0a", "1m0", [CAMERA])
        desk.replay(LINES[3:7])
        desk.submit({**GROUP, "requests": [{**GROUP["requests"][0], "windows": [{"start": 0, "end": 300}]}]})
        desk.plan()
        desk.clock(1)
        desk.report(2, 100, 290)
        history = desk.history
    with_script, alone = story_of(history), story_of(read_history(history.output()))
    assert (list(with_script.running), with_script.notes) == ([1], [])
    assert (list(alone.running), len(alone.notes)) == ([], 1)


def network(count: int) -> Story:
    """So many placements on 32 telescopes in five nights, of 12 proposals, with one closed and three running."""
    draw = Random(4)
    first, night, day = 6_000_000, 96, 288
    base = snapshot(slices=5 * day)
    nights = tuple(Span((first + k * day) * 300, (first + k * day + night) * 300) for k in range(5))
    placements: list[Placement] = []
    groups = []
    busy = Counter()
    for number in range(1, count + 1):
        row, k, slices = number % 32, number // 32 % 5, draw.randint(1, 12)
        placements.append(Placement(number, row, first + k * day + busy[row, k]))
        busy[row, k] += slices + draw.randint(0, 1)
        one = single(
            number, (nights[0].start, nights[-1].end), seconds=300 * slices, targets=(), telescopes=(row,)
        )
        groups.append(one)
    telescopes = tuple(Telescope(row % 3, nights) for row in range(32))
    shot = replace(base, first=first, telescopes=telescopes, skies=(), groups=tuple(groups))
    story = Story(exported=exported(shot, tuple(placements), 50_000 * count))
    story.telescopes.update({row: Named(f"s{row % 3}", f"dom{row}", "1m0a") for row in range(32)})
    story.nights["s0"] = nights
    story.closures[0] = nights[1:2]
    for request in shot.requests:
        key = (f"2026B-{draw.randint(1, 12):03}", "standard", "C")
        story.owners[request.number] = Owner(request.number, key, request.seconds)
    story.running.update({placement.request: placement for placement in placements[:3]})
    return story


def exported(shot, placements: tuple[Placement, ...], value: int) -> Exported:
    claim = Claim(placements, (0,) * len(shot.requests), value, value + value // 100)
    return Exported(caller=0, line=1, version=9, claim=claim, text=compact({"snapshot": shot.document()}))


def ids(path: Path) -> Counter:
    """The ids of a picture's parts, without their numbers."""
    root = ElementTree.parse(path).getroot()
    found = (each.get("id", "") for each in root.iter())
    return Counter(re.sub(r"-\d+$", "", each) for each in found)


def texts(path: Path) -> list[str]:
    root = ElementTree.parse(path).getroot()
    return ["".join(each.itertext()).strip() for each in root.iter("{http://www.w3.org/2000/svg}text")]


def size(path: Path) -> tuple[int, int]:
    """Width and height of a PNG."""
    head = path.read_bytes()[:24]
    assert head[:8] == b"\x89PNG\r\n\x1a\n"
    return struct.unpack(">II", head[16:24])


def test_a_large_plan_has_all_its_parts(tmp_path: Path) -> None:
    view = plan_view(network(1000))
    assert len(view.bars) == 1000
    figure = draw_plan(view)
    save(figure, tmp_path / "plan.svg")
    found = ids(tmp_path / "plan.svg")
    assert (found["placement"], found["running"]) == (997, 3)
    assert (found["day"], found["closed"], found["value"], found["bound"]) == (32, 1, 1, 1)
    assert found["night"] == sum(len(row.night or row.usable) for row in view.rows)
    written = texts(tmp_path / "plan.svg")
    numbers = [text for text in written if text.isdigit()]
    assert len(numbers) > 750 and len(set(numbers)) == len(numbers)
    assert {row.name for row in view.rows} <= set(written) and set(view.proposals) <= set(written)
    assert any(f"value {view.claim.value:,}" in text and f"{view.claim.bound:,}" in text for text in written)
    save(figure, tmp_path / "plan.png")
    width, height = size(tmp_path / "plan.png")
    assert 2000 < width < 3500 and 1200 < height < 2000


def test_a_picture_is_the_same_file_each_time(tmp_path: Path) -> None:
    view = plan_view(story_of(read_history(REPLIES[-1])))
    for ending in ("svg", "png"):
        for name in "ab":
            save(draw_plan(view), tmp_path / f"{name}.{ending}")
        assert (tmp_path / f"a.{ending}").read_bytes() == (tmp_path / f"b.{ending}").read_bytes()


def test_shares_have_a_bar_for_each_part(tmp_path: Path, history: History) -> None:
    save(draw_shares(shares(story_of(history))), tmp_path / "accounts.svg")
    written = texts(tmp_path / "accounts.svg")
    assert {"used", "planned or running", "held beside that", "left"} <= set(written)
    assert {f"P1 standard {CAMERA}", f"P2 time_critical {CAMERA}"} <= set(written)
    assert "0.1 of 0.3 h used or planned, 29 %" in written
    save(draw_shares(shares(story_of(read_history(history.output())))), tmp_path / "alone.svg")
    assert "used" not in texts(tmp_path / "alone.svg") and "0.2 h left" in texts(tmp_path / "alone.svg")


@pytest.mark.parametrize(
    "name, wanted",
    [("$x^$", "$x^$"), ("a\\$b", "a\\$b"), ("_hidden", "_hidden"), ("\ud800P", "P"), ("P\0\n1", "P  1")],
    ids=["a formula", "an escape", "an underscore", "a surrogate", "control characters"],
)
def test_a_name_is_drawn_as_it_stands(tmp_path: Path, name: str, wanted: str, recwarn) -> None:
    story = Story(exported=exported(snapshot(single(1)), (Placement(1, 0, 0),), 50_000))
    story.telescopes[0] = Named(name, "doma", "1m0a")
    story.owners[1] = Owner(1, (name, "standard", CAMERA), 300)
    save(draw_plan(plan_view(story)), tmp_path / "plan.svg")
    assert {wanted, f"{wanted} doma 1m0a"} <= set(texts(tmp_path / "plan.svg"))
    save(draw_shares([Share((name, "standard", CAMERA), 0, 0, 0, 1000)]), tmp_path / "accounts.svg")
    assert f"{wanted} standard {CAMERA}" in texts(tmp_path / "accounts.svg")
    assert not recwarn.list


def test_an_empty_plan_is_drawn(tmp_path: Path) -> None:
    empty = snapshot(slices=4, telescopes=0)
    for shot in (empty, replace(snapshot(slices=4), groups=())):
        save(draw_plan(plan_view(Story(exported=exported(shot, (), 0)))), tmp_path / "empty.svg")
        assert ids(tmp_path / "empty.svg")["placement"] == 0
    save(draw_shares(()), tmp_path / "none.svg")


def test_a_file_of_another_kind_or_nowhere(tmp_path: Path) -> None:
    figure = draw_shares(())
    with pytest.raises(FileError, match="ends in .svg or .png"):
        save(figure, tmp_path / "plan.jpg")
    with pytest.raises(FileError, match="can't be written: No such file"):
        save(figure, tmp_path / "nowhere" / "plan.png")


@pytest.mark.parametrize("ending", ["svg", "png"])
def test_a_picture_that_cannot_be_written_leaves_what_was_there(tmp_path: Path, ending: str, monkeypatch) -> None:
    path = tmp_path / f"plan.{ending}"
    path.write_text("an older picture")
    monkeypatch.setattr("purvelj.chart.files.token_hex", lambda count: "word")
    (tmp_path / f"plan.{ending}.word.new").symlink_to("/dev/full")
    with pytest.raises(FileError, match=f"plan.{ending}: can't be written: No space left on device"):
        save(draw_shares(()), path)
    assert (os.listdir(tmp_path), path.read_text()) == ([path.name], "an older picture")


def test_a_picture_is_written_where_a_link_leads(tmp_path: Path) -> None:
    (tmp_path / "kept").mkdir()
    (tmp_path / "plan.svg").symlink_to("kept/plan.svg")
    for _ in range(2):
        save(draw_shares(()), tmp_path / "plan.svg")
    assert (tmp_path / "plan.svg").is_symlink() and os.listdir(tmp_path / "kept") == ["plan.svg"]
    (tmp_path / "folder.svg").mkdir()
    with pytest.raises(FileError, match="folder.svg: can't be written: Is a directory"):
        save(draw_shares(()), tmp_path / "folder.svg")
    assert sorted(os.listdir(tmp_path)) == ["folder.svg", "kept", "plan.svg"]
