"""The command that lists a plan."""

from __future__ import annotations

import sys
from pathlib import Path

import pytest

from purvelj.documents import read_bytes
from script import LINES, REPLIES

EXAMPLES = Path(__file__).resolve().parents[2] / "examples"
BALANCES = '{"balances":[],"caller":0,"line":10,"ok":"balances","version":8}'
WORDS = ("list", "output.jsonl", "--script", "script.jsonl")


def test_list_prints_a_plan_in_moments_and_names(run) -> None:
    ran = run("list", str(EXAMPLES / "night.replies"), "--script", str(EXAMPLES / "night.jsonl"))
    assert (ran.status, ran.err) == (0, "")
    rows = [line.split("\t") for line in ran.out.splitlines()]
    assert rows[0] == [
        "2026-11-27T21:20:00Z",
        "2026-11-27T22:00:28Z",
        "cpt domb 1m0a",
        "14",
        "7",
        "2026B-CLUSTERS",
        "running",
    ]
    assert [row[0] for row in rows] == sorted(row[0] for row in rows)
    assert sorted(int(row[3]) for row in rows) == [3, 7, 9, 10, 11, 14]
    assert [row[6] for row in rows[1:]] == [""] * 5


def test_list_of_an_export_alone_has_no_names(run) -> None:
    ran = run("list", "export.json", files={"export.json": REPLIES[-1]})
    row = "1970-01-01T00:00:00Z\t1970-01-01T00:05:00Z\ttelescope 0, site 0\t1\t1\t\t\n"
    assert (ran.status, ran.out, ran.err) == (0, row, "")


def test_list_keeps_each_placement_in_a_row(run) -> None:
    script = "\n".join([*LINES[:2], LINES[2].replace('"doma"', '"dom\\ta\\n"'), *LINES[3:]])
    files = {"output.jsonl": "\n".join(REPLIES), "script.jsonl": script}
    ran = run(*WORDS, files=files)
    assert ran.out == "1970-01-01T00:00:00Z\t1970-01-01T00:05:00Z\tcoj dom a  1m0a\t1\t1\tP1\t\n"


def test_list_tells_what_is_gone_since_it_was_placed(run) -> None:
    lines = [*LINES, '{"do":"withdraw","group_number":1}', LINES[8]]
    withdrawn = '{"caller":0,"line":10,"ok":"withdrawn","refunded":[],"version":9}'
    again = REPLIES[9].replace('"line":9', '"line":11').replace('"version":8', '"version":10')
    files = {"output.jsonl": "\n".join([*REPLIES, withdrawn, again]), "script.jsonl": "\n".join(lines)}
    ran = run(*WORDS, files=files)
    assert ran.out == "1970-01-01T00:00:00Z\t1970-01-01T00:05:00Z\tcoj doma 1m0a\t1\t1\tP1\tgone\n"


def test_a_script_without_a_name_is_no_script(run) -> None:
    ran = run("list", "output.jsonl", "--script", "", files={"output.jsonl": "\n".join(REPLIES)})
    assert (ran.status, ran.out) == (3, "")


def test_list_tells_a_telescope_that_the_snapshot_does_not_have(run) -> None:
    ran = run("list", "export.json", files={"export.json": REPLIES[-1].replace("[[1,0,0]]", "[[1,1,0]]")})
    message = "purvelj: claim: it places the request 1 on telescope 1, which the snapshot doesn't have\n"
    assert (ran.status, ran.out, ran.err) == (4, "", message)


def test_list_takes_no_script_of_another_output(run) -> None:
    files = {"output.jsonl": "\n".join(REPLIES), "script.jsonl": "\n".join(LINES[1:] + LINES[:1])}
    ran = run(*WORDS, files=files)
    message = "purvelj: line 2: the output replies to it as to another line than the script has\n"
    assert (ran.status, ran.out, ran.err) == (4, "", message)
    ran = run("list", "script.jsonl", "--script", "output.jsonl")
    message = "purvelj: script.jsonl, line 1: a line for a desk stands where a reply should be\n"
    assert (ran.status, ran.out, ran.err) == (4, "", message)


def test_list_takes_a_script_with_a_line_that_is_not_utf_8(run) -> None:
    refused = '{"caller":0,"line":10,"no":1,"refused":"NotJson","version":8}'
    Path("script.jsonl").write_bytes("\n".join(LINES).encode() + b'\n{"do":"\xff"}\n')
    ran = run(*WORDS, files={"output.jsonl": "\n".join([*REPLIES, refused])})
    row = "1970-01-01T00:00:00Z\t1970-01-01T00:05:00Z\tcoj doma 1m0a\t1\t1\tP1\t\n"
    assert (ran.status, ran.out, ran.err) == (0, row, "")
    ran = run("chart", *WORDS[1:], "--plan", "plan.svg")
    assert (ran.status, ran.err) == (0, "") and "coj doma 1m0a" in Path("plan.svg").read_text()


def test_list_tells_of_a_plan_that_was_published_after_the_export(run) -> None:
    claim = '{"bound":50000,"placements":[],"prices":[50000],"value":0}'
    replies = [*REPLIES, f'{{"caller":0,"claim":{claim},"line":10,"ok":"published","version":8}}']
    lines = [*LINES, f'{{"claim":{claim},"do":"publish","version":8}}']
    ran = run(*WORDS, files={"output.jsonl": "\n".join(replies), "script.jsonl": "\n".join(lines)})
    note = "purvelj: another plan was published after the last export: an `export` line has it shown\n"
    assert (ran.status, len(ran.out.splitlines()), ran.err) == (0, 1, note)
    again = REPLIES[-1].replace('"line":9', '"line":11').replace("[[1,0,0]]", "[]")
    files = {"output.jsonl": "\n".join([*replies, again]), "script.jsonl": "\n".join([*lines, LINES[8]])}
    ran = run(*WORDS, files=files)
    assert (ran.status, ran.out, ran.err) == (0, "", "")


def test_list_of_a_session_whose_last_reply_is_torn(run) -> None:
    files = {"output.jsonl": "\n".join([*REPLIES, BALANCES[:30]]), "script.jsonl": "\n".join(LINES)}
    ran = run(*WORDS, files=files)
    note = "purvelj: the last reply: not JSON: it ends in the middle, after 30 characters, and isn't read\n"
    assert (ran.status, len(ran.out.splitlines()), ran.err) == (0, 1, note)


def test_list_of_a_session_that_goes_on(run, monkeypatch: pytest.MonkeyPatch) -> None:
    """Another line is done between the reads of the two files."""

    def read(path: str) -> bytes:
        data = read_bytes(path)
        for name, more in (("script.jsonl", '{"do":"balances"}'), ("output.jsonl", BALANCES)):
            with open(name, "a", encoding="utf-8") as file:
                file.write(f"{more}\n")
        return data

    monkeypatch.setattr("purvelj.cli.told.read_bytes", read)
    files = {"output.jsonl": "\n".join([*REPLIES, ""]), "script.jsonl": "\n".join([*LINES, ""])}
    ran = run(*WORDS, files=files)
    assert (ran.status, len(ran.out.splitlines()), ran.err) == (0, 1, "")


def test_list_needs_no_library_that_draws(run, monkeypatch: pytest.MonkeyPatch) -> None:
    for name in [each for each in sys.modules if f"{each}.".startswith("purvelj.chart.")]:
        monkeypatch.delitem(sys.modules, name)
    for name in ["matplotlib", *(each for each in sys.modules if each.startswith("matplotlib."))]:
        monkeypatch.setitem(sys.modules, name, None)
    ran = run("list", "export.json", files={"export.json": REPLIES[-1]})
    assert (ran.status, ran.err) == (0, "")
    assert "purvelj.chart" not in sys.modules
