"""What the command that sends a script tells beside the replies."""

from __future__ import annotations

import shlex
import sys
from pathlib import Path

import pytest

from script import LINES, REPLIES


def ends(output: str, status: int) -> str:
    """The command of a program that reads all lines, writes this and ends with a status."""
    text = f"import sys; sys.stdin.read(); sys.stdout.write({output!r}); sys.exit({status})"
    return shlex.join([sys.executable, "-c", text])


@pytest.mark.parametrize("torn", ["", REPLIES[8][:100], "\n"])
def test_replay_prints_what_there_is_where_the_program_ends_early(run, torn: str) -> None:
    refused = '{"caller":0,"line":4,"no":3,"refused":"Missing","version":3,"member":"spans"}'
    replies = [*REPLIES[:3], refused, *REPLIES[4:8]]
    output = "".join(f"{text}\n" for text in replies) + torn
    ran = run("replay", "script.jsonl", "--program", ends(output, 5), files={"script.jsonl": "\n".join(LINES)})
    assert (ran.status, ran.out.splitlines()) == (9, replies)
    told = ran.err.splitlines()
    assert told[0] == "purvelj: 1 of 9 lines were refused" and len(told) == 2
    assert told[1].endswith("ended with status 5 (its input is longer than it may be) before it replied to all lines")


def test_replay_prints_nothing_of_a_program_that_is_no_session(run) -> None:
    command = ends("usage: other WORDS\n", 1)
    ran = run("replay", "script.jsonl", "--program", command, files={"script.jsonl": LINES[0]})
    assert (ran.status, ran.out, len(ran.err.splitlines())) == (9, "", 1)


def test_replay_sends_a_line_that_is_not_utf_8_as_it_is(run, netsched: list[str]) -> None:
    Path("script.jsonl").write_bytes(f"{LINES[0]}\n".encode() + b'{"do":"\xff"}\n')
    ran = run("replay", "script.jsonl", "--program", shlex.join(netsched))
    refused = '{"caller":0,"line":2,"no":1,"refused":"NotJson","version":1}'
    assert (ran.status, ran.out.splitlines()) == (0, [REPLIES[0], refused])
    assert ran.err.endswith("purvelj: 1 of 2 lines were refused\n")


def test_replay_tells_of_a_byte_order_mark(run, netsched: list[str]) -> None:
    script = "\ufeff" + "\r\n".join(LINES)
    ran = run("replay", "script.jsonl", "--program", shlex.join(netsched), files={"script.jsonl": script})
    assert (ran.status, [line["refused"] for line in ran.lines()]) == (0, ["NotJson", *["NotOpened"] * 8])
    assert ran.err.splitlines() == [
        "purvelj: the script begins with a byte order mark, with which its first line is no JSON",
        "purvelj: 9 of 9 lines were refused",
    ]
    ran = run("replay", "script.jsonl", "--program", shlex.join(netsched), files={"script.jsonl": script[1:]})
    assert (ran.out.splitlines(), ran.err) == (REPLIES, "")
