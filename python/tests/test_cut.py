"""Scripts that end in the middle of a line: what stands before the end is done, and nothing of what doesn't."""

from __future__ import annotations

import subprocess

import pytest

from script import LINES, REPLIES

#: A script that ends with its ``submit`` line, and one that ends with its ``plan`` line, with their replies.
SCRIPTS = {"submit": (LINES[:7], REPLIES[:7]), "plan": (LINES[:8], REPLIES[:9])}


@pytest.mark.parametrize("lines, replies", SCRIPTS.values(), ids=SCRIPTS)
def test_a_line_that_is_cut_has_one_refusal(lines: list[str], replies: list[str], netsched: list[str]) -> None:
    *before, last = lines
    number = len(lines)
    told = replies[: number - 1]
    cut = '{"caller":0,"line":%d,"no":1,"refused":"NotJson","version":%d}' % (number, number - 1)
    for size in range(len(last) + 1):
        # An empty piece is no line, a whole one without its newline is done, and no other of an object is JSON.
        wanted = told if size == 0 else [*told, cut] if size < len(last) else replies
        script = "\n".join([*before, last[:size]])
        done = subprocess.run(netsched, input=script, capture_output=True, text=True, check=False)
        assert (done.returncode, done.stdout.splitlines()) == (0, wanted), f"after {size} bytes of the last line"
        assert done.stdout.endswith("\n")
