"""A script: the lines of a session that are sent all at once."""

from __future__ import annotations

from typing import Iterable, Sequence

from purvelj.documents import decoded, encoded
from purvelj.errors import PurveljError
from purvelj.history import History, read_history
from purvelj.pipes import DeskEnded, DeskError, run_through
from purvelj.programs import TIMEOUT, command_of
from purvelj.resume import pieces


def run_script(
    script: Iterable[str], program: Sequence[str] | str | None = None, timeout: float | None = TIMEOUT
) -> History:
    """Sends the lines of a script all at once to a session program, and gives what it replied.

    The script is a list of lines or an open file; lines may have their newlines at the end. This serves a program,
    too, that reads all its input before it replies. ``DeskEnded`` where it ends with a status above 0, whose
    ``history`` has the replies until then, and ``NoReply`` where it takes longer than ``timeout`` seconds.
    """
    test_lines(script)
    sent = [line.rstrip("\n") for line in script]
    command = command_of(program)
    text = "".join(f"{line}\n" for line in sent)
    output, exit_status = run_through(command, encoded(text), timeout)
    if exit_status:
        raise DeskEnded(command, exit_status, _history_until(output, text))
    history = read_history(decoded(output, "output"), text)
    if len(history.exchanges) != len(sent):
        raise DeskError(f"{len(sent)} lines were sent, and {len(history.exchanges)} were replied to")
    return history


def _history_until(output: bytes, script: str) -> History:
    """What a program had replied to a script when it ended, but for a torn reply; nothing where one can't be read."""
    try:
        return read_history(decoded(pieces(output)[0], "output"), script)
    except PurveljError:
        return History(())


def test_lines(script: object) -> None:
    """``TypeError`` where a script is one text, whose pieces would be its letters."""
    if isinstance(script, (str, bytes)):
        raise TypeError("a script is a list of lines or an open file, and not one text")
