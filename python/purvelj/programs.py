"""Which program a session is: its command, and how long it may take."""

from __future__ import annotations

import os
import shlex
import shutil
from pathlib import Path
from typing import Sequence

from purvelj.pipes import DeskError

#: The most seconds that a reply may take, if nothing else is said: time to build a program, or to plan.
TIMEOUT = 600.0


def default_program() -> list[str]:
    """The command of the session program.

    It is that of the environment variable ``PURVELJ_PROGRAM``, or ``bin/netsched session`` of the
    repository that this package stands in, or ``netsched session`` of the search path.
    """
    chosen = os.environ.get("PURVELJ_PROGRAM")
    if chosen:
        return command_of(chosen)
    own = Path(__file__).resolve().parents[2] / "bin" / "netsched"
    found = str(own) if own.exists() else shutil.which("netsched")
    if found is None:
        raise DeskError("netsched isn't there: name a session program, or set PURVELJ_PROGRAM")
    return [found, "session"]


def command_of(program: Sequence[str] | str | None) -> list[str]:
    """The words of a command: a text is parted as a shell does, and None is the default program."""
    if program is None:
        return default_program()
    try:
        words = shlex.split(program) if isinstance(program, str) else list(program)
    except ValueError as fault:
        raise DeskError(f"{program!r} is no command: {fault}") from None
    if not words:
        raise DeskError("the command of the session program has no words")
    return words
