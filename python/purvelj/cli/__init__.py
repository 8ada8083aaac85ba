"""The commands of ``python3 -m purvelj``."""

from __future__ import annotations

import argparse
from contextlib import suppress
from typing import NoReturn, Sequence

from purvelj import __version__
from purvelj.cli import chart, claims, listing, portal, replay, resume, send, serve, sky
from purvelj.cli.ending import ended
from purvelj.documents import writing_output
from purvelj.errors import Status


class Words(argparse.ArgumentParser):
    """A parser that ends with the status of wrong words even where that can't be told."""

    def error(self, message: str) -> NoReturn:
        """Tells what is wrong with the words, and ends."""
        with suppress(OSError):
            super().error(message)
        raise SystemExit(int(Status.WORDS))


def parser() -> argparse.ArgumentParser:
    """The parser of all commands."""
    words = Words(
        prog="purvelj",
        description="An astronomer's tools beside the Purvelj telescope scheduler.",
        epilog="Exit statuses: 0 done, 2 the words are others, 3 a file or a socket can't be read or written, a file "
        "is no JSON, or a package is missing, 4 a document isn't what it should be, 5 a request group can't be turned "
        "into a line, 6 no night or no visibility, 7 the checker says No, 8 HiGHS gave no solution in time, 9 the "
        "session program can't be started, ended, didn't reply in time, replied otherwise than a journal has it, or may "
        "read no more lines, 130 interrupted.",
    )
    words.add_argument("--version", action="version", version=f"purvelj {__version__}")
    commands = words.add_subparsers(dest="command", required=True, metavar="COMMAND")
    for module in (sky, portal, replay, resume, serve, send, claims, listing, chart):
        module.add_commands(commands)
    return words


def main(arguments: Sequence[str] | None = None) -> int:
    """Runs one command and gives its exit status. What a user can mend is told in one message."""
    return ended("purvelj", lambda: _run(arguments))


def _run(arguments: Sequence[str] | None) -> int:
    """Runs one command, or prints what ``--help`` and ``--version`` ask for, and gives its exit status."""
    try:
        with writing_output():
            options = parser().parse_args(arguments)
    except SystemExit as end:
        return int(end.code or 0)
    status: int = options.run(options)
    return status
