"""What several commands take."""

from __future__ import annotations

import argparse
import shlex
import sys
from contextlib import suppress
from typing import Any, Callable

from purvelj.documents import write_output

Commands = Any


def ranged(kind: Callable[[str], float], least: float, most: float) -> Callable[[str], float]:
    """A number of a command line in a range, as ``argparse`` takes it."""

    def read(text: str) -> float:
        try:
            value = kind(text)
        except ValueError:
            raise argparse.ArgumentTypeError(f"{text!r} is no {'whole ' if kind is int else ''}number") from None
        if not least <= value <= most:
            raise argparse.ArgumentTypeError(f"{text} is out of {least:g} to {most:g}")
        return value

    return read


def command(text: str) -> list[str]:
    """A command of a command line, as ``argparse`` takes it, parted as a shell does."""
    try:
        return shlex.split(text)
    except ValueError as fault:
        raise argparse.ArgumentTypeError(f"{text!r} is no command: {fault}") from None


def put(text: str) -> None:
    """Writes a line of the result to standard output."""
    write_output(f"{text}\n")


def tell(text: str) -> None:
    """Tells the user something beside the output, from whatever thread. Where that can't be, the command goes on."""
    with suppress(OSError):
        sys.stderr.write(f"purvelj: {text}\n")
        sys.stderr.flush()
