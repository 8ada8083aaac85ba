"""How a command ends: its exit status, with one message on standard error where something went wrong."""

from __future__ import annotations

import io
import os
import sys
from contextlib import suppress
from typing import Callable

from purvelj.documents import AS_SENT, write_output
from purvelj.errors import PurveljError, Status

#: Packages that a command may find missing, and the Debian package that has each.
PACKAGES = {
    "numpy": "python3-numpy",
    "scipy": "python3-scipy",
    "astropy": "python3-astropy",
    "astroplan": "python3-astroplan",
    "matplotlib": "python3-matplotlib",
    "rich": "python3-rich",
}


def ended(name: str, run: Callable[[], int]) -> int:
    """Runs something that gives an exit status, and gives that or the status of its fault.

    A fault that a user can mend is told in one message, which begins with the name, and so is an interruption. Where
    whoever reads the output has left, nothing is told.
    """
    _open_streams()
    try:
        status = run()
        write_output("", flush=True)
        return status
    except (PurveljError, OSError, ModuleNotFoundError, KeyboardInterrupt) as fault:
        text, status = _told(fault)
        with suppress(OSError):
            if text:
                print(f"{name}: {text}", file=sys.stderr)
        return status
    finally:
        _leave_streams()


def _told(fault: BaseException) -> tuple[str, int]:
    """What a user is told of a fault, if anything, and its exit status."""
    if isinstance(fault, PurveljError):
        return str(fault), int(fault.status)
    if isinstance(fault, KeyboardInterrupt):
        return "interrupted", int(Status.INTERRUPTED)
    if isinstance(fault, BrokenPipeError):
        return "", int(Status.FILE)
    if isinstance(fault, ModuleNotFoundError):
        package = PACKAGES.get((fault.name or "").split(".")[0])
        if package is None:
            raise fault
        return f"{fault.name} isn't there: python/setup installs {package}", int(Status.FILE)
    return str(fault), int(Status.FILE)


def _open_streams() -> None:
    """Sees that the output is UTF-8, in any country, and that there is a standard error, though it may lead nowhere.

    Lines for a session have the bytes that they were read with.
    """
    if isinstance(sys.stdout, io.TextIOWrapper):
        sys.stdout.reconfigure(encoding="utf-8", errors=AS_SENT)
    if sys.stderr is None:
        sys.stderr = open(os.devnull, "w", encoding="utf-8")


def _leave_streams() -> None:
    """Lets go of what a stream doesn't take, since Python would write it once more as it ends."""
    for stream in (sys.stdout, sys.stderr):
        try:
            if stream is not None:
                stream.flush()
        except OSError:
            os.dup2(os.open(os.devnull, os.O_WRONLY), stream.fileno())
