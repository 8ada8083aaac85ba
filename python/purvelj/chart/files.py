"""Pictures as files."""

from __future__ import annotations

import os
from contextlib import suppress
from pathlib import Path
from secrets import token_hex

import matplotlib
from matplotlib.figure import Figure

from purvelj.errors import FileError

#: Dots an inch of a PNG.
DOTS = 110
FORMATS = ("svg", "png")


def format_of(path: str | Path) -> str:
    """The format that the ending of a picture's path names; ``FileError`` where it names none."""
    ending = Path(path).suffix.lower().lstrip(".")
    if ending not in FORMATS:
        raise FileError(f"{path}: a picture's file ends in .svg or .png")
    return ending


def save(figure: Figure, path: str | Path) -> None:
    """Writes a picture as SVG or PNG, by the ending of the path. The same picture is the same file.

    The picture is there whole, or what stood there before is: it is written beside it, to a file that ends in ``.new``.
    """
    ending = format_of(path)
    metadata = {"Date": None} if ending == "svg" else {"Software": None}
    with matplotlib.rc_context({"svg.hashsalt": "purvelj", "svg.fonttype": "none", "hatch.linewidth": 0.6}):
        to = os.path.realpath(path)
        # Another command may draw to the same path meanwhile. What is no file, as a pipe, stays what it is.
        new = to if os.path.exists(to) and not os.path.isfile(to) else f"{to}.{token_hex(4)}.new"
        try:
            figure.savefig(new, format=ending, dpi=DOTS, metadata=metadata)
            os.replace(new, to)
        except OSError as fault:
            raise FileError(f"{path}: can't be written: {fault.strerror or fault}") from None
        finally:
            if new != to:
                with suppress(OSError):
                    os.unlink(new)
