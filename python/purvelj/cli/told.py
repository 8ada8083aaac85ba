"""What the output and the script that a command names tell."""

from __future__ import annotations

import argparse

from purvelj.cli.words import tell
from purvelj.documents import decoded, decoded_lines, parse, read_bytes, source_of
from purvelj.errors import FileError
from purvelj.history import read_history
from purvelj.resume import pieces
from purvelj.story import Story, story_of


def read_story(options: argparse.Namespace) -> Story:
    """What the files ``output`` and, where it is named, ``script`` tell.

    The replies are read first: of a session that goes on there are then no more of them than lines.
    """
    source = source_of(options.output)
    output = decoded(_without_torn(read_bytes(options.output)), source)
    script = decoded_lines(read_bytes(options.script)) if options.script is not None else None
    return story_of(read_history(output, script, source))


def _without_torn(output: bytes) -> bytes:
    """An output without its last reply, where that has no newline and isn't whole, as after a crash."""
    whole, last = pieces(output)
    if not whole or not last.strip():
        return output
    try:
        parse(decoded(last, "the last reply"), "the last reply")
    except FileError as fault:
        tell(f"{fault}, and isn't read")
        return whole
    return output
