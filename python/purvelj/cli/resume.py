"""``resume``: the lines with which a new session goes on where another stopped."""

from __future__ import annotations

import argparse

from purvelj.cli.words import Commands, put, tell
from purvelj.documents import decoded, decoded_lines, lines_of, read_bytes, source_of
from purvelj.lines import MOST_BYTES, size_of
from purvelj.resume import Stopped, line_again, pieces, stopped


def add_commands(commands: Commands) -> None:
    """Adds the command to a parser."""
    resume = commands.add_parser(
        "resume",
        help="print the lines that bring a new session to the state at which another stopped",
        description="Prints the lines that were wholly replied to, one for one, with the claim of each published plan "
        "in the place of its `plan` line. The new session's replies are the old ones but for those that say `taken`.",
    )
    resume.add_argument("output", help="all that the session replied, whose end may be torn")
    resume.add_argument("--script", metavar="FILE", required=True, help="the lines that were sent")
    resume.set_defaults(run=run_resume)


def run_resume(options: argparse.Namespace) -> int:
    """Runs ``resume``."""
    source = source_of(options.output)
    output, _ = pieces(read_bytes(options.output))
    script, torn = pieces(read_bytes(options.script))
    found = stopped(lines_of(decoded(output, source)), lines_of(decoded_lines(script)), torn, source)
    size = 0
    for exchange in found.done:
        line = line_again(exchange)
        size += size_of(line)
        put(line)
    _tell(found)
    if size > MOST_BYTES:
        tell("these lines are longer than a session may read; with one worker the script itself comes to the same state")
    return 0


def _tell(found: Stopped) -> None:
    done, sent = len(found.done), len(found.done) + len(found.unanswered)
    tell(f"lines that were done: {done}, published plans among them: {found.plans}")
    if found.unanswered:
        tell(f"lines that weren't wholly replied to, and are to be sent again: {done + 1} to {sent}")
    if found.torn:
        tell(f"line {sent + 1} has no newline at its end and no reply: it may be torn")
