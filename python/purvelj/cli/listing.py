"""``list``: a plan as a table of moments and names."""

from __future__ import annotations

import argparse
import re

from purvelj.cli.told import read_story
from purvelj.cli.words import Commands, put, tell
from purvelj.moments import text_of
from purvelj.views import plan_view


def add_commands(commands: Commands) -> None:
    """Adds the command to a parser."""
    listing = commands.add_parser(
        "list",
        help="print a plan as a table: when, where, which request, whose",
        description="Prints a line for each placement of the last export, and for what is running, in the order of "
        "their starts. It has start, end, telescope, request, group, proposal, and `running` where it runs or `gone` "
        "where it won't start, with tabs between them; what isn't known is empty.",
    )
    listing.add_argument("output", help="the replies of a session: all, or the one to an `export` line")
    listing.add_argument("--script", metavar="FILE", help="the lines that were sent: they have the names")
    listing.set_defaults(run=run_list)


def run_list(options: argparse.Namespace) -> int:
    """Runs ``list``."""
    story = read_story(options)
    view = plan_view(story)
    for bar in sorted(view.bars, key=lambda bar: (bar.span, bar.row)):
        group = "" if bar.group is None else str(bar.group)
        state = "running" if bar.running else "gone" if bar.gone else ""
        names = [view.rows[bar.row].name, str(bar.request), group, bar.proposal or "", state]
        put("\t".join([text_of(bar.span.start), text_of(bar.span.end), *map(_cell, names)]))
    for note in dict.fromkeys(story.notes):
        tell(note)
    return 0


def _cell(text: str) -> str:
    """A text in a row of the table: a code may have a tab or the end of a line in it, which would part the row."""
    return re.sub(r"[\t\n\r]", " ", text)
