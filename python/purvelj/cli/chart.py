"""``chart``: pictures of a plan and of accounts."""

from __future__ import annotations

import argparse
import os

from purvelj.cli.told import read_story
from purvelj.cli.words import Commands, tell
from purvelj.errors import FileError, WordsError


def add_commands(commands: Commands) -> None:
    """Adds the command to a parser."""
    chart = commands.add_parser(
        "chart",
        help="draw a plan, and who got how much of their grants",
        description="Draws the last export, and the last balances, of a session's output. Files end in .svg or .png.",
    )
    chart.add_argument("output", help="the replies of a session: all, or those to `export` and `balances` lines")
    chart.add_argument(
        "--script", metavar="FILE", help="the lines that were sent: they have names, nights, closures and grants"
    )
    chart.add_argument("--plan", metavar="FILE", help="draw the plan there")
    chart.add_argument("--accounts", metavar="FILE", help="draw the accounts there")
    chart.set_defaults(run=run_chart)


def run_chart(options: argparse.Namespace) -> int:
    """Runs ``chart``."""
    from purvelj.chart import draw_plan, draw_shares, plan_view, save, shares

    _test_files([path for path in (options.plan, options.accounts) if path is not None])
    story = read_story(options)
    # Both before either is saved: where there is nothing to draw one of, neither is drawn.
    plan = plan_view(story) if options.plan is not None else None
    accounts = shares(story) if options.accounts is not None else None
    if plan is not None:
        save(draw_plan(plan), options.plan)
    if accounts is not None:
        save(draw_shares(accounts), options.accounts)
    for note in dict.fromkeys(story.notes):
        tell(note)
    return 0


def _test_files(paths: list[str]) -> None:
    """Tests that a picture, or both, can be drawn to files of these names."""
    from purvelj.chart.files import format_of

    if not paths:
        raise WordsError("chart draws nothing: name a file by --plan or --accounts")
    if len({os.path.realpath(path) for path in paths}) < len(paths):
        raise WordsError("--plan and --accounts name the same file")
    for path in paths:
        try:
            format_of(path)
        except FileError as fault:
            raise WordsError(str(fault)) from None
