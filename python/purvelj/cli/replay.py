"""``replay``: a script through a session program."""

from __future__ import annotations

import argparse

from purvelj.cli.words import Commands, command, put, ranged, tell
from purvelj.documents import decoded_lines, lines_of, read_bytes
from purvelj.history import History
from purvelj.replies import Refused


def add_commands(commands: Commands) -> None:
    """Adds the command to a parser."""
    replay = commands.add_parser(
        "replay",
        help="send a script to a session program and print its replies",
        description="Sends all lines of a script to a session program and prints its replies. A script may have lines "
        "that are refused: how many were is told on standard error, and the status is 0. Where the program ends with a "
        "status above 0 the replies that it had are printed, and the status is 9.",
    )
    replay.add_argument("script", help="a file with a line for the desk in each line, or - for standard input")
    replay.add_argument(
        "--program",
        type=command,
        metavar="COMMAND",
        help="the session program (default: $PURVELJ_PROGRAM, or netsched session)",
    )
    replay.add_argument(
        "--timeout",
        type=ranged(float, 0, 1e6),
        metavar="SECONDS",
        help="the most that it may take (default: no limit)",
    )
    replay.set_defaults(run=run_replay)


def run_replay(options: argparse.Namespace) -> int:
    """Runs ``replay``."""
    from purvelj.pipes import DeskEnded
    from purvelj.scripts import run_script

    text = decoded_lines(read_bytes(options.script))
    if text.startswith("\ufeff"):
        tell("the script begins with a byte order mark, with which its first line is no JSON")
    lines = lines_of(text)
    try:
        _put(run_script(lines, options.program, options.timeout), len(lines))
    except DeskEnded as fault:
        if fault.history:
            _put(fault.history, len(lines))
        raise
    return 0


def _put(history: History, sent: int) -> None:
    """Prints all replies, and tells how many of the lines that were sent were refused."""
    for exchange in history.exchanges:
        for text in exchange.output:
            put(text)
    refused = sum(isinstance(exchange.reply, Refused) for exchange in history.exchanges)
    if refused:
        tell(f"{refused} of {sent} lines were refused")
