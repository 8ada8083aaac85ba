"""``serve``: a server of lines over one desk."""

from __future__ import annotations

import argparse
import os
import signal
from contextlib import contextmanager
from types import FrameType
from typing import TYPE_CHECKING, Callable, Iterator

from purvelj.cli.words import Commands, command, ranged, tell
from purvelj.errors import WordsError

if TYPE_CHECKING:
    from purvelj.desk import Desk
    from purvelj.serve import Listener

SIGNALS = (signal.SIGTERM, signal.SIGHUP, signal.SIGINT)


def add_commands(commands: Commands) -> None:
    """Adds the command to a parser."""
    serve = commands.add_parser(
        "serve",
        help="take the lines of several connections to one desk with a journal",
        description="Begins the journal, or goes on with it where its files are there, and takes lines from whoever "
        "connects. Each connection gets the replies to its own lines. There is no authentication. SIGTERM, SIGHUP and "
        "Ctrl-C end it once the line that is being done is replied to; a second SIGTERM or Ctrl-C ends it at once.",
    )
    serve.add_argument("journal", help="the name of the journal, such as tonight for tonight.lines.jsonl")
    where = serve.add_mutually_exclusive_group()
    where.add_argument("--socket", metavar="PATH", help="the Unix socket to listen at (default: JOURNAL.socket)")
    where.add_argument(
        "--port", type=ranged(int, 0, 65535), metavar="N", help="listen at this port instead; 0 is one that is free"
    )
    serve.add_argument("--host", metavar="ADDRESS", help="the address that has the port (default: 127.0.0.1)")
    serve.add_argument(
        "--program",
        type=command,
        metavar="COMMAND",
        help="the session program (default: $PURVELJ_PROGRAM, or netsched session)",
    )
    serve.add_argument(
        "--timeout",
        type=ranged(float, 0, 1e6),
        default=600.0,
        metavar="SECONDS",
        help="the most that a reply may take (default: 600)",
    )
    serve.add_argument(
        "--seek",
        action="store_true",
        help="seek the plans of the journal again, where its lines with their claims would be too long for a session",
    )
    serve.set_defaults(run=run_serve)


def run_serve(options: argparse.Namespace) -> int:
    """Runs ``serve``."""
    from purvelj.serve import Server

    if options.host is not None and options.port is None:
        raise WordsError("--host goes with --port")
    if not os.path.basename(options.journal):
        raise WordsError(f"{options.journal!r} is no name of a journal, such as tonight")
    caught: list[int] = []
    with _listener(options) as listener, _hinting(), _desk(options) as desk:
        _tell_done(desk)
        _tell_left(desk.done_again)
        server = Server(desk, listener, tell)
        with _stopped_by_signals(server.stop, caught):
            listener.listen()
            tell(f"listening at {listener.where}")
            server.run()
    if signal.SIGINT in caught:
        raise KeyboardInterrupt
    return 0


@contextmanager
def _hinting() -> Iterator[None]:
    """Tells where help is for a session whose input has become too long, which it would be again at each start."""
    from purvelj.pipes import INPUT_TOO_LONG, DeskEnded
    from purvelj.serve import HELP

    try:
        yield
    except DeskEnded as fault:
        if fault.exit_status == INPUT_TOO_LONG:
            tell(f"the lines are more, or longer, than a session may read: {HELP}")
        raise


def _listener(options: argparse.Namespace) -> Listener:
    """The listener, whose address it has before the desk is there, so that a fault of that is told at once."""
    from purvelj.serve import bind_path, bind_port

    if options.port is not None:
        return bind_port(options.host or "127.0.0.1", options.port)
    return bind_path(f"{options.journal}.socket" if options.socket is None else options.socket)


def _desk(options: argparse.Namespace) -> Desk:
    from purvelj.serve import desk_of, is_begun

    if is_begun(options.journal):
        tell("the journal's lines are done again, and until then nobody can connect")
    return desk_of(options.journal, options.program, options.timeout, options.seek)


def _tell_done(desk: Desk) -> None:
    """Tells how far the journal had come, and what the desk hasn't done."""
    if desk.done_again:
        tell(f"lines that were done again: {desk.done_again}, published plans among them: {desk.plans_again}")
    else:
        tell("no line of the journal was done, so the desk is a new one")
    if desk.unanswered:
        tell("lines that aren't done, and are to be sent again by whoever sent them:")
        for line in desk.unanswered:
            tell(line)
    if desk.torn:
        tell("the journal's last line is torn and isn't done: whoever sent it has to send it again")


def _tell_left(done: int) -> None:
    """Tells how many lines the session may still read, where these are few. ``DeskError`` where there are none."""
    from purvelj.pipes import DeskError
    from purvelj.serve import HELP, NEARLY_ALL, few_left, left_after

    if left_after(done) <= 0:
        raise DeskError(f"the session may read no more lines, so it takes none, and a new desk has to go on: {HELP}")
    if done > NEARLY_ALL:
        tell(few_left(done))


@contextmanager
def _stopped_by_signals(stop: Callable[[], None], caught: list[int]) -> Iterator[None]:
    """Has the first signal call ``stop`` and be noted; a second one ends the process. Ignored ones stay so.

    A second SIGHUP is passed over: when a terminal is closed both its shell and the system may send one.
    """

    def handle(number: int, frame: FrameType | None) -> None:
        for each in before:
            signal.signal(each, signal.SIG_IGN if each == signal.SIGHUP else signal.SIG_DFL)
        caught.append(number)
        stop()

    before = {each: signal.getsignal(each) for each in SIGNALS}
    before = {each: handler for each, handler in before.items() if handler is not signal.SIG_IGN}
    for each in before:
        signal.signal(each, handle)
    try:
        yield
    finally:
        for each, handler in before.items():
            # The desk is still to be ended, and a second SIGHUP isn't to end that either.
            if not (caught and each == signal.SIGHUP):
                signal.signal(each, handler)
