"""``send``: lines for a server, and its replies."""

from __future__ import annotations

import argparse
import sys
from typing import TYPE_CHECKING

from purvelj.cli.words import Commands, ranged, tell
from purvelj.documents import write_output
from purvelj.errors import FileError, WordsError

if TYPE_CHECKING:
    from purvelj.send import Connection, Sender


def add_commands(commands: Commands) -> None:
    """Adds the command to a parser."""
    send = commands.add_parser(
        "send",
        help="send lines to a server, and print its replies",
        description="Sends the lines of standard input to a server that `serve` started, and prints the replies to "
        "them as they come. Some lines may be refused: how many were is told on standard error, and the status is 0.",
    )
    send.add_argument("socket", nargs="?", metavar="SOCKET", help="the Unix socket that the server listens at")
    send.add_argument("--port", type=ranged(int, 1, 65535), metavar="N", help="the port that it listens at instead")
    send.add_argument("--host", metavar="ADDRESS", help="the address that has the port (default: 127.0.0.1)")
    send.set_defaults(run=run_send)


def run_send(options: argparse.Namespace) -> int:
    """Runs ``send``."""
    from purvelj.replies import Refused, is_taken, read_reply
    from purvelj.send import Sender

    if sys.stdin is None:
        raise FileError("standard input: can't be read: it is closed")
    done = refused = 0
    with _connection(options) as connection:
        sender = Sender(connection, sys.stdin.fileno())
        sender.start()
        for text in connection.replies():
            write_output(f"{text}\n", flush=True)
            reply = read_reply(text)
            done += not is_taken(reply)
            refused += isinstance(reply, Refused)
    if refused:
        tell(f"{refused} of {sender.lines} lines were refused")
    _test_done(sender, done, connection.where)
    return 0


def _connection(options: argparse.Namespace) -> Connection:
    from purvelj.send import connect_to_path, connect_to_port

    if (options.socket is None) == (options.port is None):
        raise WordsError("send goes to one server: name its SOCKET, or its --port")
    if options.port is None:
        if options.host is not None:
            raise WordsError("--host goes with --port")
        return connect_to_path(options.socket)
    return connect_to_port(options.host or "127.0.0.1", options.port)


def _test_done(sender: Sender, done: int, where: str) -> None:
    """Tests that all lines were read, sent and replied to."""
    if sender.fault is not None:
        raise sender.fault
    if not sender.ended or done < sender.lines:
        raise FileError(f"{where}: the server ended the connection: {done} of {sender.lines} lines were replied to")
