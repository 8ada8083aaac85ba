"""A caller of a server of lines: it sends a file's lines while it reads the replies to them."""

from __future__ import annotations

import os
import socket
import threading
from contextlib import suppress
from typing import BinaryIO, Iterator

from purvelj.documents import decoded
from purvelj.errors import FileError

#: The most bytes that are read of the lines at once.
PIECE = 1 << 16


class Connection:
    """A connection to a server, and the words that say where that is."""

    def __init__(self, connected: socket.socket, where: str) -> None:
        self.socket = connected
        self.where = where

    def __enter__(self) -> Connection:
        return self

    def __exit__(self, *_: object) -> None:
        self.socket.close()

    def replies(self) -> Iterator[str]:
        """The replies as they come, until the connection ends. A last one without a newline is torn and is none."""
        with self.socket.makefile("rb") as source:
            while (text := _read(source)).endswith(b"\n"):
                yield decoded(text[:-1], f"{self.where}: a reply")


def connect_to_path(path: str) -> Connection:
    """A connection to the server that listens at a Unix socket; ``FileError`` where there is none."""
    connected = socket.socket(socket.AF_UNIX, socket.SOCK_STREAM)
    try:
        connected.connect(path)
    except OSError as fault:
        connected.close()
        raise FileError(f"{path}: can't be connected to: {fault.strerror or fault}") from None
    return Connection(connected, path)


def connect_to_port(host: str, port: int) -> Connection:
    """A connection to the server that listens at a port of a host; ``FileError`` where there is none."""
    where = f"port {port} of {host}"
    try:
        return Connection(socket.create_connection((host, port)), where)
    except (OSError, UnicodeError) as fault:
        words = getattr(fault, "strerror", None) or fault
        raise FileError(f"{where}: can't be connected to: {words}") from None


class Sender(threading.Thread):
    """A thread that sends all lines of an open file, and then that there are no more.

    Whoever starts it reads the replies meanwhile, since a server reads no further line of a caller that doesn't. A last
    line without a newline gets one: the file has ended, and of a line that is torn the session says that it is no JSON.
    """

    def __init__(self, connection: Connection, source: int) -> None:
        super().__init__(name="sender", daemon=True)
        self.lines = 0
        self.ended = False
        self.fault: FileError | None = None
        self._socket = connection.socket
        self._source = source

    def run(self) -> None:
        """Sends the lines. A fault of the file is kept in ``fault``."""
        # A connection that ends is noticed by whoever reads the replies.
        with suppress(OSError):
            try:
                self._send_all()
            except FileError as fault:
                self.fault = fault
            self._socket.shutdown(socket.SHUT_WR)

    def _send_all(self) -> None:
        last = b"\n"
        while piece := self._read():
            self._send(piece)
            last = piece
        if not last.endswith(b"\n"):
            self._send(b"\n")
        self.ended = True

    def _send(self, piece: bytes) -> None:
        self.lines += piece.count(b"\n")
        self._socket.sendall(piece)

    def _read(self) -> bytes:
        try:
            return os.read(self._source, PIECE)
        except OSError as fault:
            raise FileError(f"standard input: can't be read: {fault.strerror}") from None


def _read(source: BinaryIO) -> bytes:
    """A reply with its newline, or what came of it before the connection ended."""
    try:
        return source.readline()
    except ConnectionError:
        return b""
