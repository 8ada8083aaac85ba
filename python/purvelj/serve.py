"""A server of lines: connections that send lines to one desk, and get the replies to their own.

Each connection has a thread, which reads a line, hands it in, and writes the replies before it reads the next. The
lines of all are done one after another by the thread that runs the server, in the order in which they were handed in.
So what waits is one line of each connection at most, and a connection that doesn't read its replies holds up itself.
"""

from __future__ import annotations

import errno
import os
import queue
import socket
import stat
import threading
import time
from contextlib import ExitStack, suppress
from pathlib import Path
from types import TracebackType
from typing import BinaryIO, Callable, Iterator, Sequence

from purvelj.desk import Desk
from purvelj.documents import decoded_lines, encoded
from purvelj.errors import FileError
from purvelj.journal import Journal
from purvelj.lines import MOST_LINES
from purvelj.programs import TIMEOUT

#: The most bytes of a line without its newline. A session refuses a longer one, which counts among what it may read.
LONGEST = 1 << 20

#: After how many lines it is told how many more the session may read.
NEARLY_ALL = 60_000

#: Where it is said how a desk goes on that has read nearly as much as it may, or more.
HELP = "see Limits in docs/operations.md"

#: How often it is looked whether the desk's program still runs, in seconds.
WATCH = 1.0

#: The most bytes that the path of a Unix socket has.
LONGEST_PATH = 107

#: How long connections may take to read their last replies when the server ends, in seconds.
GRACE = 5.0


def is_begun(journal: str | Path) -> bool:
    """Whether a file of this journal is there, so that a desk with it goes on."""
    return any(os.path.lexists(path) for path in Journal.paths(journal))


def desk_of(
    journal: str | Path,
    program: Sequence[str] | str | None = None,
    timeout: float | None = TIMEOUT,
    seek: bool = False,
) -> Desk:
    """A desk with this journal, which it begins where neither of the files is there, and else goes on with.

    It keeps no history, which the journal has. ``seek`` is that of ``Desk.resume``.
    """
    if is_begun(journal):
        return Desk.resume(journal, program, timeout, keep_history=False, seek=seek)
    return Desk(program, timeout, journal, keep_history=False)


def left_after(done: int) -> int:
    """How many more lines a session may read that has done so many."""
    return MOST_LINES - done


def few_left(done: int) -> str:
    """What is told where a session has done so many lines that it may read only a few more."""
    return f"the session may read {left_after(done)} more lines, and then a new desk has to go on: {HELP}"


class Listener:
    """A socket to which others connect once it listens, and the words that say where; a path is removed at the end."""

    def __init__(self, bound: socket.socket, where: str, path: str | None = None) -> None:
        self.socket = bound
        self.where = where
        self._path = path
        self._own = _identity(path) if path else None

    def __enter__(self) -> Listener:
        return self

    def __exit__(
        self, kind: type[BaseException] | None, fault: BaseException | None, trace: TracebackType | None
    ) -> None:
        self.shut()
        self.socket.close()

    def listen(self) -> None:
        """Lets others connect. ``FileError`` where another listens at the same port by now, or has taken the path."""
        if self._path and self._own != _identity(self._path):
            raise FileError(f"{self.where}: what was made there is gone, or another server has it")
        try:
            self.socket.listen()
        except OSError as fault:
            raise FileError(f"{self.where}: can't be listened at: {fault.strerror or fault}") from None

    def shut(self) -> None:
        """Takes no more connections: who waits in ``accept`` gets an ``OSError``. A second call does nothing."""
        with suppress(OSError):
            self.socket.shutdown(socket.SHUT_RDWR)
        if self._path and self._own == _identity(self._path):
            with suppress(OSError):
                os.unlink(self._path)
        self._path = None


def bind_path(path: str) -> Listener:
    """A Unix socket that only its owner may use. One that a server left behind is replaced.

    ``FileError`` where another server has it, where something else stands there, or where it can't be made.
    """
    if len(os.fsencode(path)) > LONGEST_PATH:
        raise FileError(
            f"{path}: is too long for a Unix socket, whose path has at most {LONGEST_PATH} bytes: "
            "a shorter one has to be named, or a port"
        )
    bound = socket.socket(socket.AF_UNIX, socket.SOCK_STREAM)
    try:
        _remove_left(path)
        bound.bind(path)
        # Nobody can connect before it listens.
        os.chmod(path, 0o600)
    except OSError as fault:
        bound.close()
        raise FileError(f"{path}: can't be listened at: {fault.strerror or fault}") from None
    except FileError:
        bound.close()
        raise
    return Listener(bound, path, path)


def bind_port(host: str, port: int) -> Listener:
    """A port of this host's address; 0 is one that is free. ``FileError`` where it can't be had."""
    try:
        family, *_, address = socket.getaddrinfo(host, port, type=socket.SOCK_STREAM)[0]
        with ExitStack() as faults:
            bound = faults.enter_context(socket.socket(family, socket.SOCK_STREAM))
            # Else the port of a server that has just ended couldn't be had for a minute.
            bound.setsockopt(socket.SOL_SOCKET, socket.SO_REUSEADDR, 1)
            if family == socket.AF_INET6:
                bound.setsockopt(socket.IPPROTO_IPV6, socket.IPV6_V6ONLY, 1)
            bound.bind(address)
            faults.pop_all()
    except (OSError, UnicodeError) as fault:
        words = getattr(fault, "strerror", None) or fault
        raise FileError(f"port {port} of {host}: can't be listened at: {words}") from None
    return Listener(bound, f"port {bound.getsockname()[1]} of {host}")


class Server:
    """A desk's lines from many connections. ``tell`` gets what whoever runs it should know, from several threads."""

    def __init__(self, desk: Desk, listener: Listener, tell: Callable[[str], None]) -> None:
        self._desk = desk
        self._listener = listener
        self.tell = tell
        self._stopping = False
        self._inbox: queue.SimpleQueue[tuple[_Connection, str] | None] = queue.SimpleQueue()
        self._connections: set[_Connection] = set()
        self._lock = threading.Lock()

    def run(self) -> None:
        """Does the lines of all connections until ``stop``. A fault of the desk ends it, and is raised."""
        acceptor = threading.Thread(target=self._accept, daemon=True)
        acceptor.start()
        try:
            while not self._stopping:
                self._do_next()
        finally:
            self._stopping = True
            self._listener.shut()
            acceptor.join()
            self._end_connections()

    def stop(self) -> None:
        """Ends ``run`` once the line that is being done is replied to. A signal's handler may call it."""
        self._stopping = True
        self._inbox.put(None)

    def hand_in(self, connection: _Connection, line: str) -> None:
        """Takes a line, which is done when it is its turn; the connection's ``replies`` get the replies to it."""
        self._inbox.put((connection, line))

    def _do_next(self) -> None:
        """Does the line that was handed in first, or sees that the desk's program still runs."""
        try:
            handed = self._inbox.get(timeout=WATCH)
        except queue.Empty:
            self._desk.test_running()
            return
        if handed and not self._stopping:
            connection, line = handed
            exchange = self._desk.exchange(line)
            connection.replies.put(exchange.output)
            if exchange.reply.line == NEARLY_ALL + 1:
                self.tell(few_left(exchange.reply.line))

    def _accept(self) -> None:
        """Takes connections until the listener is shut. One that can't be taken is told, and left."""
        number = 0
        while not self._stopping:
            try:
                taken, _ = self._listener.socket.accept()
                # So that a host that went without a word is noticed, some hours later.
                taken.setsockopt(socket.SOL_SOCKET, socket.SO_KEEPALIVE, 1)
                number += 1
                self._begin(taken, f"connection {number}")
            except (OSError, RuntimeError) as fault:
                if not self._stopping:
                    self.tell(f"a connection can't be taken: {fault}")
                    # Without a file or a thread to spare it would fail again at once.
                    time.sleep(WATCH)

    def _begin(self, taken: socket.socket, name: str) -> None:
        connection = _Connection(taken, name, self)
        with self._lock:
            self._connections.add(connection)
        try:
            connection.start()
        except RuntimeError:
            self.forget(connection)
            taken.close()
            raise

    def forget(self, connection: _Connection) -> None:
        """Leaves a connection that has ended."""
        with self._lock:
            self._connections.discard(connection)

    def _end_connections(self) -> None:
        """Lets each connection write the replies that it has, for a while, and ends it."""
        with self._lock:
            left = list(self._connections)
        for connection in left:
            connection.end(socket.SHUT_RD)
        deadline = time.monotonic() + GRACE
        for connection in left:
            connection.join(max(0.0, deadline - time.monotonic()))
        for connection in left:
            connection.end(socket.SHUT_RDWR)
            connection.join(GRACE)


class _Connection(threading.Thread):
    """A connection, and the thread that reads its lines one by one and writes the replies to each.

    ``replies`` gets the texts of the replies to the line that it handed in, or None, which ends it.
    """

    def __init__(self, taken: socket.socket, name: str, server: Server) -> None:
        super().__init__(name=name, daemon=True)
        self.replies: queue.SimpleQueue[tuple[str, ...] | None] = queue.SimpleQueue()
        self._socket = taken
        self._server = server

    def run(self) -> None:
        """Hands in the lines one by one, and writes the replies to each, until the connection ends or is ended."""
        try:
            with self._socket, self._socket.makefile("rb") as source:
                for line in self._lines(source):
                    self._server.hand_in(self, line)
                    replies = self.replies.get()
                    if replies is None:
                        break
                    self._write(replies)
        finally:
            self._server.forget(self)

    def end(self, how: int) -> None:
        """Ends it from another thread: no more is read, or neither read nor written."""
        self.replies.put(None)
        with suppress(OSError):
            self._socket.shutdown(how)

    def _lines(self, source: BinaryIO) -> Iterator[str]:
        """The lines that come until the connection ends, or sends one that can't be passed on."""
        while piece := _read(source):
            if not piece.endswith(b"\n"):
                self._tell_piece(piece)
                return
            yield decoded_lines(piece[:-1])

    def _tell_piece(self, piece: bytes) -> None:
        """Tells why what has no newline isn't done."""
        if len(piece) > LONGEST:
            text = f"a line of more than {LONGEST} bytes isn't done, and the connection is closed"
        else:
            text = f"it ended with {len(piece)} bytes without a newline, which are no line and aren't done"
        self._server.tell(f"{self.name}: {text}")

    def _write(self, replies: Sequence[str]) -> None:
        """Writes replies. Where whoever sent the line has left, they are in the journal alone."""
        with suppress(OSError):
            self._socket.sendall(encoded("".join(f"{text}\n" for text in replies)))


def _read(source: BinaryIO) -> bytes:
    """A line with its newline, or what comes before the end, or of a line that is too long the first bytes."""
    try:
        return source.readline(LONGEST + 1)
    except OSError:
        return b""


def _remove_left(path: str) -> None:
    """Removes a socket that no process has any more.

    One that a server has, though it doesn't listen yet, is told from it by a connection of another kind: that is refused
    as of the wrong type.
    """
    if not os.path.lexists(path):
        return
    if not stat.S_ISSOCK(os.lstat(path).st_mode):
        raise FileError(f"{path}: it is there already, and is no socket")
    with socket.socket(socket.AF_UNIX, socket.SOCK_DGRAM) as probe:
        try:
            probe.connect(path)
        except ConnectionRefusedError:
            os.unlink(path)
            return
        except OSError as fault:
            if fault.errno != errno.EPROTOTYPE:
                raise
    raise FileError(f"{path}: another server has it")


def _identity(path: str) -> tuple[int, int] | None:
    """What tells a file from another that takes its place."""
    try:
        found = os.lstat(path)
    except OSError:
        return None
    return found.st_dev, found.st_ino
