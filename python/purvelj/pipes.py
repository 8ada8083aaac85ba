"""A program at the other end of two pipes, which is written lines and replies with lines."""

from __future__ import annotations

import os
import select
import selectors
import signal
import subprocess
import time
import weakref
from typing import TYPE_CHECKING, Sequence

from purvelj.errors import PurveljError, Status

if TYPE_CHECKING:
    from purvelj.history import History

#: How long a program may take to end after its input was closed, and with what it started after they were told to
#: end, in seconds.
GRACE = 5.0

#: The most seconds that a call of the system waits, 23 days; one that is given more fails.
MOST_SECONDS = 2_000_000.0

#: The exit status with which a session says that its input is longer than it may be.
INPUT_TOO_LONG = 5


class DeskError(PurveljError):
    """Something is wrong between here and the session program."""

    status = Status.DESK


class DeskEnded(DeskError):
    """The session program ended while a reply was due; ``exit_status`` is negative for a signal.

    ``history`` is what it had replied to a whole script; it is None where the script wasn't sent at once.
    """

    def __init__(self, command: Sequence[str], exit_status: int, history: History | None = None) -> None:
        super().__init__(f"{' '.join(command)} {_ending(exit_status)} before it replied to all lines")
        self.exit_status = exit_status
        self.history = history


class NoReply(DeskError):
    """The session program neither read nor replied within the time that it was given."""


class LineProgram:
    """A running program that is written lines and read lines from.

    It runs in a process group of its own, so that ``close`` leaves neither it nor what it started, but for what
    has left the group. Its standard error is this process's.
    """

    def __init__(self, command: Sequence[str], timeout: float | None = None) -> None:
        """Starts the command; ``timeout`` is the most seconds that a call waits for it, or no limit."""
        self.command = tuple(command)
        self._timeout = timeout
        self._left = b""
        self._ended_early = False
        self._process = _started(self.command)
        assert self._process.stdin and self._process.stdout
        self._input = self._process.stdin.fileno()
        self._output = self._process.stdout.fileno()
        os.set_blocking(self._input, False)
        self._finalizer = weakref.finalize(self, _stop, self._process)

    def write(self, line: bytes) -> None:
        """Writes a line, to which the newline is added here."""
        self.test_open()
        left = memoryview(line + b"\n")
        deadline = _deadline(self._timeout)
        while left:
            self._wait(self._input, select.POLLOUT, deadline)
            try:
                left = left[os.write(self._input, left) :]
            except BlockingIOError:
                continue
            except BrokenPipeError:
                raise self._ended() from None

    def read(self) -> bytes:
        """Reads a line, without its newline."""
        self.test_open()
        deadline = _deadline(self._timeout)
        while b"\n" not in self._left:
            self._wait(self._output, select.POLLIN, deadline)
            piece = os.read(self._output, 1 << 16)
            if not piece:
                raise self._ended()
            self._left += piece
        line, _, self._left = self._left.partition(b"\n")
        return line

    def close(self) -> int:
        """Closes the program's input, waits for its end, and gives its exit status.

        A program that doesn't end within some seconds is ended by a signal, and so is whatever is left of what it
        started. A second call only gives the status.
        """
        self._finalizer()
        return self._process.returncode

    def test_open(self) -> None:
        """``DeskError`` where the desk was closed, and ``DeskEnded`` where the program had ended before."""
        if self._ended_early:
            raise self._ended()
        if not self._finalizer.alive:
            raise DeskError("the desk was closed")

    def test_running(self) -> None:
        """``DeskEnded`` where the program has ended by itself, though nothing was written to it since."""
        exit_status = _exit_status(self._process)
        if exit_status is not None:
            raise DeskEnded(self.command, exit_status)

    def _wait(self, pipe: int, event: int, deadline: float | None) -> None:
        if not _is_ready(pipe, event, deadline):
            raise NoReply(f"{' '.join(self.command)} didn't answer within {self._timeout:g} s")

    def _ended(self) -> DeskEnded:
        self._ended_early = True
        return DeskEnded(self.command, self.close())


def run_through(command: Sequence[str], data: bytes, timeout: float | None = None) -> tuple[bytes, int]:
    """What a program writes, and the exit status that it ends with, where these bytes are its whole input.

    ``NoReply`` where it takes longer than ``timeout`` seconds: it is ended then. Whatever is left of what it started
    is ended in any case, as by ``LineProgram.close``.
    """
    deadline = _deadline(timeout)
    process = _started(command)
    try:
        output = _passed(process, data, deadline)
        if output is None or not _ends_by(process, deadline):
            raise NoReply(f"{' '.join(command)} didn't end within {timeout:g} s")
    finally:
        _end_group(process)
    return output, process.returncode


def _passed(process: subprocess.Popen[bytes], data: bytes, deadline: float | None) -> bytes | None:
    """What a program writes, which is given these bytes meanwhile; None where it goes on at the deadline."""
    assert process.stdin and process.stdout
    os.set_blocking(process.stdin.fileno(), False)
    left, pieces = memoryview(data), [b""]
    with process.stdin, process.stdout, selectors.DefaultSelector() as pipes:
        pipes.register(process.stdin, selectors.EVENT_WRITE, process.stdin)
        pipes.register(process.stdout, selectors.EVENT_READ, process.stdout)
        while pipes.get_map():
            seconds = _seconds_to(deadline)
            ready = pipes.select(seconds)
            if not ready or seconds == 0:
                return None
            left = _move(pipes, ready, left, pieces)
    return b"".join(pieces)


def _move(
    pipes: selectors.BaseSelector,
    ready: list[tuple[selectors.SelectorKey, int]],
    left: memoryview,
    pieces: list[bytes],
) -> memoryview:
    """Writes and reads what goes at once, and gives what is left to be written.

    A pipe is closed where nothing is left for it, or nothing more comes.
    """
    for key, events in ready:
        if events & selectors.EVENT_WRITE:
            left = _unwritten(key.fd, left)
            is_over = not left
        else:
            pieces.append(os.read(key.fd, 1 << 16))
            is_over = not pieces[-1]
        if is_over:
            pipes.unregister(key.data)
            key.data.close()
    return left


def _unwritten(pipe: int, data: memoryview) -> memoryview:
    """Writes what goes into a pipe, and gives what is left to be written: nothing where nobody reads it."""
    try:
        return data[os.write(pipe, data) :]
    except BlockingIOError:
        return data
    except BrokenPipeError:
        return data[:0]


def _started(command: Sequence[str]) -> subprocess.Popen[bytes]:
    pipe = subprocess.PIPE
    try:
        return subprocess.Popen(command, stdin=pipe, stdout=pipe, bufsize=0, start_new_session=True)
    except OSError as fault:
        raise DeskError(f"{command[0]} can't be started: {fault.strerror}") from None


def _stop(process: subprocess.Popen[bytes]) -> None:
    """Ends a program and its group: first by closing its pipes, then by signals."""
    assert process.stdin and process.stdout
    process.stdin.close()
    try:
        _drain(process)
    finally:
        _end_group(process)
        process.stdout.close()


def _drain(process: subprocess.Popen[bytes]) -> None:
    """Reads away what the program still writes, until it ends or its time is over."""
    assert process.stdout
    pipe, deadline = process.stdout.fileno(), time.monotonic() + GRACE
    while _seconds_to(deadline) and _is_ready(pipe, select.POLLIN, deadline) and os.read(pipe, 1 << 16):
        pass
    _ends_by(process, deadline)


def _end_group(process: subprocess.Popen[bytes]) -> None:
    """Ends by signals whatever is left of a program and of its group, and reaps the program."""
    _exit_status(process)
    if process.returncode is not None:
        # Somebody else has reaped it, and its number may be another's by now.
        return
    deadline = time.monotonic() + GRACE
    _signal_group(process, signal.SIGTERM)
    if not _ends_by(process, deadline) or _leaves_others(process, deadline):
        _signal_group(process, signal.SIGKILL)
    process.wait()


def _leaves_others(process: subprocess.Popen[bytes], deadline: float) -> bool:
    """Reaps a program that has ended, and gives whether anything of its group is left at the deadline.

    As long as anything is, the group's number is no other's.
    """
    process.wait()
    while _signal_group(process, 0):
        if not _seconds_to(deadline):
            return True
        time.sleep(0.01)
    return False


def _signal_group(process: subprocess.Popen[bytes], number: int) -> bool:
    """Sends a signal to what is left of a program's group; False where nothing is that may be sent any."""
    try:
        os.killpg(process.pid, number)
    except (ProcessLookupError, PermissionError):
        return False
    return True


def _exit_status(process: subprocess.Popen[bytes]) -> int | None:
    """A program's exit status, or None while it runs. It isn't reaped, so that its number stays its own."""
    if process.returncode is not None:
        return process.returncode
    try:
        found = os.waitid(os.P_PID, process.pid, os.WEXITED | os.WNOHANG | os.WNOWAIT)
    except ChildProcessError:
        return process.poll()
    if found is None:
        return None
    return found.si_status if found.si_code == os.CLD_EXITED else -found.si_status


def _ends_by(process: subprocess.Popen[bytes], deadline: float | None) -> bool:
    """Whether a program has ended by a deadline. It isn't reaped."""
    pause = 0.0005
    while _exit_status(process) is None:
        left = _seconds_to(deadline)
        if left == 0:
            return False
        pause = min(2 * pause, 0.05)
        time.sleep(pause if left is None else min(pause, left))
    return True


def _is_ready(pipe: int, event: int, deadline: float | None) -> bool:
    """Whether a pipe can be read, or written, by a deadline."""
    poll = select.poll()
    poll.register(pipe, event)
    left = _seconds_to(deadline)
    return bool(poll.poll(None if left is None else 1000 * left))


def _deadline(timeout: float | None) -> float | None:
    return None if timeout is None else time.monotonic() + timeout


def _seconds_to(deadline: float | None) -> float | None:
    """The seconds until a deadline, 0 once it has come, and None where there is none."""
    return None if deadline is None else min(MOST_SECONDS, max(0.0, deadline - time.monotonic()))


def _ending(exit_status: int) -> str:
    if exit_status < 0:
        return f"was ended by {_signal_name(-exit_status)}"
    words = {
        1: "the words of its command line are others than it knows",
        2: "reading its input failed",
        3: "writing its output failed",
        4: "it ran out of memory",
        INPUT_TOO_LONG: "its input is longer than it may be",
        126: "it could be neither found nor built",
    }
    return f"ended with status {exit_status}" + (f" ({words[exit_status]})" if exit_status in words else "")


def _signal_name(number: int) -> str:
    """A signal's name; of those for real time only the first and the last have one."""
    try:
        return signal.Signals(number).name
    except ValueError:
        return f"signal {number}"
