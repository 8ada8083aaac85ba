"""A journal: two files with the lines that a desk is sent and with its replies, which outlive a crash."""

from __future__ import annotations

import fcntl
import os
from contextlib import ExitStack, closing
from pathlib import Path
from typing import Iterable

from purvelj.documents import decoded, decoded_lines, encoded, lines_of
from purvelj.errors import FileError
from purvelj.history import Exchange
from purvelj.lines import size_of
from purvelj.resume import Stopped, pieces, stopped


class Journal:
    """The files ``NAME.lines.jsonl`` and ``NAME.replies.jsonl`` of a desk; ``NAME`` may begin with a folder.

    What is written is on the disk when the call returns. A journal is of one desk at a time. ``FileError`` where a file
    can't be opened, read or written.
    """

    def __init__(self, lines: _File, replies: _File) -> None:
        self._lines, self._replies = lines, replies
        # Else a crash of the machine could take away a file that was just made.
        _sync_folder_of(lines.path)

    @staticmethod
    def paths(name: str | Path) -> tuple[str, str]:
        """The paths of the lines and of the replies. ``FileError`` where the name is empty or that of a folder."""
        if not os.path.basename(name):
            raise FileError(f"{str(name)!r} is no name of a journal, such as tonight")
        return f"{name}.lines.jsonl", f"{name}.replies.jsonl"

    @staticmethod
    def begin(name: str | Path) -> Journal:
        """A new journal; ``FileError`` where one of its files is there."""
        for path in Journal.paths(name):
            if os.path.lexists(path):
                raise FileError(f"{path}: it is there already; a desk goes on with it by Desk.resume")
        with ExitStack() as faults:
            lines, replies = (faults.enter_context(closing(_File(path, "x+b"))) for path in Journal.paths(name))
            journal = Journal(lines, replies)
            faults.pop_all()
        return journal

    @staticmethod
    def go_on(name: str | Path) -> Journal:
        """A journal that is there.

        Who began it may have been stopped before the file of the replies was made: that is made now. No line was written
        by then, so where there is one the file of the replies was lost, and ``FileError`` is raised.
        """
        lines_path, replies_path = Journal.paths(name)
        with ExitStack() as faults:
            lines = faults.enter_context(closing(_File(lines_path, "r+b")))
            is_begun = os.path.lexists(replies_path) or lines.read() != b""
            replies = faults.enter_context(closing(_File(replies_path, "r+b" if is_begun else "x+b")))
            journal = Journal(lines, replies)
            faults.pop_all()
        return journal

    def stopped(self) -> Stopped:
        """Where the session stopped whose journal this is.

        A line is written only once the replies to the one before are on the disk. So where more than one isn't wholly
        replied to, replies were lost, and ``FileError`` is raised.
        """
        lines, torn = pieces(self._lines.read())
        replies, _ = pieces(self._replies.read())
        texts = lines_of(decoded(replies, self._replies.path))
        found = stopped(texts, lines_of(decoded_lines(lines)), torn, self._replies.path)
        left = len(found.unanswered) + found.torn
        if left > 1:
            text = f"{left} lines of {self._lines.path} have no whole reply, where a desk leaves one at most"
            raise FileError(f"{self._replies.path}: {text}: its replies were lost")
        return found

    def cut(self, done: Iterable[Exchange]) -> None:
        """Drops what isn't of these exchanges, with which the journal begins.

        Replies go first: after a crash in between there are lines without replies, and never the other way round.
        """
        done = list(done)
        self._replies.cut([text for exchange in done for text in exchange.output])
        self._lines.cut([exchange.line for exchange in done])

    def line(self, text: str) -> None:
        """Writes a line that is to be sent."""
        self._lines.write(f"{text}\n")

    def reply(self, text: str) -> None:
        """Writes a reply that was read."""
        self._replies.write(f"{text}\n")

    def close(self) -> None:
        """Closes both files, so that another desk may go on with them."""
        self._lines.close()
        self._replies.close()


class _File:
    """A file of lines, which no other has at the same time."""

    def __init__(self, path: str, mode: str) -> None:
        self.path = path
        with ExitStack() as faults:
            try:
                self._file = faults.enter_context(open(path, mode, buffering=0))
                fcntl.flock(self._file, fcntl.LOCK_EX | fcntl.LOCK_NB)
            except BlockingIOError:
                raise FileError(f"{path}: another desk writes it") from None
            except OSError as fault:
                raise FileError(f"{path}: can't be opened: {fault.strerror or fault}") from None
            faults.pop_all()

    def read(self) -> bytes:
        """All that the file has."""
        try:
            self._file.seek(0)
            return self._file.read()
        except OSError as fault:
            raise FileError(f"{self.path}: can't be read: {fault.strerror or fault}") from None

    def write(self, text: str) -> None:
        """Adds a text, which is on the disk then. ``FileError`` where it can't be; a part of it may be there."""
        left = memoryview(encoded(text))
        try:
            while left:
                left = left[self._file.write(left) :]
            os.fsync(self._file.fileno())
        except OSError as fault:
            raise FileError(f"{self.path}: can't be written: {fault.strerror or fault}") from None

    def cut(self, lines: list[str]) -> None:
        """Leaves these lines, with which the file begins; the last may lack its newline."""
        size = sum(map(size_of, lines))
        try:
            missing = self._file.seek(0, os.SEEK_END) < size
            self._file.truncate(size - missing)
            self._file.seek(size - missing)
        except OSError as fault:
            raise FileError(f"{self.path}: can't be written: {fault.strerror or fault}") from None
        self.write("\n" if missing else "")

    def close(self) -> None:
        """Closes the file, so that another may have it."""
        self._file.close()


def _sync_folder_of(path: str) -> None:
    """Sees that the files that stand in a file's folder are on the disk by name."""
    name = os.path.dirname(path) or "."
    try:
        folder = os.open(name, os.O_RDONLY | os.O_DIRECTORY)
        try:
            os.fsync(folder)
        finally:
            os.close(folder)
    except OSError as fault:
        raise FileError(f"{name}: can't be written: {fault.strerror or fault}") from None
