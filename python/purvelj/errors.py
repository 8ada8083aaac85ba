"""What a user can mend: faults whose text is printed as it is, without a trace."""

from __future__ import annotations

from enum import IntEnum


class Status(IntEnum):
    """The exit statuses of ``python3 -m purvelj``."""

    DONE = 0
    #: The words of the command line are others; ``argparse`` chose the number.
    WORDS = 2
    #: A file can't be read or written, or holds no JSON.
    FILE = 3
    #: A document isn't what it should be.
    DOCUMENT = 4
    #: A portal's request group can't be turned into a line.
    PORTAL = 5
    #: No site has a night, a target is never visible from any site, a line would have too many spans, or no night is
    #: known of these years.
    SKY = 6
    #: The checker says No to a claim.
    NO = 7
    #: HiGHS gave no solution in time.
    TIME = 8
    #: The session program can't be started, ended or didn't reply in time, or may read no more lines; or, where it
    #: matters, it refused a line.
    DESK = 9
    #: A user interrupted it, as a shell says it: 128 and the number of SIGINT.
    INTERRUPTED = 130


class PurveljError(Exception):
    """A fault that is told in one message. ``status`` is the exit status that it ends a command with."""

    status = Status.DOCUMENT


class WordsError(PurveljError):
    """The words of the command line don't go together."""

    status = Status.WORDS


class FileError(PurveljError):
    """A file can't be read or written, or what it holds is no JSON."""

    status = Status.FILE


class DocumentError(PurveljError):
    """A document has a member that is missing, of another kind or out of its range.

    ``path`` names the member, as in ``snapshot.groups[2].requests[0].seconds``.
    """

    def __init__(self, path: str, text: str) -> None:
        path = path.rstrip(":")
        super().__init__(f"{path}: {text}" if path else text)
        self.path = path
        self.text = text
