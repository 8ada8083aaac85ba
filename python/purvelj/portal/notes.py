"""What a conversion has to tell: warnings and faults, each by a rule's name and a member's path."""

from __future__ import annotations

from dataclasses import dataclass
from enum import Enum
from typing import Callable, TypeVar

from purvelj.errors import DocumentError, PurveljError, Status

T = TypeVar("T")


class Severity(Enum):
    """A warning is about what the desk won't heed; a fault leaves no line to be sent."""

    WARNING = "warning"
    FAULT = "fault"


@dataclass(frozen=True)
class Note:
    """One thing that the desk won't heed or would read otherwise, and where the document says it."""

    severity: Severity
    rule: str
    path: str
    text: str

    def __str__(self) -> str:
        return f"{self.severity.value}: {self.rule}: {self.path}: {self.text}"


class PortalError(PurveljError):
    """A request group can't be turned into a line; ``notes`` has the faults, and the warnings beside them."""

    status = Status.PORTAL

    def __init__(self, notes: tuple[Note, ...]) -> None:
        faults = [note for note in notes if note.severity is Severity.FAULT]
        super().__init__("\n".join(str(note) for note in faults))
        self.notes = notes


class Notes:
    """Notes as they are collected."""

    def __init__(self) -> None:
        self._notes: list[Note] = []

    def warn(self, rule: str, path: str, text: str) -> None:
        """Adds a warning."""
        self._notes.append(Note(Severity.WARNING, rule, path, text))

    def fault(self, rule: str, path: str, text: str) -> None:
        """Adds a fault."""
        self._notes.append(Note(Severity.FAULT, rule, path, text))

    def attempt(self, rule: str, read: Callable[[], T]) -> T | None:
        """What a reading gives, or None and a fault where a member isn't what it should be."""
        try:
            return read()
        except DocumentError as fault:
            self.fault(rule, fault.path, fault.text)
            return None

    def all(self) -> tuple[Note, ...]:
        """All notes, in the order in which they were added."""
        return tuple(self._notes)


def summary(notes: tuple[Note, ...]) -> list[str]:
    """The notes as lines of text, those that say the same in one line with how often they stand."""
    counts: dict[tuple[Severity, str, str], list[str]] = {}
    for note in notes:
        counts.setdefault((note.severity, note.rule, note.text), []).append(note.path)
    return [
        f"{severity.value}: {rule}: {paths[0]}"
        + (f" and {len(paths) - 1} more" if len(paths) > 1 else "")
        + f": {text}"
        for (severity, rule, text), paths in counts.items()
    ]
