"""Exported documents: a snapshot and a claim for it, as an ``export`` line is replied to."""

from __future__ import annotations

from dataclasses import dataclass
from pathlib import Path
from typing import Any

from purvelj.documents import Document, parse, read_text, source_of
from purvelj.errors import DocumentError, FileError
from purvelj.model import Claim, Snapshot, read_claim, read_snapshot


@dataclass(frozen=True)
class Export:
    """A snapshot, a claim for it, and the version of the desk that exported them, if it is told."""

    snapshot: Snapshot
    claim: Claim
    version: int | None

    @property
    def next_version(self) -> int:
        """The version at which the desk takes a claim now, if nothing else changed since the export.

        Where the document doesn't tell its version, the publication is taken for the only change.
        """
        return self.snapshot.version + 1 if self.version is None else self.version

    @property
    def changes(self) -> int:
        """How often the desk changed since the claim was published, as far as the document tells."""
        return max(0, self.next_version - self.snapshot.version - 1)


def read_export(path: str | Path) -> Export:
    """The last export in a file: a reply, a whole session's output, or an object with both members.

    ``FileError`` where the file can't be read or is no JSON, ``DocumentError`` where it has no export.
    """
    source = source_of(path)
    document = Document(_last_object(read_text(path), source), f"{source}:")
    if not document.has("snapshot"):
        raise DocumentError(source, "there is no `snapshot`, so it isn't the reply to an `export` line")
    return Export(
        read_snapshot(document.object("snapshot")),
        read_claim(document.object("claim")),
        document.whole("version", 0, 10**18) if document.has("version") else None,
    )


def _last_object(text: str, source: str) -> Any:
    """The whole text's value, or the last value with a snapshot where each line has one."""
    if not text.strip():
        raise FileError(f"{source}: it is empty")
    lines = [each for each in enumerate(text.split("\n"), start=1) if each[1].strip()]
    try:
        return parse(text, source)
    except FileError:
        if len(lines) == 1 or not _is_json(lines[0][1]):
            raise
    values = [parse(line, f"{source}, line {number}") for number, line in lines]
    exports = [value for value in values if isinstance(value, dict) and value.get("snapshot") is not None]
    if not exports:
        raise DocumentError(source, "there is no reply to an `export` line in it")
    return exports[-1]


def _is_json(line: str) -> bool:
    try:
        parse(line, "line")
    except FileError:
        return False
    return True
