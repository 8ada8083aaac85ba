"""Moments: whole seconds since 1970-01-01T00:00:00Z, from numbers, texts and ``datetime``."""

from __future__ import annotations

from datetime import datetime, timezone

from purvelj.errors import DocumentError

#: 9999-12-31T23:59:59Z, the last moment that a line may have.
LAST = 253_402_300_799

Moment = int | str | datetime


def seconds_of(moment: Moment, path: str = "moment") -> int:
    """The whole second that a moment is; ``DocumentError``, naming ``path``, where it is none.

    A text is a date, or a date and a time, as in ``2026-11-27`` or ``2026-11-27T04:30:00Z``; one
    without an offset is in UTC. A ``datetime`` has to know its offset.
    """
    if isinstance(moment, bool) or not isinstance(moment, (int, str, datetime)):
        raise DocumentError(path, f"{moment!r} is no moment")
    how = ": `.replace(microsecond=0)` makes it one"
    if isinstance(moment, str):
        moment, how = in_utc(moment, path), ""
    if isinstance(moment, datetime):
        if moment.tzinfo is None:
            raise DocumentError(path, f"{moment} doesn't say in which offset from UTC it is")
        if moment.microsecond:
            raise DocumentError(path, f"{moment} is no whole second{how}")
        moment = int(moment.timestamp())
    if not 0 <= moment <= LAST:
        raise DocumentError(path, f"{moment} is out of the seconds from 0 to {LAST}")
    return moment


def in_utc(text: str, path: str = "moment") -> datetime:
    """The ``datetime`` in UTC that a text says; ``DocumentError`` where it says none."""
    try:
        moment = datetime.fromisoformat(text.strip())
    except ValueError:
        raise DocumentError(path, f"{text!r} is no date and time") from None
    if moment.tzinfo is None:
        moment = moment.replace(tzinfo=timezone.utc)
    try:
        return moment.astimezone(timezone.utc)
    except OverflowError:
        raise DocumentError(path, f"{text!r} is out of the years 1 to 9999 in UTC") from None


def text_of(seconds: int) -> str:
    """A moment as a text in UTC, such as ``2026-11-27T04:30:00Z``."""
    return datetime.fromtimestamp(seconds, timezone.utc).strftime("%Y-%m-%dT%H:%M:%SZ")
