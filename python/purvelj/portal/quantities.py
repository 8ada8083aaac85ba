"""A portal's quantities as the desk's whole numbers."""

from __future__ import annotations

from decimal import ROUND_CEILING, ROUND_HALF_EVEN, Decimal

from purvelj.documents import Document, kind_of
from purvelj.errors import DocumentError
from purvelj.moments import LAST, in_utc
from purvelj.portal.notes import Notes

#: The longest exposure, and the longest period and jitter of a cadence.
MOST_MILLISECONDS, MOST_SECONDS = 86_400_000, 15_552_000


def decimal(value: object, path: str) -> Decimal:
    """A number as it was written; ``DocumentError``, naming ``path``, where it is none."""
    if isinstance(value, bool) or not isinstance(value, (int, float, Decimal)):
        raise DocumentError(path, f"{kind_of(value)} stands where a number should be")
    number = value if isinstance(value, Decimal) else Decimal(repr(value))
    if not number.is_finite():
        raise DocumentError(path, f"{value} is no number to count with")
    return number


def milliseconds(document: Document, name: str, notes: Notes) -> int:
    """Seconds as milliseconds, rounded up, with a warning where that changes them."""
    return _whole(document, name, 1000, (1, MOST_MILLISECONDS), "ms", ROUND_CEILING, notes)


def thousandths(document: Document, name: str, notes: Notes) -> int:
    """A factor of 0.5 to 2 in thousandths, rounded to the nearest, with a warning where that changes it."""
    return _whole(document, name, 1000, (500, 2000), "thousandths", ROUND_HALF_EVEN, notes)


def seconds_of_hours(document: Document, name: str, notes: Notes) -> int:
    """Hours as seconds, rounded to the nearest, with a warning where that changes them."""
    return _whole(document, name, 3600, (1, MOST_SECONDS), "s", ROUND_HALF_EVEN, notes)


def percent(document: Document, name: str, notes: Notes) -> int:
    """Percent as whole percent, rounded up, with a warning where that changes them."""
    return _whole(document, name, 1, (0, 100), "percent", ROUND_CEILING, notes)


def window(document: Document, notes: Notes) -> dict[str, int]:
    """``start`` and ``end`` as whole seconds, rounded inwards, with a warning where that changes them."""
    start = _moment(document, "start", True, notes)
    end = _moment(document, "end", False, notes)
    if start >= end:
        raise DocumentError(document.path, "it ends before it has lasted a second")
    return {"start": start, "end": end}


def _whole(
    document: Document,
    name: str,
    factor: int,
    span: tuple[int, int],
    unit: str,
    rounding: str,
    notes: Notes,
) -> int:
    path, value = document.path_of(name), document.raw(name)
    out_of_span = DocumentError(path, f"{value} is out of {span[0]} to {span[1]} {unit}")
    try:
        exact = decimal(value, path) * factor
    except ArithmeticError:
        # Its exponent is about the greatest that a Decimal may have.
        raise out_of_span from None
    if not span[0] - 1 <= exact <= span[1] + 1:
        raise out_of_span
    number = int(exact.to_integral_value(rounding))
    if not span[0] <= number <= span[1]:
        raise out_of_span
    if number != exact:
        notes.warn("rounded", path, f"{value} is sent as {number} {unit}")
    return number


def _moment(document: Document, name: str, up: bool, notes: Notes) -> int:
    path = document.path_of(name)
    moment = in_utc(document.text(name), path)
    seconds = int(moment.replace(microsecond=0).timestamp())
    if moment.microsecond:
        seconds += up
        notes.warn("rounded", path, f"{document.raw(name)} is no whole second and is rounded inwards")
    if not 0 <= seconds <= LAST:
        raise DocumentError(path, f"{document.raw(name)} is out of the years 1970 to 9999")
    return seconds
