"""Sets of whole seconds, as sorted lists of half-open spans with gaps between them."""

from __future__ import annotations

from typing import Iterable, NamedTuple


class Span(NamedTuple):
    """The seconds from ``start`` to ``end - 1``, with ``start < end``; seconds since 1970-01-01T00:00:00Z."""

    start: int
    end: int

    @property
    def seconds(self) -> int:
        """How many seconds it has."""
        return self.end - self.start


Spans = tuple[Span, ...]


def union(spans: Iterable[Span]) -> Spans:
    """The seconds that are in at least one of the spans, which may overlap and stand in any order."""
    joined: list[Span] = []
    for span in sorted(spans):
        if joined and span.start <= joined[-1].end:
            joined[-1] = Span(joined[-1].start, max(joined[-1].end, span.end))
        else:
            joined.append(Span(*span))
    return tuple(joined)


def meet(first: Spans, second: Spans) -> Spans:
    """The seconds that are in both sets."""
    common: list[Span] = []
    i = j = 0
    while i < len(first) and j < len(second):
        start = max(first[i].start, second[j].start)
        end = min(first[i].end, second[j].end)
        if start < end:
            common.append(Span(start, end))
        if first[i].end <= second[j].end:
            i += 1
        else:
            j += 1
    return tuple(common)


def minus(first: Spans, second: Spans) -> Spans:
    """The seconds of the first set that aren't in the second."""
    left: list[Span] = []
    for start, end in first:
        for taken in second:
            if taken.end <= start or end <= taken.start:
                continue
            if start < taken.start:
                left.append(Span(start, taken.start))
            start = taken.end
            if start >= end:
                break
        if start < end:
            left.append(Span(start, end))
    return tuple(left)


def covers(spans: Spans, span: Span) -> bool:
    """Whether every second of the span is in the set."""
    return any(piece.start <= span.start and span.end <= piece.end for piece in spans)
