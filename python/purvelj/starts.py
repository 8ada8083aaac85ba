"""The possible starts of a snapshot: as runs of slices, and as arrays for fast tables."""

from __future__ import annotations

from dataclasses import dataclass
from functools import cached_property

import numpy as np
import numpy.typing as npt

from purvelj.model import Placement, Request, Snapshot
from purvelj.spans import Span, Spans, covers, meet, union

Ints = npt.NDArray[np.int64]


@dataclass(frozen=True)
class Run:
    """Consecutive slices that are possible starts of one request on one telescope.

    ``request`` is the request's place in the snapshot and ``first`` counts from the horizon's first slice.
    """

    request: int
    telescope: int
    first: int
    count: int


def is_possible(snapshot: Snapshot, placement: Placement) -> bool:
    """Whether a placement is a possible start of the snapshot.

    The request has to be there and to have the telescope; the slices lie in the horizon; and the
    observation lies inside one window, while the telescope is usable and every target visible.
    """
    place = snapshot.places.get(placement.request)
    if place is None:
        return False
    request = snapshot.requests[place]
    last = placement.slice + snapshot.size(request)
    if placement.telescope not in request.telescopes:
        return False
    if placement.slice < snapshot.first or last > snapshot.first + snapshot.slices:
        return False
    span = snapshot.span_of(request, placement.slice)
    telescope = snapshot.telescopes[placement.telescope]
    skies = [snapshot.sky_spans.get((target, telescope.site), ()) for target in request.targets]
    return (
        any(covers((window,), span) for window in request.windows)
        and covers(telescope.usable, span)
        and all(covers(sky, span) for sky in skies)
    )


def runs_of(snapshot: Snapshot) -> list[Run]:
    """All possible starts as runs, by request, telescope and slice."""
    open_seconds: dict[tuple[int, tuple[int, ...]], Spans] = {}
    runs: list[Run] = []
    for place, request in enumerate(snapshot.requests):
        for telescope in request.telescopes:
            key = (telescope, request.targets)
            if key not in open_seconds:
                open_seconds[key] = _open_seconds(snapshot, *key)
            for first, end in _slices(snapshot, request, open_seconds[key]):
                runs.append(Run(place, telescope, first, end - first))
    return runs


def _open_seconds(snapshot: Snapshot, telescope: int, targets: tuple[int, ...]) -> Spans:
    """The seconds in which the telescope is usable and all targets are visible from its site."""
    seconds = snapshot.telescopes[telescope].usable
    for target in targets:
        seconds = meet(seconds, snapshot.sky_spans.get((target, snapshot.telescopes[telescope].site), ()))
    return seconds


def _slices(snapshot: Snapshot, request: Request, open_seconds: Spans) -> Spans:
    """The possible slices of a request where these seconds are open, as spans of slices from the first on."""
    length = snapshot.slice_seconds
    most = snapshot.slices - snapshot.size(request)
    found: list[Span] = []
    for window in request.windows:
        for start, end in meet((window,), open_seconds):
            first = max(-(-start // length) - snapshot.first, 0)
            last = min((end - request.seconds) // length - snapshot.first, most)
            if first <= last:
                found.append(Span(first, last + 1))
    return union(found)


@dataclass(frozen=True)
class Starts:
    """All possible starts of a snapshot as arrays, by slice, telescope and request.

    ``request`` holds places in the snapshot, and ``slice`` counts from the horizon's first slice.
    """

    snapshot: Snapshot
    request: Ints
    telescope: Ints
    slice: Ints

    @staticmethod
    def of(snapshot: Snapshot, runs: list[Run] | None = None) -> Starts:
        """The starts of a snapshot, or those of its runs where they are at hand."""
        runs = runs_of(snapshot) if runs is None else runs
        counts = np.array([run.count for run in runs], dtype=np.int64)
        firsts = np.array([run.first for run in runs], dtype=np.int64)
        request = np.repeat(np.array([run.request for run in runs], dtype=np.int64), counts)
        telescope = np.repeat(np.array([run.telescope for run in runs], dtype=np.int64), counts)
        ends = np.cumsum(counts)
        slice_ = np.arange(counts.sum()) - np.repeat(ends - counts, counts) + np.repeat(firsts, counts)
        order = np.lexsort((request, telescope, slice_))
        return Starts(snapshot, request[order], telescope[order], slice_[order])

    def __len__(self) -> int:
        return len(self.request)

    @property
    def shape(self) -> tuple[int, int]:
        """How many slices and telescopes there are."""
        return self.snapshot.slices, len(self.snapshot.telescopes)

    @cached_property
    def size(self) -> Ints:
        """How many slices each start occupies."""
        sizes = [self.snapshot.size(request) for request in self.snapshot.requests]
        return np.array(sizes, dtype=np.int64)[self.request]

    @cached_property
    def worth(self) -> Ints:
        """What each start is worth."""
        requests = self.snapshot.requests
        length, first = self.snapshot.slice_seconds, self.snapshot.first
        value = np.array([request.value for request in requests], dtype=np.int64)[self.request]
        fade = np.array([request.fade for request in requests], dtype=np.int64)[self.request]
        earliest = [
            -(-min((window.start for window in request.windows), default=0) // length) - first
            for request in requests
        ]
        delay = np.minimum(self.slice - np.array(earliest, dtype=np.int64)[self.request], 1000)
        return np.maximum(1, value - value * fade * delay // 1000)

    @cached_property
    def of_request(self) -> list[Ints]:
        """For each request the places of its starts, by slice and then telescope."""
        order = np.argsort(self.request, kind="stable")
        count = len(self.snapshot.requests)
        ends = np.searchsorted(self.request[order], np.arange(1, count))
        return np.split(order, ends) if count else []

    def placement(self, place: int) -> Placement:
        """The start at a place of the arrays, as a placement."""
        return Placement(
            self.snapshot.requests[int(self.request[place])].number,
            int(self.telescope[place]),
            int(self.slice[place]) + self.snapshot.first,
        )
