"""Snapshots and claims: what a desk exports, as typed values, and their documents.

All times are whole seconds. A slice is numbered from 1970-01-01T00:00:00Z in steps of the snapshot's
``slice_seconds``. Values, prices and bounds are whole numbers without a unit.
"""

from __future__ import annotations

from dataclasses import dataclass
from enum import Enum
from functools import cached_property
from typing import Any, Callable, NamedTuple, Sequence

from purvelj.documents import Document, elements, whole
from purvelj.errors import DocumentError
from purvelj.spans import Span, Spans

#: The greatest moment of a snapshot, in seconds: a horizon may end after the year 9999.
MOST_MOMENT = 10**12
MOST_NUMBER = 2**32 - 1
MOST_PLACE = 2**16 - 1
MOST_ITEMS = 65_536
#: The greatest size of a request's price in a claim that can be certified.
MOST_PRICE = 10**12
#: The greatest price of a quota's second in a claim that can be certified.
MOST_QUOTA_PRICE = 200_000


class Operator(str, Enum):
    """Which sets of a group's requests may be placed: any (``SINGLE``, ``MANY``), at most one (``ONEOF``), or all or
    none (``AND``)."""

    SINGLE = "SINGLE"
    MANY = "MANY"
    ONEOF = "ONEOF"
    AND = "AND"


@dataclass(frozen=True)
class Telescope:
    """A telescope, whose number is its place: its site's number and the seconds in which it can be used."""

    site: int
    usable: Spans

    def document(self) -> dict[str, object]:
        """The telescope as a snapshot writes it."""
        return {"site": self.site, "usable": _pairs(self.usable)}


@dataclass(frozen=True)
class Sky:
    """The seconds in which a target can be observed from a site; target and site by their numbers."""

    target: int
    site: int
    spans: Spans

    def document(self) -> dict[str, object]:
        """The sky as a snapshot writes it."""
        return {"site": self.site, "spans": _pairs(self.spans), "target": self.target}


@dataclass(frozen=True)
class Request:
    """A request that may be placed: one observation of so many seconds inside one of its windows.

    ``fade`` is the thousandths of the value that a start loses with each slice of delay.
    """

    number: int
    seconds: int
    value: int
    telescopes: tuple[int, ...]
    targets: tuple[int, ...]
    windows: Spans
    fade: int = 0

    def document(self) -> dict[str, object]:
        """The request as a snapshot writes it."""
        members: dict[str, object] = {
            "request": self.number,
            "seconds": self.seconds,
            "targets": list(self.targets),
            "telescopes": list(self.telescopes),
            "value": self.value,
            "windows": _pairs(self.windows),
        }
        if self.fade:
            members["fade"] = self.fade
        return members


@dataclass(frozen=True)
class Group:
    """A group of requests; ``quota`` is the place of the quota that it counts against, if there is one."""

    number: int
    operator: Operator
    requests: tuple[Request, ...]
    quota: int | None = None

    def document(self) -> dict[str, object]:
        """The group as a snapshot writes it."""
        members: dict[str, object] = {
            "group": self.number,
            "operator": self.operator.value,
            "requests": [request.document() for request in self.requests],
        }
        if self.quota is not None:
            members["quota"] = self.quota
        return members


@dataclass(frozen=True)
class Snapshot:
    """All that a plan is made from, at one version of a desk.

    ``first`` is the number of the horizon's first slice, ``slices`` how many there are, and a quota
    is the most seconds that may be placed of the groups that name it.
    """

    version: int
    slice_seconds: int
    first: int
    slices: int
    telescopes: tuple[Telescope, ...]
    skies: tuple[Sky, ...]
    groups: tuple[Group, ...]
    quotas: tuple[int, ...] = ()

    @cached_property
    def requests(self) -> tuple[Request, ...]:
        """All requests in order, through the groups. Prices stand in this order."""
        return tuple(request for group in self.groups for request in group.requests)

    @cached_property
    def places(self) -> dict[int, int]:
        """The place of each request in ``requests``, by its number."""
        return {request.number: place for place, request in enumerate(self.requests)}

    @cached_property
    def group_places(self) -> tuple[int, ...]:
        """For each request in order, the place of its group in ``groups``."""
        return tuple(place for place, group in enumerate(self.groups) for _ in group.requests)

    @cached_property
    def sky_spans(self) -> dict[tuple[int, int], Spans]:
        """The spans of each sky by target and site."""
        return {(sky.target, sky.site): sky.spans for sky in self.skies}

    @property
    def horizon(self) -> Span:
        """The seconds of all slices that are planned."""
        start = self.first * self.slice_seconds
        return Span(start, start + self.slices * self.slice_seconds)

    def size(self, request: Request) -> int:
        """How many slices an observation of the request takes."""
        return -(-request.seconds // self.slice_seconds)

    def worth(self, request: Request, slice_: int) -> int:
        """What a start of the request at a slice is worth, which is at least 1."""
        earliest = -(-min(window.start for window in request.windows) // self.slice_seconds)
        delay = min(slice_ - earliest, 1000)
        return max(1, request.value - request.value * request.fade * delay // 1000)

    def span_of(self, request: Request, slice_: int) -> Span:
        """The seconds of an observation of the request that starts at a slice."""
        start = slice_ * self.slice_seconds
        return Span(start, start + request.seconds)

    def document(self) -> dict[str, object]:
        """The snapshot as an ``export`` reply writes it."""
        members: dict[str, object] = {
            "first": self.first,
            "groups": [group.document() for group in self.groups],
            "len": self.slice_seconds,
            "skies": [sky.document() for sky in self.skies],
            "slices": self.slices,
            "telescopes": [telescope.document() for telescope in self.telescopes],
            "version": self.version,
        }
        if self.quotas:
            members["quotas"] = list(self.quotas)
        return members


class Placement(NamedTuple):
    """A request, by its number, that starts on a telescope at a slice."""

    request: int
    telescope: int
    slice: int


@dataclass(frozen=True)
class Claim:
    """A plan with its value, and the bound that two lists of prices give for every plan.

    ``prices`` has one price a request, in the snapshot's order; ``quota_prices`` one a quota, for each
    of its seconds, or none.
    """

    placements: tuple[Placement, ...]
    prices: tuple[int, ...]
    value: int
    bound: int
    quota_prices: tuple[int, ...] = ()

    @property
    def gap(self) -> int:
        """How much more than this plan any plan can be worth at most."""
        return self.bound - self.value

    @property
    def gap_percent(self) -> float:
        """The gap in percent of the bound, 0 where the bound is 0."""
        return 100 * self.gap / self.bound if self.bound else 0.0

    def document(self) -> dict[str, object]:
        """The claim as a ``publish`` line and an ``export`` reply write it."""
        members: dict[str, object] = {
            "bound": self.bound,
            "placements": [list(placement) for placement in self.placements],
            "prices": list(self.prices),
            "value": self.value,
        }
        if self.quota_prices:
            members["format"] = 2
            members["quota_prices"] = list(self.quota_prices)
        return members


def read_claim(document: Document) -> Claim:
    """The claim that a document holds; ``DocumentError`` where a member isn't what it should be."""
    second = document.has("format")
    if second:
        document.whole("format", 2, 2)
    return Claim(
        placements=document.each("placements", _placement, 0, 4096),
        prices=document.each("prices", _numbers(-(10**15), 10**15), 0, 4096),
        quota_prices=document.each("quota_prices", _numbers(0, 10**9), 1, 1024) if second else (),
        value=document.whole("value", 0, 10**12),
        bound=document.whole("bound", 0, 10**17),
    )


def read_snapshot(document: Document) -> Snapshot:
    """The snapshot that a document holds.

    ``DocumentError`` where a member isn't what it should be, where spans aren't sorted with gaps,
    where numbers don't rise, or where something is named that isn't there.
    """
    snapshot = Snapshot(
        version=document.whole("version", 0, 524_288),
        slice_seconds=document.whole("len", 60, 3600),
        first=document.whole("first", 0, 4_223_371_680),
        slices=document.whole("slices", 1, 1440),
        telescopes=tuple(_telescope(each) for each in document.objects("telescopes", 0, 32)),
        skies=tuple(_sky(each) for each in document.objects("skies", 0, 32_768)),
        groups=tuple(_group(each) for each in document.objects("groups", 0, 1024)),
        quotas=document.each("quotas", _numbers(0, 100_000_000), 0, 1024) if document.has("quotas") else (),
    )
    _test_order(snapshot, document.path)
    return snapshot


def _telescope(document: Document) -> Telescope:
    return Telescope(document.whole("site", 0, MOST_PLACE), _apart(document, "usable", 2048))


def _sky(document: Document) -> Sky:
    target = document.whole("target", 0, MOST_PLACE)
    return Sky(target, document.whole("site", 0, MOST_PLACE), _apart(document, "spans", MOST_ITEMS))


def _group(document: Document) -> Group:
    operator = Operator(document.word("operator", [each.value for each in Operator]))
    most = {Operator.SINGLE: 1, Operator.MANY: 256}.get(operator, 32)
    return Group(
        number=document.whole("group", 0, MOST_NUMBER),
        operator=operator,
        requests=tuple(_request(each) for each in document.objects("requests", 1, most)),
        quota=document.whole("quota", 0, MOST_PLACE) if document.has("quota") else None,
    )


def _request(document: Document) -> Request:
    return Request(
        number=document.whole("request", 0, MOST_NUMBER),
        seconds=document.whole("seconds", 1, 86_400),
        value=document.whole("value", 1, 288_000_000),
        telescopes=document.each("telescopes", _numbers(0, MOST_PLACE), 0, 32),
        targets=document.each("targets", _numbers(0, MOST_PLACE), 0, 16),
        windows=document.each("windows", _span, 0, 32),
        fade=document.whole_or("fade", 0, 0, 1000),
    )


def _numbers(least: int, most: int) -> Callable[[object, str], int]:
    return lambda value, path: whole(value, path, least, most)


def _span(value: object, path: str) -> Span:
    start, end = (whole(each, path, 0, MOST_MOMENT) for each in elements(value, path, 2, 2))
    if start >= end:
        raise DocumentError(path, f"a span from {start} to {end} is empty")
    return Span(start, end)


def _placement(value: object, path: str) -> Placement:
    request, telescope, slice_ = elements(value, path, 3, 3)
    return Placement(
        whole(request, path, 0, MOST_NUMBER),
        whole(telescope, path, 0, MOST_PLACE),
        whole(slice_, path, 0, MOST_NUMBER),
    )


def _apart(document: Document, name: str, most: int) -> Spans:
    spans = document.each(name, _span, 0, most)
    for before, after in zip(spans, spans[1:]):
        if before.end >= after.start:
            path = document.path_of(name)
            raise DocumentError(path, f"the spans {list(before)} and {list(after)} have no gap between them")
    return spans


def _test_order(snapshot: Snapshot, path: str) -> None:
    _test_rising([group.number for group in snapshot.groups], f"{path}.groups", "group numbers")
    _test_rising([request.number for request in snapshot.requests], f"{path}.groups", "request numbers")
    _test_rising([(sky.target, sky.site) for sky in snapshot.skies], f"{path}.skies", "target and site")
    for group in snapshot.groups:
        where = f"{path}.groups, group {group.number}"
        if group.quota is not None and group.quota >= len(snapshot.quotas):
            raise DocumentError(where, f"the quota {group.quota} isn't there")
        for request in group.requests:
            _test_rising(request.telescopes, where, f"the telescopes of request {request.number}")
            if request.telescopes and request.telescopes[-1] >= len(snapshot.telescopes):
                raise DocumentError(where, f"the telescope {request.telescopes[-1]} isn't there")


def _test_rising(numbers: Sequence[Any], path: str, what: str) -> None:
    if any(before >= after for before, after in zip(numbers, numbers[1:])):
        raise DocumentError(path, f"{what} don't rise")


def _pairs(spans: Spans) -> list[list[int]]:
    return [list(span) for span in spans]
