"""Small snapshots that were worked out by hand, shared by the tests."""

from __future__ import annotations

from dataclasses import replace

from purvelj.model import Claim, Group, Operator, Placement, Request, Sky, Snapshot, Telescope
from purvelj.spans import Span

HOUR = (Span(0, 3600),)


def request(number: int, *windows: tuple[int, int], seconds: int = 300, value: int = 50_000, **members) -> Request:
    """A request on telescope 0 for target 0; its windows are the whole hour where none is given."""
    spans = tuple(Span(*window) for window in windows) or HOUR
    members = {"telescopes": (0,), "targets": (0,), **members}
    return Request(number, seconds, value, windows=spans, **members)


def single(number: int, *windows: tuple[int, int], quota: int | None = None, **members) -> Group:
    """A group of one request that has the group's number."""
    return Group(number, Operator.SINGLE, (request(number, *windows, **members),), quota)


def snapshot(*groups: Group, slices: int = 12, telescopes: int = 1, quotas: tuple[int, ...] = ()) -> Snapshot:
    """Telescopes of one site that can be used for an hour, in slices of 300 seconds."""
    return Snapshot(
        version=7,
        slice_seconds=300,
        first=0,
        slices=slices,
        telescopes=(Telescope(0, HOUR),) * telescopes,
        skies=(Sky(0, 0, HOUR),),
        groups=groups,
        quotas=quotas,
    )


def claim(*placements: tuple[int, int, int], prices: list[int], value: int, bound: int, quota_prices=()) -> Claim:
    """A claim, its placements as plain triples."""
    return Claim(tuple(Placement(*each) for each in placements), tuple(prices), value, bound, tuple(quota_prices))


ONE = snapshot(single(1))
ONE_CLAIM = claim((1, 0, 0), prices=[50_000], value=50_000, bound=50_000)
TWO = snapshot(single(1), single(2))
AND_IN_ONE_SLICE = snapshot(Group(1, Operator.AND, (request(1, (0, 300)), request(2, (0, 300)))))
AND_OF_TWO = snapshot(Group(1, Operator.AND, (request(1, (0, 300)), request(2))))
ONEOF_ON_TWO = snapshot(
    Group(
        1,
        Operator.ONEOF,
        (request(1, (0, 300), telescopes=(0, 1)), request(2, (0, 300), telescopes=(0, 1))),
    ),
    telescopes=2,
)
WITH_QUOTA = snapshot(single(1, quota=0), single(2, quota=0), quotas=(300,))
FADING = replace(
    snapshot(single(1, fade=100)),
    telescopes=(Telescope(0, (Span(900, 3600),)),),
)
