"""The check of a claim, on snapshots that were worked out by hand."""

from __future__ import annotations

from dataclasses import replace
from itertools import chain, combinations, product
from random import Random

import numpy as np
import pytest

from drawn import drawn_snapshot
from purvelj.bound import Table, bound, rebate
from purvelj.checker import check
from purvelj.documents import Document
from purvelj.model import Operator, Placement, Snapshot, Telescope, read_claim, read_snapshot
from purvelj.spans import Span
from purvelj.starts import Run, Starts, is_possible, runs_of
from snapshots import (
    AND_IN_ONE_SLICE,
    AND_OF_TWO,
    FADING,
    ONE,
    ONE_CLAIM,
    ONEOF_ON_TWO,
    TWO,
    WITH_QUOTA,
    claim,
    single,
    snapshot,
)

CERTIFIED = {
    "one request": (ONE, ONE_CLAIM),
    "one request, another price": (ONE, claim((1, 0, 0), prices=[25_000], value=50_000, bound=325_000)),
    "a great price": (ONE, claim((1, 0, 0), prices=[10**12], value=50_000, bound=10**12)),
    "no slice for both of an AND": (AND_IN_ONE_SLICE, claim(prices=[0, 0], value=0, bound=50_000)),
    "a ONEOF": (ONEOF_ON_TWO, claim((1, 0, 0), prices=[50_000, 50_000], value=50_000, bound=50_000)),
    "too long for the horizon": (
        snapshot(single(1, seconds=301, value=60_000), slices=1),
        claim(prices=[0], value=0, bound=0),
    ),
    "two that share a slice wherever they start": (
        snapshot(
            single(1, seconds=301, value=60_000),
            single(2, seconds=301, value=60_000),
            slices=3,
        ),
        claim((1, 0, 0), prices=[0, 0], value=60_000, bound=60_000),
    ),
    "no window is long enough": (
        snapshot(single(1, (0, 300), (300, 600), seconds=600, value=100_000)),
        claim(prices=[0], value=0, bound=0),
    ),
    "two requests": (
        TWO,
        claim((1, 0, 0), (2, 0, 1), prices=[25_000, 25_000], value=100_000, bound=350_000),
    ),
    "a request that fades": (FADING, claim((1, 0, 3), prices=[30_833], value=35_000, bound=35_000)),
    "a quota, its price 0": (
        WITH_QUOTA,
        claim((1, 0, 0), prices=[25_000, 25_000], quota_prices=[0], value=50_000, bound=350_000),
    ),
    "a quota with a price": (
        WITH_QUOTA,
        claim((1, 0, 0), prices=[50_000, 50_000], quota_prices=[167], value=50_000, bound=50_100),
    ),
    "a quota without prices": (
        WITH_QUOTA,
        claim((1, 0, 0), prices=[50_000, 50_000], value=50_000, bound=100_000),
    ),
}


@pytest.mark.parametrize("case", CERTIFIED)
def test_certified_claims(case: str) -> None:
    shot, sent = CERTIFIED[case]
    verdict = check(shot, sent)
    assert verdict.text() == f'{{"bound":{sent.bound},"ok":"yes","value":{sent.value}}}'


REFUSED = [
    (ONE, replace(ONE_CLAIM, placements=(Placement(2, 0, 0),)), '{"index":0,"no":1,"reason":"UnknownRequest"}'),
    (
        ONE,
        replace(ONE_CLAIM, placements=(Placement(1, 0, 0), Placement(1, 0, 1))),
        '{"index":1,"no":2,"reason":"PlacedTwice"}',
    ),
    (ONE, replace(ONE_CLAIM, placements=(Placement(1, 0, 12),)), '{"index":0,"no":3,"reason":"NotPossible"}'),
    (ONE, replace(ONE_CLAIM, placements=(Placement(1, 1, 0),)), '{"index":0,"no":3,"reason":"NotPossible"}'),
    (
        TWO,
        claim((1, 0, 0), (2, 0, 0), prices=[25_000, 25_000], value=100_000, bound=350_000),
        '{"index":1,"no":4,"reason":"Overlap"}',
    ),
    (
        ONEOF_ON_TWO,
        claim((1, 0, 0), (2, 1, 0), prices=[50_000, 50_000], value=100_000, bound=50_000),
        '{"group":1,"no":5,"reason":"OneofTwice"}',
    ),
    (
        AND_OF_TWO,
        claim((1, 0, 0), prices=[0, 0], value=50_000, bound=0),
        '{"group":1,"no":6,"reason":"AndPartial"}',
    ),
    (
        WITH_QUOTA,
        claim((1, 0, 0), (2, 0, 1), prices=[0], value=0, bound=0),
        '{"most":300,"no":11,"quota":0,"reason":"QuotaOver","seconds":600}',
    ),
    (ONE, replace(ONE_CLAIM, prices=(), value=1), '{"given":0,"no":7,"reason":"PriceCount","wanted":1}'),
    (ONE, replace(ONE_CLAIM, prices=(-(10**12) - 1,)), '{"index":0,"no":8,"reason":"PriceRange"}'),
    (
        WITH_QUOTA,
        claim(prices=[0, 0], quota_prices=[0, 0], value=0, bound=0),
        '{"given":2,"no":12,"reason":"QuotaPriceCount","wanted":1}',
    ),
    (
        WITH_QUOTA,
        claim(prices=[0, 0], quota_prices=[200_001], value=0, bound=0),
        '{"index":0,"no":13,"reason":"QuotaPriceRange"}',
    ),
    (ONE, replace(ONE_CLAIM, value=49_999), '{"claimed":49999,"found":50000,"no":9,"reason":"ValueDiffers"}'),
    (ONE, replace(ONE_CLAIM, bound=50_001), '{"claimed":50001,"found":50000,"no":10,"reason":"BoundDiffers"}'),
    (
        FADING,
        claim((1, 0, 3), prices=[30_833], value=50_000, bound=35_000),
        '{"claimed":50000,"found":35000,"no":9,"reason":"ValueDiffers"}',
    ),
]


@pytest.mark.parametrize("shot, sent, text", REFUSED)
def test_first_reason_against_a_claim(shot: Snapshot, sent, text: str) -> None:
    assert check(shot, sent).text() == text


ROUND_BOUNDS = [
    (ONE, [([0], 600_000), ([50_000], 50_000)]),
    (
        TWO,
        [([0, 0], 600_000), ([25_000, 25_000], 350_000)],
    ),
    (
        FADING,
        [
            ([50_000], 50_000),
            ([25_000], 40_000),
            ([41_666], 41_666),
            ([29_166], 35_834),
            ([39_166], 39_166),
            ([30_833], 35_000),
        ],
    ),
]


@pytest.mark.parametrize("shot, rounds", ROUND_BOUNDS)
def test_bounds_of_worked_rounds(shot: Snapshot, rounds: list[tuple[list[int], int]]) -> None:
    starts = Starts.of(shot)
    for prices, wanted in rounds:
        assert bound(starts, np.array(prices), ()) == wanted


def test_a_closure_parts_the_starts() -> None:
    shot = snapshot(single(1, seconds=600, value=100_000))
    closed = replace(shot, telescopes=(Telescope(0, (Span(0, 900), Span(1800, 3600))),))
    assert runs_of(closed) == [Run(0, 0, 0, 2), Run(0, 0, 6, 5)]
    assert runs_of(shot) == [Run(0, 0, 0, 11)]


def test_runs_are_all_possible_starts() -> None:
    draw = Random(3)
    for _ in range(60):
        shot = drawn_snapshot(draw)
        starts = Starts.of(shot)
        listed = [starts.placement(place) for place in range(len(starts))]
        slices = range(shot.first - 1, shot.first + shot.slices + 1)
        triples = product((each.number for each in shot.requests), range(len(shot.telescopes)), slices)
        wanted = {each for each in map(Placement._make, triples) if is_possible(shot, each)}
        assert len(listed) == len(set(listed)) and set(listed) == wanted
        for place, placement in enumerate(listed):
            owner = shot.requests[int(starts.request[place])]
            assert starts.worth[place] == shot.worth(owner, placement.slice)


def test_a_table_is_the_best_of_all_lists_of_starts() -> None:
    draw = Random(5)
    for _ in range(40):
        shot = drawn_snapshot(draw, slices=6)
        starts = Starts.of(shot)
        prices = np.array([draw.randint(-40, 200) for _ in shot.requests], dtype=np.int64)
        table = Table.of(starts, prices)
        gains = starts.worth - prices[starts.request]
        for telescope, best in enumerate(table.best):
            own = [place for place in range(len(starts)) if starts.telescope[place] == telescope]
            assert best == _best_by_all_lists(starts, gains, own)
        chosen = table.chosen()
        assert gains[chosen].sum() == table.best.sum()
        assert _no_slice_twice(starts, chosen)


def _best_by_all_lists(starts: Starts, gains, places: list[int], slice_: int = 0) -> int:
    after = [place for place in places if starts.slice[place] >= slice_]
    return max(
        (
            gains[place] + _best_by_all_lists(starts, gains, after, int(starts.slice[place] + starts.size[place]))
            for place in after
            if gains[place] > 0
        ),
        default=0,
    )


def _no_slice_twice(starts: Starts, chosen) -> bool:
    cells = [
        (int(starts.telescope[place]), int(starts.slice[place]) + step)
        for place in chosen
        for step in range(int(starts.size[place]))
    ]
    return len(cells) == len(set(cells))


@pytest.mark.parametrize("operator", Operator)
def test_a_rebate_is_the_greatest_allowed_sum(operator: Operator) -> None:
    draw = Random(7)
    for _ in range(50):
        net = [draw.randint(-9, 9) for _ in range(1 if operator is Operator.SINGLE else draw.randint(2, 4))]
        allowed = chain.from_iterable(combinations(net, count) for count in range(len(net) + 1))
        if operator is Operator.ONEOF:
            allowed = (each for each in allowed if len(each) <= 1)
        if operator is Operator.AND:
            allowed = (each for each in allowed if len(each) in (0, len(net)))
        assert rebate(operator, np.array(net)) == max(map(sum, allowed))


@pytest.mark.parametrize("shot", [ONE, AND_OF_TWO, ONEOF_ON_TWO, WITH_QUOTA, FADING])
def test_documents_are_read_back(shot: Snapshot) -> None:
    assert read_snapshot(Document(shot.document(), "snapshot")) == shot


@pytest.mark.parametrize("case", CERTIFIED)
def test_claims_are_read_back(case: str) -> None:
    sent = CERTIFIED[case][1]
    assert read_claim(Document(sent.document(), "claim")) == sent
