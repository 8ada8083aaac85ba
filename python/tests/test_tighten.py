"""Tightened claims, beside all plans of small snapshots and on a small network."""

from __future__ import annotations

from dataclasses import replace
from random import Random

import numpy as np
import pytest

from all_plans import best_value
from drawn import drawn_network, drawn_snapshot
from purvelj.bound import bound
from purvelj.checker import check, is_feasible, value_of
from purvelj.model import Claim, Snapshot
from purvelj.plans import PlanBuilder
from purvelj.starts import Starts, runs_of
from purvelj.tighten import NotCertified, tighten
from purvelj.tighten.programs import NoSolution
from purvelj.tighten.search import Search
from snapshots import AND_IN_ONE_SLICE, FADING, ONE, ONE_CLAIM, ONEOF_ON_TWO, TWO, WITH_QUOTA, single, snapshot


def greedy_claim(shot: Snapshot) -> Claim:
    """The greedy plan, with prices equal to the values."""
    starts = Starts.of(shot)
    plan = PlanBuilder(starts)
    plan.fill()
    prices = tuple(request.value for request in shot.requests)
    return Claim(plan.placements(), prices, plan.value, bound(starts, np.array(prices), ()))


def grown(shot: Snapshot, factor: int) -> Snapshot:
    """The snapshot with every value so many times as great."""
    groups = (
        replace(
            group, requests=tuple(replace(request, value=factor * request.value) for request in group.requests)
        )
        for group in shot.groups
    )
    return replace(shot, groups=tuple(groups))


@pytest.mark.parametrize(
    "shot, value, wanted",
    [
        (ONE, 50_000, 50_000),
        (TWO, 100_000, 100_000),
        (AND_IN_ONE_SLICE, 0, 50_000),
        (ONEOF_ON_TWO, 50_000, 50_000),
        (FADING, 35_000, 35_000),
        (snapshot(single(1, (0, 300), (300, 600), seconds=600)), 0, 0),
        (snapshot(*(single(n, seconds=301, value=60_000) for n in (1, 2)), slices=3), 60_000, 60_000),
    ],
)
def test_worked_snapshots(shot: Snapshot, value: int, wanted: int) -> None:
    found = tighten(shot, greedy_claim(shot)).claim
    assert (found.value, found.bound) == (value, wanted)


def test_a_quota_has_a_whole_price() -> None:
    found = tighten(WITH_QUOTA, greedy_claim(WITH_QUOTA)).claim
    assert (found.value, found.quota_prices, found.bound) == (50_000, (167,), 50_100)


@pytest.mark.parametrize("quotas", [False, True])
def test_plans_are_the_best_of_all(quotas: bool) -> None:
    draw = Random(11)
    closed = tried = 0
    while tried < 60:
        shot = grown(drawn_snapshot(draw, slices=5, quotas=quotas), 1000)
        if len(Starts.of(shot)) > 50:
            continue
        tried += 1
        before = greedy_claim(shot)
        found = tighten(shot, before).claim
        assert check(shot, found).yes
        assert found.value == best_value(shot)
        assert found.value <= found.bound <= before.bound
        closed += found.gap == 0
    assert closed >= (45 if quotas else 55)


@pytest.fixture
def some(monkeypatch: pytest.MonkeyPatch) -> None:
    """Has programs be over some of the starts, however few there are."""
    monkeypatch.setattr("purvelj.tighten.search.MOST_AT_ONCE", 0)
    monkeypatch.setattr("purvelj.tighten.planning.MOST_AT_ONCE", 0)


def test_a_network_is_tightened_over_some_of_its_starts(some: None, monkeypatch: pytest.MonkeyPatch) -> None:
    # However busy the machine is, the prices have the time that they need, which alone brings the bound so far down.
    monkeypatch.setattr("purvelj.tighten.run.PART_FOR_PRICES", 100.0)
    shot = drawn_network(Random(1))
    before = greedy_claim(shot)
    found = tighten(shot, before, seconds=4.0)
    assert found.in_time
    assert found.claim.gap_percent < 1.5 < before.gap_percent


def test_plans_over_some_of_the_starts_are_mostly_better_where_they_can_be(some: None) -> None:
    draw = Random(11)
    can_be = better = 0
    while can_be < 10:
        shot = grown(drawn_snapshot(draw, slices=5), 1000)
        if len(Starts.of(shot)) > 50:
            continue
        before, best = greedy_claim(shot), best_value(shot)
        found = tighten(shot, before).claim
        assert check(shot, found).yes
        assert before.value <= found.value <= best
        can_be += before.value < best
        better += before.value < found.value
    assert better > 5


def test_a_filled_plan_has_room_for_nothing() -> None:
    draw = Random(2)
    for _ in range(60):
        shot = drawn_snapshot(draw, quotas=True)
        starts = Starts.of(shot)
        plan = PlanBuilder(starts)
        plan.fill()
        placements = plan.placements()
        assert is_feasible(shot, placements)
        assert plan.value == value_of(shot, placements)
        for place in range(len(starts)):
            if not plan.is_placed(int(starts.request[place])):
                assert _is_and(shot, int(starts.request[place])) or not is_feasible(
                    shot, (*placements, starts.placement(place))
                )


def test_starts_are_sorted_by_request_once_for_all_plans(monkeypatch: pytest.MonkeyPatch) -> None:
    sorted_again: list[int] = []

    def argsort(array: np.ndarray, **members) -> np.ndarray:
        sorted_again.append(len(array))
        return array.argsort(**members)

    monkeypatch.setattr("numpy.argsort", argsort)
    starts = Starts.of(drawn_network(Random(1)))
    for _ in range(3):
        PlanBuilder(starts).fill()
    assert sorted_again == [len(starts)]
    assert [len(each) for each in starts.of_request] == np.bincount(starts.request).tolist()
    assert all((starts.request[each] == place).all() for place, each in enumerate(starts.of_request))


def _is_and(shot: Snapshot, request: int) -> bool:
    return shot.groups[shot.group_places[request]].operator.value == "AND"


def test_a_wrong_claim_is_refused() -> None:
    with pytest.raises(NotCertified, match="BoundDiffers"):
        tighten(ONE, replace(ONE_CLAIM, bound=50_001))


def test_no_time_leaves_the_claim_as_it_was() -> None:
    shot = drawn_network(Random(1))
    before = greedy_claim(shot)
    found = tighten(shot, before, seconds=0.0)
    assert not found.in_time
    assert found.claim.bound <= before.bound and found.claim.value >= before.value
    assert check(shot, found.claim).yes


def test_a_search_without_time_raises() -> None:
    shot = drawn_network(Random(1))
    search = Search(Starts.of(shot), greedy_claim(shot), lambda bound, used: None)
    with pytest.raises(NoSolution, match="time was over"):
        search.run(runs_of(shot), lambda: 0.0)
