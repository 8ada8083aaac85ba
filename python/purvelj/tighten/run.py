"""From a snapshot and a certified claim to a claim with a lower bound and a better plan."""

from __future__ import annotations

import time
from dataclasses import dataclass
from typing import Callable

from purvelj.checker import Verdict, check
from purvelj.errors import PurveljError, Status
from purvelj.model import Claim, Snapshot
from purvelj.starts import Starts, runs_of
from purvelj.tighten.planning import Planner
from purvelj.tighten.programs import NoSolution
from purvelj.tighten.search import Search

#: The part of all seconds that the search for prices may take.
PART_FOR_PRICES = 0.6


class NotCertified(PurveljError):
    """The checker says No to a claim; ``verdict`` has its reason."""

    status = Status.NO

    def __init__(self, verdict: Verdict) -> None:
        super().__init__(f"the claim isn't certified for the snapshot: {verdict.text()}")
        self.verdict = verdict


@dataclass(frozen=True)
class Step:
    """How far the search has come: what it is about, the best bound and value, and the seconds gone."""

    stage: str
    bound: int
    value: int
    starts: int
    seconds: float


@dataclass(frozen=True)
class Tightened:
    """The claim that was handed in, and the one that was found.

    Its bound is at most the first one's, its value at least. ``in_time`` tells whether HiGHS solved the
    relaxation within the seconds that it had; where it didn't, the claim is the best that was found.
    """

    before: Claim
    claim: Claim
    in_time: bool
    seconds: float


def tighten(
    snapshot: Snapshot,
    claim: Claim,
    seconds: float = 300.0,
    told: Callable[[Step], None] = lambda step: None,
) -> Tightened:
    """Lowers the bound of a claim and looks for a plan of greater value, for about so many seconds.

    What is found is certified: the plan is feasible, and value and bound are computed exactly in whole
    numbers. ``NotCertified`` where the claim handed in isn't. ``told`` hears of each step.
    """
    begun = time.monotonic()
    runs = runs_of(snapshot)
    starts = Starts.of(snapshot, runs)
    _test(snapshot, claim, starts)

    def gone() -> float:
        return time.monotonic() - begun

    search = Search(starts, claim, lambda bound, used: told(Step("prices", bound, claim.value, used, gone())))
    in_time = True
    try:
        search.run(runs, lambda: PART_FOR_PRICES * seconds - gone())
    except NoSolution:
        in_time = False
    planner = Planner(
        starts,
        claim.placements,
        lambda value: told(Step("plan", search.bound, value, len(search.places), gone())),
    )
    planner.run(
        search.prices, search.used, runs, lambda: 0.0 if planner.value == search.bound else seconds - gone()
    )
    found = _claim(search, planner)
    _test(snapshot, found, starts)
    return Tightened(claim, found, in_time, gone())


def _claim(search: Search, planner: Planner) -> Claim:
    """The best plan that was found, with the best prices."""
    prices = tuple(int(price) for price in search.prices.requests)
    return Claim(planner.plan.placements(), prices, planner.value, search.bound, search.prices.quotas)


def _test(snapshot: Snapshot, claim: Claim, starts: Starts) -> None:
    verdict = check(snapshot, claim, starts)
    if not verdict.yes:
        raise NotCertified(verdict)
