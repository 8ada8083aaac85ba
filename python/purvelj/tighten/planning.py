"""The search for a plan of great value, by integer programs over some of a snapshot's possible starts.

Prices tell for each start how much a plan that has it can be worth at most. Starts that no plan better
than the best so far can have are left out. Where few enough are left, one program is over all of them,
and its solution, if there is time for it, is the best plan there is. Else three kinds of program are
solved: over the starts that the relaxation uses; over runs, for each usable span of a telescope as a
whole; and over parts of the horizon, one after another, with all else kept.
"""

from __future__ import annotations

from typing import Callable, Iterator, Sequence

import numpy as np

from purvelj.bound import group_parts, net_prices, rebate, through
from purvelj.checker import is_feasible
from purvelj.model import Operator, Placement
from purvelj.plans import PlanBuilder
from purvelj.starts import Ints, Run, Starts
from purvelj.tighten.programs import (
    Groups,
    Program,
    clique_rows,
    quota_of_requests,
    quota_rows,
    seconds_of_requests,
    span_rows,
)
from purvelj.tighten.relaxation import WholePrices

#: One program is over all useful starts where there are at most so many.
MOST_AT_ONCE = 8_000
#: A program for a part of the horizon has at most so many columns and takes at most so many seconds.
MOST_IN_PART, MOST_SECONDS = 4_000, 10.0
#: The part of the seconds left that each of the first two programs may take.
FIRST_PART = 0.25
#: How many parts the horizon is cut into, in turn.
PARTS = (4, 6, 9, 14)


class Planner:
    """The best plan so far, and how to better it."""

    def __init__(self, starts: Starts, placements: tuple[Placement, ...], told: Callable[[int], None]) -> None:
        """Begins with a feasible plan, to which what can be added is added; ``told`` hears of each value."""
        self._starts = starts
        self._groups = Groups.of(starts.snapshot)
        self._told = told
        self._most = starts.worth
        self.plan = PlanBuilder(starts)
        self.plan = PlanBuilder(starts, self.plan.places_of(placements))
        self._take(self.plan.places)

    @property
    def value(self) -> int:
        """What the best plan so far is worth."""
        return self.plan.value

    def run(self, prices: WholePrices, used: Ints, runs: Sequence[Run], left: Callable[[], float]) -> None:
        """Looks for better plans while seconds are left; ``used`` are the starts that the relaxation uses."""
        self._most = self._most_with(prices)
        if self._improve_at_once(left):
            return
        self._improve(used, (), FIRST_PART * left())
        self._plan_by_spans(runs, FIRST_PART * left())
        for first, end in self._windows():
            if left() <= 0:
                return
            self._improve_part(first, end, min(left(), MOST_SECONDS))
        self._improve_at_once(left)

    def _improve_at_once(self, left: Callable[[], float]) -> bool:
        """Plans over all useful starts, if they are few enough; gives whether they are."""
        useful = np.flatnonzero(self._most > self.value)
        if len(useful) > MOST_AT_ONCE:
            return False
        self._improve(useful, (), left())
        return True

    def _most_with(self, prices: WholePrices) -> Ints:
        """For each start the most that a plan with it can be worth, by these prices."""
        starts, snapshot = self._starts, self._starts.snapshot
        bound, table = prices.bound(starts)
        net = net_prices(snapshot, prices.requests, prices.quotas)
        losses = np.zeros(len(net), dtype=np.int64)
        for group, low, high in group_parts(snapshot):
            own = net[low:high]
            if group.operator is Operator.ONEOF:
                losses[low:high] = rebate(group.operator, own) - own
            elif group.operator is Operator.AND:
                losses[low:high] = max(0, -int(own.sum()))
            else:
                losses[low:high] = np.maximum(0, -own)
        best = through(starts, prices.requests, table)
        return bound + best - table.best[starts.telescope] - losses[starts.request]

    def _improve(self, places: Ints, kept: Sequence[int], seconds: float) -> None:
        """Takes the plan that is best over these starts beside the kept ones, if one better is found in time."""
        if not len(places):
            return
        starts = self._starts
        request = starts.request[places]
        quotas = quota_rows(starts.snapshot, request, self._quotas_left(kept))
        worth = starts.worth[places].astype(float)
        program = Program.over(clique_rows(starts, places), self._groups, request, worth, [quotas])
        found = program.solved(seconds)
        if found is not None:
            self._take([*kept, *(int(place) for place in places[found > 0.5])])

    def _plan_by_spans(self, runs: Sequence[Run], seconds: float) -> None:
        """Deals out runs to the usable spans of telescopes, then places each as early as it can be.

        In a span those come first that can't start late.
        """
        snapshot = self._starts.snapshot
        request = np.array([run.request for run in runs], dtype=np.int64)
        worth = [snapshot.worth(snapshot.requests[run.request], snapshot.first + run.first) for run in runs]
        quotas = quota_rows(snapshot, request, snapshot.quotas)
        slices = span_rows(snapshot, runs)
        program = Program.over(slices, self._groups, request, np.array(worth, dtype=float), [quotas])
        found = program.solved(seconds)
        if found is None:
            return
        plan = PlanBuilder(self._starts)
        dealt = [run for run, part in zip(runs, found) if part > 0.5]
        for run in sorted(dealt, key=lambda run: (run.first + run.count, run.first)):
            plan.add_within(run)
        plan.drop_partial_ands()
        self._take(plan.places)

    def _windows(self) -> Iterator[tuple[int, int]]:
        """Parts of the horizon, from slice to slice, which overlap by half."""
        slices = self._starts.snapshot.slices
        for parts in PARTS:
            width = -(-slices // parts)
            for first in range(0, slices, max(1, width // 2)):
                yield first, first + width

    def _improve_part(self, first: int, end: int, seconds: float) -> None:
        """Plans anew what is placed in these slices, and what isn't placed."""
        kept = self._kept(first, end)
        useful = (self._most > self.value) & self._is_open(kept)[self._starts.request]
        free = PlanBuilder(self._starts, kept).free(np.flatnonzero(useful))
        own = np.intersect1d(np.array(self.plan.places, dtype=np.int64), free)
        others = np.setdiff1d(free, own)
        spread = np.random.default_rng(first).random(len(others))
        falling = others[np.lexsort((spread, -self._most[others]))]
        self._improve(np.union1d(own, falling[: max(0, MOST_IN_PART - len(own))]), kept, seconds)

    def _kept(self, first: int, end: int) -> list[int]:
        """The plan's starts that reach beyond these slices, with all of an ``AND`` of which one does."""
        starts, snapshot = self._starts, self._starts.snapshot
        places = self.plan.places
        groups = [snapshot.group_places[int(starts.request[place])] for place in places]
        beyond = [
            starts.slice[place] < first or starts.slice[place] + starts.size[place] > end for place in places
        ]
        whole = {
            group
            for group, outside in zip(groups, beyond)
            if outside and snapshot.groups[group].operator is Operator.AND
        }
        return [place for place, group, outside in zip(places, groups, beyond) if outside or group in whole]

    def _is_open(self, kept: Sequence[int]) -> Ints:
        """Which requests may be placed beside the kept ones."""
        snapshot = self._starts.snapshot
        groups = np.array(snapshot.group_places, dtype=np.int64)
        is_open = np.ones(len(groups), dtype=bool)
        for place in kept:
            request = int(self._starts.request[place])
            is_open[request] = False
            if snapshot.groups[groups[request]].operator in (Operator.ONEOF, Operator.AND):
                is_open[groups == groups[request]] = False
        return is_open

    def _quotas_left(self, kept: Sequence[int]) -> Ints:
        """What the kept starts leave of the quotas, in seconds."""
        snapshot = self._starts.snapshot
        rest = np.array(snapshot.quotas, dtype=np.int64)
        named, seconds = quota_of_requests(snapshot), seconds_of_requests(snapshot)
        for request in (int(self._starts.request[place]) for place in kept):
            if named[request] >= 0:
                rest[named[request]] -= seconds[request]
        return rest

    def _take(self, places: list[int]) -> None:
        plan = PlanBuilder(self._starts, places)
        plan.fill()
        if plan.value > self.value and is_feasible(self._starts.snapshot, plan.placements()):
            self.plan = plan
        self._told(self.value)
