"""The search for the prices whose bound is least.

The relaxation is solved over a growing set of starts. Its prices, and prices on the way to them from
the best so far, are rounded and their bound is computed exactly; the starts that would be chosen at
them, and those that come nearest to being chosen, join the set. Where nothing joins, no prices are
better but for rounding.
"""

from __future__ import annotations

from typing import Callable

import numpy as np

from purvelj.bound import Table
from purvelj.model import Claim
from purvelj.starts import Ints, Run, Starts
from purvelj.tighten.programs import NoSolution
from purvelj.tighten.relaxation import Prices, Relaxation, WholePrices

#: Up to so many starts the relaxation is solved over all of them at once, by the simplex method.
MOST_AT_ONCE = 20_000
#: How many starts of each request join the set at first, and with each bound.
NEAREST_AT_FIRST, NEAREST = 4, 2
#: How far prices are tried on the way from the best to the relaxation's.
WAYS = (0.2, 0.5, 1.0)
#: The search ends where the bound is nearer to the relaxation's value than this part of it.
NEAR = 1e-5


class Search:
    """The best prices so far, their bound, and the starts over which the relaxation is solved."""

    def __init__(self, starts: Starts, claim: Claim, told: Callable[[int, int], None]) -> None:
        """Begins at a claim's prices; ``told`` hears of the bound and of how many starts are used."""
        self.starts = starts
        self.prices = WholePrices(np.array(claim.prices, dtype=np.int64), claim.quota_prices)
        self.bound, table = self.prices.bound(starts)
        self.places = np.array([], dtype=np.int64)
        self.used = np.array([], dtype=np.int64)
        self._told = told
        self._join(table, self.prices, NEAREST_AT_FIRST)

    def run(self, runs: list[Run], left: Callable[[], float]) -> None:
        """Lowers the bound while seconds are left.

        ``NoSolution`` where HiGHS needs longer; the best prices so far stay.
        """
        if not len(self.starts):
            self._try(self._zero(), 0)
            return
        self._try(Relaxation(self.starts).solve_coarsely(runs, left()), NEAREST_AT_FIRST)
        if len(self.starts) <= MOST_AT_ONCE:
            self.places = np.arange(len(self.starts))
        self._lower(Relaxation(self.starts), left)
        if self.starts.snapshot.quotas:
            quotas = self.prices.quotas or (0,) * len(self.starts.snapshot.quotas)
            self._lower(Relaxation(self.starts, np.array(quotas, dtype=np.int64)), left)

    def _lower(self, relaxation: Relaxation, left: Callable[[], float]) -> None:
        while left() > 0:
            places, best = self.places, self.prices.fractional(self.starts.snapshot)
            solution = relaxation.solve(places, left(), exact=len(self.starts) <= MOST_AT_ONCE)
            self.used = places[solution.used > 1e-7]
            for way in WAYS:
                self._try(best.towards(solution.prices, way), NEAREST)
            if self.bound - solution.value <= NEAR * solution.value or len(self.places) == len(places):
                return
        raise NoSolution("the prices were still getting better when the time was over")

    def _zero(self) -> Prices:
        snapshot = self.starts.snapshot
        return Prices(np.zeros(len(snapshot.requests)), np.zeros(len(snapshot.quotas)))

    def _try(self, prices: Prices, nearest: int) -> None:
        whole = WholePrices.rounded(self.starts.snapshot, prices)
        bound, table = whole.bound(self.starts)
        if bound < self.bound:
            self.prices, self.bound = whole, bound
        self._join(table, whole, nearest)
        self._told(self.bound, len(self.places))

    def _join(self, table: Table, prices: WholePrices, nearest: int) -> None:
        joined = np.union1d(table.chosen(), self._nearest(table, prices.requests, nearest))
        self.places = np.union1d(self.places, joined)

    def _nearest(self, table: Table, prices: Ints, count: int) -> Ints:
        """For each request the starts that fall short by the least of being chosen."""
        starts = self.starts
        short = (
            starts.worth
            - prices[starts.request]
            + table.values[starts.slice + starts.size, starts.telescope]
            - table.values[starts.slice, starts.telescope]
        )
        order = np.lexsort((-short, starts.request))
        request = starts.request[order]
        rank = np.arange(len(request)) - np.searchsorted(request, request)
        return order[rank < count]
