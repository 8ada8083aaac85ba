"""The linear relaxation of a snapshot's plans, and the prices that it gives."""

from __future__ import annotations

from dataclasses import dataclass
from typing import Sequence

import numpy as np

from purvelj.bound import Table, bound_of
from purvelj.model import MOST_PRICE, MOST_QUOTA_PRICE, Snapshot
from purvelj.starts import Ints, Run, Starts
from purvelj.tighten.programs import (
    Floats,
    Groups,
    Program,
    Rows,
    flow_rows,
    quota_of_requests,
    quota_rows,
    seconds_of_requests,
    span_rows,
)


@dataclass(frozen=True)
class Prices:
    """Prices with fractions.

    ``net`` are the requests' prices less what their seconds cost at the prices of quotas.
    """

    net: Floats
    quota: Floats

    def towards(self, other: Prices, part: float) -> Prices:
        """The prices that lie so far on the way to others: 0 for these, 1 for the others."""
        return Prices(self.net + part * (other.net - self.net), self.quota + part * (other.quota - self.quota))


@dataclass(frozen=True)
class WholePrices:
    """Prices in whole numbers, as a claim has them."""

    requests: Ints
    quotas: tuple[int, ...]

    @staticmethod
    def rounded(snapshot: Snapshot, prices: Prices) -> WholePrices:
        """The nearest whole prices whose net prices are whole, within the ranges of a claim."""
        quotas = np.clip(np.rint(prices.quota), 0, MOST_QUOTA_PRICE).astype(np.int64)
        requests = np.rint(prices.net).astype(np.int64) + quota_costs(snapshot, quotas)
        return WholePrices(np.clip(requests, -MOST_PRICE, MOST_PRICE), tuple(int(each) for each in quotas))

    def fractional(self, snapshot: Snapshot) -> Prices:
        """The same prices, net."""
        quotas = np.array(self.quotas or (0,) * len(snapshot.quotas), dtype=np.int64)
        return Prices((self.requests - quota_costs(snapshot, quotas)).astype(float), quotas.astype(float))

    def bound(self, starts: Starts) -> tuple[int, Table]:
        """The bound that the prices give, exactly, and the telescopes' table that it stands on."""
        table = Table.of(starts, self.requests)
        return bound_of(starts.snapshot, table, self.requests, self.quotas), table


@dataclass(frozen=True)
class Solution:
    """A solution of a relaxation: its value, its prices, and how much of each column it uses."""

    value: float
    prices: Prices
    used: Floats


class Relaxation:
    """The linear relaxation of a snapshot's plans, to be solved over any of its starts.

    Where ``quota_prices`` are given, the quotas are no rows: each of their seconds costs its price, and
    the quotas times the prices are part of the value.
    """

    def __init__(self, starts: Starts, quota_prices: Ints | None = None) -> None:
        self._starts = starts
        self._snapshot = starts.snapshot
        self._groups = Groups.of(starts.snapshot)
        self._quota_prices = quota_prices

    def solve(self, places: Ints, seconds: float, exact: bool) -> Solution:
        """Solves the relaxation over the starts at these places.

        ``exact`` is that of ``Program.relaxed``. ``NoSolution`` where it takes longer than the seconds.
        """
        request = self._starts.request[places]
        worth = self._starts.worth[places].astype(float)
        return self._solved(flow_rows(self._starts, places), request, worth, seconds, exact)

    def solve_coarsely(self, runs: Sequence[Run], seconds: float) -> Prices:
        """Prices of a relaxation that takes each usable span of a telescope for a number of slices.

        A run is one column, worth as much as its first start, that uses up its size in the span. It is
        small and fast, and its prices are a good place to begin at.
        """
        snapshot = self._snapshot
        request = np.array([run.request for run in runs], dtype=np.int64)
        worth = [snapshot.worth(snapshot.requests[run.request], snapshot.first + run.first) for run in runs]
        slices = span_rows(snapshot, runs)
        return self._solved(slices, request, np.array(worth, dtype=float), seconds, exact=True).prices

    def _solved(self, slices: Rows, request: Ints, worth: Floats, seconds: float, exact: bool) -> Solution:
        snapshot = self._snapshot
        quotas, constant, others = self._quota_prices, 0.0, []
        if quotas is None:
            others = [quota_rows(snapshot, request, snapshot.quotas)]
        else:
            worth = worth - quota_costs(snapshot, quotas)[request]
            constant = float(quotas @ np.array(snapshot.quotas, dtype=np.int64))
        program = Program.over(slices, self._groups, request, worth, others)
        value, used, prices = program.relaxed(seconds, exact)
        quota_prices = prices[2] if quotas is None else quotas.astype(float)
        return Solution(value + constant, Prices(prices[1][self._groups.row], quota_prices), used)


def quota_costs(snapshot: Snapshot, quota_prices: Ints) -> Ints:
    """What each request's seconds cost at the price of the quota that its group names."""
    named = quota_of_requests(snapshot)
    if not len(quota_prices):
        return np.zeros(len(named), dtype=np.int64)
    return np.where(named >= 0, quota_prices[named], 0) * seconds_of_requests(snapshot)
