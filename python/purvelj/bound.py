"""The bound that prices give, computed exactly in whole numbers.

The bound is the sum over the telescopes of the best that their starts can give beyond the prices of
their requests, plus the sum over the groups of their rebates, plus each quota times its price. No
feasible plan is worth more, whatever the prices.
"""

from __future__ import annotations

from typing import Sequence

import numpy as np

from purvelj.model import Group, Operator, Snapshot
from purvelj.starts import Ints, Starts


class Table:
    """The best of each telescope from each slice on, for what each start gains.

    ``values[k, t]`` is the greatest sum of gains over starts of telescope ``t`` at slice ``k`` or
    later, of which no two share a slice. Slices count from the horizon's first.
    """

    def __init__(self, shape: tuple[int, int], telescope: Ints, slice_: Ints, size: Ints, gains: Ints) -> None:
        """``shape`` is how many slices and telescopes there are; the starts are in order of slice, telescope."""
        slices, telescopes = shape
        self._used = np.flatnonzero(gains > 0)
        self._gains = gains[self._used]
        self._telescope = telescope[self._used]
        self._slice = slice_[self._used]
        self._after = (self._slice + size[self._used]) * telescopes + self._telescope
        self.values = self._filled(slices, telescopes)

    @staticmethod
    def of(starts: Starts, prices: Ints) -> Table:
        """The table in which a start gains its worth less its request's price."""
        gains = starts.worth - prices[starts.request]
        return Table(starts.shape, starts.telescope, starts.slice, starts.size, gains)

    def _filled(self, slices: int, telescopes: int) -> Ints:
        values = np.zeros((slices + 1, telescopes), dtype=np.int64)
        flat = values.reshape(-1)
        cells = self._slice * telescopes + self._telescope
        heads = np.flatnonzero(np.diff(cells, prepend=-1))
        head_telescopes = self._telescope[heads]
        bounds = np.searchsorted(self._slice[heads], np.arange(slices + 1))
        places = np.append(heads, len(cells))
        for k in range(slices - 1, -1, -1):
            row = values[k]
            row[:] = values[k + 1]
            low, high = bounds[k], bounds[k + 1]
            if low == high:
                continue
            start, end = places[low], places[high]
            sums = self._gains[start:end] + flat[self._after[start:end]]
            which = head_telescopes[low:high]
            row[which] = np.maximum(row[which], np.maximum.reduceat(sums, heads[low:high] - start))
        return values

    @property
    def best(self) -> Ints:
        """The best of each telescope over the whole horizon."""
        best: Ints = self.values[0]
        return best

    def chosen(self) -> Ints:
        """Places of starts that reach the best of each telescope, by telescope and then slice."""
        telescopes = self.values.shape[1]
        flat = self.values.reshape(-1)
        cells = self._slice * telescopes + self._telescope
        chosen: list[int] = []
        for t in range(telescopes):
            changes = np.flatnonzero(np.diff(self.values[:, t]))
            k = 0
            while (step := int(np.searchsorted(changes, k))) < len(changes):
                k = int(changes[step])
                low, high = np.searchsorted(cells, (k * telescopes + t, k * telescopes + t + 1))
                sums = self._gains[low:high] + flat[self._after[low:high]]
                place = int(low) + int(np.argmax(sums))
                chosen.append(int(self._used[place]))
                k = int(self._after[place]) // telescopes
        return np.array(chosen, dtype=np.int64)


def through(starts: Starts, prices: Ints, table: Table) -> Ints:
    """For each start the best of its telescope over lists that have it, for prices and their table."""
    slices = starts.snapshot.slices
    gains = starts.worth - prices[starts.request]
    mirrored = slices - starts.slice - starts.size
    order = np.lexsort((starts.telescope, mirrored))
    before = Table(starts.shape, starts.telescope[order], mirrored[order], starts.size[order], gains[order])
    return (
        before.values[slices - starts.slice, starts.telescope]
        + gains
        + table.values[starts.slice + starts.size, starts.telescope]
    )


def net_prices(snapshot: Snapshot, prices: Ints, quota_prices: Sequence[int]) -> Ints:
    """Each request's price less what its seconds cost at the price of the quota that its group names."""
    if not quota_prices:
        return prices
    costs = [
        0 if group.quota is None else quota_prices[group.quota] * request.seconds
        for group in snapshot.groups
        for request in group.requests
    ]
    return prices - np.array(costs, dtype=np.int64)


def rebate(operator: Operator, net: Ints) -> int:
    """The greatest sum of a group's net prices over the sets of its requests that may be placed."""
    if operator is Operator.ONEOF:
        return max(0, int(net.max()))
    if operator is Operator.AND:
        return max(0, int(net.sum()))
    return int(np.maximum(net, 0).sum())


def bound(starts: Starts, prices: Ints, quota_prices: Sequence[int]) -> int:
    """The bound of two lists of prices: of the requests and of the quotas, the latter perhaps empty."""
    return bound_of(starts.snapshot, Table.of(starts, prices), prices, quota_prices)


def bound_of(snapshot: Snapshot, table: Table, prices: Ints, quota_prices: Sequence[int]) -> int:
    """As ``bound``, where the table of these prices is at hand."""
    net = net_prices(snapshot, prices, quota_prices)
    rebates = sum(rebate(group.operator, net[low:high]) for group, low, high in group_parts(snapshot))
    quotas = sum(price * quota for price, quota in zip(quota_prices, snapshot.quotas))
    return int(table.best.sum()) + rebates + quotas


def group_parts(snapshot: Snapshot) -> list[tuple[Group, int, int]]:
    """Each group with the places of its first request and of the one after its last."""
    parts = []
    low = 0
    for group in snapshot.groups:
        parts.append((group, low, low + len(group.requests)))
        low += len(group.requests)
    return parts
