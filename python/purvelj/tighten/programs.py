"""Linear and integer programs over possible starts, and their solution by HiGHS.

Columns are starts, given by their places in ``Starts``; then come columns that a formulation adds of
its own, and last one column for each ``AND`` group.
"""

from __future__ import annotations

from bisect import bisect_right
from dataclasses import dataclass
from typing import Any, Sequence

import numpy as np
import numpy.typing as npt
from scipy.optimize import Bounds, LinearConstraint, linprog, milp
from scipy.sparse import coo_matrix, vstack

from purvelj.errors import PurveljError, Status
from purvelj.model import Operator, Snapshot
from purvelj.starts import Ints, Run, Starts

Floats = npt.NDArray[np.float64]
Matrix = Any
#: The greatest coefficient of an objective that HiGHS is given; values go up to 288,000,000.
GREATEST = 100_000.0
#: Statuses of ``linprog`` and ``milp``.
DONE, OUT_OF_TIME = 0, 1


class NoSolution(PurveljError):
    """HiGHS gave no solution within the time that it had."""

    status = Status.TIME


@dataclass(frozen=True)
class Rows:
    """Rows of a program, each with the greatest value that it may have, or the one that it has to have."""

    matrix: Matrix
    most: Floats
    equal: npt.NDArray[np.bool_]

    @staticmethod
    def at_most(entries: tuple[Any, Any, Any], most: Floats, columns: int) -> Rows:
        """Rows from their entries as data, row and column."""
        data, row, column = entries
        matrix = coo_matrix((data, (row, column)), shape=(len(most), columns)).tocsr()
        return Rows(matrix, most, np.zeros(len(most), dtype=bool))

    @property
    def columns(self) -> int:
        """How many columns the rows have."""
        return int(self.matrix.shape[1])

    def widened(self, columns: int) -> Rows:
        """The same rows with columns of zeros behind, so that there are so many."""
        wide = coo_matrix(self.matrix)
        wide.resize((len(self.most), columns))
        return Rows(wide.tocsr(), self.most, self.equal)


@dataclass(frozen=True)
class Groups:
    """How requests stand in the rows of groups.

    ``row[r]`` is the row of request ``r``: one a request, but one for all of a ``ONEOF``. ``ands`` has
    the first row of each ``AND`` and the one after its last; each of its requests is placed as often
    as the column of the group says.
    """

    row: Ints
    count: int
    ands: tuple[tuple[int, int], ...]

    @staticmethod
    def of(snapshot: Snapshot) -> Groups:
        """The rows of a snapshot's groups."""
        row: list[int] = []
        ands: list[tuple[int, int]] = []
        count = 0
        for group in snapshot.groups:
            size = len(group.requests)
            if group.operator is Operator.ONEOF:
                row.extend([count] * size)
                count += 1
                continue
            row.extend(range(count, count + size))
            if group.operator is Operator.AND:
                ands.append((count, count + size))
            count += size
        return Groups(np.array(row, dtype=np.int64), count, tuple(ands))

    def rows(self, request: Ints, before: int) -> Rows:
        """The rows for columns of these requests, where the columns of ``AND`` groups stand from ``before`` on."""
        tied = [row for low, high in self.ands for row in range(low, high)]
        ties = [before + place for place, (low, high) in enumerate(self.ands) for _ in range(low, high)]
        entries = (
            np.concatenate([np.ones(len(request)), -np.ones(len(tied))]),
            np.concatenate([self.row[request], np.array(tied, dtype=np.int64)]),
            np.concatenate([np.arange(len(request)), np.array(ties, dtype=np.int64)]),
        )
        most = np.ones(self.count)
        most[tied] = 0
        rows = Rows.at_most(entries, most, before + len(self.ands))
        rows.equal[tied] = True
        return rows


def quota_rows(snapshot: Snapshot, request: Ints, quotas: Sequence[int] | Ints) -> Rows:
    """Rows that keep the seconds of requests within the quotas that their groups name."""
    named = quota_of_requests(snapshot)[request]
    counted = np.flatnonzero(named >= 0)
    seconds = seconds_of_requests(snapshot)[request[counted]].astype(float)
    return Rows.at_most((seconds, named[counted], counted), np.array(quotas, dtype=float), len(request))


def clique_rows(starts: Starts, places: Ints) -> Rows:
    """Rows that let a slice of a telescope be used once.

    One row for each slice at which a column starts is enough: where columns share a slice, they share
    the first slice of the last of them.
    """
    width = starts.snapshot.slices + 1
    first = starts.telescope[places] * width + starts.slice[places]
    points = np.unique(first)
    low = np.searchsorted(points, first)
    counts = np.searchsorted(points, first + starts.size[places]) - low
    ends = np.cumsum(counts)
    row = np.arange(counts.sum()) + np.repeat(low - (ends - counts), counts)
    column = np.repeat(np.arange(len(places)), counts)
    return Rows.at_most((np.ones(len(row)), row, column), np.ones(len(points)), len(places))


def span_rows(snapshot: Snapshot, runs: Sequence[Run]) -> Rows:
    """A row for each usable span of a telescope, with the slices that runs in it take."""
    ends = [[span.end for span in telescope.usable] for telescope in snapshot.telescopes]
    before = np.cumsum([0] + [len(each) for each in ends])
    seconds = [(snapshot.first + run.first) * snapshot.slice_seconds for run in runs]
    row = [before[run.telescope] + bisect_right(ends[run.telescope], second) for run, second in zip(runs, seconds)]
    sizes = [float(snapshot.size(snapshot.requests[run.request])) for run in runs]
    length = snapshot.slice_seconds
    spans = [span for telescope in snapshot.telescopes for span in telescope.usable]
    most = np.array([max(0, span.end // length - -(-span.start // length)) for span in spans], dtype=float)
    return Rows.at_most((sizes, row, np.arange(len(runs))), most, len(runs))


def flow_rows(starts: Starts, places: Ints) -> Rows:
    """The same as flows: on each telescope one unit goes from its first slice to its last.

    It goes along a start from its slice to the one after its end, or along one of the columns that are
    added here, from each slice at which something starts or ends to the next such slice. These rows
    have few entries each, which suits an interior point method.
    """
    width = starts.snapshot.slices + 1
    tail = starts.telescope[places] * width + starts.slice[places]
    head = tail + starts.size[places]
    nodes = np.unique(np.concatenate([tail, head]))
    same = np.diff(nodes // width) == 0
    idle = np.flatnonzero(same)
    tails = np.concatenate([np.searchsorted(nodes, tail), idle])
    heads = np.concatenate([np.searchsorted(nodes, head), idle + 1])
    ones = np.ones(len(tails))
    units = np.zeros(len(nodes))
    units[np.flatnonzero(np.concatenate([[True], ~same]))] = 1
    kept = np.flatnonzero(np.concatenate([same, [False]]))
    entries = (
        np.concatenate([ones, -ones]),
        np.concatenate([tails, heads]),
        np.tile(np.arange(len(tails)), 2),
    )
    rows = Rows.at_most(entries, units, len(tails))
    return Rows(rows.matrix[kept], units[kept], np.ones(len(kept), dtype=bool))


def quota_of_requests(snapshot: Snapshot) -> Ints:
    """For each request the place of the quota that its group names, or -1."""
    named = (group.quota for group in snapshot.groups for _ in group.requests)
    return np.array([-1 if quota is None else quota for quota in named], dtype=np.int64)


def seconds_of_requests(snapshot: Snapshot) -> Ints:
    """How many seconds each request takes."""
    return np.array([request.seconds for request in snapshot.requests], dtype=np.int64)


@dataclass(frozen=True)
class Program:
    """Columns to be chosen so that what they are worth is greatest, within rows.

    The first columns are those with a worth; the last ``ands`` are those of ``AND`` groups, at most 1.
    """

    worth: Floats
    parts: tuple[Rows, ...]
    ands: int

    @staticmethod
    def over(slices: Rows, groups: Groups, request: Ints, worth: Floats, others: Sequence[Rows] = ()) -> Program:
        """The program of columns of these requests, of which ``slices`` may have more behind."""
        columns = slices.columns + len(groups.ands)
        parts = (slices, groups.rows(request, slices.columns), *others)
        return Program(worth, tuple(part.widened(columns) for part in parts), len(groups.ands))

    def relaxed(self, seconds: float, exact: bool) -> tuple[float, Floats, list[Floats]]:
        """The value, the columns and the prices of each part's rows of the linear program.

        ``exact`` asks for the simplex method, whose prices are whole more often; it is slow for more
        than some ten thousand columns. ``NoSolution`` where there is none within the seconds.
        """
        if seconds <= 0:
            raise NoSolution("the time was over before HiGHS was asked")
        matrix, most, equal = self._stacked()
        scale = self._scale()
        for method in ("highs-ds", "highs-ipm") if exact else ("highs-ipm", "highs-ds"):
            result = linprog(
                -scale * self._objective(),
                A_ub=matrix[~equal],
                b_ub=most[~equal],
                A_eq=matrix[equal],
                b_eq=most[equal],
                bounds=np.column_stack([np.zeros(matrix.shape[1]), self._upper()]),
                method=method,
                options={"time_limit": seconds},
            )
            if result.status == OUT_OF_TIME:
                raise NoSolution(f"HiGHS gave no solution of the relaxation within {seconds:.0f} s")
            if result.status == DONE:
                break
        else:
            raise NoSolution(f"HiGHS gave no solution of the relaxation: {result.message}")
        prices = np.empty(len(most))
        prices[equal] = -result.eqlin.marginals / scale
        prices[~equal] = -result.ineqlin.marginals / scale
        ends = np.cumsum([len(part.most) for part in self.parts])
        return -result.fun / scale, result.x[: len(self.worth)], np.split(prices, ends[:-1])

    def solved(self, seconds: float) -> Floats | None:
        """How much of each start the best whole solution has that is found within the seconds, if any is."""
        if seconds <= 0:
            return None
        matrix, most, equal = self._stacked()
        result = milp(
            -self._scale() * self._objective(),
            constraints=LinearConstraint(matrix, np.where(equal, most, -np.inf), most),
            integrality=np.ones(matrix.shape[1]),
            bounds=Bounds(0, np.ones(matrix.shape[1])),
            options={"time_limit": seconds, "mip_rel_gap": 0.0},
        )
        return None if result.x is None else result.x[: len(self.worth)]

    def _stacked(self) -> tuple[Matrix, Floats, npt.NDArray[np.bool_]]:
        matrix = vstack([part.matrix for part in self.parts]).tocsr()
        most = np.concatenate([part.most for part in self.parts])
        return matrix, most, np.concatenate([part.equal for part in self.parts])

    def _objective(self) -> Floats:
        columns = self.parts[0].columns
        return np.concatenate([self.worth, np.zeros(columns - len(self.worth))])

    def _upper(self) -> Floats:
        columns = self.parts[0].columns
        return np.concatenate([np.full(columns - self.ands, np.inf), np.ones(self.ands)])

    def _scale(self) -> float:
        return min(1.0, GREATEST / max(1.0, float(np.abs(self.worth).max(initial=0))))
