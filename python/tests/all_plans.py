"""The best plan of a small snapshot, found by trying all plans."""

from __future__ import annotations

from collections import Counter

from purvelj.model import Operator, Snapshot
from purvelj.starts import Starts


def best_value(snapshot: Snapshot) -> int:
    """What the best of all feasible plans is worth."""
    return _Trial(snapshot).best(0, frozenset(), Counter(), Counter())


class _Trial:
    def __init__(self, snapshot: Snapshot) -> None:
        self._snapshot = snapshot
        starts = Starts.of(snapshot)
        self._own: list[list[tuple[int, frozenset[tuple[int, int]]]]] = [[] for _ in snapshot.requests]
        for place in range(len(starts)):
            telescope, first = int(starts.telescope[place]), int(starts.slice[place])
            cells = frozenset((telescope, first + step) for step in range(int(starts.size[place])))
            self._own[int(starts.request[place])].append((int(starts.worth[place]), cells))

    def best(self, request: int, used: frozenset, placed: Counter, seconds: Counter) -> int:
        """The most that this request and those after it can add, or a number below 0 where no plan comes of it."""
        if request == len(self._snapshot.requests):
            return 0 if self._ands_are_whole(placed) else -(10**18)
        best = self.best(request + 1, used, placed, seconds)
        place = self._snapshot.group_places[request]
        group = self._snapshot.groups[place]
        length = self._snapshot.requests[request].seconds
        if group.operator is Operator.ONEOF and placed[place]:
            return best
        if group.quota is not None and seconds[group.quota] + length > self._snapshot.quotas[group.quota]:
            return best
        for worth, cells in self._own[request]:
            if not cells & used:
                after = placed + Counter([place]), seconds + Counter({group.quota: length})
                best = max(best, worth + self.best(request + 1, used | cells, *after))
        return best

    def _ands_are_whole(self, placed: Counter) -> bool:
        return all(
            placed[place] in (0, len(group.requests))
            for place, group in enumerate(self._snapshot.groups)
            if group.operator is Operator.AND
        )
