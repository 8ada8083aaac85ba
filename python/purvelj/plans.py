"""Plans that are made start by start."""

from __future__ import annotations

from functools import cached_property
from typing import Iterable

import numpy as np

from purvelj.bound import group_parts
from purvelj.model import Group, Operator, Placement
from purvelj.starts import Ints, Run, Starts


class PlanBuilder:
    """A plan over a snapshot's possible starts, which are given by their places in ``Starts``.

    It keeps that each request is placed once, no slice is used twice, and that quotas and the rule of
    ``ONEOF`` hold. An ``AND`` may be placed in part between two calls of ``add``.
    """

    def __init__(self, starts: Starts, places: Iterable[int] = ()) -> None:
        self._starts = starts
        snapshot = starts.snapshot
        self._groups = snapshot.group_places
        self._used = np.zeros((len(snapshot.telescopes), snapshot.slices), dtype=np.int64)
        self._sums = np.zeros((len(snapshot.telescopes), snapshot.slices + 1), dtype=np.int64)
        self._seconds = [0] * len(snapshot.quotas)
        self._placed: dict[int, int] = {}
        for place in places:
            self.add(place)

    @property
    def places(self) -> list[int]:
        """The places of the plan's starts."""
        return list(self._placed.values())

    @property
    def value(self) -> int:
        """What the plan is worth."""
        return int(self._starts.worth[self.places].sum())

    def placements(self) -> tuple[Placement, ...]:
        """The plan, by telescope and then slice."""
        placements = (self._starts.placement(place) for place in self.places)
        return tuple(sorted(placements, key=lambda each: (each.telescope, each.slice)))

    def places_of(self, placements: Iterable[Placement]) -> list[int]:
        """The places of placements that are possible starts of the snapshot."""
        snapshot = self._starts.snapshot
        found = []
        for request, telescope, slice_ in placements:
            own = self._starts.of_request[snapshot.places[request]]
            at = (self._starts.slice[own] == slice_ - snapshot.first) & (self._starts.telescope[own] == telescope)
            found.append(int(own[np.flatnonzero(at)[0]]))
        return found

    def free(self, places: Ints) -> Ints:
        """Those of the places whose slices nothing uses, by slice and then telescope."""
        telescope, first = self._starts.telescope[places], self._starts.slice[places]
        before = self._sums[telescope, first]
        return places[self._sums[telescope, first + self._starts.size[places]] == before]

    def earliest(self, request: int) -> int | None:
        """The request's earliest free start, on the lowest telescope, that its quota has room for."""
        if not self._has_room(request):
            return None
        free = self.free(self._starts.of_request[request])
        return int(free[0]) if len(free) else None

    def add(self, place: int) -> None:
        """Adds a free start of a request that isn't placed."""
        self._placed[int(self._starts.request[place])] = place
        self._count(place, 1)

    def add_within(self, run: Run) -> None:
        """Adds the earliest free start of a run, if there is one and its request isn't placed yet."""
        if self.is_placed(run.request) or not self._has_room(run.request):
            return
        own = self._starts.of_request[run.request]
        within = own[
            (self._starts.telescope[own] == run.telescope)
            & (self._starts.slice[own] >= run.first)
            & (self._starts.slice[own] < run.first + run.count)
        ]
        free = self.free(within)
        if len(free):
            self.add(int(free[0]))

    def drop_partial_ands(self) -> None:
        """Takes out what is placed of each ``AND`` that isn't placed whole."""
        for group, low, high in group_parts(self._starts.snapshot):
            placed = [request for request in range(low, high) if self.is_placed(request)]
            if group.operator is Operator.AND and len(placed) < high - low:
                for request in placed:
                    self.remove(request)

    def remove(self, request: int) -> None:
        """Takes a placed request out."""
        self._count(self._placed.pop(request), -1)

    def is_placed(self, request: int) -> bool:
        """Whether the request is placed."""
        return request in self._placed

    def fill(self) -> None:
        """Adds what can be added, group by group by falling worth, until nothing can be."""
        while any([self._fill_group(*part) for part in self._by_worth]):
            pass

    def _count(self, place: int, step: int) -> None:
        starts = self._starts
        telescope, first = starts.telescope[place], starts.slice[place]
        self._used[telescope, first : first + starts.size[place]] += step
        np.cumsum(self._used[telescope], out=self._sums[telescope, 1:])
        request = int(starts.request[place])
        quota = starts.snapshot.groups[self._groups[request]].quota
        if quota is not None:
            self._seconds[quota] += step * starts.snapshot.requests[request].seconds

    def _has_room(self, request: int) -> bool:
        snapshot = self._starts.snapshot
        quota = snapshot.groups[self._groups[request]].quota
        if quota is None:
            return True
        return self._seconds[quota] + snapshot.requests[request].seconds <= snapshot.quotas[quota]

    def _fill_group(self, group: Group, low: int, high: int) -> bool:
        """Whether something of the group was added."""
        members = range(low, high)
        if group.operator is Operator.AND:
            return not self.is_placed(low) and self._add_all(members)
        if group.operator is Operator.ONEOF:
            if any(map(self.is_placed, members)):
                return False
            requests = self._starts.snapshot.requests
            falling = sorted(members, key=lambda member: (-requests[member].value, member))
            return any(map(self._add_earliest, falling))
        return any([self._add_earliest(member) for member in members if not self.is_placed(member)])

    def _add_earliest(self, request: int) -> bool:
        place = self.earliest(request)
        if place is None:
            return False
        self.add(place)
        return True

    def _add_all(self, members: range) -> bool:
        for member in members:
            if not self._add_earliest(member):
                for added in range(members.start, member):
                    self.remove(added)
                return False
        return True

    @cached_property
    def _by_worth(self) -> list[tuple[Group, int, int]]:
        def worth(part: tuple[Group, int, int]) -> tuple[int, int]:
            values = [request.value for request in part[0].requests]
            return -(max(values) if part[0].operator is Operator.ONEOF else sum(values)), part[0].number

        return sorted(group_parts(self._starts.snapshot), key=worth)
