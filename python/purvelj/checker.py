"""Whether a claim is certified for a snapshot: the plan feasible, value and bound exact.

This check stands on the definitions alone and is written apart from the desk's. Its answer on an
exported document is that of ``plancheck check``.
"""

from __future__ import annotations

from collections import Counter
from dataclasses import dataclass, field
from typing import Iterator

import numpy as np

from purvelj.bound import bound
from purvelj.documents import compact
from purvelj.model import MOST_PRICE, MOST_QUOTA_PRICE, Claim, Operator, Placement, Snapshot
from purvelj.starts import Starts, is_possible


@dataclass(frozen=True)
class Verdict:
    """Yes, or No with the first reason against a claim and the reason's numbers."""

    value: int = 0
    bound: int = 0
    reason_number: int = 0
    reason: str = ""
    fields: dict[str, int] = field(default_factory=dict)

    @property
    def yes(self) -> bool:
        """Whether the claim is certified."""
        return not self.reason

    def text(self) -> str:
        """The verdict as one line of JSON."""
        if self.yes:
            return compact({"bound": self.bound, "ok": "yes", "value": self.value})
        return compact({"no": self.reason_number, "reason": self.reason, **self.fields})


Reason = tuple[int, str, dict[str, int]]


def check(snapshot: Snapshot, claim: Claim, starts: Starts | None = None) -> Verdict:
    """The verdict on a claim. Each test is made over the whole claim before the next.

    ``starts`` are the snapshot's, where they are at hand already.
    """
    reason = next(_reasons(snapshot, claim, starts), None)
    if reason is not None:
        return Verdict(reason_number=reason[0], reason=reason[1], fields=reason[2])
    return Verdict(value=claim.value, bound=claim.bound)


def is_feasible(snapshot: Snapshot, placements: tuple[Placement, ...]) -> bool:
    """Whether a plan keeps all rules: possible starts, each request once, no slice twice, groups and quotas."""
    return next(_plan_reasons(snapshot, placements), None) is None


def value_of(snapshot: Snapshot, placements: tuple[Placement, ...]) -> int:
    """What a plan of requests that are there is worth: the sum of what its starts are worth."""
    return sum(
        snapshot.worth(snapshot.requests[snapshot.places[placement.request]], placement.slice)
        for placement in placements
    )


def _reasons(snapshot: Snapshot, claim: Claim, starts: Starts | None) -> Iterator[Reason]:
    yield from _plan_reasons(snapshot, claim.placements)
    yield from _price_reasons(snapshot, claim)
    found = value_of(snapshot, claim.placements)
    if found != claim.value:
        yield 9, "ValueDiffers", {"claimed": claim.value, "found": found}
    prices = np.array(claim.prices, dtype=np.int64)
    found = bound(Starts.of(snapshot) if starts is None else starts, prices, claim.quota_prices)
    if found != claim.bound:
        yield 10, "BoundDiffers", {"claimed": claim.bound, "found": found}


def _plan_reasons(snapshot: Snapshot, placements: tuple[Placement, ...]) -> Iterator[Reason]:
    for index, placement in enumerate(placements):
        if placement.request not in snapshot.places:
            yield 1, "UnknownRequest", {"index": index}
    seen: set[int] = set()
    for index, placement in enumerate(placements):
        if placement.request in seen:
            yield 2, "PlacedTwice", {"index": index}
        seen.add(placement.request)
    for index, placement in enumerate(placements):
        if not is_possible(snapshot, placement):
            yield 3, "NotPossible", {"index": index}
    yield from _overlaps(snapshot, placements)
    placed = Counter(snapshot.group_places[snapshot.places[placement.request]] for placement in placements)
    for place, group in enumerate(snapshot.groups):
        if group.operator is Operator.ONEOF and placed[place] > 1:
            yield 5, "OneofTwice", {"group": group.number}
    for place, group in enumerate(snapshot.groups):
        if group.operator is Operator.AND and placed[place] not in (0, len(group.requests)):
            yield 6, "AndPartial", {"group": group.number}
    yield from _quota_reasons(snapshot, placements)


def _overlaps(snapshot: Snapshot, placements: tuple[Placement, ...]) -> Iterator[Reason]:
    taken: set[tuple[int, int]] = set()
    for index, placement in enumerate(placements):
        size = snapshot.size(snapshot.requests[snapshot.places[placement.request]])
        cells = {(placement.telescope, placement.slice + step) for step in range(size)}
        if taken & cells:
            yield 4, "Overlap", {"index": index}
        taken |= cells


def _quota_reasons(snapshot: Snapshot, placements: tuple[Placement, ...]) -> Iterator[Reason]:
    used = [0] * len(snapshot.quotas)
    for placement in placements:
        place = snapshot.places[placement.request]
        quota = snapshot.groups[snapshot.group_places[place]].quota
        if quota is not None:
            used[quota] += snapshot.requests[place].seconds
    for number, (seconds, most) in enumerate(zip(used, snapshot.quotas)):
        if seconds > most:
            yield 11, "QuotaOver", {"quota": number, "seconds": seconds, "most": most}


def _price_reasons(snapshot: Snapshot, claim: Claim) -> Iterator[Reason]:
    if len(claim.prices) != len(snapshot.requests):
        yield 7, "PriceCount", {"given": len(claim.prices), "wanted": len(snapshot.requests)}
    for index, price in enumerate(claim.prices):
        if not -MOST_PRICE <= price <= MOST_PRICE:
            yield 8, "PriceRange", {"index": index}
    if claim.quota_prices and len(claim.quota_prices) != len(snapshot.quotas):
        yield 12, "QuotaPriceCount", {"given": len(claim.quota_prices), "wanted": len(snapshot.quotas)}
    for index, price in enumerate(claim.quota_prices):
        if not 0 <= price <= MOST_QUOTA_PRICE:
            yield 13, "QuotaPriceRange", {"index": index}
