"""What lists and pictures show, as plain values: a plan over its telescopes, and accounts with their shares."""

from __future__ import annotations

from collections import Counter
from dataclasses import dataclass

from purvelj.errors import DocumentError
from purvelj.model import Claim, Placement, Snapshot
from purvelj.moments import LAST
from purvelj.spans import Span, Spans, meet
from purvelj.story import Key, Story


@dataclass(frozen=True)
class Row:
    """A telescope: its name, the seconds in which it can be used, its night, and when it is closed.

    Night and closures are empty where they aren't known.
    """

    name: str
    usable: Spans
    night: Spans
    closed: Spans


@dataclass(frozen=True)
class Bar:
    """A request on a telescope's row, its group and its proposal if they are known, and whether it is running.

    One that is ``gone`` ended, expired or was taken back since it was placed, so it won't start.
    """

    row: int
    span: Span
    request: int
    group: int | None
    proposal: str | None
    running: bool = False
    gone: bool = False


@dataclass(frozen=True)
class PlanView:
    """A plan: its telescopes, what is placed or running on them, and its value beside its bound.

    ``proposals`` are all that are known, placed or not, so that each keeps its colour from plan to plan.
    """

    horizon: Span
    rows: tuple[Row, ...]
    bars: tuple[Bar, ...]
    claim: Claim
    version: int
    now: int | None
    proposals: tuple[str, ...]


@dataclass(frozen=True)
class Share:
    """An account, in seconds: what of its grants was used, is held, is planned of that, and is left.

    ``used`` is None where the grants aren't known.
    """

    key: Key
    used: int | None
    held: int
    planned: int
    available: int

    @property
    def name(self) -> str:
        """Proposal, account and instrument type."""
        return " ".join(part for part in self.key if part)


def plan_view(story: Story) -> PlanView:
    """The view of the last export; ``DocumentError`` where there is none."""
    if story.exported is None:
        raise DocumentError("", "there is no reply to an `export` line to take a plan from")
    snapshot, claim = story.exported.snapshot, story.exported.claim
    if story.published and set(story.published.placements) != set(claim.placements):
        story.notes.append("another plan was published after the last export: an `export` line has it shown")
    horizon = snapshot.horizon
    rows = tuple(_row(story, snapshot, number) for number in range(len(snapshot.telescopes)))
    bars = [bar for placement in claim.placements for bar in _placed(story, snapshot, placement)]
    others = sorted(set(story.running) - {placement.request for placement in claim.placements})
    bars += [bar for request in others for bar in _running(story, snapshot, request, story.seconds_of(request))]
    spans = [bar.span for bar in bars] + [horizon]
    drawn = Span(min(span.start for span in spans), max(span.end for span in spans))
    if drawn.end > LAST:
        raise DocumentError("snapshot", "its horizon ends after the year 9999, which can't be drawn")
    return PlanView(
        horizon=drawn,
        rows=rows,
        bars=tuple(sorted(bars, key=lambda bar: (bar.row, bar.span))),
        claim=claim,
        version=snapshot.version,
        now=story.now,
        proposals=tuple(sorted({owner.proposal for owner in story.owners.values()})),
    )


def shares(story: Story) -> tuple[Share, ...]:
    """The shares of the last balances; ``DocumentError`` where there are none."""
    if story.balances is None:
        raise DocumentError("", "there is no reply to a `balances` line to draw shares from")
    planned = _planned(story)
    return tuple(
        Share(
            key,
            story.granted_then[key] - balance.balance if key in story.granted_then else None,
            balance.balance - balance.available,
            min(planned[key], balance.balance - balance.available),
            balance.available,
        )
        for balance in story.balances
        for key in [(balance.proposal, balance.account, balance.instrument_type)]
    )


def _placed(story: Story, snapshot: Snapshot, placement: Placement) -> list[Bar]:
    number = placement.request
    if number not in snapshot.places:
        raise DocumentError("claim", f"it places the request {number}, which the snapshot doesn't have")
    if placement.telescope >= len(snapshot.telescopes):
        text = f"it places the request {number} on telescope {placement.telescope}, which the snapshot doesn't have"
        raise DocumentError("claim", text)
    own = snapshot.requests[snapshot.places[number]]
    if number in story.running:
        # A later plan that wasn't exported may have it elsewhere.
        return _running(story, snapshot, number, own.seconds)
    span = snapshot.span_of(own, placement.slice)
    group, proposal = _group_of(story, snapshot, number), story.proposal_of(number)
    return [Bar(placement.telescope, span, number, group, proposal, gone=number in story.gone)]


def _group_of(story: Story, snapshot: Snapshot, request: int) -> int | None:
    """The number of a request's group, if the snapshot or the story has it."""
    place = snapshot.places.get(request)
    if place is not None:
        return snapshot.groups[snapshot.group_places[place]].number
    owner = story.owners.get(request)
    return owner.group if owner else None


def _row(story: Story, snapshot: Snapshot, number: int) -> Row:
    telescope = snapshot.telescopes[number]
    named = story.telescopes.get(number)
    name = str(named) if named else f"telescope {number}, site {telescope.site}"
    horizon = (snapshot.horizon,)
    night = meet(story.nights.get(named.site, ()), horizon) if named else ()
    closed = meet(story.closures.get(number, ()), night) if night else ()
    return Row(name, meet(telescope.usable, horizon), night, closed)


def _running(story: Story, snapshot: Snapshot, request: int, seconds: int | None) -> list[Bar]:
    """The bar of what is running, and takes so many seconds, if they are known; a note where there can't be one."""
    placement = story.running[request]
    if seconds is None:
        story.notes.append(
            f"request {request} is running, and how long isn't known without the lines that were sent"
        )
        return []
    if placement.telescope >= len(snapshot.telescopes):
        where = f"telescope {placement.telescope}, which the last export doesn't have"
        story.notes.append(f"request {request} is running on {where}")
        return []
    start = placement.slice * snapshot.slice_seconds
    span = Span(start, start + seconds)
    group = _group_of(story, snapshot, request)
    return [Bar(placement.telescope, span, request, group, story.proposal_of(request), running=True)]


def _planned(story: Story) -> Counter[Key]:
    """The seconds that what was placed or running at the last balances takes from each account."""
    planned: Counter[Key] = Counter()
    for request in story.placed_then:
        owner = story.owners.get(request)
        if owner is not None and owner.seconds is not None:
            planned[owner.key] += owner.seconds
    return planned
