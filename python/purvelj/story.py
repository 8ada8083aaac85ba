"""What a session's history tells beside its last publication: names, nights, closures, grants, what runs.

The replies alone tell numbers. Where the lines that were sent are at hand too, names, nights, closures
and grants are known.
"""

from __future__ import annotations

from dataclasses import dataclass, field
from typing import Any, Callable

from purvelj.documents import Document, elements, whole
from purvelj.errors import DocumentError
from purvelj.history import Exchange, History
from purvelj.model import MOST_NUMBER, Claim, Placement
from purvelj.moments import LAST, in_utc
from purvelj.replies import (
    Amended,
    Balance,
    Balances,
    Clocked,
    Completed,
    Exported,
    Failed,
    Published,
    Refused,
    Shown,
    Submitted,
    TelescopeAdded,
    Withdrawn,
)
from purvelj.spans import Span, Spans, minus, union

#: The account of each observation type.
ACCOUNT_OF = {
    "NORMAL": "standard",
    "TIME_CRITICAL": "time_critical",
    "RAPID_RESPONSE": "rapid_response",
}

Key = tuple[str, str, str]


@dataclass(frozen=True)
class Owner:
    """Whose a request is: its group, and the proposal, account and instrument type that it counts against.

    ``seconds`` is how long it takes, or None where that isn't known.
    """

    group: int
    key: Key
    seconds: int | None

    @property
    def proposal(self) -> str:
        """The proposal."""
        return self.key[0]


@dataclass(frozen=True)
class Named:
    """A telescope's codes."""

    site: str
    enclosure: str
    telescope: str

    def __str__(self) -> str:
        return f"{self.site} {self.enclosure} {self.telescope}"


@dataclass
class Story:
    """The state that the history leaves, as far as it is known. Telescopes and requests by their numbers.

    ``granted_then`` is what was granted before the last ``balances`` reply, and ``placed_then`` what was running or placed
    then. ``gone`` are the requests that ended, expired or were taken back since the last publication.
    """

    exported: Exported | None = None
    published: Claim | None = None
    balances: tuple[Balance, ...] | None = None
    now: int | None = None
    telescopes: dict[int, Named] = field(default_factory=dict)
    nights: dict[str, Spans] = field(default_factory=dict)
    closures: dict[int, Spans] = field(default_factory=dict)
    owners: dict[int, Owner] = field(default_factory=dict)
    granted: dict[Key, int] = field(default_factory=dict)
    granted_then: dict[Key, int] = field(default_factory=dict)
    placed_then: frozenset[int] = frozenset()
    running: dict[int, Placement] = field(default_factory=dict)
    gone: set[int] = field(default_factory=set)
    notes: list[str] = field(default_factory=list)
    _kept: dict[int, Placement] = field(default_factory=dict)
    _instruments: dict[str, Document] = field(default_factory=dict)

    def proposal_of(self, request: int) -> str | None:
        """The proposal of a request, if it is known."""
        owner = self.owners.get(request)
        return owner.proposal if owner else None

    def seconds_of(self, request: int) -> int | None:
        """How long a request takes, in seconds, if it is known."""
        owner = self.owners.get(request)
        return owner.seconds if owner else None

    def tell(self, exchange: Exchange) -> None:
        """Takes in one line and its replies."""
        reply = exchange.reply
        if isinstance(reply, Refused):
            return
        line = Document(exchange.command, f"line {reply.line}:")
        if not exchange.fits:
            raise DocumentError(f"line {reply.line}", "the output replies to it as to another line than the script has")
        _REPLIES.get(type(reply), lambda story, reply, line: None)(self, reply, line)
        if line.has("do"):
            _LINES.get(line.text("do"), lambda story, line: None)(self, line)

    def _tell_exported(self, reply: Exported, line: Document) -> None:
        """Takes in a reply to an ``export`` line."""
        if reply.claim != self.published:
            self.gone.clear()
        self.exported, self.published = reply, reply.claim

    def _tell_balances(self, reply: Balances, line: Document) -> None:
        """Takes in a reply to a ``balances`` line."""
        self.balances = reply.balances
        self.granted_then, self.placed_then = dict(self.granted), self._placed()

    def _tell_published(self, reply: Published, line: Document) -> None:
        """Takes in a claim that is published."""
        self.published = reply.claim
        self._kept = {each.request: each for each in reply.claim.placements}
        self.gone.clear()

    def _tell_clocked(self, reply: Clocked, line: Document) -> None:
        """Takes in a reply to a ``clock`` line."""
        for request in reply.started:
            if request in self._kept:
                self.running[request] = self._kept.pop(request)
        for request in reply.failed:
            self.running.pop(request, None)
        self.gone.update(reply.failed, reply.expired)

    def _tell_completed(self, reply: Completed, line: Document) -> None:
        """Takes in a reply to a report of a request that is completed."""
        self._end_one(line)
        self.gone.update(reply.canceled)

    def _tell_failed(self, reply: Failed, line: Document) -> None:
        """Takes in a reply to a report of a request that failed."""
        self._end_one(line)
        self.gone.update(reply.expired)

    def _tell_shown(self, reply: Shown, line: Document) -> None:
        """Takes in a reply to a ``show`` line."""
        self._own(Document(reply.document), reply.group, [number for number, _ in reply.requests])

    def _tell_submitted(self, reply: Submitted, line: Document) -> None:
        """Takes in a reply to a ``submit`` line."""
        if line.has("group"):
            self._own(line.object("group"), reply.group, reply.requests)

    def _tell_telescope(self, reply: TelescopeAdded, line: Document) -> None:
        """Takes in a reply to a ``telescope`` line."""
        if line.has("site"):
            codes = (line.text(name) for name in ("site", "enclosure", "telescope"))
            self.telescopes[reply.telescope] = Named(*codes)

    def _tell_amended(self, reply: Amended, line: Document) -> None:
        """Takes in a reply to an ``amend`` line."""
        self._tell_submitted(reply, line)
        self._tell_withdrawn(reply, line)

    def _tell_withdrawn(self, reply: Amended | Withdrawn, line: Document) -> None:
        """Takes in that the requests of a group are taken back."""
        if line.has("group_number"):
            group = line.whole("group_number", 0, MOST_NUMBER)
            self.gone.update(number for number, owner in self.owners.items() if owner.group == group)

    def open(self, line: Document) -> None:
        """Takes in an ``open`` line."""
        self.now = _moment(line.raw("now"), line.path_of("now"))

    def clock(self, line: Document) -> None:
        """Takes in a ``clock`` line."""
        self.now = _moment(line.raw("at"), line.path_of("at"))

    def instrument(self, line: Document) -> None:
        """Takes in an ``instrument`` line."""
        self._instruments[line.text("type")] = line

    def night(self, line: Document) -> None:
        """Takes in a ``night`` line."""
        self.nights[line.text("site")] = _spans(line)

    def close(self, line: Document) -> None:
        """Takes in a ``close`` line."""
        for telescope in self._scope(line):
            self.closures[telescope] = union(self.closures.get(telescope, ()) + _spans(line))

    def reopen(self, line: Document) -> None:
        """Takes in a ``reopen`` line."""
        for telescope in self._scope(line):
            self.closures[telescope] = minus(self.closures.get(telescope, ()), _spans(line))

    def grant(self, line: Document) -> None:
        """Takes in a ``grant`` line."""
        account = line.text("account")
        instrument = "" if account == "ipp" else line.text("instrument_type")
        key = (line.text("proposal"), account, instrument)
        self.granted[key] = self.granted.get(key, 0) + line.whole("seconds", 1, 10**9)

    def _scope(self, line: Document) -> list[int]:
        site, telescope = line.text("site"), line.raw_or("telescope", None)
        enclosure = line.raw_or("enclosure", None)
        return [
            number
            for number, named in self.telescopes.items()
            if named.site == site
            and (telescope is None or (named.enclosure, named.telescope) == (enclosure, telescope))
        ]

    def _placed(self) -> frozenset[int]:
        """The requests that run, and those that the last publication places and that aren't gone."""
        placed = {each.request for each in self.published.placements} if self.published else set()
        return frozenset(placed - self.gone | set(self.running))

    def _end_one(self, line: Document) -> None:
        if line.has("request"):
            request = line.whole("request", 0, MOST_NUMBER)
            self.running.pop(request, None)
            self.gone.add(request)
            return
        if len(self.running) > 1:
            self.notes.append("which requests were reported isn't known without the lines that were sent")
        self.gone.update(self.running)
        self.running.clear()

    def _own(self, document: Document, group: int, numbers: list[int] | tuple[int, ...]) -> None:
        account = ACCOUNT_OF.get(document.text("observation_type"), "standard")
        requests = document.objects("requests", 1)
        for place, number in enumerate(numbers):
            request = requests[place] if len(requests) == len(numbers) else requests[0]
            instrument = request.objects("configurations", 1)[0].text("instrument_type")
            key = (document.text("proposal"), account, instrument)
            self.owners[number] = Owner(group, key, self._seconds(request, instrument))

    def _seconds(self, request: Document, instrument: str) -> int | None:
        """How long a request takes: its exposures and the overheads of its instrument type."""
        times = self._instruments.get(instrument)
        if times is None:
            return None
        readout, change = _milliseconds(times, "readout_ms"), _milliseconds(times, "change_ms")
        total = _milliseconds(times, "front_ms")
        for configuration in request.objects("configurations"):
            total += _milliseconds(times, "config_ms")
            for exposures in configuration.objects("instrument_configs"):
                one = exposures.whole("exposure_time_ms", 1, 86_400_000) + readout
                total += exposures.whole("exposure_count", 1, 10_000) * one + change
        return -(-total // 1000)


_LINES: dict[str, Callable[[Story, Document], None]] = {
    "open": Story.open,
    "clock": Story.clock,
    "instrument": Story.instrument,
    "night": Story.night,
    "close": Story.close,
    "reopen": Story.reopen,
    "grant": Story.grant,
}

_REPLIES: dict[type, Callable[[Story, Any, Document], None]] = {
    Exported: Story._tell_exported,
    Balances: Story._tell_balances,
    Published: Story._tell_published,
    Clocked: Story._tell_clocked,
    Completed: Story._tell_completed,
    Failed: Story._tell_failed,
    Shown: Story._tell_shown,
    Submitted: Story._tell_submitted,
    TelescopeAdded: Story._tell_telescope,
    Amended: Story._tell_amended,
    Withdrawn: Story._tell_withdrawn,
}


def story_of(history: History) -> Story:
    """What a history tells."""
    story = Story()
    for exchange in history.exchanges:
        story.tell(exchange)
    return story


def _milliseconds(times: Document, name: str) -> int:
    return times.whole(name, 0, 86_400_000)


def _spans(line: Document) -> Spans:
    return union(line.each("spans", _span))


def _span(value: object, path: str) -> Span:
    start, end = (_moment(each, path) for each in elements(value, path, 2, 2))
    if start >= end:
        raise DocumentError(path, f"a span from {start} to {end} is empty")
    return Span(start, end)


def _moment(value: object, path: str) -> int:
    if isinstance(value, str):
        return int(in_utc(value, path).timestamp())
    return whole(value, path, 0, LAST)
