"""What a desk replies, one class a kind of reply."""

from __future__ import annotations

from dataclasses import dataclass, replace
from functools import cached_property
from typing import Any, Callable

from purvelj.documents import Document, elements, parse, whole
from purvelj.errors import DocumentError
from purvelj.model import MOST_NUMBER, Claim, Snapshot, read_claim, read_snapshot

_MOST = 10**18


@dataclass(frozen=True, kw_only=True)
class Reply:
    """What every reply has: the caller, the line's place in its script from 1, and the desk's version.

    The version is how many changes the desk had accepted before this reply.
    """

    caller: int
    line: int
    version: int


@dataclass(frozen=True, kw_only=True)
class Refused(Reply):
    """The desk refused the line and is as before: the refusal's number, its name and its other members."""

    number: int
    name: str
    members: dict[str, Any]


@dataclass(frozen=True, kw_only=True)
class Done(Reply):
    """The desk did the line and has nothing more to say than the word ``ok``."""

    ok: str


@dataclass(frozen=True, kw_only=True)
class TelescopeAdded(Reply):
    """A telescope has this number."""

    telescope: int


@dataclass(frozen=True, kw_only=True)
class Granted(Reply):
    """An account has this balance now, in seconds."""

    balance: int


@dataclass(frozen=True, kw_only=True)
class Submitted(Reply):
    """A group has this number, its requests these; so many seconds were taken from the ipp account."""

    group: int
    requests: tuple[int, ...]
    ipp_charged: int


@dataclass(frozen=True, kw_only=True)
class Amended(Submitted):
    """A group replaces another, whose ipp charges were given back as ``(group, seconds)``."""

    replaces: int
    refunded: tuple[tuple[int, int], ...]


@dataclass(frozen=True, kw_only=True)
class Withdrawn(Reply):
    """A group is withdrawn; ipp charges were given back as ``(group, seconds)``."""

    refunded: tuple[tuple[int, int], ...]


@dataclass(frozen=True, kw_only=True)
class Clocked(Reply):
    """What the new moment changed: numbers of requests that started, failed and expired, and refunds."""

    started: tuple[int, ...]
    failed: tuple[int, ...]
    expired: tuple[int, ...]
    refunded: tuple[tuple[int, int], ...]


@dataclass(frozen=True, kw_only=True)
class Completed(Reply):
    """A reported request is complete: the seconds charged, and the requests canceled with it."""

    charged: int
    canceled: tuple[int, ...]


@dataclass(frozen=True, kw_only=True)
class Failed(Reply):
    """A reported request failed and is charged nothing; requests that expired, and refunds."""

    expired: tuple[int, ...]
    refunded: tuple[tuple[int, int], ...]


@dataclass(frozen=True, kw_only=True)
class Published(Reply):
    """A claim is published: a plan with its value and its bound."""

    claim: Claim


@dataclass(frozen=True, kw_only=True)
class Exported(Reply):
    """The last publication: its claim, and the snapshot that it is for.

    The snapshot is read from the reply's text where it is asked for, since it takes several times the memory of that.
    """

    claim: Claim
    text: str

    @cached_property
    def snapshot(self) -> Snapshot:
        """The snapshot; ``DocumentError`` where it isn't what it should be."""
        return read_snapshot(Document(parse(self.text, "reply"), "reply:").object("snapshot"))


@dataclass(frozen=True)
class Balance:
    """An account of a proposal: its balance and what of it isn't held, in seconds.

    ``instrument_type`` is empty for the account ``ipp``.
    """

    proposal: str
    account: str
    instrument_type: str
    balance: int
    available: int


@dataclass(frozen=True, kw_only=True)
class Balances(Reply):
    """The balances of all accounts."""

    balances: tuple[Balance, ...]


@dataclass(frozen=True, kw_only=True)
class Shown(Reply):
    """A group: its document as it was submitted, its state, and each request with its state."""

    group: int
    state: str
    requests: tuple[tuple[int, str], ...]
    document: dict[str, Any]


def is_taken(reply: Reply) -> bool:
    """Whether the reply says that a plan is sought, and another follows."""
    return isinstance(reply, Done) and reply.ok == "taken"


def read_reply(text: str, source: str = "reply") -> Reply:
    """The reply that a line of a desk's output is.

    ``FileError`` where it is no JSON, ``DocumentError`` where it is no reply; ``source`` names it there.
    """
    document = Document(parse(text, source), f"{source}:")
    if document.has("do"):
        raise DocumentError(source, "a line for a desk stands where a reply should be")
    heads: _Heads = {
        "caller": document.whole("caller", 0, 7),
        "line": document.whole("line", 1, _MOST),
        "version": document.whole("version", 0, _MOST),
    }
    if document.has("no"):
        return _refused(document, heads)
    reply = _READERS[document.word("ok", tuple(_READERS))](document, heads)
    # (the snapshot is read from the text)
    return replace(reply, text=text) if isinstance(reply, Exported) else reply


_Heads = dict[str, Any]


def _refused(document: Document, heads: _Heads) -> Refused:
    members = {name: document.raw(name) for name in document if name not in (*heads, "no", "refused")}
    return Refused(number=document.whole("no", 1, 99), name=document.text("refused"), members=members, **heads)


def _done(document: Document, heads: _Heads) -> Reply:
    return Done(ok=document.text("ok"), **heads)


def _telescope(document: Document, heads: _Heads) -> Reply:
    return TelescopeAdded(telescope=document.whole("telescope", 0, 31), **heads)


def _granted(document: Document, heads: _Heads) -> Reply:
    return Granted(balance=_seconds(document, "balance"), **heads)


def _submitted(document: Document, heads: _Heads) -> Reply:
    return Submitted(**_group_members(document), **heads)


def _amended(document: Document, heads: _Heads) -> Reply:
    return Amended(
        replaces=document.whole("replaces", 0, MOST_NUMBER),
        refunded=_refunds(document),
        **_group_members(document),
        **heads,
    )


def _withdrawn(document: Document, heads: _Heads) -> Reply:
    return Withdrawn(refunded=_refunds(document), **heads)


def _clocked(document: Document, heads: _Heads) -> Reply:
    return Clocked(
        started=_numbers(document, "started"),
        failed=_numbers(document, "failed"),
        expired=_numbers(document, "expired"),
        refunded=_refunds(document),
        **heads,
    )


def _completed(document: Document, heads: _Heads) -> Reply:
    return Completed(charged=_seconds(document, "charged"), canceled=_numbers(document, "canceled"), **heads)


def _failed(document: Document, heads: _Heads) -> Reply:
    return Failed(expired=_numbers(document, "expired"), refunded=_refunds(document), **heads)


def _published(document: Document, heads: _Heads) -> Reply:
    return Published(claim=read_claim(document.object("claim")), **heads)


def _exported(document: Document, heads: _Heads) -> Reply:
    document.object("snapshot")
    return Exported(claim=read_claim(document.object("claim")), text="", **heads)


def _balances(document: Document, heads: _Heads) -> Reply:
    return Balances(balances=tuple(_balance(each) for each in document.objects("balances")), **heads)


def _balance(document: Document) -> Balance:
    return Balance(
        proposal=document.text("proposal"),
        account=document.text("account"),
        instrument_type="" if document.raw_or("instrument_type", "") == "" else document.text("instrument_type"),
        balance=_seconds(document, "balance"),
        available=_seconds(document, "available"),
    )


def _shown(document: Document, heads: _Heads) -> Reply:
    states = document.objects("requests")
    return Shown(
        group=document.whole("group", 0, MOST_NUMBER),
        state=document.text("state"),
        requests=tuple((each.whole("request", 0, MOST_NUMBER), each.text("state")) for each in states),
        document=dict(document.object("document").members()),
        **heads,
    )


_READERS: dict[str, Callable[[Document, _Heads], Reply]] = {
    **dict.fromkeys(("opened", "instrument", "night", "visibility", "closed", "reopened", "taken"), _done),
    "telescope": _telescope,
    "granted": _granted,
    "submitted": _submitted,
    "amended": _amended,
    "withdrawn": _withdrawn,
    "clocked": _clocked,
    "completed": _completed,
    "failed": _failed,
    "published": _published,
    "exported": _exported,
    "balances": _balances,
    "shown": _shown,
}


def _group_members(document: Document) -> dict[str, Any]:
    return {
        "group": document.whole("group", 0, MOST_NUMBER),
        "requests": _numbers(document, "requests"),
        "ipp_charged": _seconds(document, "ipp_charged"),
    }


def _seconds(document: Document, name: str) -> int:
    return document.whole(name, 0, _MOST)


def _numbers(document: Document, name: str) -> tuple[int, ...]:
    return document.each(name, lambda value, path: whole(value, path, 0, MOST_NUMBER))


def _refunds(document: Document) -> tuple[tuple[int, int], ...]:
    return document.each("refunded", _refund)


def _refund(value: object, path: str) -> tuple[int, int]:
    group, seconds = elements(value, path, 2, 2)
    return whole(group, path, 0, MOST_NUMBER), whole(seconds, path, 0, _MOST)
