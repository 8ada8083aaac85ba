"""A session's history: each line that was sent, and what was replied to it."""

from __future__ import annotations

from dataclasses import dataclass
from itertools import groupby
from typing import Iterable, Sequence

from purvelj.documents import lines_of, parse
from purvelj.errors import DocumentError, PurveljError
from purvelj.lines import Line
from purvelj.replies import (
    Amended,
    Balances,
    Clocked,
    Completed,
    Done,
    Exported,
    Failed,
    Granted,
    Published,
    Refused,
    Reply,
    Shown,
    Submitted,
    TelescopeAdded,
    Withdrawn,
    read_reply,
)

#: The kinds of reply with which a desk says that it did a line, by the line's word.
_KINDS: dict[str, tuple[type[Reply], ...]] = {
    **dict.fromkeys(("open", "instrument", "night", "visibility", "close", "reopen"), (Done,)),
    "telescope": (TelescopeAdded,),
    "grant": (Granted,),
    "submit": (Submitted,),
    "amend": (Amended,),
    "withdraw": (Withdrawn,),
    "clock": (Clocked,),
    "report": (Completed, Failed),
    "plan": (Done, Published),
    "publish": (Published,),
    "export": (Exported,),
    "balances": (Balances,),
    "show": (Shown,),
}


@dataclass(frozen=True)
class Exchange:
    """A line and its replies: two for a plan that was taken, one for every other line.

    ``line`` is the text that was sent, or empty where only the output is known; ``output`` are the
    texts of the replies.
    """

    line: str
    output: tuple[str, ...]
    replies: tuple[Reply, ...]

    @property
    def command(self) -> Line:
        """The line's members; none where the line isn't known or is no JSON object."""
        try:
            value = parse(self.line, "line") if self.line else {}
        except PurveljError:
            return {}
        return value if isinstance(value, dict) else {}

    @property
    def reply(self) -> Reply:
        """The last reply, which tells how the line ended."""
        return self.replies[-1]

    @property
    def fits(self) -> bool:
        """Whether the last reply is of a kind that the line may have, as far as the line is known."""
        word = self.command.get("do")
        kinds = _KINDS.get(word) if isinstance(word, str) else None
        return kinds is None or isinstance(self.reply, (Refused, *kinds))


@dataclass(frozen=True)
class History:
    """The exchanges of one caller's session, in order."""

    exchanges: Sequence[Exchange]

    def script(self) -> str:
        """All lines that were sent, to be replayed."""
        return "".join(f"{each.line}\n" for each in self.exchanges)

    def output(self) -> str:
        """All replies, as the session program wrote them."""
        return "".join(f"{text}\n" for each in self.exchanges for text in each.output)


def read_history(output: str, script: str | None = None, source: str = "output") -> History:
    """The history that a session's whole output is, with the lines of its script where they are at hand.

    ``DocumentError`` where the output isn't that of one caller, or replies to a line that the script doesn't have.
    """
    texts = [each for each in enumerate(output.split("\n"), start=1) if each[1].strip()]
    sent = None if script is None else lines_of(script)
    return history_of(texts, sent, source)


def history_of(texts: Iterable[tuple[int, str]], sent: Sequence[str] | None, source: str) -> History:
    """As ``read_history``, where the texts of the replies, each with its line's number, and the lines are parted already."""
    pairs = [(text, read_reply(text, f"{source}, line {number}")) for number, text in texts]
    if len({reply.caller for _, reply in pairs}) > 1:
        raise DocumentError(source, "it has the replies to several callers")
    exchanges = []
    for line, replied in groupby(pairs, key=lambda pair: pair[1].line):
        both = list(replied)
        if sent is not None and line > len(sent):
            raise DocumentError(source, f"it replies to line {line}, and the script has {len(sent)} lines")
        text = sent[line - 1] if sent is not None else ""
        exchanges.append(Exchange(text, tuple(each for each, _ in both), tuple(each for _, each in both)))
    return History(exchanges)
