"""Where a session stopped, and the lines with which a new session comes to the same state.

A desk's state is what its lines and replies make it. To seek each plan once more takes long, and with several workers
another plan of the same bound and value may be found. But a ``publish`` line with a plan's claim, for the version that
the plan was published for, leaves the state that the ``plan`` line left.
"""

from __future__ import annotations

from dataclasses import dataclass
from typing import Sequence

from purvelj.documents import compact, decoded_lines
from purvelj.errors import DocumentError
from purvelj.history import Exchange, history_of
from purvelj.lines import publish_line
from purvelj.replies import Published, is_taken, read_reply

#: How many callers a desk may have, which are numbered from 0.
MOST_CALLERS = 8


@dataclass(frozen=True)
class Stopped:
    """What a session left.

    ``done`` are the lines that were wholly replied to, from the first on. ``unanswered`` are the lines after them. The
    last line of a script may be torn: ``torn`` says that it has no newline and no reply, and so isn't among either.
    """

    done: tuple[Exchange, ...]
    unanswered: tuple[str, ...]
    torn: bool

    @property
    def plans(self) -> int:
        """How many of the lines that were done published a plan."""
        return sum(is_plan(exchange) for exchange in self.done)


def pieces(data: bytes) -> tuple[bytes, bytes]:
    """The whole lines that bytes begin with, and what stands after the last newline."""
    end = data.rfind(b"\n") + 1
    return data[:end], data[end:]


def stopped(replies: Sequence[str], lines: Sequence[str], torn: bytes, source: str) -> Stopped:
    """Where a session stopped, by the whole lines of its output and of its script.

    ``torn`` is what stands after the script's last newline: a line only where it was replied to, since a session does
    the last line of its input without a newline too. ``DocumentError``, naming ``source``, where the output isn't that
    of one caller from the first line on, or isn't that of the script.
    """
    if torn and replies and read_reply(replies[-1], f"{source}, line {len(replies)}").line > len(lines):
        lines, torn = [*lines, decoded_lines(torn)], b""
    exchanges = list(history_of(enumerate(replies, start=1), lines, source).exchanges)
    if exchanges and len(exchanges[-1].replies) == 1 and is_taken(exchanges[-1].reply):
        exchanges.pop()
    for place, exchange in enumerate(exchanges, start=1):
        _test(exchange, place, source)
    return Stopped(tuple(exchanges), tuple(lines[len(exchanges) :]), bool(torn))


def is_plan(exchange: Exchange) -> bool:
    """Whether the line published a plan that it sought."""
    return len(exchange.replies) == 2 and isinstance(exchange.reply, Published)


def line_again(exchange: Exchange) -> str:
    """The line that a new session does in the place of one that was done: the same, or a plan's claim."""
    if not is_plan(exchange) or not isinstance(exchange.reply, Published):
        return exchange.line
    line = publish_line(exchange.reply.version, exchange.reply.claim)
    caller = exchange.command.get("caller")
    # A session of one caller doesn't look at the member, so it may be anything there.
    is_caller = type(caller) is int and caller in range(MOST_CALLERS)
    return compact({**line, "caller": caller} if is_caller else line)


def output_again(exchange: Exchange) -> tuple[str, ...]:
    """What a new session replies to ``line_again``: the same, but that a claim to be published isn't taken first."""
    return exchange.output[1:] if is_plan(exchange) else exchange.output


def _test(exchange: Exchange, place: int, source: str) -> None:
    """Tests that the exchange is that of the line with this place, and is whole."""
    if exchange.reply.line != place:
        text = f"a reply to line {exchange.reply.line} stands where one to line {place} should be"
        raise DocumentError(source, text)
    taken = [is_taken(reply) for reply in exchange.replies]
    if taken not in ([False], [True, False]):
        raise DocumentError(source, f"it has other replies to line {place} than a session writes")
    if taken[0] and exchange.command.get("do") != "plan":
        raise DocumentError(source, f"it replies to line {place} with a plan, which that line doesn't ask for")
    if not exchange.fits:
        raise DocumentError(source, f"it replies to line {place} as to another line than the script has there")
    if not taken[0] and isinstance(exchange.reply, Published) and exchange.command.get("do") == "plan":
        text = f"it publishes the plan of line {place} without a reply that it was taken, as where a claim is sent"
        raise DocumentError(source, text)
