"""A desk: a session program that is sent lines and replies to them."""

from __future__ import annotations

import os
import threading
from contextlib import ExitStack
from pathlib import Path
from types import TracebackType
from typing import Iterable, Mapping, Sequence, TypeVar

from purvelj import lines
from purvelj.documents import compact, decoded, encoded, write_text
from purvelj.history import Exchange, History
from purvelj.journal import Journal
from purvelj.lines import Line, Pairs
from purvelj.model import Claim
from purvelj.moments import Moment
from purvelj.pipes import DeskError, LineProgram
from purvelj.programs import TIMEOUT, command_of
from purvelj.replies import (
    Amended,
    Balance,
    Balances,
    Clocked,
    Completed,
    Done,
    Exported,
    Failed,
    Granted,
    Published,
    Refused,
    Reply,
    Shown,
    Submitted,
    TelescopeAdded,
    Withdrawn,
    is_taken,
    read_reply,
)
from purvelj.resume import line_again, output_again
from purvelj.scripts import test_lines

R = TypeVar("R", bound=Reply)


class Refusal(DeskError):
    """The desk refused a line and is as before.

    ``number`` and ``name`` are those of the formats, such as 19 and ``NotEnoughTime``; ``members`` has
    the refusal's other members, and ``line`` and ``version`` are those of the reply.
    """

    def __init__(self, reply: Refused) -> None:
        more = f" {compact(reply.members)}" if reply.members else ""
        super().__init__(f"line {reply.line} is refused: {reply.number} {reply.name}{more}")
        self.number = reply.number
        self.name = reply.name
        self.members = reply.members
        self.line = reply.line
        self.version = reply.version


class ReplyDiffers(DeskError):
    """A new session replied to a line of a journal, ``line``, with something else than stands there.

    The program isn't the one that the journal was written with, or the journal was changed.
    """

    def __init__(self, line: int, wanted: Sequence[str], found: Sequence[str]) -> None:
        texts = [" and ".join(texts) for texts in (found, wanted)]
        # Two plans may begin alike.
        first = max(0, len(os.path.commonprefix(texts)) - 100)
        texts = [(".." if first else "") + text[first : first + 200] for text in texts]
        super().__init__(f"line {line}: the reply differs from the journal's: {texts[0]} instead of {texts[1]}")
        self.line = line


class Desk:
    """A session with a scheduler, a line and its replies at a time.

    The program has to reply to each line before it reads the next. Use the desk in a ``with``
    statement, which ends the program. Each command is a method that gives the
    typed reply, or raises ``Refusal``; ``DeskEnded`` where the program ended, ``NoReply`` where it
    took longer than ``timeout`` seconds (None is no limit). After any other fault than a refusal, and where a
    call was interrupted, the desk is of no more use. Several threads may use a desk: a line of one waits until that
    of another is replied to.

    All that was sent is kept in ``history``, unless ``keep_history`` is False; ``save`` writes it as a script, and
    ``replay`` sends one.
    With a ``journal``, such as ``"tonight"``, each line is written to ``tonight.lines.jsonl`` before it is sent, and
    each reply to ``tonight.replies.jsonl`` before it is given; ``resume`` goes on with them.
    """

    def __init__(
        self,
        program: Sequence[str] | str | None = None,
        timeout: float | None = TIMEOUT,
        journal: str | Path | None = None,
        keep_history: bool = True,
    ) -> None:
        """Starts the program, by default ``default_program``: the words of a command, or a text that has them.

        ``FileError`` where a file of the journal is there already.
        """
        self._exchanges: list[Exchange] | None = [] if keep_history else None
        self._count = 0
        self._lock = threading.Lock()
        self._lost = False
        self._journal: Journal | None = None
        #: The lines of the journal that weren't wholly replied to; only ``resume`` may find any.
        self.unanswered: tuple[str, ...] = ()
        #: Whether the journal's last line was torn, and so isn't among them; only ``resume`` may find that.
        self.torn = False
        #: How many lines of the journal ``resume`` has done again, and how many published plans are among them.
        self.done_again, self.plans_again = 0, 0
        self._program = LineProgram(command_of(program), timeout)
        if journal is not None:
            with ExitStack() as faults:
                faults.callback(self.close)
                self._journal = Journal.begin(journal)
                faults.pop_all()

    @classmethod
    def resume(
        cls,
        journal: str | Path,
        program: Sequence[str] | str | None = None,
        timeout: float | None = TIMEOUT,
        keep_history: bool = True,
        seek: bool = False,
    ) -> Desk:
        """A desk that goes on where the one with this journal stopped, in a new session.

        The new session is sent the lines that were wholly replied to, with the claims of its plans in the place of
        ``plan`` lines. ``ReplyDiffers`` where a reply isn't the journal's, but for those that say ``taken``. What was
        torn at the ends of the files is dropped, and so are the lines without their replies: these are given in
        ``unanswered``, to be sent again. ``torn`` says whether a torn line came behind them.

        With ``seek`` the lines are sent as they stand, and the plans sought again, which takes as long as it did. All
        replies have to be the journal's then, which those of the same program with one worker are. It is for lines
        that are longer with the claims than a session may read.
        """
        with ExitStack() as faults:
            kept = Journal.go_on(journal)
            faults.callback(kept.close)
            found = kept.stopped()
            desk = cls(program, timeout, keep_history=keep_history)
            faults.callback(desk.close)
            for exchange in found.done:
                desk._do_again(exchange, seek)
            kept.cut(found.done)
            desk._journal, desk.unanswered, desk.torn = kept, found.unanswered, found.torn
            desk.done_again, desk.plans_again = len(found.done), found.plans
            faults.pop_all()
        return desk

    def __enter__(self) -> Desk:
        return self

    def __exit__(
        self,
        kind: type[BaseException] | None,
        fault: BaseException | None,
        trace: TracebackType | None,
    ) -> None:
        self.close()

    def close(self) -> int:
        """Ends the session and gives the program's exit status; a program that goes on is ended.

        Where another thread has sent a line, its replies are waited for.
        """
        with self._lock:
            self._close_journal()
            return self._program.close()

    def test_running(self) -> None:
        """``DeskEnded`` where the program has ended by itself; another thread may be sending a line meanwhile."""
        self._program.test_running()

    @property
    def history(self) -> History:
        """Every line that was sent so far, with its replies; ``DeskError`` where the desk doesn't keep them."""
        if self._exchanges is None:
            raise DeskError("the desk keeps no history")
        return History(tuple(self._exchanges))

    def save(self, path: str | Path) -> None:
        """Writes every line that was sent so far to a file, as a script."""
        write_text(path, self.history.script())

    def send(self, line: Mapping[str, object] | str) -> tuple[Reply, ...]:
        """Sends any line and gives its replies, refusals among them."""
        return self.exchange(line if isinstance(line, str) else compact(line)).replies

    def exchange(self, text: str) -> Exchange:
        """Sends a line that is a text, and gives it with its replies, whose texts are there too."""
        if "\n" in text:
            raise ValueError("a line has no newline in it")
        with self._lock:
            self._test_usable()
            try:
                if self._journal:
                    self._journal.line(text)
                exchange = self._exchange(text)
                self._keep(exchange)
            except BaseException:
                self._lost = True
                self._close_journal()
                raise
        return exchange

    def ask(self, line: Mapping[str, object] | str) -> Reply:
        """Sends any line and gives its last reply; ``Refusal`` where that is one."""
        reply = self.send(line)[-1]
        if isinstance(reply, Refused):
            raise Refusal(reply)
        return reply

    def replay(self, script: Iterable[str]) -> list[tuple[Reply, ...]]:
        """Sends the lines of a script one after another and gives the replies to each, refusals among them."""
        test_lines(script)
        return [self.send(line.rstrip("\n")) for line in script]

    def open(
        self,
        now: Moment,
        slice_seconds: int,
        horizon: int,
        semester: tuple[Moment, Moment],
        lanes: int = 4,
        rounds: int = 32,
        workers: int = 1,
        quota: int | None = None,
    ) -> Done:
        """Opens the desk; see ``lines.open_line``."""
        line = lines.open_line(now, slice_seconds, horizon, semester, lanes, rounds, workers, quota)
        return self._ask(line, Done)

    def instrument(
        self, name: str, front_ms: int = 0, config_ms: int = 0, readout_ms: int = 0, change_ms: int = 0
    ) -> Done:
        """Registers an instrument type with its overheads in milliseconds."""
        return self._ask(lines.instrument_line(name, front_ms, config_ms, readout_ms, change_ms), Done)

    def telescope(
        self, site: str, enclosure: str, telescope: str, telescope_class: str, instruments: Sequence[str]
    ) -> int:
        """Registers a telescope and gives its number."""
        line = lines.telescope_line(site, enclosure, telescope, telescope_class, instruments)
        return self._ask(line, TelescopeAdded).telescope

    def night(self, site: str, spans: Pairs) -> Done:
        """Sets the night of a site."""
        return self._ask(lines.night_line(site, spans), Done)

    def visibility(self, target: str, site: str, spans: Pairs) -> Done:
        """Sets the seconds in which a target can be observed from a site."""
        return self._ask(lines.visibility_line(target, site, spans), Done)

    def close_telescope(self, site: str, enclosure: str, telescope: str, spans: Pairs) -> Done:
        """Closes a telescope for these seconds. Published placements stay as they are."""
        return self._ask(lines.close_line(site, spans, enclosure, telescope), Done)

    def close_site(self, site: str, spans: Pairs) -> Done:
        """Closes all telescopes that a site has so far for these seconds."""
        return self._ask(lines.close_line(site, spans), Done)

    def reopen_telescope(self, site: str, enclosure: str, telescope: str, spans: Pairs) -> Done:
        """Takes these seconds out of a telescope's closures."""
        return self._ask(lines.reopen_line(site, spans, enclosure, telescope), Done)

    def reopen_site(self, site: str, spans: Pairs) -> Done:
        """Takes these seconds out of the closures of a site's telescopes."""
        return self._ask(lines.reopen_line(site, spans), Done)

    def grant(self, proposal: str, account: str, seconds: int, instrument_type: str | None = None) -> int:
        """Grants seconds to an account of a proposal and gives the account's balance."""
        return self._ask(lines.grant_line(proposal, account, seconds, instrument_type), Granted).balance

    def submit(self, group: Mapping[str, object]) -> Submitted:
        """Submits a request group document."""
        return self._ask(lines.submit_line(group), Submitted)

    def amend(self, group_number: int, group: Mapping[str, object]) -> Amended:
        """Withdraws a group and submits another in its place."""
        return self._ask(lines.amend_line(group_number, group), Amended)

    def withdraw(self, group_number: int) -> Withdrawn:
        """Withdraws a group."""
        return self._ask(lines.withdraw_line(group_number), Withdrawn)

    def clock(self, at: Moment) -> Clocked:
        """Sets the desk's moment; placements that began before it are running or have failed then."""
        return self._ask(lines.clock_line(at), Clocked)

    def report(self, request: int, percent: int, used: int) -> Completed | Failed:
        """Reports the end of a running request: the percent done, and the seconds used."""
        reply = self.ask(lines.report_line(request, percent, used))
        if isinstance(reply, (Completed, Failed)):
            return reply
        raise self._odd(reply)

    def plan(self) -> Published:
        """Asks for a plan and gives its publication."""
        return self._ask(lines.plan_line(), Published)

    def publish(self, version: int, claim: Claim) -> Published:
        """Publishes a claim that was made elsewhere, for the desk at this version."""
        return self._ask(lines.publish_line(version, claim), Published)

    def export(self) -> Exported:
        """The last publication's claim, and the snapshot that it is for."""
        return self._ask(lines.export_line(), Exported)

    def balances(self) -> tuple[Balance, ...]:
        """The balances of all accounts."""
        return self._ask(lines.balances_line(), Balances).balances

    def show(self, group_number: int) -> Shown:
        """A group: its document, its state and its requests' states."""
        return self._ask(lines.show_line(group_number), Shown)

    def _ask(self, line: Line, kind: type[R]) -> R:
        reply = self.ask(line)
        if isinstance(reply, kind):
            return reply
        raise self._odd(reply)

    def _test_usable(self) -> None:
        self._program.test_open()
        if self._lost:
            raise DeskError("a line wasn't wholly replied to, so the desk is of no more use")

    def _exchange(self, line: str) -> Exchange:
        """Sends the next line and reads its replies."""
        place = self._count + 1
        self._program.write(encoded(line))
        texts: list[str] = []
        replies: list[Reply] = []
        while not replies or (len(replies) == 1 and is_taken(replies[0])):
            source = f"reply to line {place}"
            texts.append(decoded(self._program.read(), source))
            replies.append(read_reply(texts[-1], source))
            if replies[-1].line != place:
                raise DeskError(f"a reply to line {replies[-1].line} came back to line {place}")
            if self._journal:
                self._journal.reply(texts[-1])
        return Exchange(line, tuple(texts), tuple(replies))

    def _do_again(self, exchange: Exchange, seek: bool) -> None:
        """Brings the session to the state that an exchange of another left, by seeking its plan or by its claim."""
        line, wanted = exchange.line, exchange.output
        if not seek:
            line, wanted = line_again(exchange), output_again(exchange)
        found = self._exchange(line).output
        if found != wanted:
            raise ReplyDiffers(self._count + 1, wanted, found)
        self._keep(exchange)

    def _keep(self, exchange: Exchange) -> None:
        """Counts a line that was wholly replied to, and keeps it in a desk with a history."""
        self._count += 1
        if self._exchanges is not None:
            self._exchanges.append(exchange)

    def _close_journal(self) -> None:
        if self._journal:
            self._journal.close()

    def _odd(self, reply: Reply) -> DeskError:
        return DeskError(f"line {reply.line}: a reply of another kind than the line's came back: {reply}")
