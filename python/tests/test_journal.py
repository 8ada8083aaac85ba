"""Journals of desks: what a desk goes on with, and what it leaves as it is."""

from __future__ import annotations

import errno
import json
import os
import signal
from pathlib import Path

import pytest

from purvelj.desk import Desk, ReplyDiffers
from purvelj.errors import FileError
from purvelj.pipes import DeskEnded
from script import LINES, REPLIES, joined, journal
from test_desk import program


def kill(desk: Desk) -> None:
    """Ends the desk's program as ``kill -9`` does."""
    os.kill(desk._program._process.pid, signal.SIGKILL)


def test_a_journal_outlives_two_kills(netsched, tmp_path: Path) -> None:
    name = tmp_path / "tonight"
    with Desk(netsched, journal=name) as desk:
        desk.replay(LINES[:8])
        kill(desk)
        with pytest.raises(DeskEnded, match="SIGKILL"):
            desk.export()
        with Desk.resume(name, netsched) as second:
            assert second.unanswered == ('{"do":"export"}',)
            assert second.history.output().splitlines() == REPLIES[:9]
            second.export()
            kill(second)
            with pytest.raises(DeskEnded, match="SIGKILL"):
                second.clock(1)
    with Desk.resume(name, netsched) as third:
        assert third.unanswered == ('{"at":1,"do":"clock"}',)
        assert third.history.output().splitlines() == REPLIES
        assert third.clock(1).started == (1,)
        assert third.report(1, 95, 280).charged == 280
    written = (tmp_path / "tonight.lines.jsonl").read_text().splitlines()
    assert [json.loads(line)["do"] for line in written[6:]] == ["submit", "plan", "export", "clock", "report"]
    assert (tmp_path / "tonight.replies.jsonl").read_text().splitlines()[:10] == REPLIES


def test_a_torn_journal_is_cut_and_goes_on(netsched, tmp_path: Path) -> None:
    name = journal(tmp_path, joined(LINES[:8]), joined(REPLIES[:8]) + REPLIES[8][:50])
    with Desk.resume(name, netsched) as desk:
        assert (desk.unanswered, desk.torn) == ((LINES[7],), False)
        assert (tmp_path / "night.lines.jsonl").read_text() == joined(LINES[:7])
        assert (tmp_path / "night.replies.jsonl").read_text() == joined(REPLIES[:7])
    with open(tmp_path / "night.lines.jsonl", "a") as lines:
        lines.write('{"do":"bal')
    with Desk.resume(name, netsched) as desk:
        assert (desk.unanswered, desk.torn) == ((), True)
        desk.replay(LINES[7:])
    assert (tmp_path / "night.lines.jsonl").read_text() == joined(LINES)
    with open(tmp_path / "night.replies.jsonl", "r+") as replies:
        replies.truncate(len(joined(REPLIES)) - 1)
    with Desk.resume(name, netsched) as desk:
        assert desk.unanswered == (LINES[8],)
        assert desk.ask(LINES[8]).version == 8
    assert (tmp_path / "night.replies.jsonl").read_text() == joined(REPLIES)


def test_a_line_of_a_journal_that_lacks_only_its_newline_gets_it(netsched, tmp_path: Path) -> None:
    name = journal(tmp_path, joined(LINES)[:-1], joined(REPLIES))
    with Desk.resume(name, netsched) as desk:
        assert (desk.unanswered, desk.torn) == ((), False)
        desk.balances()
    assert (tmp_path / "night.lines.jsonl").read_text() == joined([*LINES, '{"do":"balances"}'])


def test_another_reply_than_the_journals_is_told(netsched, tmp_path: Path) -> None:
    replies = [REPLIES[5].replace("1000", "1001"), *REPLIES[6:8]]
    name = journal(tmp_path, joined(LINES[:8]), joined([*REPLIES[:5], *replies]))
    with pytest.raises(ReplyDiffers) as caught:
        Desk.resume(name, netsched)
    assert caught.value.line == 6
    assert str(caught.value) == f"line 6: the reply differs from the journal's: {REPLIES[5]} instead of {replies[0]}"
    assert (tmp_path / "night.lines.jsonl").read_text() == joined(LINES[:8])
    wrong = journal(tmp_path, joined(LINES), joined(REPLIES).replace('"bound":50000', '"bound":50001'))
    with pytest.raises(ReplyDiffers, match='line 8: .*"refused":"Rejected"'):
        Desk.resume(wrong, netsched)


def test_a_journal_is_of_one_desk(netsched, tmp_path: Path) -> None:
    name = tmp_path / "night"
    with Desk(netsched, journal=name) as desk:
        desk.open(0, 300, 12, (0, 15_552_000))
        with pytest.raises(FileError, match="night.lines.jsonl: it is there already; a desk goes on with it by"):
            Desk(netsched, journal=name)
        with pytest.raises(FileError, match="night.lines.jsonl: another desk writes it"):
            Desk.resume(name, netsched)
        assert desk.plan().claim.placements == ()
    with Desk.resume(name, netsched) as desk:
        assert [len(each.replies) for each in desk.history.exchanges] == [1, 2]
    with pytest.raises(FileError, match="dawn.lines.jsonl: can't be opened: No such file"):
        Desk.resume(tmp_path / "dawn", netsched)
    with pytest.raises(FileError, match="nowhere/dawn.lines.jsonl: can't be opened: No such file"):
        Desk(netsched, journal=tmp_path / "nowhere" / "dawn")


def test_a_journal_that_was_begun_in_part_goes_on(tmp_path: Path) -> None:
    silent = program("import sys; sys.stdin.read()")
    (tmp_path / "night.lines.jsonl").touch()
    with Desk.resume(tmp_path / "night", silent) as desk:
        assert (desk.unanswered, desk.history.exchanges) == ((), ())
    assert (tmp_path / "night.replies.jsonl").read_bytes() == b""


def test_a_journal_that_lost_its_replies_stays_as_it_is(tmp_path: Path) -> None:
    silent = program("import sys; sys.stdin.read()")
    (tmp_path / "night.lines.jsonl").write_text(joined(LINES))
    with pytest.raises(FileError, match="night.replies.jsonl: can't be opened: No such file"):
        Desk.resume(tmp_path / "night", silent)
    assert [path.name for path in tmp_path.iterdir()] == ["night.lines.jsonl"]
    assert (tmp_path / "night.lines.jsonl").read_text() == joined(LINES)


@pytest.mark.parametrize(
    "lines, replies, count",
    [
        (joined(LINES[:2]), "", 2),
        (joined(LINES[:1]) + LINES[1][:9], "", 2),
        (joined(LINES), joined(REPLIES)[:200], 6),
        (joined(LINES), joined(REPLIES[:8]), 2),
    ],
    ids=["empty", "empty and torn", "cut", "cut in a plan"],
)
def test_a_journal_that_lost_some_replies_stays_as_it_is(tmp_path: Path, lines: str, replies: str, count: int) -> None:
    silent = program("import sys; sys.stdin.read()")
    message = f"night.replies.jsonl: {count} lines of .*night.lines.jsonl have no whole reply, where a desk leaves one at most"
    with pytest.raises(FileError, match=f"{message}: its replies were lost$"):
        Desk.resume(journal(tmp_path, lines, replies), silent)
    assert (tmp_path / "night.lines.jsonl").read_text() == lines
    assert (tmp_path / "night.replies.jsonl").read_text() == replies


def test_a_journal_of_one_line_may_have_no_reply(tmp_path: Path) -> None:
    silent = program("import sys; sys.stdin.read()")
    with Desk.resume(journal(tmp_path, joined(LINES[:1]), ""), silent) as desk:
        assert (desk.done_again, desk.unanswered) == (0, (LINES[0],))


def test_a_journal_that_could_not_be_gone_on_with_is_let_go(netsched, tmp_path: Path) -> None:
    name = journal(tmp_path, joined(LINES), joined(REPLIES))
    (tmp_path / "night.replies.jsonl").rename(tmp_path / "lost")
    with pytest.raises(FileError) as caught:
        Desk.resume(name, netsched)
    (tmp_path / "lost").rename(tmp_path / "night.replies.jsonl")
    with Desk.resume(name, netsched) as desk:
        assert desk.done_again == 9
    assert "night.replies.jsonl: can't be opened: No such file" in str(caught.value)


def test_a_journal_that_could_not_be_begun_is_let_go(tmp_path: Path, monkeypatch: pytest.MonkeyPatch) -> None:
    """Both files are made, but the folder that has their names can't be written to the disk."""

    def fails(file: int) -> None:
        raise OSError(errno.EIO, "Input/output error")

    silent = program("import sys; sys.stdin.read()")
    with monkeypatch.context() as patch, pytest.raises(FileError) as caught:
        patch.setattr("os.fsync", fails)
        Desk(silent, journal=tmp_path / "night")
    with Desk.resume(tmp_path / "night", silent) as desk:
        assert (desk.done_again, desk.unanswered) == (0, ())
    assert str(caught.value) == f"{tmp_path}: can't be written: Input/output error"
