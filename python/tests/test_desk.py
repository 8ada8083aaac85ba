"""The desk over pipes, with the built program and with programs that misbehave."""

from __future__ import annotations

import json
import shlex
import sys
from datetime import datetime, timezone
from pathlib import Path

import pytest

from purvelj.desk import Desk, Refusal
from purvelj.documents import compact, decoded_lines, encoded
from purvelj.errors import DocumentError, FileError
from purvelj.history import read_history
from purvelj.lines import night_line, submit_line, visibility_line
from purvelj.model import Placement
from purvelj.moments import seconds_of
from purvelj.pipes import DeskEnded, DeskError, NoReply
from purvelj.programs import default_program
from purvelj.replies import Balance, Completed, Failed, Refused, Submitted
from purvelj.scripts import run_script
from script import LINES, REPLIES, SNAPSHOT

GROUP = json.loads(LINES[6])["group"]


def group(**members) -> dict:
    """The script's group with other members."""
    return {**GROUP, **members}


@pytest.fixture
def desk(netsched: list[str]):
    with Desk(netsched, timeout=60) as opened:
        yield opened


@pytest.fixture
def ready(desk: Desk) -> Desk:
    """A desk that did all lines of the script but the plan."""
    desk.replay(LINES[:7])
    return desk


def program(text: str) -> list[str]:
    """A session program that is a few lines of Python."""
    return [sys.executable, "-c", text]


def test_the_script_is_replied_to_as_it_was_worked_out(desk: Desk) -> None:
    desk.replay(LINES)
    assert desk.history.output().splitlines() == REPLIES
    assert desk.history.script().splitlines() == LINES


def test_commands_send_the_lines_of_the_script(desk: Desk) -> None:
    desk.open(0, 300, 12, (0, "1970-06-30"), lanes=1, rounds=8)
    desk.instrument("1M0-SCICAM-SINISTRO")
    assert desk.telescope("coj", "doma", "1m0a", "1m0", ["1M0-SCICAM-SINISTRO"]) == 0
    desk.night("coj", [(0, 3600)])
    desk.visibility("M51", "coj", [(0, 3600)])
    assert desk.grant("P1", "standard", 1000, "1M0-SCICAM-SINISTRO") == 1000
    submitted = desk.submit(GROUP)
    assert submitted == Submitted(caller=0, line=7, version=6, group=1, requests=(1,), ipp_charged=0)
    published = desk.plan()
    assert (published.claim.value, published.claim.bound) == (50_000, 50_000)
    assert published.claim.placements == (Placement(1, 0, 0),)
    exported = desk.export()
    assert exported.version == 8 and compact(exported.snapshot.document()) == SNAPSHOT
    sent = [json.loads(line) for line in desk.history.script().splitlines()]
    assert sent == [json.loads(line) for line in LINES]


def test_a_refusal_has_its_number_name_and_members(ready: Desk) -> None:
    configurations = GROUP["requests"][0]["configurations"]
    longer = [{**configurations[0], "instrument_configs": [{"exposure_time_ms": 500_000, "exposure_count": 2}]}]
    with pytest.raises(Refusal) as caught:
        ready.submit(group(requests=[{**GROUP["requests"][0], "configurations": longer}]))
    fault = caught.value
    assert (fault.number, fault.name) == (19, "NotEnoughTime")
    assert fault.members == {"available": 700, "needed": 1000}
    assert (fault.line, fault.version) == (8, 7)
    assert str(fault) == 'line 8 is refused: 19 NotEnoughTime {"available":700,"needed":1000}'


def test_a_desk_goes_on_after_a_refusal(desk: Desk) -> None:
    with pytest.raises(Refusal, match="20 NotOpened"):
        desk.plan()
    desk.open(0, 300, 12, (0, 15_552_000))
    with pytest.raises(Refusal, match="21 AlreadyOpened"):
        desk.open(0, 300, 12, (0, 15_552_000))
    assert desk.plan().claim.placements == ()


def test_a_night_of_running_and_reporting(ready: Desk) -> None:
    ready.plan()
    clocked = ready.clock(1)
    assert (clocked.started, clocked.failed, clocked.expired, clocked.refunded) == ((1,), (), (), ())
    completed = ready.report(1, 95, 280)
    assert isinstance(completed, Completed) and completed.charged == 280
    with pytest.raises(Refusal, match="28 NotRunning"):
        ready.report(1, 95, 280)
    assert ready.balances() == (Balance("P1", "standard", "1M0-SCICAM-SINISTRO", 720, 720),)
    shown = ready.show(1)
    assert (shown.state, shown.requests) == ("COMPLETED", ((1, "COMPLETED"),))
    assert shown.document["proposal"] == "P1"
    with pytest.raises(Refusal) as caught:
        ready.clock(0)
    assert caught.value.members == {"asked": 0, "now": 1}


def test_a_failed_request_is_planned_again(ready: Desk) -> None:
    ready.plan()
    ready.clock(1)
    assert isinstance(ready.report(1, 89, 300), Failed)
    assert ready.plan().claim.placements == (Placement(1, 0, 1),)


def test_groups_are_amended_and_withdrawn(ready: Desk) -> None:
    amended = ready.amend(1, group(priority=20))
    assert (amended.group, amended.replaces, amended.requests) == (2, 1, (2,))
    assert ready.plan().claim.value == 100_000
    ready.withdraw(2)
    with pytest.raises(Refusal, match='25 GroupClosed {"state":"CANCELED"}'):
        ready.withdraw(2)


def test_closures_move_placements(ready: Desk) -> None:
    ready.close_telescope("coj", "doma", "1m0a", [(0, 900)])
    assert ready.plan().claim.placements == (Placement(1, 0, 3),)
    ready.reopen_telescope("coj", "doma", "1m0a", [(300, 900)])
    assert ready.plan().claim.placements == (Placement(1, 0, 1),)
    ready.close_site("coj", [(0, 1800)])
    ready.reopen_site("coj", [(0, 300)])
    assert ready.plan().claim.placements == (Placement(1, 0, 0),)


def test_a_claim_is_published_for_the_version_of_the_desk(ready: Desk) -> None:
    ready.plan()
    exported = ready.export()
    published = ready.publish(exported.version, exported.claim)
    assert published.claim == exported.claim
    with pytest.raises(Refusal) as caught:
        ready.publish(exported.version, exported.claim)
    assert (caught.value.name, caught.value.members) == ("Stale", {"asked": 8, "newer": 9})


def test_a_saved_script_is_replayed_to_the_same_output(ready: Desk, netsched: list[str], tmp_path: Path) -> None:
    ready.plan()
    ready.send("[]")
    ready.balances()
    ready.save(tmp_path / "script.jsonl")
    with Desk(netsched, timeout=60) as again, open(tmp_path / "script.jsonl", encoding="utf-8") as script:
        replies = again.replay(script)
        assert again.history.output() == ready.history.output()
    assert isinstance(replies[8][0], Refused) and replies[8][0].name == "NotObject"
    assert [len(each) for each in replies] == [1, 1, 1, 1, 1, 1, 1, 2, 1, 1]


def test_a_surrogate_alone_is_saved_as_it_was_sent(tmp_path: Path) -> None:
    reply = '{"caller":0,"line":1,"no":1,"refused":"NotJson","version":0}'
    with Desk(program(f"import sys; sys.stdin.buffer.readline(); print({reply!r})"), timeout=60) as desk:
        desk.send('"\ud800"')
        desk.save(tmp_path / "script.jsonl")
    assert (tmp_path / "script.jsonl").read_bytes() == b'"\xed\xa0\x80"\n'


@pytest.mark.parametrize("line", [b"\xff\xff", b"b\xed\xa0\x80c", b"\xf0\x9f\r", "\U0001f52d\0".encode()])
def test_a_line_that_was_read_is_sent_and_saved_with_the_same_bytes(tmp_path: Path, line: bytes) -> None:
    assert encoded(decoded_lines(line)) == line
    reply = '{"caller":0,"line":1,"no":1,"refused":"NotJson","version":0}'
    answer = program(f"import sys; print({reply!r} if sys.stdin.buffer.readline() == {line!r} + b'\\n' else 0)")
    with Desk(answer, timeout=60) as desk:
        desk.send(decoded_lines(line))
        desk.save(tmp_path / "script.jsonl")
    assert (tmp_path / "script.jsonl").read_bytes() == line + b"\n"
    assert run_script([decoded_lines(line)], answer).script() == desk.history.script()


def test_a_surrogate_alone_has_the_bytes_of_its_number_and_an_escaped_byte_its_own() -> None:
    assert encoded("a\ud800\udc80\udcff\udd00") == b"a" + b"\xed\xa0\x80" + b"\x80" + b"\xff" + b"\xed\xb4\x80"


def test_a_history_is_read_from_output_and_script(ready: Desk) -> None:
    ready.plan()
    history = ready.history
    assert read_history(history.output(), history.script()).exchanges == list(history.exchanges)
    alone = read_history(history.output())
    assert [each.replies for each in alone.exchanges] == [each.replies for each in history.exchanges]
    with pytest.raises(DocumentError, match="replies to line 8, and the script has 7 lines"):
        read_history(history.output(), "\n".join(LINES[:7]))
    with pytest.raises(DocumentError, match="replies to line 1, and the script has 0 lines"):
        read_history(history.output(), "")
    with pytest.raises(FileError, match="output, line 1: not JSON: it ends in the middle"):
        read_history(history.output()[:20])


def test_a_line_of_any_text_is_one_line(desk: Desk) -> None:
    desk.open(0, 300, 12, (0, 15_552_000))
    desk.send(submit_line(group(name="a\nb\u2028\u0085 \U0001f52d")))
    assert len(desk.history.exchanges) == 2
    with pytest.raises(ValueError, match="no newline"):
        desk.send('{"do":\n"plan"}')


def test_spans_have_moments_as_all_lines_have() -> None:
    moment = datetime(2026, 11, 28, tzinfo=timezone.utc)
    line = night_line("coj", [("2026-11-27", "2026-11-27T10:00:00Z"), (1_795_780_800, moment)])
    assert line["spans"] == [[1_795_737_600, 1_795_773_600], [1_795_780_800, 1_795_824_000]]
    with pytest.raises(DocumentError, match=r"spans\[1\]: 'noon' is no date and time"):
        visibility_line("M51", "coj", [(0, 1), ("noon", 2)])


def test_a_moment_is_a_whole_second() -> None:
    now = datetime(2026, 11, 28, 4, 0, 0, 123, tzinfo=timezone.utc)
    text = r"2026-11-28 04:00:00.000123\+00:00 is no whole second: `.replace\(microsecond=0\)` makes it one$"
    with pytest.raises(DocumentError, match=text):
        seconds_of(now)
    assert seconds_of(now.replace(microsecond=0)) == seconds_of("2026-11-28T04:00:00Z") == 1_795_838_400
    with pytest.raises(DocumentError, match="is no whole second$"):
        seconds_of("2026-11-28T04:00:00.5Z")
    with pytest.raises(DocumentError, match="doesn't say in which offset from UTC it is"):
        seconds_of(datetime(2026, 11, 28))


def test_a_script_that_is_one_text_is_refused(desk: Desk, netsched: list[str]) -> None:
    with pytest.raises(TypeError, match="a script is a list of lines or an open file, and not one text"):
        desk.replay("script.jsonl")
    with pytest.raises(TypeError, match="a script is a list of lines"):
        run_script(LINES[0], netsched)
    assert desk.history.exchanges == ()


def test_a_program_is_words_or_a_text_that_has_them(netsched: list[str]) -> None:
    with Desk(shlex.join(netsched), timeout=60) as desk:
        assert desk.open(0, 300, 12, (0, 15_552_000)).version == 0
    assert run_script(LINES[:1], shlex.join(netsched)).output() == f"{REPLIES[0]}\n"
    with pytest.raises(DeskError, match="'netsched \"session' is no command: No closing quotation"):
        Desk('netsched "session')


def test_a_closed_desk_says_so(desk: Desk) -> None:
    assert desk.close() == 0
    with pytest.raises(DeskError, match="^the desk was closed$"):
        desk.balances()


def test_a_fault_in_the_with_statement_ends_the_program(netsched: list[str]) -> None:
    with pytest.raises(ZeroDivisionError):
        with Desk(netsched) as desk:
            process = desk._program._process
            1 / 0
    assert process.returncode == 0


def test_a_forgotten_desk_leaves_no_process(netsched: list[str]) -> None:
    desk = Desk(netsched)
    process = desk._program._process
    del desk
    assert process.returncode == 0


def test_a_program_that_is_not_there() -> None:
    with pytest.raises(DeskError, match="no-such-program can't be started: No such file or directory"):
        Desk(["no-such-program"])


def test_a_reply_that_is_none() -> None:
    with Desk(program("input(); print('proving and building')"), timeout=60) as desk:
        with pytest.raises(FileError, match="reply to line 1: not JSON"):
            desk.plan()
    with Desk(program('input(); print(\'{"caller":0,"line":1,"version":0,"ok":"sung"}\')'), timeout=60) as desk:
        with pytest.raises(DocumentError, match="reply to line 1: ok: 'sung' is none of"):
            desk.plan()


def test_a_reply_that_is_no_text() -> None:
    writes = "sys.stdout.buffer.write(b'{\\xff}\\n'); sys.stdout.flush()"
    with Desk(program(f"import sys; input(); {writes}"), timeout=60) as desk:
        with pytest.raises(FileError, match="^reply to line 1: not a text in UTF-8$"):
            desk.plan()
    with pytest.raises(FileError, match="^output, line 1: not a text in UTF-8$"):
        run_script(LINES, program(f"import sys; sys.stdin.read(); {writes}"))
    with pytest.raises(DeskEnded, match="ended with status 5"):
        run_script(LINES, program(f"import sys; sys.stdin.read(); {writes}; sys.exit(5)"))


def test_a_late_reply_is_not_taken_for_another_lines() -> None:
    late = program('input(); print(\'{"caller":0,"line":7,"version":0,"ok":"opened"}\')')
    with Desk(late, timeout=60) as desk:
        with pytest.raises(DeskError, match="a reply to line 7 came back to line 1"):
            desk.plan()


READS_ALL = "import sys; text = sys.stdin.read(); exec(open(sys.argv[1]).read())"


def test_a_script_runs_through_a_program_that_reads_all_first(tmp_path: Path) -> None:
    (tmp_path / "reply.py").write_text(f"print({chr(10).join(REPLIES)!r})")
    history = run_script(LINES, [*program(READS_ALL), str(tmp_path / "reply.py")], timeout=60)
    assert (history.output().splitlines(), history.script().splitlines()) == (REPLIES, LINES)
    with pytest.raises(DocumentError, match="it replies to line 9, and the script has 8 lines"):
        run_script(LINES[:8], [*program(READS_ALL), str(tmp_path / "reply.py")], timeout=60)
    with pytest.raises(DeskError, match="10 lines were sent, and 9 were replied to"):
        run_script([*LINES, "[]"], [*program(READS_ALL), str(tmp_path / "reply.py")], timeout=60)


def test_a_script_is_a_list_of_lines_or_an_open_file(tmp_path: Path) -> None:
    (tmp_path / "script.jsonl").write_text("\n".join(LINES))
    text = f"same = sys.stdin.read().splitlines() == {LINES!r}; print({chr(10).join(REPLIES)!r} if same else '')"
    answer = program(f"import sys; {text}")
    with open(tmp_path / "script.jsonl", encoding="utf-8") as script:
        assert run_script(script, answer).output().splitlines() == REPLIES
    with open(tmp_path / "script.jsonl", encoding="utf-8") as script:
        history = run_script(script.readlines(), answer)
    assert (history.output().splitlines(), history.script().splitlines()) == (REPLIES, LINES)
    assert run_script(iter(LINES), answer) == history


def test_a_line_of_a_script_with_a_newline_in_it_is_two() -> None:
    with pytest.raises(DeskError, match="1 lines were sent, and 2 were replied to"):
        run_script([f"{LINES[0]}\n{LINES[1]}"], program(f"print({chr(10).join(REPLIES[:2])!r})"))


def test_a_script_through_a_program_that_fails_or_goes_on() -> None:
    for replies in ([], REPLIES[:2], REPLIES[:8]):
        writes = f"sys.stdin.read(); sys.stdout.write({''.join(f'{text}{chr(10)}' for text in replies)!r})"
        with pytest.raises(DeskEnded, match="ended with status 5") as caught:
            run_script(LINES, program(f"import sys; {writes}; sys.exit(5)"))
        assert caught.value.history and caught.value.history.output().splitlines() == replies
    with pytest.raises(NoReply, match="didn't end within 0.3 s"):
        run_script(LINES, program("import time; time.sleep(60)"), timeout=0.3)


def test_the_program_is_chosen(monkeypatch: pytest.MonkeyPatch) -> None:
    monkeypatch.setenv("PURVELJ_PROGRAM", "python3 'my desk.py' session")
    assert default_program() == ["python3", "my desk.py", "session"]
    monkeypatch.delenv("PURVELJ_PROGRAM")
    assert default_program()[0].endswith("bin/netsched")
