"""Sessions that stop, and those that go on where they stopped."""

from __future__ import annotations

import json
import threading
from pathlib import Path

import pytest

from purvelj import cli
from purvelj.desk import Desk, ReplyDiffers
from purvelj.errors import DocumentError, FileError
from purvelj.history import Exchange
from purvelj.pipes import DeskEnded, DeskError, NoReply
from purvelj.replies import Balances, Shown, read_reply
from purvelj.resume import line_again, stopped
from purvelj.scripts import run_script
from script import CLAIM, LINES, REPLIES, joined, journal
from serving import limited
from test_desk import program

EXAMPLES = Path(__file__).resolve().parents[2] / "examples"
NIGHT = (EXAMPLES / "night.jsonl").read_text(encoding="utf-8").splitlines()
OUTPUT = (EXAMPLES / "night.replies").read_text(encoding="utf-8").splitlines()
PUBLISH = f'{{"claim":{CLAIM},"do":"publish","version":7}}'
TAKEN = '"ok":"taken"'
#: The reply to a tenth line, behind those of the script, that is no JSON.
NOT_JSON = '{"caller":0,"line":10,"no":1,"refused":"NotJson","version":8}'
NOT_UTF_8 = [b"\xff\xff", b"b\xed\xa0\x80c", b'{"do":"plan","x":"\xed\xa0\x80\xff"}']


@pytest.fixture
def resume(tmp_path: Path, monkeypatch: pytest.MonkeyPatch, capfd):
    """Runs ``resume`` over an output and a script: its status, the lines and the messages that it writes."""
    monkeypatch.chdir(tmp_path)

    def command(output: str | bytes, script: str | bytes) -> tuple[int, list[str], list[str]]:
        for name, content in (("output.jsonl", output), ("script.jsonl", script)):
            Path(name).write_bytes(content if isinstance(content, bytes) else content.encode())
        status = cli.main(["resume", "output.jsonl", "--script", "script.jsonl"])
        out, err = capfd.readouterr()
        return status, out.splitlines(), [line.removeprefix("purvelj: ") for line in err.splitlines()]

    return command


def place_of(line: int, ok: str) -> int:
    """How many replies of the night come before the one to this line with this word."""
    replies = [json.loads(text) for text in OUTPUT]
    return next(i for i, reply in enumerate(replies) if (reply["line"], reply.get("ok")) == (line, ok))


def test_a_plan_is_published_again_in_its_place(resume) -> None:
    status, lines, told = resume(joined(REPLIES), joined(LINES))
    assert (status, lines) == (0, [*LINES[:7], PUBLISH, LINES[8]])
    assert told == ["lines that were done: 9, published plans among them: 1"]


def test_lines_that_are_longer_than_a_session_may_read_are_told(resume, monkeypatch) -> None:
    size = len(joined([*LINES[:7], PUBLISH, LINES[8]]))
    monkeypatch.setattr("purvelj.cli.resume.MOST_BYTES", size)
    assert len(resume(joined(REPLIES), joined(LINES))[2]) == 1
    monkeypatch.setattr("purvelj.cli.resume.MOST_BYTES", size - 1)
    status, lines, told = resume(joined(REPLIES), joined(LINES))
    assert (status, len(lines)) == (0, 9)
    assert told == [
        "lines that were done: 9, published plans among them: 1",
        "these lines are longer than a session may read; with one worker the script itself comes to the same state",
    ]


def test_lines_without_all_their_replies_are_left_to_be_sent(resume) -> None:
    status, lines, told = resume(joined(REPLIES[:8]), joined(LINES))
    assert (status, lines) == (0, LINES[:7])
    assert told == [
        "lines that were done: 7, published plans among them: 0",
        "lines that weren't wholly replied to, and are to be sent again: 8 to 9",
    ]
    assert resume("", joined(LINES))[1] == []


def test_a_torn_reply_is_none_even_where_a_letter_is_torn(resume) -> None:
    torn = joined(REPLIES[:7]).encode() + b'{"caller":0,"document":{"name":"M51 ' + "\U0001f52d".encode()[:2]
    assert resume(torn, joined(LINES))[1] == LINES[:7]


@pytest.mark.parametrize("end", [b"\n", b""], ids=["whole", "torn"])
@pytest.mark.parametrize("line", NOT_UTF_8)
def test_a_line_that_is_not_utf_8_stays_as_it_was(tmp_path, monkeypatch, capfdbinary, line: bytes, end: bytes) -> None:
    monkeypatch.chdir(tmp_path)
    Path("output.jsonl").write_text(joined([*REPLIES, NOT_JSON]), encoding="utf-8")
    Path("script.jsonl").write_bytes(joined(LINES).encode() + line + end)
    wanted = joined([*LINES[:7], PUBLISH, LINES[8]]).encode() + line + b"\n"
    for most, told in ((len(wanted), 1), (len(wanted) - 1, 2)):
        monkeypatch.setattr("purvelj.cli.resume.MOST_BYTES", most)
        assert cli.main(["resume", "output.jsonl", "--script", "script.jsonl"]) == 0
        out, err = capfdbinary.readouterr()
        assert (out, err.count(b"\n")) == (wanted, told)


@pytest.mark.parametrize("end", [b"\n", b""], ids=["whole", "torn"])
@pytest.mark.parametrize("line", NOT_UTF_8)
def test_a_journal_with_a_line_that_is_not_utf_8_goes_on_twice(netsched, tmp_path, line: bytes, end: bytes) -> None:
    name = journal(tmp_path, joined(LINES), joined([*REPLIES, NOT_JSON]))
    path = tmp_path / "night.lines.jsonl"
    path.write_bytes(joined(LINES).encode() + line + end)
    with Desk.resume(name, netsched) as desk:
        assert (desk.done_again, desk.unanswered, desk.torn) == (10, (), False)
        assert path.read_bytes() == joined(LINES).encode() + line + b"\n"
        desk.balances()
    with Desk.resume(name, netsched) as desk:
        assert (desk.done_again, desk.history.exchanges[10].line) == (11, '{"do":"balances"}')
    assert path.read_bytes() == joined(LINES).encode() + line + b'\n{"do":"balances"}\n'


def test_a_torn_line_counts_only_where_it_was_replied_to(resume) -> None:
    script = joined(LINES[:8]) + LINES[8]
    assert resume(joined(REPLIES), script)[1] == [*LINES[:7], PUBLISH, LINES[8]]
    status, lines, told = resume(joined(REPLIES[:7]), script)
    assert (status, lines) == (0, LINES[:7])
    assert told[1:] == [
        "lines that weren't wholly replied to, and are to be sent again: 8 to 8",
        "line 9 has no newline at its end and no reply: it may be torn",
    ]


def test_a_plan_that_was_refused_stays(resume) -> None:
    refused = '{"caller":0,"line":1,"no":20,"refused":"NotOpened","version":0}'
    assert resume(joined([refused]), '{"do":"plan"}\n')[1] == ['{"do":"plan"}']
    stale = '{"asked":7,"caller":0,"line":8,"newer":8,"no":31,"refused":"Stale","version":8}'
    assert resume(joined([*REPLIES[:8], stale]), joined(LINES))[1] == LINES[:8]


def test_the_caller_of_a_plan_is_kept() -> None:
    line = '{"caller":3,"do":"plan"}'
    texts = tuple(text.replace('"caller":0', '"caller":3') for text in REPLIES[7:9])
    exchange = Exchange(line, texts, tuple(read_reply(text) for text in texts))
    assert line_again(exchange) == f'{{"caller":3,"claim":{CLAIM},"do":"publish","version":7}}'


@pytest.mark.parametrize("caller", ["0.5", "-0", "1e-99999999999999999999", "8", "true", '"x"', "[0]"])
def test_a_caller_that_a_session_does_not_look_at_is_left_out(resume, caller: str) -> None:
    lines = [*LINES[:7], f'{{"caller":{caller},"do":"plan"}}', LINES[8]]
    status, again, told = resume(joined(REPLIES), joined(lines))
    assert (status, again) == (0, [*LINES[:7], PUBLISH, LINES[8]])
    assert told == ["lines that were done: 9, published plans among them: 1"]


@pytest.mark.parametrize(
    "replies, lines, message",
    [
        (REPLIES[1:], LINES, "output: a reply to line 2 stands where one to line 1 should be"),
        (REPLIES[:3] + REPLIES[:1], LINES, "output: a reply to line 1 stands where one to line 4 should be"),
        (REPLIES, LINES[:8], "output: it replies to line 9, and the script has 8 lines"),
        (REPLIES, LINES[:7] + ["{}", "{}"], "output: it replies to line 8 with a plan, which that line doesn't"),
        (REPLIES[:3], LINES[:2] + LINES[3:], "output: it replies to line 3 as to another line than the script has"),
        (REPLIES[:8] + REPLIES[9:], LINES, "output: it has other replies to line 8 than a session writes"),
        (REPLIES[:2] + REPLIES[1:], LINES, "output: it has other replies to line 2 than a session writes"),
        (REPLIES[:7] + REPLIES[8:], LINES, "output: it publishes the plan of line 8 without a reply that it was taken"),
        ([REPLIES[0], REPLIES[1].replace('"caller":0', '"caller":1')], LINES, "output: it has the replies to several"),
    ],
)
def test_an_output_that_is_not_the_scripts_is_refused(replies, lines, message: str) -> None:
    with pytest.raises(DocumentError) as caught:
        stopped(replies, lines, b"", "output")
    assert str(caught.value).startswith(message)


@pytest.mark.parametrize(
    "replies, piece, done",
    [
        (place_of(44, "closed") + 1, 0, 44),
        (place_of(48, "published") + 1, 100, 48),
        (place_of(51, "taken") + 1, 0, 50),
        (place_of(61, "published"), 5000, 60),
    ],
    ids=["after a reply", "within a reply", "between taken and published", "within a publication"],
)
def test_a_night_goes_on_as_if_it_had_not_stopped(resume, netsched, replies: int, piece: int, done: int) -> None:
    cut = joined(OUTPUT[:replies]) + OUTPUT[replies][:piece]
    status, lines, told = resume(cut, joined(NIGHT))
    assert (status, len(lines)) == (0, done)
    assert told[1] == f"lines that weren't wholly replied to, and are to be sent again: {done + 1} to 65"
    again = run_script([*lines, *NIGHT[done:]], netsched).output().splitlines()
    assert again == [text for text in OUTPUT if json.loads(text)["line"] > done or TAKEN not in text]


def test_a_desk_of_four_workers_has_its_plan_again(netsched, tmp_path: Path) -> None:
    lines = [NIGHT[0].replace('"workers":1', '"workers":4'), *NIGHT[1:44]]
    with Desk(netsched, journal=tmp_path / "night") as desk:
        desk.replay(lines)
        before = desk.plan().claim, desk.export(), desk.balances()
    with Desk.resume(tmp_path / "night", netsched) as again:
        assert again.history == desk.history
        exported = again.export()
        assert (exported.claim, exported.snapshot) == (before[0], before[1].snapshot)
        assert again.balances() == before[2]


def test_plans_are_sought_again_where_that_is_asked(netsched, tmp_path: Path) -> None:
    name = journal(tmp_path, joined(LINES), joined(REPLIES))
    short = limited(tmp_path)
    with pytest.raises(DeskEnded, match="ended with status 5"):
        Desk.resume(name, short)
    for command in (short, netsched):
        with Desk.resume(name, command, seek=True) as desk:
            assert (desk.done_again, desk.plans_again, desk.unanswered) == (9, 1, ())
            assert desk.history.output().splitlines() == REPLIES
    assert json.loads((tmp_path / "night.replies.jsonl").read_text().splitlines()[-1])["line"] == 9
    other = joined(REPLIES).replace('"bound":50000', '"bound":50001')
    with pytest.raises(ReplyDiffers, match="line 8: the reply differs from the journal's: .*50000.* and .*50001"):
        Desk.resume(journal(tmp_path, joined(LINES), other), netsched, seek=True)
    assert (tmp_path / "night.replies.jsonl").read_text() == other


def test_a_blank_line_among_the_replies_is_refused(resume, tmp_path: Path) -> None:
    """No session writes one, so somebody else has changed the file."""
    replies = joined([*REPLIES[:3], "", *REPLIES[3:]])
    status, lines, told = resume(replies, joined(LINES))
    assert (status, lines, told) == (3, [], ["output.jsonl, line 4: not JSON: it is empty"])
    with pytest.raises(FileError, match="night.replies.jsonl, line 4: not JSON: it is empty$"):
        Desk.resume(journal(tmp_path, joined(LINES), replies), program("import sys; sys.stdin.read()"))
    assert (tmp_path / "night.replies.jsonl").read_text() == replies


def test_a_journal_can_be_resumed_by_hand(resume, netsched, tmp_path: Path) -> None:
    with Desk(netsched, journal=tmp_path / "night") as desk:
        desk.replay(LINES)
    files = [(tmp_path / f"night.{kind}.jsonl").read_bytes() for kind in ("replies", "lines")]
    assert resume(*files)[1] == [*LINES[:7], PUBLISH, LINES[8]]


def test_a_desk_that_waits_for_a_reply_in_vain_is_of_no_more_use(tmp_path: Path) -> None:
    silent = program("import sys; sys.stdin.read()")
    with Desk(silent, timeout=0.3, journal=tmp_path / "night") as desk:
        with pytest.raises(NoReply):
            desk.plan()
        with pytest.raises(DeskError, match="a line wasn't wholly replied to, so the desk is of no more use"):
            desk.balances()
    assert (tmp_path / "night.lines.jsonl").read_text() == '{"do":"plan"}\n'


def test_threads_get_their_own_replies(netsched) -> None:
    with Desk(netsched, timeout=60) as desk:
        desk.replay(LINES[:7])
        found: dict[str, list[type]] = {}

        def ask(word: str, line: dict[str, object]) -> None:
            found[word] = [type(desk.ask(line)) for _ in range(50)]

        lines = {"balances": {"do": "balances"}, "show": {"do": "show", "group_number": 1}}
        threads = [threading.Thread(target=ask, args=each) for each in lines.items()]
        for thread in threads:
            thread.start()
        for thread in threads:
            thread.join()
        assert found == {"balances": [Balances] * 50, "show": [Shown] * 50}
        for exchange in desk.history.exchanges[7:]:
            assert exchange.command["do"] == ("balances" if isinstance(exchange.reply, Balances) else "show")
