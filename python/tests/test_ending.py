"""How programs end, and what they leave running."""

from __future__ import annotations

import os
import signal
import time
from pathlib import Path

import pytest

from purvelj.desk import Desk
from purvelj.errors import FileError
from purvelj.pipes import DeskEnded, NoReply
from purvelj.scripts import run_script
from script import LINES
from serving import until
from test_desk import program


def is_ended(process: int) -> bool:
    """Whether a process is gone, or only isn't reaped yet."""
    try:
        status = Path(f"/proc/{process}/stat").read_text()
    except (FileNotFoundError, ProcessLookupError):
        return True
    return status.rsplit(")", 1)[1].split()[0] == "Z"


def test_a_program_that_ends_is_told_with_its_status() -> None:
    with Desk(program("import sys; sys.stdin.readline(); sys.exit(4)"), timeout=60) as desk:
        with pytest.raises(
            DeskEnded, match=r"ended with status 4 \(it ran out of memory\) before it replied to all lines"
        ):
            desk.plan()
        with pytest.raises(DeskEnded, match="ended with status 4"):
            desk.plan()
        assert desk.close() == 4


@pytest.mark.parametrize("number, name", [(9, "SIGKILL"), (36, "signal 36")])
def test_a_program_that_was_killed_is_told(number: int, name: str) -> None:
    with Desk(program(f"import os; os.kill(os.getpid(), {number})"), timeout=60) as desk:
        with pytest.raises(DeskEnded, match=f"was ended by {name} before"):
            desk.plan()


def test_a_program_that_is_silent_is_left_after_the_timeout(monkeypatch: pytest.MonkeyPatch) -> None:
    monkeypatch.setattr("purvelj.pipes.GRACE", 0.3)
    with Desk(program("import time; time.sleep(60)"), timeout=0.3) as desk:
        with pytest.raises(NoReply, match="within 0.3 s"):
            desk.plan()
    assert desk.close() == -signal.SIGTERM


def test_what_a_program_started_is_ended_with_it(monkeypatch: pytest.MonkeyPatch) -> None:
    monkeypatch.setattr("purvelj.pipes.GRACE", 0.5)
    text = (
        "import signal, subprocess, time; signal.signal(signal.SIGTERM, signal.SIG_IGN);"
        "child = subprocess.Popen(['sleep', '60']); input();"
        'print(\'{"caller":0,"line":1,"ok":"granted","version":0,"balance":%d}\' % child.pid, flush=True);'
        "time.sleep(60)"
    )
    with Desk(program(text), timeout=60) as desk:
        child = desk.send("{}")[0].balance
        assert not is_ended(child)
    assert desk.close() == -signal.SIGKILL
    until(lambda: is_ended(child))


#: A program that leaves another running, ``sleep``, whose number is the balance that it replies with.
LEAVES = """
import subprocess, sys
line = sys.stdin.readline()
child = subprocess.Popen(["sleep", "60"], stdout=None if "hold" in line else subprocess.DEVNULL)
print('{"caller":0,"line":1,"ok":"granted","version":0,"balance":%d}' % child.pid, flush=True)
if "last" not in line:
    sys.stdin.read()
"""


@pytest.mark.parametrize("word", ["hold", "leave"])
def test_what_a_program_leaves_running_is_ended(word: str, monkeypatch: pytest.MonkeyPatch) -> None:
    monkeypatch.setattr("purvelj.pipes.GRACE", 2.0)
    with Desk(program(LEAVES), timeout=60) as desk:
        child = desk.send(word)[0].balance
        assert not is_ended(child)
    assert desk.close() == 0 and is_ended(child)


def test_what_a_program_leaves_that_ended_by_itself_is_ended(monkeypatch: pytest.MonkeyPatch) -> None:
    monkeypatch.setattr("purvelj.pipes.GRACE", 0.5)
    with Desk(program(LEAVES), timeout=60) as desk:
        child = desk.send("last")[0].balance
        with pytest.raises(DeskEnded, match="ended with status 0"):
            for _ in range(2000):
                desk.test_running()
                time.sleep(0.01)
        assert not is_ended(child)
    assert desk.close() == 0 and is_ended(child)


def test_what_a_script_leaves_running_is_ended(monkeypatch: pytest.MonkeyPatch, tmp_path: Path) -> None:
    monkeypatch.setattr("purvelj.pipes.GRACE", 0.5)
    assert is_ended(run_script(["last"], program(LEAVES)).exchanges[0].reply.balance)
    told = tmp_path / "child"
    notes = f"open({str(told)!r}, 'w').write(f'{{child.pid}}\\n'); print(flush=True)"
    # The time is over once it is told which child is left, and not after some seconds.
    monkeypatch.setattr("purvelj.pipes._seconds_to", lambda deadline: 0.0 if is_told(told) else 60.0)
    with pytest.raises(NoReply, match="didn't end within 60 s"):
        run_script(["last hold"], program(f"{LEAVES}\n{notes}"), timeout=60)
    until(lambda: is_ended(int(told.read_text())))


def is_told(path: Path) -> bool:
    return path.exists() and path.read_text().endswith("\n")


def test_a_program_whose_number_may_be_anothers_is_sent_no_signal(monkeypatch: pytest.MonkeyPatch) -> None:
    sent: list[int] = []
    monkeypatch.setattr("os.killpg", lambda group, number: sent.append(number))
    desk = Desk(program("import sys; sys.stdin.read()"))
    desk._program._process.stdin.close()
    os.waitpid(desk._program._process.pid, 0)
    assert (desk.close(), sent) == (0, [])


def test_a_program_that_is_gone_before_its_signal_comes(monkeypatch: pytest.MonkeyPatch) -> None:
    def gone(group: int, number: int) -> None:
        os.kill(group, signal.SIGKILL)
        raise ProcessLookupError

    monkeypatch.setattr("purvelj.pipes.GRACE", 0.3)
    monkeypatch.setattr("os.killpg", gone)
    assert Desk(program("import time; time.sleep(60)")).close() == -signal.SIGKILL


def test_a_program_that_never_stops_writing_is_ended(monkeypatch: pytest.MonkeyPatch) -> None:
    monkeypatch.setattr("purvelj.pipes.GRACE", 0.3)
    with Desk(["yes"], timeout=60) as desk:
        with pytest.raises(FileError, match="reply to line 1: not JSON"):
            desk.plan()
    assert desk.close() == -signal.SIGTERM
    with pytest.raises(NoReply, match="didn't end within 0.1 s"):
        run_script(LINES, program("while True: print(flush=True)"), timeout=0.1)
