"""What a server tells of the lines and bytes that a session may read."""

from __future__ import annotations

import shlex
import threading
from pathlib import Path

import pytest

from purvelj import cli
from purvelj.desk import Desk
from purvelj.serve import Server, bind_path
from script import LINES, REPLIES
from serving import AGAIN, Caller, limited


def left_by_another(folder: Path) -> None:
    """Makes the journal of a desk that did the short script."""
    for kind, texts in (("lines", LINES), ("replies", REPLIES)):
        (folder / f"night.{kind}.jsonl").write_text("".join(f"{text}\n" for text in texts))


def test_a_journal_whose_claims_are_too_long_has_its_plans_sought_again(serve, tmp_path: Path, capfd) -> None:
    program = limited(tmp_path)
    left_by_another(tmp_path)
    assert cli.main(["serve", str(tmp_path / "night"), "--program", shlex.join(program)]) == 9
    said = capfd.readouterr().err.splitlines()
    assert said[:2] == [
        f"purvelj: {AGAIN}",
        "purvelj: the lines are more, or longer, than a session may read: see Limits in docs/operations.md",
    ]
    assert "ended with status 5 (its input is longer than it may be)" in said[2] and len(said) == 3
    server = serve("--seek", program=program)
    assert server.told()[1] == "lines that were done again: 9, published plans among them: 1"
    assert server.end() == 0


@pytest.mark.parametrize("most, nearly, status", [(20, 9, 0), (20, 8, 0), (10, 8, 0), (9, 8, 9)])
def test_lines_that_are_nearly_used_up_are_told(most, nearly, status, tmp_path: Path, monkeypatch, capfd) -> None:
    monkeypatch.setattr("purvelj.serve.MOST_LINES", most)
    monkeypatch.setattr("purvelj.serve.NEARLY_ALL", nearly)
    monkeypatch.setattr("purvelj.serve.Server.run", lambda server: None)
    left_by_another(tmp_path)
    words = ["serve", str(tmp_path / "night"), "--seek", "--program", shlex.join(limited(tmp_path))]
    assert cli.main(words) == status
    said = capfd.readouterr().err.splitlines()[2:]
    new = "a new desk has to go on: see Limits in docs/operations.md"
    listening = f"purvelj: listening at {tmp_path}/night.socket"
    if status:
        assert said == [f"purvelj: the session may read no more lines, so it takes none, and {new}"]
    elif nearly == 8:
        assert said == [f"purvelj: the session may read {most - 9} more lines, and then {new}", listening]
    else:
        assert said == [listening]
    assert not (tmp_path / "night.socket").exists()


def test_lines_that_become_few_are_told_once(netsched, tmp_path: Path, monkeypatch) -> None:
    monkeypatch.setattr("purvelj.serve.NEARLY_ALL", 2)
    told: list[str] = []
    with Desk(netsched) as desk, bind_path(str(tmp_path / "socket")) as listener:
        listener.listen()
        server = Server(desk, listener, told.append)
        running = threading.Thread(target=server.run)
        running.start()
        with Caller(tmp_path / "socket") as caller:
            for place, line in enumerate(LINES[:6]):
                assert caller.ask(line) == [REPLIES[place]]
        server.stop()
        running.join(60)
    assert [text.split(",")[0] for text in told] == ["the session may read 65533 more lines"]
