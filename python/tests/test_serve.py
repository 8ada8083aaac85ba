"""A server of lines, as a command, with connections that come, go, break off and send too much."""

from __future__ import annotations

import json
import os
import resource
import signal
import socket
import stat
import sys
import threading
import weakref
from contextlib import suppress
from pathlib import Path

import pytest

from purvelj.desk import Desk
from purvelj.pipes import DeskError
from purvelj.serve import LONGEST, Server, bind_path, desk_of
from script import LINES, REPLIES
from serving import AGAIN, LASTING, SLOW, Caller, until


def test_two_callers_take_turns(serve) -> None:
    server = serve()
    assert stat.S_IMODE(server.path.stat().st_mode) == 0o600
    with Caller(server.path) as first, Caller(server.path) as second:
        replies = []
        for place, line in enumerate(LINES):
            caller = first if place % 2 else second
            replies += caller.ask(line, 2 if "plan" in line else 1)
        assert replies == REPLIES
    assert (server.written("lines"), server.written("replies")) == (LINES, REPLIES)


def test_lines_that_come_at_once_get_their_own_replies(serve) -> None:
    server = serve()
    found: dict[str, list[dict]] = {}

    def ask(word: str, line: str) -> None:
        with Caller(server.path) as caller:
            caller.send(*[line] * 60)
            found[word] = [json.loads(text) for text in caller.read(60)]

    with Caller(server.path) as caller:
        caller.send(*LINES[:7])
        assert caller.read(7) == REPLIES[:7]
        lines = {"balances": '{"do":"balances"}', "show": '{"do":"show","group_number":1}'}
        threads = [threading.Thread(target=ask, args=each) for each in lines.items()]
        for thread in threads:
            thread.start()
        for thread in threads:
            thread.join(60)
        assert json.loads(caller.ask(LINES[8])[0])["line"] == 128
    places = {word: [reply["line"] for reply in replies] for word, replies in found.items()}
    assert {reply["ok"] for reply in found["balances"]} == {"balances"}
    assert {reply["ok"] for reply in found["show"]} == {"shown"}
    assert places["show"] == sorted(places["show"]) and places["balances"] == sorted(places["balances"])
    assert sorted(places["show"] + places["balances"]) == list(range(8, 128))


def slow(folder: Path) -> list[str]:
    (folder / "slow.py").write_text(SLOW)
    return [sys.executable, "slow.py"]


def test_a_plan_lets_others_wait(serve, tmp_path: Path) -> None:
    server = serve(program=slow(tmp_path))
    with Caller(server.path) as planner, Caller(server.path) as other:
        planner.send('{"do":"plan"}')
        until((tmp_path / "seeking").exists)
        other.send('{"do":"night"}')
        other.socket.settimeout(0.2)
        with pytest.raises(TimeoutError):
            other.socket.recv(1)
        (tmp_path / "found").touch()
        assert [json.loads(text).get("no", 0) for text in planner.read(2)] == [0, 38]
    assert server.written("lines")[:1] == ['{"do":"plan"}']
    until(lambda: len(server.written("replies")) == 3)


def test_sigterm_has_the_line_replied_to_and_takes_no_more(serve, tmp_path: Path) -> None:
    server = serve(program=slow(tmp_path))
    with Caller(server.path) as planner, Caller(server.path) as other:
        planner.send('{"do":"plan"}', '{"do":"night"}')
        until((tmp_path / "seeking").exists)
        other.send('{"do":"night"}')
        server.stop()
        assert server.process.poll() is None
        (tmp_path / "found").touch()
        assert [json.loads(text)["line"] for text in planner.read(2)] == [1, 1]
        assert (planner.rest(), other.rest()) == (b"", b"")
        assert server.process.wait(60) == 0
    assert server.written("lines") == ['{"do":"plan"}'] and not server.path.exists()


@pytest.mark.parametrize("number, status", [(signal.SIGTERM, 0), (signal.SIGHUP, 0), (signal.SIGINT, 130)])
def test_a_signal_ends_an_idle_server(serve, number: int, status: int) -> None:
    server = serve()
    with Caller(server.path) as caller:
        assert caller.ask(LINES[0]) == REPLIES[:1]
        program = server.desk_program()
        server.process.send_signal(number)
        assert (caller.rest(), server.process.wait(60)) == (b"", status)
    assert not server.path.exists() and not Path(f"/proc/{program}").exists()
    said = server.told()
    assert said[:2] == ["no line of the journal was done, so the desk is a new one", "listening at night.socket"]
    assert said[2:] == (["interrupted"] if status else [])


def test_a_second_signal_ends_it_at_once(serve, tmp_path: Path) -> None:
    server = serve(program=slow(tmp_path))
    with Caller(server.path) as caller:
        caller.send('{"do":"plan"}')
        until((tmp_path / "seeking").exists)
        server.stop()
        assert server.process.poll() is None
        server.process.terminate()
        assert server.process.wait(60) == -signal.SIGTERM
    (tmp_path / "found").touch()


def test_a_terminal_that_is_closed_lets_the_line_be_replied_to(serve, tmp_path: Path) -> None:
    server = serve(program=slow(tmp_path))
    with Caller(server.path) as caller:
        caller.send('{"do":"plan"}')
        until((tmp_path / "seeking").exists)
        server.stop(signal.SIGHUP)
        server.process.send_signal(signal.SIGHUP)
        (tmp_path / "found").touch()
        assert [json.loads(text)["line"] for text in caller.read(2)] == [1, 1]
        assert (caller.rest(), server.process.wait(60)) == (b"", 0)
    assert len(server.written("replies")) == 2 and not server.path.exists()


def test_a_terminal_that_is_closed_lets_the_program_end(serve, tmp_path: Path) -> None:
    server = serve(program=[sys.executable, "-c", LASTING])
    server.stop(signal.SIGHUP)
    until((tmp_path / "ending").exists)
    server.process.send_signal(signal.SIGHUP)
    (tmp_path / "ended").touch()
    assert server.process.wait(60) == 0


def test_a_signal_that_is_ignored_stays_so(serve) -> None:
    before = signal.signal(signal.SIGHUP, signal.SIG_IGN)
    try:
        server = serve()
    finally:
        signal.signal(signal.SIGHUP, before)
    server.process.send_signal(signal.SIGHUP)
    with Caller(server.path) as caller:
        assert caller.ask(LINES[0]) == REPLIES[:1]
    assert server.end() == 0


def test_a_torn_last_piece_is_no_line(serve) -> None:
    server = serve()
    with Caller(server.path) as caller:
        caller.socket.sendall(f'{LINES[0]}\n{{"do":"bal'.encode())
        caller.socket.shutdown(socket.SHUT_WR)
        assert caller.rest().decode() == f"{REPLIES[0]}\n"
    until(lambda: server.says("connection 1: it ended with 10 bytes without a newline, which are no line"))
    assert server.written("lines") == LINES[:1]


def test_a_connection_that_leaves_early_has_its_lines_done(serve) -> None:
    server = serve()
    with Caller(server.path) as caller:
        caller.send(*LINES[:7])
    until(lambda: len(server.written("replies")) == 7)
    with Caller(server.path) as caller:
        assert caller.ask(LINES[7], 2) == REPLIES[7:9]
    assert server.written("replies") == REPLIES[:9]


def test_a_line_that_is_too_long_ends_its_connection_alone(serve) -> None:
    server = serve()
    with Caller(server.path) as other:
        assert other.ask(LINES[0]) == REPLIES[:1]
        with Caller(server.path) as caller:
            caller.send(LINES[1])
            with suppress(ConnectionError):
                caller.socket.sendall(b" " * (LONGEST + 2))
            assert caller.read(1) == REPLIES[1:2]
            assert caller.rest() == b""
        replies = [json.loads(other.ask(line)[0]) for line in ('{"do":"\0"}', "", " " * LONGEST, '{"do":"\u2028"}')]
    assert [reply["line"] for reply in replies] == [3, 4, 5, 6] and all(reply["no"] for reply in replies)
    until(lambda: server.says("connection 2: a line of more than 1048576 bytes isn't done"))
    assert len((server.folder / "night.lines.jsonl").read_bytes().split(b"\n")) == 7


def test_a_line_that_is_not_utf_8_is_refused_by_the_desk(serve) -> None:
    server = serve()
    refused = [f'{{"caller":0,"line":{place},"no":1,"refused":"NotJson","version":1}}' for place in (2, 3)]
    with Caller(server.path) as caller:
        assert caller.ask(LINES[0]) == REPLIES[:1]
        caller.socket.sendall(b'{"do":"\xff"}\n"\xed\xa0\x80"\n')
        assert caller.read(2) == refused
    assert server.end() == 0
    written = f"{LINES[0]}\n".encode() + b'{"do":"\xff"}\n"\xed\xa0\x80"\n'
    assert (server.folder / "night.lines.jsonl").read_bytes() == written
    again = serve()
    assert again.told()[1] == "lines that were done again: 3, published plans among them: 0"
    with Caller(again.path) as caller:
        assert json.loads(caller.ask(LINES[1])[0]) == {**json.loads(REPLIES[1]), "line": 4}
    assert (server.folder / "night.lines.jsonl").read_bytes() == written + f"{LINES[1]}\n".encode()


def test_a_torn_last_line_of_the_journal_is_told(serve, tmp_path: Path) -> None:
    (tmp_path / "night.lines.jsonl").write_text(f"{LINES[0]}\n{LINES[1][:20]}")
    (tmp_path / "night.replies.jsonl").write_text(f"{REPLIES[0]}\n")
    assert serve().told() == [
        AGAIN,
        "lines that were done again: 1, published plans among them: 0",
        "the journal's last line is torn and isn't done: whoever sent it has to send it again",
        "listening at night.socket",
    ]
    assert (tmp_path / "night.lines.jsonl").read_text() == f"{LINES[0]}\n"


def test_a_kill_loses_nothing(serve) -> None:
    server = serve()
    with Caller(server.path) as caller:
        caller.send(*LINES)
        assert caller.read(10) == REPLIES
        program = server.desk_program()
        server.process.kill()
        os.kill(program, signal.SIGKILL)
        assert caller.rest() == b""
    server.process.wait(60)
    assert server.path.exists()
    again = serve()
    assert again.told() == [
        AGAIN,
        "lines that were done again: 9, published plans among them: 1",
        "listening at night.socket",
    ]
    with Caller(again.path) as caller:
        export = json.loads(caller.ask(LINES[8])[0])
        assert export == {**json.loads(REPLIES[9]), "line": 10}
    assert again.end() == 0
    assert serve().told()[1] == "lines that were done again: 10, published plans among them: 1"


def test_a_servers_desk_keeps_no_exchange(netsched, tmp_path: Path) -> None:
    name = tmp_path / "night"
    with desk_of(name, netsched, timeout=60) as desk:
        exchanges = [weakref.ref(desk.exchange(line)) for line in LINES]
        assert [each() for each in exchanges] == [None] * len(LINES)
        with pytest.raises(DeskError, match="the desk keeps no history"):
            desk.save(tmp_path / "script.jsonl")
    with desk_of(name, netsched, timeout=60) as desk:
        assert (desk.done_again, desk.plans_again, desk.unanswered) == (9, 1, ())
        with pytest.raises(DeskError, match="the desk keeps no history"):
            assert desk.history
        (reply,) = desk.exchange(LINES[8]).output
    assert json.loads(reply) == {**json.loads(REPLIES[9]), "line": 10}
    with Desk.resume(name, netsched) as desk:
        assert (desk.done_again, desk.plans_again, len(desk.history.exchanges)) == (10, 1, 10)


def test_a_program_that_ends_ends_the_server(serve) -> None:
    server = serve()
    with Caller(server.path) as caller, Caller(server.path) as other:
        assert caller.ask(LINES[0]) == REPLIES[:1]
        os.kill(server.desk_program(), signal.SIGKILL)
        caller.send(LINES[1])
        assert (caller.rest(), other.rest(), server.process.wait(60)) == (b"", b"", 9)
    assert server.says("was ended by SIGKILL before it replied to all lines") and not server.path.exists()


def test_a_program_that_ends_while_nobody_sends_ends_the_server(serve) -> None:
    server = serve()
    os.kill(server.desk_program(), signal.SIGKILL)
    assert server.process.wait(60) == 9
    assert server.says("was ended by SIGKILL")


def test_a_program_that_is_silent_ends_the_server(serve) -> None:
    server = serve("--timeout", "0.2", program=[sys.executable, "-c", "import sys; sys.stdin.read()"])
    with Caller(server.path) as caller:
        caller.send(LINES[0])
        assert (caller.rest(), server.process.wait(60)) == (b"", 9)
    assert server.says("didn't answer within 0.2 s")
    assert serve().told() == [
        AGAIN,
        "no line of the journal was done, so the desk is a new one",
        "lines that aren't done, and are to be sent again by whoever sent them:",
        LINES[0],
        "listening at night.socket",
    ]


def test_a_server_without_a_file_to_spare_goes_on(serve) -> None:
    server = serve()
    with Caller(server.path) as first:
        assert first.ask(LINES[0]) == REPLIES[:1]
        before = resource.prlimit(server.process.pid, resource.RLIMIT_NOFILE)
        taken = os.listdir(f"/proc/{server.process.pid}/fd")
        most = next(number for number in range(len(taken) + 1) if str(number) not in taken)
        resource.prlimit(server.process.pid, resource.RLIMIT_NOFILE, (most, before[1]))
        with Caller(server.path) as second:
            until(lambda: server.says("a connection can't be taken: [Errno 24] Too many open files"))
            assert first.ask(LINES[1]) == REPLIES[1:2]
            resource.prlimit(server.process.pid, resource.RLIMIT_NOFILE, before)
            assert second.ask(LINES[2]) == REPLIES[2:3]


def test_a_caller_that_does_not_read_holds_up_nobody_else(netsched, tmp_path: Path, monkeypatch) -> None:
    monkeypatch.setattr("purvelj.serve.GRACE", 0.2)
    group = json.loads(LINES[6])["group"]
    group = {**group, "operator": "MANY", "requests": group["requests"] * 32}
    told: list[str] = []
    with Desk(netsched, journal=tmp_path / "night") as desk, bind_path(str(tmp_path / "socket")) as listener:
        listener.listen()
        desk.replay([*LINES[:5], LINES[5].replace("1000", "1000000")])
        desk.submit(group)
        server = Server(desk, listener, told.append)
        running = threading.Thread(target=server.run)
        running.start()
        with Caller(tmp_path / "socket") as deaf, Caller(tmp_path / "socket") as other:
            deaf.send(*['{"do":"show","group_number":1}'] * 500)
            until(lambda: (tmp_path / "night.replies.jsonl").stat().st_size > 60_000)
            assert json.loads(other.ask('{"do":"balances"}')[0])["ok"] == "balances"
            server.stop()
            running.join(60)
            assert not running.is_alive() and other.rest() == b""
        assert len(desk.history.exchanges) < 500
    assert told == []
