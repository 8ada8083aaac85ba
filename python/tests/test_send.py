"""The command that sends lines to a server, and prints its replies."""

from __future__ import annotations

import os
import re
import signal
import socket
import subprocess
import sys
from pathlib import Path
from typing import Iterator

import pytest

from purvelj.serve import bind_path
from script import LINES, REPLIES
from serving import SLOW, TOP, Served, until

#: A session program that refuses each line, but for the third one, at which it ends.
REFUSE = """
import sys
for line, _ in enumerate(sys.stdin, start=1):
    if line == 3:
        break
    print('{"caller":0,"line":%d,"no":2,"refused":"NotObject","version":0}' % line, flush=True)
"""


@pytest.fixture
def serve(tmp_path: Path):
    """Starts a server over a session program, and waits until it listens."""
    started: list[Served] = []

    def start(program: list[str], *words: str) -> Served:
        started.append(Served(tmp_path, program, *words))
        until(lambda: started[-1].says("listening at "))
        return started[-1]

    yield start
    for server in started:
        server.process.kill()
        server.process.wait(60)


@pytest.fixture
def send(tmp_path: Path) -> Iterator:
    """Starts the command in the server's folder."""
    started: list[subprocess.Popen] = []

    def start(*words: str, **members) -> subprocess.Popen:
        pipes = {name: subprocess.PIPE for name in ("stdin", "stdout", "stderr")}
        environment = {**os.environ, "PYTHONPATH": str(TOP)}
        command = [sys.executable, "-m", "purvelj", "send", *words]
        started.append(subprocess.Popen(command, cwd=tmp_path, env=environment, text=True, **{**pipes, **members}))
        return started[-1]

    yield start
    for process in started:
        process.kill()
        process.communicate()


def test_lines_get_their_replies(serve, send, netsched: list[str]) -> None:
    server = serve(netsched)
    sender = send("night.socket")
    assert sender.communicate("\n".join(LINES) + "\n", 60) == ("\n".join(REPLIES) + "\n", "")
    assert sender.returncode == 0
    again = send("night.socket")
    out, err = again.communicate('{"do":"sing"}\n{"do":"balances"}', 60)
    assert (again.returncode, err) == (0, "purvelj: 1 of 2 lines were refused\n")
    assert [re.findall('"line":([0-9]+)', text) for text in out.splitlines()] == [["10"], ["11"]]
    assert server.written("lines") == [*LINES, '{"do":"sing"}', '{"do":"balances"}']


def test_a_port_is_sent_to(serve, send) -> None:
    server = serve([sys.executable, "-c", REFUSE], "--port", "0")
    port = server.told()[-1].split()[3]
    sender = send("--port", port, "--host", "127.0.0.1")
    out, err = sender.communicate("[]\n[]\n", 60)
    assert (sender.returncode, out.count("NotObject"), err) == (0, 2, "purvelj: 2 of 2 lines were refused\n")
    assert send("--port", port).communicate("", 60) == ("", "")


def test_a_reply_is_printed_before_the_next_line_comes(serve, send) -> None:
    serve([sys.executable, "-c", REFUSE])
    sender = send("night.socket")
    for _ in range(2):
        sender.stdin.write("[]\n")
        sender.stdin.flush()
        assert "NotObject" in sender.stdout.readline()


def test_many_lines_and_replies_are_sent_at_once(serve, send) -> None:
    program = REFUSE.replace("line == 3", "line == 30_001")
    serve([sys.executable, "-c", program])
    sender = send("night.socket")
    out, err = sender.communicate(f"[{' ' * 300}]\n" * 1_500, 100)
    assert (sender.returncode, out.count("\n"), err) == (0, 1_500, "purvelj: 1500 of 1500 lines were refused\n")


def test_a_server_that_ends_is_told(serve, send) -> None:
    serve([sys.executable, "-c", REFUSE])
    sender = send("night.socket")
    out, err = sender.communicate("[]\n" * 4, 60)
    assert (sender.returncode, out.count("\n")) == (3, 2)
    assert err.endswith("purvelj: night.socket: the server ended the connection: 2 of 4 lines were replied to\n")


def test_a_server_that_ends_while_no_line_comes_is_told(serve, send) -> None:
    server = serve([sys.executable, "-c", REFUSE])
    sender = send("night.socket")
    sender.stdin.write("[]\n")
    sender.stdin.flush()
    assert "NotObject" in sender.stdout.readline()
    assert server.end() == 0
    assert sender.wait(60) == 3
    assert sender.stderr.read().endswith("the server ended the connection: 1 of 1 lines were replied to\n")


def test_a_torn_reply_is_none(tmp_path: Path, send) -> None:
    with bind_path(str(tmp_path / "socket")) as listener:
        listener.listen()
        sender = send("socket")
        taken, _ = listener.socket.accept()
        with taken:
            taken.sendall(f"{REPLIES[0]}\n{REPLIES[1][:20]}".encode())
            taken.shutdown(socket.SHUT_RDWR)
        out, err = sender.communicate("{}\n", 60)
    assert (sender.returncode, out) == (3, f"{REPLIES[0]}\n") and "the server ended the connection" in err


def test_an_interrupted_sender_says_so(serve, send, tmp_path: Path) -> None:
    serve([sys.executable, "-c", SLOW])
    sender = send("night.socket")
    sender.stdin.write('{"do":"plan"}\n')
    sender.stdin.flush()
    until((tmp_path / "seeking").exists)
    sender.send_signal(signal.SIGINT)
    (tmp_path / "found").touch()
    assert (sender.wait(60), sender.stderr.read()) == (130, "purvelj: interrupted\n")


@pytest.mark.parametrize(
    "words, status, message",
    [
        (("nowhere.socket",), 3, "nowhere.socket: can't be connected to: No such file or directory"),
        (("long" * 30,), 3, f"{'long' * 30}: can't be connected to: AF_UNIX path too long"),
        (("--port", "1"), 3, "port 1 of 127.0.0.1: can't be connected to: Connection refused"),
        (("--port", "1", "--host", "a..b"), 3, "port 1 of a..b: can't be connected to: "),
        ((), 2, "send goes to one server: name its SOCKET, or its --port"),
        (("night.socket", "--port", "1"), 2, "send goes to one server: name its SOCKET, or its --port"),
        (("night.socket", "--host", "::1"), 2, "--host goes with --port"),
    ],
)
def test_where_nothing_can_be_sent(send, words: tuple[str, ...], status: int, message: str) -> None:
    sender = send(*words)
    assert sender.communicate("", 60)[1].startswith(f"purvelj: {message}")
    assert sender.returncode == status


def test_lines_that_cannot_be_read_are_told(serve, send, tmp_path: Path) -> None:
    serve([sys.executable, "-c", REFUSE])
    with open(tmp_path / "output", "w", encoding="utf-8") as output:
        sender = send("night.socket", stdin=output)
    wanted = "purvelj: standard input: can't be read: Bad file descriptor\n"
    assert (sender.wait(60), sender.stderr.read()) == (3, wanted)
