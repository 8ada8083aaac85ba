"""Where a server of lines listens, and since when."""

from __future__ import annotations

import os
import re
import shlex
import socket
import sys
from pathlib import Path

import pytest

from purvelj import cli
from purvelj.errors import FileError
from purvelj.serve import bind_path, bind_port
from script import LINES, REPLIES
from serving import AGAIN, Caller, until

#: A session program that replies to its first line with a word of its command, once there is a file ``go``.
WAITS = """
import pathlib, sys, time
for line in sys.stdin:
    pathlib.Path("asked").touch()
    while not pathlib.Path("go").exists():
        time.sleep(0.01)
    print(sys.argv[1], flush=True)
"""


def test_a_second_server_on_the_journal_is_refused(serve, netsched, tmp_path: Path, capfd) -> None:
    server = serve()
    words = ["serve", str(tmp_path / "night"), "--program", shlex.join(netsched)]
    assert cli.main([*words, "--port", "0"]) == 3
    refused = f"{tmp_path}/night.lines.jsonl: another desk writes it"
    assert capfd.readouterr().err == f"purvelj: {AGAIN}\npurvelj: {refused}\n"
    with Caller(server.path) as caller:
        assert caller.ask(LINES[0]) == REPLIES[:1]
    for others in (words, [*words[:1], str(tmp_path / "dawn"), *words[2:], "--socket", str(server.path)]):
        assert cli.main(others) == 3
        assert capfd.readouterr().err == f"purvelj: {server.path}: another server has it\n"
    assert server.end() == 0 and not server.path.exists()
    assert not list(tmp_path.glob("dawn*"))


def test_an_address_is_had_before_a_journal_is_done_again(serve, tmp_path: Path, capfd) -> None:
    for kind, text in (("lines", LINES[0]), ("replies", REPLIES[0])):
        (tmp_path / f"night.{kind}.jsonl").write_text(f"{text}\n")
    (tmp_path / "waits.py").write_text(WAITS)
    server = serve(program=[sys.executable, "waits.py", REPLIES[0]], listens=False)
    until((tmp_path / "asked").exists)
    with pytest.raises(ConnectionRefusedError):
        Caller(server.path)
    words = ["serve", str(tmp_path / "dawn"), "--program", "cat", "--socket", str(server.path)]
    assert cli.main(words) == 3
    assert capfd.readouterr().err == f"purvelj: {server.path}: another server has it\n"
    (tmp_path / "go").touch()
    until(lambda: server.says("listening at night.socket"))
    Caller(server.path).socket.close()
    assert server.end() == 0 and not server.path.exists() and not list(tmp_path.glob("dawn*"))


@pytest.mark.parametrize("words", [("--socket", "long" * 30), ("--socket", "."), ("--port", "0", "--host", "a..b")])
def test_an_address_that_cannot_be_had_is_told_before_a_journal_is_begun(words, tmp_path: Path, capfd) -> None:
    assert cli.main(["serve", str(tmp_path / "night"), "--program", "cat", *words]) == 3
    assert len(capfd.readouterr().err.splitlines()) == 1
    assert not list(tmp_path.iterdir())


def test_a_port_is_listened_at(serve, capfd, tmp_path: Path) -> None:
    server = serve("--port", "0")
    found = re.fullmatch("listening at port ([0-9]+) of 127.0.0.1", server.told()[-1])
    assert found
    with Caller(("127.0.0.1", int(found[1]))) as caller:
        assert caller.ask(LINES[0]) == REPLIES[:1]
    for host, port in (("127.0.0.1", found[1]), ("a..b", "0")):
        words = ["--port", port, "--host", host, "--program", "cat"]
        assert cli.main(["serve", str(tmp_path / f"{host}.night"), *words]) == 3
        assert capfd.readouterr().err.startswith(f"purvelj: port {port} of {host}: can't be listened at: ")
        assert not list(tmp_path.glob(f"{host}*"))
    assert server.end() == 0 and not server.path.exists()


def test_a_socket_is_replaced_only_where_nobody_has_it(tmp_path: Path) -> None:
    path = str(tmp_path / "socket")
    with bind_path(path) as listener:
        for _ in range(2):
            with pytest.raises(FileError, match="socket: another server has it"):
                bind_path(path)
            listener.listen()
    assert not os.path.lexists(path)
    with socket.socket(socket.AF_UNIX) as left:
        left.bind(path)
    with bind_path(path) as listener:
        os.rename(path, tmp_path / "moved")
        (tmp_path / "socket").write_text("another's")
    assert listener.socket.fileno() == -1 and (tmp_path / "socket").read_text() == "another's"
    with pytest.raises(FileError, match="socket: it is there already, and is no socket"):
        bind_path(path)
    with pytest.raises(FileError, match="nowhere/socket: can't be listened at: No such file"):
        bind_path(str(tmp_path / "nowhere" / "socket"))
    with pytest.raises(FileError, match="is too long for a Unix socket, whose path has at most 107 bytes"):
        bind_path("/" + 107 * "a")
    with pytest.raises(FileError, match="can't be listened at: No such file"):
        bind_path("/nowhere/" + 98 * "a")


def test_of_two_that_have_a_port_one_listens() -> None:
    with bind_port("127.0.0.1", 0) as first:
        port = first.socket.getsockname()[1]
        with bind_port("127.0.0.1", port) as second:
            first.listen()
            with pytest.raises(FileError, match=f"port {port} of 127.0.0.1: can't be listened at: Address already in"):
                second.listen()
        with pytest.raises(FileError, match=f"port {port} of 127.0.0.1: can't be listened at: Address already in"):
            bind_port("127.0.0.1", port)


@pytest.mark.parametrize("words", [("--host", "::1"), ("--port", "1", "--socket", "s"), ("--port", "65536")])
def test_words_that_do_not_go_together_are_refused(words: tuple[str, ...], capfd) -> None:
    assert cli.main(["serve", "night", *words]) == 2
    assert "purvelj" in capfd.readouterr().err
