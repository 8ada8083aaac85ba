"""Finds the package, the tests' own modules and the programs to talk to, from whatever folder the tests are run.

It has the fixtures that many tests share.
"""

from __future__ import annotations

import json
import os
import shutil
import signal
import subprocess
import sys
from pathlib import Path

import pytest

HERE = Path(__file__).resolve().parent
TOP = HERE.parents[1]
sys.path[:0] = [str(HERE.parent), str(HERE)]

# A shell starts what it runs in the background with the first signal ignored, and `nohup` with the second. That would be so in
# what the tests start and interrupt.
signal.signal(signal.SIGINT, signal.default_int_handler)
signal.signal(signal.SIGHUP, signal.SIG_DFL)


def built(name: str) -> str:
    """Where a program of the repository is: the proved one, or else one that is built without proof.

    Where it isn't there, nor a toolchain to build it, the test that asks for it is left out.
    """
    command = ["sh", "-c", '. "$top/bin/lib.sh" && program "$1"', "python/check", name]
    ran = subprocess.run(command, env={**os.environ, "top": str(TOP)}, stdout=subprocess.PIPE, text=True, check=False)
    if ran.returncode and shutil.which("rt") is None:
        pytest.skip("the Rattle toolchain isn't there")
    ran.check_returncode()
    return ran.stdout.strip()


@pytest.fixture(scope="session")
def netsched() -> list[str]:
    """The command of the session program."""
    return [built("netsched"), "session"]


@pytest.fixture(scope="session")
def plancheck() -> list[str]:
    """The command of the program that checks a claim."""
    return [built("plancheck"), "check"]


class Ran:
    """What a command wrote, and its exit status."""

    def __init__(self, status: int, out: str, err: str) -> None:
        self.status, self.out, self.err = status, out, err
        assert "Traceback" not in err

    def lines(self) -> list[dict]:
        return [json.loads(line) for line in self.out.splitlines()]


@pytest.fixture
def run(tmp_path: Path, monkeypatch: pytest.MonkeyPatch, capfd):
    """Runs a command in a folder of its own, in which each member of ``files`` is a file."""
    from purvelj import cli

    monkeypatch.chdir(tmp_path)

    def command(*words: str, files: dict[str, object] | None = None) -> Ran:
        for name, content in (files or {}).items():
            text = content if isinstance(content, str) else json.dumps(content)
            (tmp_path / name).write_text(text, encoding="utf-8")
        try:
            status = cli.main(words)
        except SystemExit as end:
            status = end.code
        return Ran(status, *capfd.readouterr())

    return command


@pytest.fixture
def serve(tmp_path: Path, netsched: list[str]):
    """Starts a server, by default over the session program, and waits until it listens if nothing else is said."""
    from serving import Served, until

    started: list[Served] = []

    def start(*words: str, program: list[str] | None = None, listens: bool = True) -> Served:
        server = Served(tmp_path, program or netsched, *words)
        started.append(server)
        until(lambda: not listens or server.says("listening at ") or server.process.poll() is not None)
        assert server.process.poll() is None, server.told()
        return server

    yield start
    for server in started:
        server.process.kill()
        server.process.wait(60)
