"""A server of lines that was started as a command, and callers that connect to it."""

from __future__ import annotations

import os
import shlex
import signal
import socket
import subprocess
import sys
import time
from pathlib import Path
from typing import Callable

from script import REPLIES

TOP = Path(__file__).resolve().parents[1]

#: What a server says first where its journal is there.
AGAIN = "the journal's lines are done again, and until then nobody can connect"

#: A session program that seeks a plan until there is a file ``found``, and says so in a file ``seeking``.
SLOW = """
import json, pathlib, sys, time
for place, line in enumerate(sys.stdin, start=1):
    heads = {"caller": 0, "line": place, "version": place}
    if json.loads(line)["do"] == "plan":
        print(json.dumps({**heads, "ok": "taken"}), flush=True)
        pathlib.Path("seeking").touch()
        for _ in range(6000):
            if pathlib.Path("found").exists():
                break
            time.sleep(0.01)
        print(json.dumps({**heads, "no": 38, "refused": "TooManyStarts", "count": 2000000}), flush=True)
    else:
        print(json.dumps({**heads, "ok": "night"}), flush=True)
"""

#: A session program that has the replies to the short script, and may read no claim.
LIMITED = """
import json, pathlib, sys
replies = pathlib.Path(sys.argv[1]).read_text().splitlines()
for place, line in enumerate(sys.stdin, start=1):
    if json.loads(line)["do"] == "publish":
        sys.exit(5)
    print("\\n".join(text for text in replies if json.loads(text)["line"] == place), flush=True)
"""


#: A session program that at the end of its input waits until there is a file ``ended``, and says so in a file ``ending``.
LASTING = """
import pathlib, sys, time
sys.stdin.read()
pathlib.Path("ending").touch()
for _ in range(6000):
    if pathlib.Path("ended").exists():
        break
    time.sleep(0.01)
"""


def limited(folder: Path) -> list[str]:
    """The command of a session program to which a claim is an input that is too long."""
    (folder / "limited.py").write_text(LIMITED)
    (folder / "replies").write_text("\n".join(REPLIES))
    return [sys.executable, str(folder / "limited.py"), str(folder / "replies")]


def until(condition: Callable[[], object]) -> None:
    """Waits until something holds."""
    deadline = time.monotonic() + 60
    while not condition():
        assert time.monotonic() < deadline, "it didn't come in time"
        time.sleep(0.01)


class Caller:
    """A connection to a server."""

    def __init__(self, where: Path | tuple[str, int]) -> None:
        self.socket = socket.socket(socket.AF_INET if isinstance(where, tuple) else socket.AF_UNIX)
        self.socket.settimeout(60)
        self.socket.connect(where if isinstance(where, tuple) else str(where))
        self._source = self.socket.makefile("rb")

    def __enter__(self) -> Caller:
        return self

    def __exit__(self, *_: object) -> None:
        self._source.close()
        self.socket.close()

    def send(self, *lines: str) -> None:
        self.socket.sendall("".join(f"{line}\n" for line in lines).encode())

    def read(self, replies: int) -> list[str]:
        return [self._source.readline().decode().removesuffix("\n") for _ in range(replies)]

    def ask(self, line: str, replies: int = 1) -> list[str]:
        self.send(line)
        return self.read(replies)

    def rest(self) -> bytes:
        """What comes until the server closes the connection."""
        pieces = b""
        try:
            while piece := self._source.read1():
                pieces += piece
        except ConnectionResetError:
            pass
        return pieces


class Served:
    """A server that was started as a command, with the journal ``night`` in a folder."""

    def __init__(self, folder: Path, program: list[str], *words: str) -> None:
        self.folder = folder
        self.path = folder / "night.socket"
        command = [sys.executable, "-m", "purvelj", "serve", "night", "--program", shlex.join(program), *words]
        environment = {**os.environ, "PYTHONPATH": str(TOP)}
        with open(folder / "told", "w", encoding="utf-8") as told:
            self.process = subprocess.Popen(command, cwd=folder, env=environment, stderr=told)

    def told(self) -> list[str]:
        """What it has said on standard error."""
        lines = (self.folder / "told").read_text(encoding="utf-8").splitlines()
        assert not any(line.startswith("Traceback") for line in lines)
        return [line.removeprefix("purvelj: ") for line in lines]

    def says(self, text: str) -> bool:
        return any(text in line for line in self.told())

    def desk_program(self) -> int:
        """The number of the process that is the desk's program."""
        process = self.process.pid
        return int(Path(f"/proc/{process}/task/{process}/children").read_text().split()[0])

    def written(self, kind: str) -> list[str]:
        """The lines or the replies of its journal."""
        return (self.folder / f"night.{kind}.jsonl").read_text(encoding="utf-8").splitlines()

    def stop(self, number: int = signal.SIGTERM) -> None:
        """Sends a signal and waits until its handler has run, after which another one isn't caught."""
        self.process.send_signal(number)
        status = Path(f"/proc/{self.process.pid}/status")
        until(lambda: not int(status.read_text().split("SigCgt:")[1].split()[0], 16) >> (number - 1) & 1)

    def end(self) -> int:
        self.process.terminate()
        return self.process.wait(60)
