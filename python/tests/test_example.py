"""The example of a network, from the sky to its pictures, and the commands of its page."""

from __future__ import annotations

import json
import os
import re
import shlex
import shutil
import subprocess
import sys
from pathlib import Path
from typing import Iterator

import pytest

TOP = Path(__file__).resolve().parents[2]
PAGE = (TOP / "docs" / "sky.md").read_text(encoding="utf-8")
RUN = "examples/sky/run"


class Shell:
    """A folder like the top of the repository, in which commands are run as the page has them."""

    def __init__(self, folder: Path, program: list[str]) -> None:
        self.folder = folder
        self._environment = {**os.environ, "PURVELJ_PROGRAM": shlex.join(program)}
        (folder / "python").symlink_to(TOP / "python")
        shutil.copytree(TOP / "examples", folder / "examples", ignore=shutil.ignore_patterns("out", "__pycache__"))

    def run(self, command: str) -> subprocess.CompletedProcess:
        """What a command writes, its messages among it."""
        pipes = {"stdout": subprocess.PIPE, "stderr": subprocess.STDOUT, "text": True}
        return subprocess.run(["sh", "-c", command], cwd=self.folder, env=self._environment, check=False, **pipes)


@pytest.fixture(scope="module")
def shell(netsched: list[str], tmp_path_factory: pytest.TempPathFactory) -> Shell:
    return Shell(tmp_path_factory.mktemp("top"), netsched)


@pytest.fixture(scope="module")
def ran(shell: Shell) -> subprocess.CompletedProcess:
    """The whole example."""
    return shell.run(RUN)


def commands() -> Iterator[tuple[str, list[str]]]:
    """The commands of the page, each with the lines below it, which it writes."""
    for block in PAGE.replace("\\\n", "").split("\n\n"):
        lines = [line.removeprefix("    ") for line in block.split("\n") if line.startswith("    ")]
        starts = [place for place, line in enumerate(lines) if line.startswith("$ ")]
        for start, end in zip(starts, [*starts[1:], len(lines)]):
            yield lines[start].removeprefix("$ "), lines[start + 1 : end]


def assert_written(ran: subprocess.CompletedProcess, wanted: list[str]) -> None:
    """Each line was written, up to one that stands for others; how long something took isn't compared."""
    written = [re.sub(r", in \d+ s$", ", in 0 s", line) for line in ran.stdout.splitlines()]
    if ".." in wanted:
        wanted = wanted[: wanted.index("..")]
        written = written[: len(wanted)]
    assert written == wanted


def test_the_example_runs_to_its_end(shell: Shell, ran: subprocess.CompletedProcess) -> None:
    assert ran.returncode == 0, ran.stdout
    assert_written(ran, dict(commands())[RUN])
    out = shell.folder / "examples" / "sky" / "out"
    names = {
        "script.jsonl",
        "output.jsonl",
        *(f"{a}-{b}.png" for a in ("first", "later") for b in ("plan", "accounts")),
    }
    assert {path.name for path in out.iterdir()} == names
    replies = [json.loads(line) for line in (out / "output.jsonl").read_text().splitlines()]
    assert not any("refused" in reply for reply in replies)
    script = (out / "script.jsonl").read_text().splitlines()
    assert len(script) == replies[-1]["line"]


def test_the_commands_of_the_page_write_what_it_says(shell: Shell, ran: subprocess.CompletedProcess) -> None:
    group = PAGE[PAGE.index("    {\n") : PAGE.index("\n    }\n") + len("\n    }\n")]
    (shell.folder / "ngc253.json").write_text(group, encoding="utf-8")
    told = [(command, wanted) for command, wanted in commands() if command != RUN]
    assert len(told) == 8
    for command, wanted in told:
        assert_written(shell.run(command), wanted)


def test_a_refusal_ends_the_example(tmp_path: Path) -> None:
    reply = '{"caller":0,"line":1,"member":"horizon","no":6,"refused":"OutOfRange","version":0}'
    program = shlex.join([sys.executable, "-c", f"input(); print({reply!r})"])
    command = [TOP / RUN, "--program", program, "--out", tmp_path]
    done = subprocess.run(command, capture_output=True, text=True, check=False)
    assert (done.returncode, done.stdout) == (9, "")
    assert done.stderr.endswith('line 1 is refused: 6 OutOfRange {"member":"horizon"}\n')
    assert (tmp_path / "output.jsonl").exists()


def test_a_folder_that_cannot_be_made_is_told(tmp_path: Path) -> None:
    (tmp_path / "file").touch()
    done = subprocess.run([TOP / RUN, "--out", "file/out"], cwd=tmp_path, capture_output=True, text=True, check=False)
    message = "examples/sky/run: file/out: can't be made: Not a directory; --out names another folder\n"
    assert (done.returncode, done.stdout, done.stderr) == (3, "", message)
