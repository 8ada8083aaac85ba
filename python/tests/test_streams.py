"""The commands' standard streams: closed, full, left by their reader, interrupted, and in whatever country."""

from __future__ import annotations

import json
import os
import shlex
import signal
import subprocess
import sys
from pathlib import Path

import pytest

from portal_document import DOCUMENT
from purvelj.documents import compact
from purvelj.portal import convert
from script import LINES, REPLIES

TOP = Path(__file__).resolve().parents[1]
EXPORT = REPLIES[-1]
#: A request group with a warning, and its line.
GROUP = json.loads(DOCUMENT.replace('"ipp_value": 1.05', '"ipp_value": 1.0504'))
SUBMIT = compact(convert(GROUP, 10).line())

#: A session program that refuses each line.
REFUSE = """
import sys
for line, _ in enumerate(sys.stdin, start=1):
    print('{"caller":0,"line":%d,"no":2,"refused":"NotObject","version":0}' % line, flush=True)
"""


def process(*words: str, **members) -> subprocess.Popen:
    environment = {**os.environ, "PYTHONPATH": str(TOP)}
    pipes = {"stdout": subprocess.PIPE, "stderr": subprocess.PIPE, **members}
    return subprocess.Popen([sys.executable, "-m", "purvelj", *words], env=environment, text=True, **pipes)


def test_standard_input_is_read(tmp_path: Path) -> None:
    with process("check", "-", stdin=subprocess.PIPE) as ran:
        assert ran.communicate(EXPORT) == ('{"bound":50000,"ok":"yes","value":50000}\n', "")


def shell(command: str, folder: Path) -> tuple[int, str]:
    """The exit status of a shell's command, in which ``purvelj`` is the package, and what it says on standard error."""
    (folder / "export.json").write_text(EXPORT)
    (folder / "group.json").write_text(json.dumps(GROUP))
    text = f'purvelj() {{ {shlex.quote(sys.executable)} -m purvelj "$@"; }}; {command}'
    environment = {**os.environ, "PYTHONPATH": str(TOP)}
    done = subprocess.run(["sh", "-c", text], cwd=folder, env=environment, capture_output=True, text=True, check=False)
    return done.returncode, done.stderr


@pytest.mark.parametrize(
    "command, message",
    [
        ("purvelj check export.json >/dev/full", "standard output: can't be written: No space left on device"),
        ("purvelj --help >/dev/full", "standard output: can't be written: No space left on device"),
        ("purvelj --version >/dev/full", "standard output: can't be written: No space left on device"),
        ("purvelj check export.json >&-", "standard output: can't be written: it is closed"),
        ("purvelj check - <&-", "standard input: can't be read: it is closed"),
        ("printf '\\377' | purvelj check -", "standard input: not a text in UTF-8"),
        ("printf '{}\\n\\377\\n' | purvelj check -", "standard input, line 2: not a text in UTF-8"),
        ("echo {} | purvelj nights - --from 2026-11-27 --days 1", "standard input: sites: is missing"),
        ("echo [] | purvelj portal - --priority 1", "standard input: there is no request group in it"),
    ],
)
def test_streams_that_fail_are_told(command: str, message: str, tmp_path: Path) -> None:
    status, err = shell(command, tmp_path)
    assert (status, err) == (4 if "missing" in message or "group" in message else 3, f"purvelj: {message}\n")


@pytest.mark.parametrize(
    "command, status",
    [
        ("check nowhere.json 2>&-", 3),
        ("check nowhere.json 2>/dev/full", 3),
        ("sing 2>&-", 2),
        ("portal group.json --priority 10 2>&-", 0),
        ("portal group.json --priority 10 2>/dev/full", 0),
    ],
)
def test_a_standard_error_that_fails_leaves_the_status(command: str, status: int, tmp_path: Path) -> None:
    """The result is there, too, where there is one."""
    text = f'out=$(purvelj {command}); status=$?; printf "%s\\n" "$out" >&2; exit $status'
    assert shell(text, tmp_path) == (status, "\n" if status else f"{SUBMIT}\n")


def test_results_are_utf_8_in_every_country(tmp_path: Path, netsched: list[str]) -> None:
    script = [*LINES[:6], LINES[6].replace('"g"', '"\U0001f52d"'), '{"do":"show","group_number":1}']
    (tmp_path / "script.jsonl").write_text("\n".join(script))
    words = ["replay", str(tmp_path / "script.jsonl"), "--program", shlex.join(netsched)]
    environment = {**os.environ, "PYTHONPATH": str(TOP), "PYTHONIOENCODING": "latin-1"}
    done = subprocess.run([sys.executable, "-m", "purvelj", *words], env=environment, capture_output=True, check=False)
    assert (done.returncode, done.stderr) == (0, b"")
    assert '"name":"\U0001f52d"'.encode() in done.stdout


def test_an_interrupted_command_says_so(tmp_path: Path) -> None:
    (tmp_path / "script.jsonl").write_text("{}\n")
    sleep = "sh -c 'echo started >&2; exec sleep 60'"
    with process("replay", str(tmp_path / "script.jsonl"), "--program", sleep) as ran:
        assert ran.stderr.readline() == "started\n"
        ran.send_signal(signal.SIGINT)
        assert (ran.wait(60), ran.stdout.read(), ran.stderr.read()) == (130, "", "purvelj: interrupted\n")


def test_a_reader_that_leaves_is_no_fault(tmp_path: Path) -> None:
    (tmp_path / "script.jsonl").write_text("[]\n" * 20_000)
    (tmp_path / "refuse.py").write_text(REFUSE)
    program = f"{sys.executable} {tmp_path}/refuse.py"
    with process("replay", str(tmp_path / "script.jsonl"), "--program", program) as ran:
        ran.stdout.readline()
        ran.stdout.close()
        assert (ran.wait(60), ran.stderr.read()) == (3, "")
