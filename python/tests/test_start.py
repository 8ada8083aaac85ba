"""The scripts that start programs and commands, over a folder like the top of the repository."""

from __future__ import annotations

import os
import shutil
import stat
import subprocess
from pathlib import Path

import pytest

from script import REPLIES

TOP = Path(__file__).resolve().parents[2]
PROGRAM = '#!/bin/sh\necho "netsched $*"\nexit 5\n'


@pytest.fixture
def top(tmp_path: Path) -> Path:
    """A repository with one program that isn't built."""
    shutil.copytree(TOP / "bin", tmp_path / "bin")
    (tmp_path / "crates" / "netsched" / "src").mkdir(parents=True)
    (tmp_path / "crates" / "netsched" / "src" / "main.rt").write_text("fn main() {}\n")
    (tmp_path / "crates.txt").write_text("netsched:\n")
    (tmp_path / "HANDLES").write_text("")
    return tmp_path


def build(top: Path, kind: str) -> Path:
    """Puts a build in its place and gives the folder that it is in."""
    command = ["sh", "-c", '. "$top/bin/lib.sh"; built netsched "$1" "$(sum_of netsched)"', "test", kind]
    done = subprocess.run(command, env={**os.environ, "top": str(top)}, capture_output=True, text=True, check=True)
    path = Path(done.stdout.strip())
    path.parent.mkdir(exist_ok=True)
    path.write_text(PROGRAM)
    path.chmod(0o755)
    return path.parent


def start(program: Path, *words: str) -> subprocess.CompletedProcess:
    environment = {**os.environ, "PATH": "/usr/bin:/bin"}
    return subprocess.run([program, *words], env=environment, capture_output=True, text=True, check=False)


def test_a_built_program_is_run_and_nothing_is_written(top: Path) -> None:
    out = build(top, "unproved")
    done = start(top / "bin" / "netsched", "session")
    assert (done.returncode, done.stdout) == (5, "netsched session\n")
    assert done.stderr.startswith("netsched: this build is not proved")
    assert len(list(out.iterdir())) == 1


def test_a_link_of_another_name_starts_the_same_program(top: Path) -> None:
    build(top, "proved")
    (top / "sched").symlink_to("bin/netsched")
    for words in (["session"], ["--proved", "session"]):
        done = start(top / "sched", *words)
        assert (done.returncode, done.stdout, done.stderr) == (5, "netsched session\n", "")


def test_a_start_that_fails_has_a_status_of_its_own(top: Path) -> None:
    done = start(top / "bin" / "netsched", "session")
    assert (done.returncode, done.stdout) == (126, "")
    assert done.stderr == "netsched: the command rt of the Rattle toolchain is not there\n"
    build(top, "unproved")
    done = start(top / "bin" / "netsched", "--proved", "session")
    assert (done.returncode, done.stdout) == (126, "")
    assert done.stderr == "netsched: not proved for the sources as they are: bin/prove does that\n"


def test_only_a_program_can_be_proved() -> None:
    done = start(TOP / "bin" / "prove", "netsched", "session")
    assert (done.returncode, done.stdout) == (2, "")
    assert done.stderr == "prove: session is none of the programs: netsched netsched_live plancheck\n"


@pytest.mark.parametrize("word", ["--help", "-h", "--version"])
@pytest.mark.parametrize("name", ["netsched", "netsched_live", "plancheck"])
def test_help_and_version_that_cannot_be_written_end_with_3(name: str, word: str) -> None:
    with open("/dev/full", "w", encoding="utf-8") as full:
        done = subprocess.run([TOP / "bin" / name, word], stdout=full, stderr=subprocess.DEVNULL, check=False)
    assert done.returncode == 3


def test_a_build_is_found_where_letters_are_sorted_otherwise(top: Path, monkeypatch: pytest.MonkeyPatch) -> None:
    """English sorts small letters among the large ones, which is not the order of their bytes."""
    made = ["localedef", "-i", "en_US", "-f", "UTF-8", str(top / "en_US.UTF-8")]
    if shutil.which("localedef") is None or subprocess.run(made, capture_output=True, check=False).returncode:
        pytest.skip("no other locale can be made here")
    for name in ("Zone.rt", "area.rt"):
        (top / "crates" / "netsched" / "src" / name).write_text(f"// {name}\n")
    monkeypatch.setenv("LC_ALL", "C")
    build(top, "proved")
    monkeypatch.setenv("LOCPATH", str(top))
    monkeypatch.setenv("LC_ALL", "en_US.UTF-8")
    done = start(top / "bin" / "netsched", "--proved", "session")
    assert (done.returncode, done.stdout, done.stderr) == (5, "netsched session\n", "")


def test_a_link_runs_the_package(tmp_path: Path) -> None:
    (tmp_path / "purvelj").symlink_to(TOP / "python" / "run")
    done = start(tmp_path / "purvelj", "--version")
    assert (done.returncode, done.stdout, done.stderr) == (0, "purvelj 0.1.0\n", "")


def test_a_word_that_setup_does_not_know_is_told() -> None:
    done = start(TOP / "python" / "setup", "--test")
    assert (done.returncode, done.stdout, done.stderr) == (2, "", "usage: python/setup [--tests]\n")


@pytest.mark.parametrize("python", ["/nosuch", "/bin/false"])
def test_an_interpreter_that_is_named_and_does_not_serve_is_told(python: str) -> None:
    environment = {**os.environ, "PURVELJ_PYTHON": python}
    command = [TOP / "python" / "run", "--help"]
    done = subprocess.run(command, env=environment, capture_output=True, text=True, check=False)
    assert (done.returncode, done.stdout) == (126, "")
    assert done.stderr == f"python/run: PURVELJ_PYTHON names {python}, which isn't a Python 3.11 or later\n"


def fonts(home: Path, folder: Path, **members: str) -> str:
    """Where a script has matplotlib keep its fonts, for a user with this home."""
    environment = {"PATH": "/usr/bin:/bin", "HOME": str(home), "TMPDIR": str(folder), **members}
    command = ["sh", "-c", '. "$1/python/find-python.sh"; keep_fonts; echo "${MPLCONFIGDIR-}"', "test", TOP]
    done = subprocess.run(command, env=environment, capture_output=True, text=True, check=True)
    assert done.stderr == ""
    return done.stdout.removesuffix("\n")


def test_fonts_are_kept_for_a_user_without_a_home(tmp_path: Path) -> None:
    nowhere, name = tmp_path / "nowhere", tmp_path / f"purvelj-matplotlib-{os.getuid()}"
    assert fonts(nowhere, tmp_path) == fonts(nowhere, tmp_path) == str(name)
    assert stat.S_IMODE(name.stat().st_mode) == 0o700
    assert (fonts(tmp_path, tmp_path), fonts(nowhere, tmp_path, MPLCONFIGDIR="/else")) == ("", "/else")
    assert fonts(nowhere, nowhere) == ""
    name.rename(tmp_path / "other")
    name.symlink_to("other")
    assert fonts(nowhere, tmp_path) == ""


def test_a_user_without_a_home_draws_with_no_word(tmp_path: Path) -> None:
    (tmp_path / "export.json").write_text(REPLIES[-1])
    (tmp_path / "tmp").mkdir()
    left_out = ("MPLCONFIGDIR", "XDG_CONFIG_HOME", "XDG_CACHE_HOME")
    environment = {name: value for name, value in os.environ.items() if name not in left_out}
    environment |= {"HOME": "/dev/null/home", "TMPDIR": str(tmp_path / "tmp")}
    command = [TOP / "python" / "run", "chart", "export.json", "--plan", "plan.svg"]
    done = subprocess.run(command, cwd=tmp_path, env=environment, capture_output=True, text=True, check=False)
    assert (done.returncode, (tmp_path / "plan.svg").exists()) == (0, True)
    # On a machine that is busy it may say that it lists the fonts.
    assert "temporary" not in done.stderr and os.listdir(tmp_path / "tmp") == [f"purvelj-matplotlib-{os.getuid()}"]
