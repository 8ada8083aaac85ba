"""Programs in plain Rust: how they are built, and how the desk is talked to that is one of them, bench/desk_baseline."""

import json
import os
import pathlib
import shutil
import subprocess
import sys

BENCH = pathlib.Path(__file__).resolve().parent.parent
REGISTRY = pathlib.Path("/usr/share/cargo/registry")


def cargo():
    """Where cargo is: on the path, or where rustup puts it."""
    path = os.pathsep.join((os.environ.get("PATH", os.defpath), os.path.expanduser("~/.cargo/bin")))
    return shutil.which("cargo", path=path) or "cargo"


def build(name, target):
    """Builds the program in plain Rust of the folder bench/NAME, with Debian's serde_json, and gives where it is."""
    if not any(REGISTRY.glob("serde_json-*")):
        for words in (["update"], ["install", "-y", "--no-install-recommends", "librust-serde-json-dev"]):
            subprocess.run(["apt-get", "-qq", *words], check=True, stdout=sys.stderr)
    words = [cargo(), "build", "--quiet", "--release", "--offline", "--target-dir", target]
    subprocess.run(words, check=True, cwd=BENCH / name, stdout=sys.stderr)
    return f"{target}/release/{name}"


class Plain:
    """The desk in plain Rust, which is asked line by line."""

    def __init__(self, program):
        self.process = subprocess.Popen([program], stdin=subprocess.PIPE, stdout=subprocess.PIPE)
        self.replies = []

    def answer(self, line):
        """The replies to a line: an accepted `plan` line has two."""
        self.process.stdin.write(line + b"\n")
        self.process.stdin.flush()
        replies = [self.reply()]
        if replies[0].get("ok") == "taken":
            replies.append(self.reply())
        return replies

    def reply(self):
        text = self.process.stdout.readline()
        self.replies.append(text)
        return json.loads(text)

    def close(self):
        self.process.stdin.close()
        self.process.stdout.close()
        self.process.wait()
