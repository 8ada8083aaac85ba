"""Runs a command, and prints what the checks of Rattle's crates that it starts take: processor seconds, a row a crate."""

import collections
import os
import resource
import signal
import subprocess
import sys
import time

TICKS = os.sysconf("SC_CLK_TCK")
COLUMNS = ("library", "tests", "what edits begin with", "edits")
# How many seconds pass between two looks at what runs. What a check takes after the last look is counted to the rest.
PAUSE = 0.5


def column_of(words, folder):
    """What a check with these words, run in this folder, is for. A program is checked where it stands, and an edit of it in a copy."""
    if "--test" in words:
        return "tests"
    if words[1] == "build":
        return "library"
    kept = words[words.index("--incremental") + 1] if "--incremental" in words else ""
    if kept.endswith("/seed"):
        return "what edits begin with"
    return "edits" if os.path.basename(folder).startswith("rt-edit-") else "library"


def check_at(pid, session):
    """The check that a process of a session is: its start, crate, column and seconds so far. None where it is none."""
    try:
        with open(f"/proc/{pid}/cmdline", encoding="utf-8", errors="replace") as file:
            words = file.read().split("\0")
        with open(f"/proc/{pid}/stat", encoding="utf-8", errors="replace") as file:
            fields = file.read().rsplit(")", 1)[1].split()
        folder = os.readlink(f"/proc/{pid}/cwd")
    except (OSError, IndexError):
        # it has ended
        return None
    if os.path.basename(words[0]) != "rattle" or "--crate-name" not in words or fields[3] != str(session):
        return None
    seconds = (int(fields[11]) + int(fields[12])) / TICKS
    return fields[19], words[words.index("--crate-name") + 1], column_of(words, folder), seconds


def watch(command):
    """Runs a command: its status, and the last that was seen of each of its checks."""
    child = subprocess.Popen(command, start_new_session=True, stdout=sys.stderr)
    seen = {}
    try:
        while child.poll() is None:
            look(child.pid, seen)
            time.sleep(PAUSE)
    finally:
        # Ctrl-C doesn't reach what runs in a session of its own.
        if child.poll() is None:
            os.killpg(child.pid, signal.SIGTERM)
            child.wait()
    return child.returncode, list(seen.values())


def look(session, seen):
    """Keeps of each check of a session that runs now what is seen of it."""
    for pid in filter(str.isdigit, os.listdir("/proc")):
        check = check_at(pid, session)
        if check:
            start, *rest = check
            seen[pid, start] = rest


def row(name, seconds, whole):
    """A row of the table; no number where nothing was spent."""
    cells = [f"{seconds[it]:,.0f}" if it in seconds else "" for it in COLUMNS]
    return "| " + " | ".join([name, *cells, f"{whole:,.0f}"]) + " |"


def table(checks, whole):
    """The table of these checks, where all that ran took `whole` seconds."""
    costs = collections.defaultdict(collections.Counter)
    for crate, column, seconds in checks:
        costs[crate][column] += seconds
    yield "| " + " | ".join(["crate", *COLUMNS, "in all"]) + " |"
    yield "|---" * (len(COLUMNS) + 2) + "|"
    for crate, seconds in costs.items():
        yield row(f"`{crate}`", seconds, seconds.total())
    sums = sum(costs.values(), collections.Counter())
    yield row("programs, tests and the rest", {}, whole - sums.total())
    yield row("all", sums, whole)


def processor():
    """The name of the processor."""
    with open("/proc/cpuinfo", encoding="utf-8") as file:
        names = [line.split(":", 1)[1].strip() for line in file if line.startswith("model name")]
    return names[0] if names else "a processor without a name"


def main():
    begin = time.monotonic()
    status, checks = watch(sys.argv[1:])
    clock = time.monotonic() - begin
    used = resource.getrusage(resource.RUSAGE_CHILDREN)
    whole = used.ru_utime + used.ru_stime
    print(*table(checks, whole), sep="\n")
    count = os.cpu_count()
    minutes = f"{whole / count / 60:.0f} min of all, {clock / 60:.0f} min by the clock"
    print(f"\n{count} times {processor()}: {minutes}; status {status}")
    return status


sys.exit(main())
