"""``check`` and ``tighten``: claims for exported snapshots."""

from __future__ import annotations

import argparse
import sys

from purvelj.cli.words import Commands, put, ranged, tell
from purvelj.documents import compact
from purvelj.errors import Status
from purvelj.exports import Export, read_export
from purvelj.lines import publish_line
from purvelj.model import Claim


def add_commands(commands: Commands) -> None:
    """Adds the commands to a parser."""
    check = commands.add_parser("check", help="check an exported claim, as `plancheck check` does")
    _add_export(check)
    check.set_defaults(run=run_check)
    tighten = commands.add_parser(
        "tighten",
        help="find a claim with a lower bound and a better plan",
        description="Reads an export and prints a `publish` line with a claim whose bound is as low as the linear "
        "relaxation makes it, and with a better plan if one is found. The bound and the value are exact.",
    )
    _add_export(tighten)
    tighten.add_argument(
        "--seconds", type=ranged(float, 1, 86_400), default=300.0, help="about how long it may take (default 300)"
    )
    tighten.add_argument(
        "--version",
        type=ranged(int, 0, 524_288),
        help="the version of the desk that the line is for (default: that of the export)",
    )
    tighten.add_argument("--quiet", action="store_true", help="show no progress")
    tighten.set_defaults(run=run_tighten)


def _add_export(command: argparse.ArgumentParser) -> None:
    command.add_argument("export", help="the reply to an `export` line, or an output that has one, or - for input")


def run_check(options: argparse.Namespace) -> int:
    """Runs ``check``."""
    from purvelj.checker import check

    export = read_export(options.export)
    verdict = check(export.snapshot, export.claim)
    put(verdict.text())
    return 0 if verdict.yes else int(Status.NO)


def run_tighten(options: argparse.Namespace) -> int:
    """Runs ``tighten``."""
    from purvelj.cli.progress import Progress
    from purvelj.tighten import tighten

    export = read_export(options.export)
    _tell_of_changes(export, options.version)
    with Progress(options.seconds, shown=sys.stderr.isatty() and not options.quiet) as progress:
        found = tighten(export.snapshot, export.claim, options.seconds, progress.tell)
    put(compact(publish_line(export.next_version if options.version is None else options.version, found.claim)))
    tell(f"before: {_text(found.before)}")
    tell(f"after:  {_text(found.claim)}, in {found.seconds:.0f} s")
    if not found.in_time:
        tell("HiGHS didn't solve the relaxation in the time that it had: the bound may still be lowered")
        return int(Status.TIME)
    return 0


def _tell_of_changes(export: Export, version: int | None) -> None:
    if version is None and export.changes:
        tell(
            f"the desk changed {export.changes} times after this claim was published, "
            "and may refuse one that is found for its snapshot"
        )


def _text(claim: Claim) -> str:
    return f"value {claim.value:,}, bound {claim.bound:,}, gap {claim.gap:,} ({claim.gap_percent:.3f} %)"
