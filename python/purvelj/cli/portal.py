"""``portal``: request groups of an observation portal as lines."""

from __future__ import annotations

import argparse
import os
from typing import Any, Iterator

from purvelj.cli.words import Commands, put, ranged, tell
from purvelj.documents import compact, read_json, source_of, write_text
from purvelj.errors import DocumentError, WordsError
from purvelj.portal.convert import convert
from purvelj.portal.notes import Note, Notes, PortalError, summary

Row = dict[str, object]


def add_commands(commands: Commands) -> None:
    """Adds the command to a parser."""
    portal = commands.add_parser(
        "portal",
        help="print a `submit` line for each request group of an observation portal",
        description="Prints a `submit` line for each request group, and on standard error everything in them that "
        "the desk won't heed or would read otherwise. Where there is a fault, nothing is printed.",
    )
    portal.add_argument(
        "documents", nargs="+", help="JSON files: a request group, a list of them, or a page with `results`"
    )
    portal.add_argument("--priority", type=ranged(int, 1, 100), required=True, help="of all groups, 1 to 100")
    portal.add_argument(
        "--fade",
        type=ranged(int, 0, 1000),
        default=0,
        help="the thousandths of its value that each request loses with each slice of delay (default 0)",
    )
    portal.add_argument(
        "--targets",
        metavar="FILE",
        help="write the targets with their limits there, as `visibility` takes them, in place of what is there",
    )
    portal.add_argument("--strict", action="store_true", help="take every warning for a fault")
    portal.set_defaults(run=run_portal)


def run_portal(options: argparse.Namespace) -> int:
    """Runs ``portal``."""
    if options.targets == "-":
        raise WordsError("--targets has to name a file: the lines go to standard output")
    if options.targets is not None and any(_is_same_file(path, options.targets) for path in options.documents):
        raise WordsError(f"--targets names {options.targets}, which is read: the targets are written there")
    documents = [(path, read_json(path)) for path in options.documents]
    values = [each for path, value in documents for each in _groups(path, value)]
    if not values:
        raise DocumentError(", ".join(map(source_of, options.documents)), "there is no request group in it")
    conversions = [convert(value, options.priority, options.fade, path) for path, value in values]
    notes = [*_left_out(documents, len(values)), *(note for each in conversions for note in each.notes)]
    faults = any(conversion.group is None for conversion in conversions)
    targets: list[Row] = []
    if not faults:
        targets, more = _targets(values) if options.targets is not None else ([], _places(values))
        notes += more
    for line in summary(tuple(notes)):
        tell(line)
    if faults or (options.strict and notes):
        return int(PortalError.status)
    if options.targets is not None:
        write_text(options.targets, "[" + ",\n ".join(map(compact, targets)) + "]\n")
    for conversion in conversions:
        put(compact(conversion.line()))
    return 0


def _is_same_file(one: str, other: str) -> bool:
    """Whether two paths lead to one file that is there."""
    return os.path.exists(one) and os.path.exists(other) and os.path.samefile(one, other)


def _is_page(value: object) -> bool:
    """Whether a document is a page of a portal's list of request groups."""
    return isinstance(value, dict) and isinstance(value.get("results"), list)


def _left_out(documents: list[tuple[str, Any]], read: int) -> tuple[Note, ...]:
    """A warning where a page counts more request groups than were read in all."""
    notes = Notes()
    for path, value in documents:
        if _is_page(value) and isinstance(value.get("count"), int) and value["count"] > read:
            text = f"{value['count']} request groups are counted, and {read} were read: others are on further pages"
            notes.warn("page", f"{source_of(path)}: count", text)
            break
    return notes.all()


def _groups(path: str, value: Any) -> Iterator[tuple[str, object]]:
    """The request groups of a document, each with the path that names it."""
    if _is_page(value):
        value = value["results"]
    if not isinstance(value, list):
        yield f"{source_of(path)}:", value
        return
    for place, each in enumerate(value):
        yield f"{source_of(path)}: [{place}]", each


def _places(values: list[tuple[str, object]]) -> tuple[Note, ...]:
    """What is to be told of the places of targets that aren't written anywhere."""
    from purvelj.portal.targets import test_places

    notes = Notes()
    test_places(values, notes)
    return notes.all()


def _targets(values: list[tuple[str, object]]) -> tuple[list[Row], tuple[Note, ...]]:
    """The targets of the groups as ``visibility`` reads them, and what is to be told of them."""
    from purvelj.portal.targets import targets_of
    from purvelj.places import Limits

    notes = Notes()
    rows = []
    for target, limits in targets_of(values, Limits(altitude=0.0), notes).items():
        row = target.document()
        if limits.airmass is not None:
            row["airmass"] = limits.airmass
        if limits.moon:
            row["moon"] = limits.moon
        rows.append(row)
    return rows, notes.all()
