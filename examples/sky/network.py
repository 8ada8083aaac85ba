"""A network of six sites over some nights: from the sky to a tightened plan and its pictures."""

from __future__ import annotations

import argparse
import json
import os
import shlex
import sys
from pathlib import Path
from typing import Any, Iterator

from campaign import CAMERAS, GRANTS, Campaign
from purvelj import lines
from purvelj.chart import draw_plan, draw_shares, plan_view, save, shares, story_of
from purvelj.cli.ending import ended
from purvelj.desk import Desk
from purvelj.documents import write_text
from purvelj.errors import FileError
from purvelj.lines import Line
from purvelj.model import Claim
from purvelj.moments import seconds_of
from purvelj.places import Limits, Site
from purvelj.portal import convert, summary, targets_of
from purvelj.portal.notes import Note, Notes
from purvelj.sky import Almanac
from purvelj.tighten import tighten

HERE = Path(__file__).resolve().parent
SLICE, DAY = 300, 86_400
#: Milliseconds: before the first exposure, for each configuration, to read out, and to change.
OVERHEADS = {"front_ms": 90_000, "config_ms": 16_000, "readout_ms": 28_000, "change_ms": 2_000}


def main() -> int:
    """Runs the example and gives its exit status."""
    options = words().parse_args()
    return ended("examples/sky/run", lambda: run(options))


def words() -> argparse.ArgumentParser:
    """The words of the command."""
    parser = argparse.ArgumentParser(prog="examples/sky/run", description=__doc__)
    parser.add_argument("--date", default="2026-11-27", help="the first day, in UTC (default 2026-11-27)")
    parser.add_argument("--days", type=int, choices=range(1, 6), default=2, help="how many days (default 2)")
    parser.add_argument("--program", type=shlex.split, help="the session program (default: netsched session)")
    parser.add_argument("--seconds", type=float, default=60.0, help="how long to tighten (default 60)")
    parser.add_argument("--out", type=Path, default=HERE / "out", help="the folder of what is made")
    return parser


def run(options: argparse.Namespace) -> int:
    """Sets a desk up, plans, tightens, lets five hours pass, plans again, and draws, and gives the exit status."""
    make_folder(options.out)
    start = seconds_of(options.date, "--date")
    script = list(set_up(options.date, options.days, start))
    with Desk(options.program) as desk:
        try:
            for line in script:
                desk.ask(line)
            publish_tightened(desk, options.seconds)
            picture(desk, options.out, "first")
            observe(desk, start + 5 * 3600)
            desk.close_telescope("cpt", "domb", "1m0a", [(start, start + DAY)])
            publish_tightened(desk, options.seconds)
            picture(desk, options.out, "later")
        finally:
            desk.save(options.out / "script.jsonl")
            write_text(options.out / "output.jsonl", desk.history.output())
    print(f"script, output and pictures are in {os.path.relpath(options.out)}")
    return 0


def make_folder(path: Path) -> None:
    """Sees that a folder is there; ``FileError`` where it can't be made."""
    try:
        path.mkdir(parents=True, exist_ok=True)
    except OSError as fault:
        raise FileError(f"{path}: can't be made: {fault.strerror}; --out names another folder") from None


def set_up(date: str, days: int, start: int) -> Iterator[Line]:
    """The lines that tell the desk of the network, the sky, the grants and what is asked for."""
    sites = [Site(each["site"], each["latitude"], each["longitude"], each["height"]) for each in read("sites")]
    groups = Campaign(date, days, read("targets")).groups()
    almanac = Almanac(start, start + days * DAY)
    yield lines.open_line(start, SLICE, days * DAY // SLICE, (start, start + 180 * DAY))
    for camera in CAMERAS.values():
        yield lines.instrument_line(camera, **OVERHEADS)
    for each in read("telescopes"):
        codes = each["site"], each["enclosure"], each["telescope"]
        yield lines.telescope_line(*codes, each["class"], [CAMERAS[each["class"]]])
    yield from almanac.night_lines(sites, sun_below=-15.0)
    notes = Notes()
    named = [(f"{document['name']}:", document) for document, _, _ in groups]
    targets = targets_of(named, Limits(altitude=20.0), notes)
    for _, _, line in almanac.visibility_lines(targets, sites):
        yield line
    for proposal, account, telescope_class, hours in GRANTS:
        camera = CAMERAS[telescope_class] if telescope_class else None
        yield lines.grant_line(proposal, account, hours * 3600, camera)
    conversions = [
        convert(document, priority, fade, f"{document['name']}:") for document, priority, fade in groups
    ]
    tell_notes(tuple(note for conversion in conversions for note in conversion.notes) + notes.all())
    for conversion in conversions:
        yield conversion.line()


def publish_tightened(desk: Desk, seconds: float) -> None:
    """Plans, finds a better claim for the same snapshot, and publishes that."""
    desk.plan()
    exported = desk.export()
    found = tighten(exported.snapshot, exported.claim, seconds)
    desk.publish(exported.version, found.claim)
    print(f"planned:   {text_of(exported.claim)}")
    print(f"tightened: {text_of(found.claim)}, in {found.seconds:.0f} s")


def observe(desk: Desk, until: int) -> None:
    """Lets time pass: each observation of the last publication that ends until then is reported complete."""
    exported = desk.export()
    snapshot = exported.snapshot
    events = []
    for placement in exported.claim.placements:
        request = snapshot.requests[snapshot.places[placement.request]]
        span = snapshot.span_of(request, placement.slice)
        events += [(span.start + 1, None), (span.end, request)]
    for moment, request in sorted(events, key=lambda event: event[0]):
        if moment <= until:
            desk.clock(moment)
            if request is not None:
                desk.report(request.number, 100, request.seconds)
    desk.clock(until)


def picture(desk: Desk, folder: Path, name: str) -> None:
    """Draws the last publication and the accounts."""
    desk.export()
    desk.balances()
    story = story_of(desk.history)
    save(draw_plan(plan_view(story)), folder / f"{name}-plan.png")
    save(draw_shares(shares(story)), folder / f"{name}-accounts.png")


def text_of(claim: Claim) -> str:
    """A claim's numbers in words."""
    placed = len(claim.placements)
    return f"{placed} placements, value {claim.value:,}, bound {claim.bound:,}, gap {claim.gap_percent:.2f} %"


def tell_notes(notes: tuple[Note, ...]) -> None:
    """Tells what the desk won't heed in what is asked for."""
    for line in summary(notes):
        print(f"examples/sky/run: {line}", file=sys.stderr)


def read(name: str) -> list[dict[str, Any]]:
    """The list in a file of the example."""
    found: list[dict[str, Any]] = json.loads((HERE / f"{name}.json").read_text(encoding="utf-8"))
    return found


if __name__ == "__main__":
    sys.exit(main())
