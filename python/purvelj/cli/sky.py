"""``nights`` and ``visibility``: lines about the sky."""

from __future__ import annotations

import argparse
from typing import Callable, TypeVar

from purvelj.cli.words import Commands, put, ranged, tell
from purvelj.documents import Document, compact, elements, read_json, source_of
from purvelj.errors import DocumentError
from purvelj.moments import LAST, seconds_of, text_of
from purvelj.places import Limits, Site, Target

T = TypeVar("T")


def add_commands(commands: Commands) -> None:
    """Adds the commands to a parser."""
    nights = commands.add_parser("nights", help="print a `night` line for each site")
    _add_horizon(nights)
    nights.add_argument(
        "--sun-below",
        type=ranged(float, -90, 10),
        default=-18.0,
        metavar="DEGREES",
        help="the altitude that the Sun's centre is at most at, without refraction (default -18)",
    )
    nights.set_defaults(run=run_nights)
    visibility = commands.add_parser("visibility", help="print a `visibility` line for each target and site")
    _add_horizon(visibility)
    visibility.add_argument("targets", help="a JSON list of targets with name, ra and dec in degrees")
    limits = Limits()
    visibility.add_argument(
        "--altitude",
        type=ranged(float, 0, 90),
        default=limits.altitude,
        metavar="DEGREES",
        help="the least altitude, without refraction (default 30)",
    )
    visibility.add_argument(
        "--airmass", type=ranged(float, 1, 40), metavar="X", help="the greatest airmass (default: no limit)"
    )
    visibility.add_argument(
        "--moon",
        type=ranged(float, 0, 180),
        default=limits.moon,
        metavar="DEGREES",
        help="the least distance from the Moon (default 0)",
    )
    visibility.add_argument(
        "--hidden", action="store_true", help="go on where a target is never visible from any of the sites"
    )
    visibility.set_defaults(run=run_visibility)


def _add_horizon(command: argparse.ArgumentParser) -> None:
    command.add_argument("sites", help="a JSON list of sites with site, latitude, longitude and height")
    command.add_argument(
        "--from",
        dest="start",
        required=True,
        metavar="MOMENT",
        help="such as 2026-11-27, 2026-11-27T04:00:00Z or 1795752000",
    )
    command.add_argument("--days", type=ranged(float, 0.001, 366), required=True, help="how many days")


def run_nights(options: argparse.Namespace) -> int:
    """Runs ``nights``."""
    from purvelj.sky.almanac import Almanac, SkyError

    sites = _read_sites(options.sites)
    almanac = Almanac(*_horizon(options))
    lines = list(almanac.night_lines(sites, options.sun_below))
    dark = {line["site"] for line in lines if line["spans"]}
    for site in sites:
        if site.code not in dark:
            tell(f"{site.code} has no night: the Sun doesn't sink to {options.sun_below:g} degrees there")
    if not dark:
        raise SkyError("no site has a night in these days")
    for line in lines:
        put(compact(line))
    return 0


def run_visibility(options: argparse.Namespace) -> int:
    """Runs ``visibility``."""
    from purvelj.sky.almanac import Almanac, SkyError

    sites = _read_sites(options.sites)
    default = Limits(options.altitude, options.airmass, options.moon)
    targets = _read_targets(options.targets, default)
    almanac = Almanac(*_horizon(options))
    lines = list(almanac.visibility_lines(targets, sites))
    seen = {target for target, _, line in lines if line["spans"]}
    hidden = [target.name for target in targets if target not in seen]
    if hidden:
        text = f"never visible from any of the sites in these days: {', '.join(hidden)}"
        if not options.hidden:
            raise SkyError(f"{text}; --hidden goes on without them")
        tell(text)
    for _, _, line in lines:
        put(compact(line))
    return 0


def _horizon(options: argparse.Namespace) -> tuple[int, int]:
    text: str = options.start
    # A date without signs between, as 20261127, has 8 digits.
    in_seconds = 8 < len(text) < 20 and text.isascii() and text.isdecimal()
    start = seconds_of(int(text) if in_seconds else text, "--from")
    end = start + round(options.days * 86_400)
    if end > LAST:
        raise DocumentError("--days", f"{options.days:g} days from {text_of(start)} on end after the year 9999")
    return start, end


def _read_sites(path: str) -> list[Site]:
    sites = _read_all(path, "sites", Site.read)
    _test_once(path, "sites", "site", [site.code for site in sites])
    return sites


def _read_targets(path: str, default: Limits) -> dict[Target, Limits]:
    targets = _read_all(path, "targets", lambda each: (Target.read(each), Limits.read(each, default)))
    _test_once(path, "targets", "name", [target.name for target, _ in targets])
    return dict(targets)


def _test_once(path: str, name: str, member: str, values: list[str]) -> None:
    """Tests that each value of a member stands once in a list, since of two lines for it the last would count."""
    seen: set[str] = set()
    for place, value in enumerate(values):
        if value in seen:
            raise DocumentError(f"{source_of(path)}: {name}[{place}].{member}", f"{value!r} is there twice")
        seen.add(value)


def _read_all(path: str, name: str, read: Callable[[Document], T]) -> list[T]:
    """The elements of a JSON list, or of the list that is the member with this name of an object."""
    value, source = read_json(path), source_of(path)
    if isinstance(value, dict):
        value = Document(value, f"{source}:").list(name)
    items = elements(value, source, 1, 100_000)
    return [read(Document(item, f"{source}: {name}[{place}]")) for place, item in enumerate(items)]
