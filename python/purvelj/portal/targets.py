"""The targets of a portal's request groups, with the limits that their constraints set."""

from __future__ import annotations

from typing import Iterable, Iterator

from purvelj.documents import Document
from purvelj.errors import DocumentError
from purvelj.places import Limits, Target, position
from purvelj.portal.notes import Notes


def targets_of(values: Iterable[tuple[str, object]], default: Limits, notes: Notes) -> dict[Target, Limits]:
    """The fixed targets that request groups name, each once, with its limits.

    Each group comes with the path that names it. The desk knows one visibility of a target and site. So
    where a target stands with several constraints, the strictest hold, and a warning says so; where a
    name stands for two places in the sky, ``DocumentError`` is raised. Names that differ by case or space
    alone are two targets, which a warning says. What isn't a fixed star is left out: the conversion of its
    group has a fault.
    """
    found: dict[str, tuple[Target, Limits]] = {}
    spelt: dict[str, str] = {}
    for configuration in _configurations(values):
        target = configuration.object("target")
        if target.raw_or("type", "ICRS") == "ICRS":
            _join(found, target, _limits(configuration, default), notes)
            _test_spelling(spelt, target, notes)
    return dict(found.values())


def test_places(values: Iterable[tuple[str, object]], notes: Notes) -> None:
    """Warns of names that stand for two places in the sky, in request groups that can be turned into lines.

    ``targets_of`` raises a fault there.
    """
    places: dict[str, object] = {}
    for configuration in _configurations(values):
        _test_place(places, configuration.object("target"), notes)


def _configurations(values: Iterable[tuple[str, object]]) -> Iterator[Document]:
    """Each configuration of each request of the groups."""
    for path, value in values:
        for request in Document(value, path).objects("requests"):
            yield from request.objects("configurations")


def _test_place(places: dict[str, object], document: Document, notes: Notes) -> None:
    name, place = document.text("name"), (document.raw_or("ra", None), document.raw_or("dec", None))
    if None not in place and places.setdefault(name, place) != place:
        text = f"`{name}` stands for two places in the sky, and the desk knows a target by its name alone"
        notes.warn("target", document.path, text)


def _join(found: dict[str, tuple[Target, Limits]], document: Document, limits: Limits, notes: Notes) -> None:
    target = Target(
        document.text("name"),
        *position(document),
        document.number_or("proper_motion_ra", 0.0, -20_000, 20_000),
        document.number_or("proper_motion_dec", 0.0, -20_000, 20_000),
        document.number_or("epoch", 2000.0, 1900, 2100),
    )
    known, before = found.setdefault(target.name, (target, limits))
    if known != target:
        raise DocumentError(document.path, f"{target.name} stands for two places in the sky")
    if before != limits:
        text = f"{target.name} has several constraints, and the strictest hold for all"
        notes.warn("constraints", document.path, text)
        found[target.name] = (target, _strictest(before, limits))


def _test_spelling(spelt: dict[str, str], document: Document, notes: Notes) -> None:
    """Warns of a name that another differs from by case or space alone; ``spelt`` has the first of each such."""
    name = document.text("name")
    first = spelt.setdefault(" ".join(name.split()).casefold(), name)
    if first != name:
        text = f"`{name}` is spelt as `{first}` elsewhere, and the two are two targets"
        notes.warn("spelling", document.path_of("name"), text)


def _limits(configuration: Document, default: Limits) -> Limits:
    if not configuration.has("constraints"):
        return default
    constraints = configuration.object("constraints")
    return Limits(
        default.altitude,
        constraints.number("max_airmass", 1, 40) if constraints.has("max_airmass") else default.airmass,
        constraints.number_or("min_lunar_distance", default.moon, 0, 180),
        default.others,
    )


def _strictest(first: Limits, second: Limits) -> Limits:
    airmasses = [each.airmass for each in (first, second) if each.airmass is not None]
    return Limits(
        max(first.altitude, second.altitude),
        min(airmasses, default=None),
        max(first.moon, second.moon),
        first.others,
    )
