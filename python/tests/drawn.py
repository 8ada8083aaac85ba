"""Small snapshots that are drawn at random."""

from __future__ import annotations

from random import Random

from purvelj.model import Group, Operator, Request, Sky, Snapshot, Telescope
from purvelj.spans import Span, Spans, union


def drawn_snapshot(
    draw: Random, slices: int = 8, most_groups: int = 3, quotas: bool = False, fades: bool = True
) -> Snapshot:
    """A valid snapshot with up to three telescopes and so many groups of every kind."""
    first = draw.randint(0, 5)
    horizon = Span(first * 60, (first + slices) * 60)
    telescopes = tuple(Telescope(draw.randint(0, 1), _spans(draw, horizon)) for _ in range(draw.randint(1, 3)))
    skies = tuple(Sky(target, site, _spans(draw, horizon)) for target in range(2) for site in range(2))
    limits = tuple(draw.randint(60, 400) for _ in range(2)) if quotas else ()
    groups: list[Group] = []
    number = 0
    for place in range(draw.randint(1, most_groups)):
        operator = draw.choice(list(Operator))
        count = 1 if operator is Operator.SINGLE else draw.randint(1 if operator is Operator.AND else 2, 3)
        requests = []
        for _ in range(count):
            number += draw.randint(1, 3)
            requests.append(_request(draw, number, len(telescopes), horizon, fades))
        quota = draw.choice((0, 1, None)) if quotas else None
        groups.append(Group(place + 1, operator, tuple(requests), quota))
    return Snapshot(draw.randint(0, 99), 60, first, slices, telescopes, skies, tuple(groups), limits)


def _request(draw: Random, number: int, telescopes: int, horizon: Span, fades: bool) -> Request:
    windows = tuple(_span(draw, horizon) for _ in range(draw.randint(1, 2)))
    return Request(
        number=number,
        seconds=draw.choice((30, 60, 61, 120, 150)),
        value=draw.randint(1, 200),
        telescopes=tuple(t for t in range(telescopes) if draw.random() < 0.7),
        targets=tuple(t for t in range(2) if draw.random() < 0.4),
        windows=windows,
        fade=draw.choice((0, 0, 50, 400)) if fades else 0,
    )


def _span(draw: Random, horizon: Span) -> Span:
    start = draw.randint(max(0, horizon.start - 100), horizon.end - 120)
    return Span(start, start + draw.randint(60, 500))


def _spans(draw: Random, horizon: Span) -> Spans:
    if draw.random() < 0.5:
        return (horizon,)
    spans = union(_span(draw, horizon) for _ in range(draw.randint(1, 3)))
    cut = (Span(max(each.start, horizon.start), min(each.end, horizon.end)) for each in spans)
    return tuple(each for each in cut if each.start < each.end)


def drawn_network(draw: Random, telescopes: int = 4, groups: int = 50, nights: int = 2) -> Snapshot:
    """Telescopes of three sites with nights of eight hours, and more groups than they have room for."""
    length, day = 300, 86_400
    first = 6_000_000
    begin = first * length
    horizon = Span(begin, begin + nights * day)
    dusks = [draw.randrange(0, day - 8 * 3600) for _ in range(3)]
    usable = [
        tuple(Span(begin + night * day + dusk, begin + night * day + dusk + 8 * 3600) for night in range(nights))
        for dusk in dusks
    ]
    operators = [Operator.SINGLE] * 4 + [Operator.MANY, Operator.ONEOF, Operator.AND]
    drawn: list[Group] = []
    number = 0
    for place in range(groups):
        operator = draw.choice(operators)
        priority, half = draw.randint(1, 30), draw.randint(0, 1)
        requests = []
        for _ in range(1 if operator is Operator.SINGLE else 2):
            number += 1
            seconds = draw.randint(300, 7200)
            value = priority * 1000 * -(-seconds // 60)
            own = tuple(range(half, telescopes, 2))
            requests.append(Request(number, seconds, value, own, (), (horizon,)))
        drawn.append(Group(place + 1, operator, tuple(requests)))
    slices = nights * day // length
    network = tuple(Telescope(t % 3, usable[t % 3]) for t in range(telescopes))
    return Snapshot(5, length, first, slices, network, (), tuple(drawn))
