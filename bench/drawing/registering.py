"""Lines that open a desk and say what there is: instruments, telescopes, nights, visibility, closures, grants."""

import itertools

from drawing.draw import ACCOUNTS, CLASSES, CODES, ENCLOSURES, INSTRUMENTS, PROPOSALS, SITES, TARGETS
from drawing.moments import moment, spans


def opening(draw, desk):
    line = {
        "do": "open",
        "now": moment(draw, desk.now),
        "slice": desk.slice,
        "horizon": desk.horizon,
        "semester": [moment(draw, each) for each in desk.semester],
        "lanes": draw.between(1, 3),
        "rounds": draw.one((1, 2, 5, 8, 12)),
        "workers": 1,
    }
    if draw.chance(40):
        line["quota"] = draw.between(1, 6 * desk.slice)
    return line


def instrument(draw, name):
    def overhead():
        return draw.one((0, 0, 1, 999, 16_000, 28_500))

    return {
        "do": "instrument",
        "type": name,
        "front_ms": overhead(),
        "config_ms": overhead(),
        "readout_ms": overhead(),
        "change_ms": overhead(),
    }


def telescope(draw, site, code):
    return {
        "do": "telescope",
        "site": site,
        "enclosure": draw.one(ENCLOSURES),
        "telescope": code,
        "class": CLASSES[CODES.index(code)],
        "instruments": list(draw.weighed({("FLOYDS", "SINISTRO"): 12, ("SINISTRO",): 3, ("SINISTRO", "NONE"): 1})),
    }


def near(draw, desk, count):
    """Spans about the desk's next horizons."""
    return spans(draw, max(0, desk.now - desk.length), desk.now + 4 * desk.length, count)


def wide(desk):
    """One span that goes on for long."""
    return [[max(0, desk.now - desk.length), desk.now + 20 * desk.length]]


def night(draw, desk, site):
    return {"do": "night", "site": site, "spans": draw.rarely(60, wide(desk), near(draw, desk, 4))}


def visibility(draw, desk, site, target):
    seen = draw.rarely(60, wide(desk), near(draw, desk, 4))
    return {"do": "visibility", "target": target, "site": site, "spans": seen}


def closure(draw, desk):
    line = {"do": draw.one(("close", "reopen")), "spans": near(draw, desk, 3)}
    line["site"] = draw.rarely(5, "none", draw.one(desk.sites))
    if draw.chance(50):
        line["enclosure"] = draw.one(ENCLOSURES)
        line["telescope"] = draw.one(CODES)
    return line


def grant(proposal, account, instrument, seconds):
    line = {"do": "grant", "proposal": proposal, "account": account, "seconds": seconds}
    if account != "ipp":
        line["instrument_type"] = instrument
    return line


def any_grant(draw, desk):
    seconds = draw.one((1, desk.slice, 10 * desk.slice, 1_000_000_000))
    return grant(draw.one(PROPOSALS), draw.one(ACCOUNTS), draw.rarely(5, "NONE", draw.one(INSTRUMENTS)), seconds)


def grants(draw, desk):
    """Grants to most accounts of the proposals."""
    for proposal, account in itertools.product(PROPOSALS, ACCOUNTS):
        for name in INSTRUMENTS[: 1 if account == "ipp" else 2]:
            if draw.chance(93):
                yield grant(proposal, account, name, draw.one((10, 100)) * desk.slice)


def beginning(draw, desk):
    """The lines that a session begins with, from its opening on."""
    yield opening(draw, desk)
    for name in INSTRUMENTS[: draw.between(2, 3)]:
        yield instrument(draw, name)
    desk.sites = SITES[: draw.between(1, 3)]
    for site in desk.sites:
        yield telescope(draw, site, CODES[0])
        if draw.chance(40):
            yield telescope(draw, site, CODES[1])
        yield night(draw, desk, site)
        yield from (visibility(draw, desk, site, target) for target in TARGETS if draw.chance(85))
    yield from grants(draw, desk)
