"""Request groups, near the desk's present moment and mostly such as it can take."""

from drawing.draw import CLASSES, INSTRUMENTS, KINDS, OPERATORS, PROPOSALS, SITES, TARGETS
from drawing.moments import moment

MOST_MS = 86_400_000


def location(draw):
    out = {"telescope_class": draw.rarely(2, "2m0", draw.weighed({CLASSES[0]: 19, CLASSES[1]: 1}))}
    if draw.chance(6):
        out["site"] = draw.weighed({SITES[0]: 8, SITES[1]: 2, SITES[2]: 1})
    if draw.chance(3):
        out["enclosure"] = draw.one(("doma", "domb"))
    if draw.chance(4):
        out["telescope"] = draw.one(("1m0a", "1m0a", "0m4a"))
    return out


def window(draw, desk):
    """A window that begins at most two horizons after now, or, rarely, before it or past the semester."""
    first = max(0, desk.now + draw.between(-desk.slice, desk.length))
    first = draw.rarely(1, desk.semester[1] - draw.between(0, 100), first)
    last = first + draw.rarely(1, 0, draw.between(1, 3 * desk.length))
    return {"start": moment(draw, first), "end": moment(draw, last)}


def cadence(draw, desk):
    first = max(0, desk.now + draw.between(-desk.slice, desk.length))
    return {
        "start": moment(draw, first),
        "end": moment(draw, first + draw.between(0, 3 * desk.length)),
        "period": draw.weighed({0: 1, 10: 1, desk.slice * 3: 8, desk.length: 4}),
        "jitter": draw.weighed({0: 1, desk.slice: 2, 2 * desk.slice + 1: 6, desk.length: 4}),
    }


def exposures(draw, desk):
    seconds = draw.between(1, 2 * desk.slice)
    if draw.chance(1):
        return [{"exposure_time_ms": MOST_MS, "exposure_count": draw.between(1, 10_000)}]
    count = draw.between(1, 3)
    return [{"exposure_time_ms": 1_000 * seconds // count + draw.between(1, 999), "exposure_count": count}]


def configuration(draw, desk, instrument):
    return {
        "instrument_type": draw.rarely(1, draw.one(INSTRUMENTS), instrument),
        "target": {"name": draw.weighed({**dict.fromkeys(TARGETS, 40), f"T{draw.between(0, 99)}": 1}), "ra": 202.469},
        "instrument_configs": exposures(draw, desk),
    }


def request(draw, desk, cadences):
    instrument = draw.weighed({INSTRUMENTS[0]: 30, INSTRUMENTS[1]: 8, INSTRUMENTS[2]: 0.5, "CAM": 0.2})
    out = {"location": location(draw)}
    if draw.chance(cadences):
        out["cadence"] = cadence(draw, desk)
    else:
        out["windows"] = [window(draw, desk) for _ in range(draw.weighed({1: 8, 2: 2, 4: 1}))]
    out["configurations"] = [configuration(draw, desk, instrument) for _ in range(draw.weighed({1: 8, 2: 1}))]
    if draw.chance(30):
        out["acceptability_threshold"] = draw.one((0, 50, 90, 100))
    if draw.chance(30):
        out["fade"] = draw.one((0, 1, 50, 200, 1_000))
    return out


def group(draw, desk):
    operator = draw.one(OPERATORS)
    count, cadences = (1, 25) if operator == "SINGLE" else (draw.weighed({2: 8, 3: 4, 5: 1}), 1)
    out = {
        "name": draw.one(("g", "ngc 253", "\u2606")),
        "proposal": draw.rarely(2, "P9", draw.one(PROPOSALS)),
        "operator": operator,
        "observation_type": draw.weighed({KINDS[0]: 6, KINDS[1]: 2, KINDS[2]: 1}),
        "requests": [request(draw, desk, cadences) for _ in range(draw.rarely(1, 33, count))],
    }
    if draw.chance(40):
        out["ipp_thousandths"] = draw.one((500, 999, 1_000, 1_001, 1_333, 2_000))
    elif draw.chance(1):
        out["ipp_value"] = 1.05
    if draw.chance(70):
        out["priority"] = draw.between(1, 100)
    return out
