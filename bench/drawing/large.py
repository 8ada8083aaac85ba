"""usage: python3 -m drawing.large
Writes the lines of a session that comes to a snapshot of nearly full size: 1,024 requests of all kinds of groups, with fades, that 32
telescopes at four sites can take, 1,440 slices of a minute, and about a million possible starts. Then it asks for a plan of 8 lanes of
256 rounds, and for its export."""

import json

from drawing.draw import Draw

SITES = ("coj", "lsc", "cpt", "tfn")
TELESCOPES = "abcdefgh"
TARGETS = tuple(f"NGC {number}" for number in range(1, 33))
PROPOSALS = tuple(f"P{number}" for number in range(8))
SLICE = 60
HORIZON = 1_440
SEMESTER = 15_552_000
# How many slices a request may begin at on a telescope.
STARTS = 31
# 512 groups of a request and, one in five, 128 of four.
OPERATORS = tuple(("MANY", "ONEOF", "AND")[place // 5 % 3] if place % 5 == 4 else "SINGLE" for place in range(640))


def beginning():
    opening = {"do": "open", "now": 0, "slice": SLICE, "horizon": HORIZON, "semester": [0, SEMESTER]}
    yield {**opening, "lanes": 8, "rounds": 256, "workers": 1}
    yield {"do": "instrument", "type": "I", "front_ms": 60_000, "config_ms": 0, "readout_ms": 0, "change_ms": 0}
    for site in SITES:
        for telescope in TELESCOPES:
            names = {"site": site, "enclosure": "e", "telescope": telescope, "class": "1m0", "instruments": ["I"]}
            yield {"do": "telescope", **names}
        yield {"do": "night", "site": site, "spans": [[0, SEMESTER]]}
        for target in TARGETS:
            yield {"do": "visibility", "target": target, "site": site, "spans": [[0, SEMESTER]]}
    for proposal in PROPOSALS:
        yield {"do": "grant", "proposal": proposal, "account": "standard", "instrument_type": "I", "seconds": 100_000_000}


def request(draw):
    """One that takes so many slices, within a window of some slices more."""
    slices = draw.between(4, 90)
    first = draw.between(0, HORIZON - slices - STARTS)
    window = {"start": SLICE * first, "end": SLICE * (first + slices + STARTS - 1)}
    configuration = {
        "instrument_type": "I",
        "target": {"name": draw.one(TARGETS)},
        "instrument_configs": [{"exposure_time_ms": 1_000 * SLICE * (slices - 1), "exposure_count": 1}],
    }
    return {"location": {"telescope_class": "1m0"}, "windows": [window], "configurations": [configuration], "fade": draw.between(0, 20)}


def group(draw, operator):
    return {
        "name": "a group",
        "proposal": draw.one(PROPOSALS),
        "operator": operator,
        "observation_type": "NORMAL",
        "priority": draw.between(1, 100),
        "requests": [request(draw) for _ in range(1 if operator == "SINGLE" else 4)],
    }


def main():
    draw = Draw(1)
    lines = [*beginning(), *({"do": "submit", "group": group(draw, operator)} for operator in OPERATORS), {"do": "plan"}, {"do": "export"}]
    for line in lines:
        print(json.dumps(line, separators=(",", ":")))


if __name__ == "__main__":
    main()
