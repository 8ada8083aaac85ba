"""usage: python3 -m drawing.busy PROGRAM COUNT
Writes so many lines of a session in which a desk stays near 1,000 pending requests. PROGRAM is the desk in plain Rust, whose replies
tell what is pending and what runs."""

import json
import sys

from drawing.desk import Desk
from drawing.draw import Draw
from drawing.plain import Plain

PENDING = 1_000
SITES = ("coj", "lsc", "cpt", "tfn")
TARGETS = tuple(f"NGC {number}" for number in range(1, 65))
PROPOSALS = tuple(f"P{number}" for number in range(32))
SEMESTER = 15_552_000
# A plan is sought once in so many lines.
BETWEEN_PLANS = 1_000


def beginning():
    """Eight telescopes at four sites that are open always, and 64 targets that are visible always."""
    yield {"do": "open", "now": 0, "slice": 300, "horizon": 24, "semester": [0, SEMESTER], "lanes": 1, "rounds": 1, "workers": 1}
    yield {"do": "instrument", "type": "I", "front_ms": 90_000, "config_ms": 16_000, "readout_ms": 28_000, "change_ms": 2_000}
    for site in SITES:
        for telescope in ("a", "b"):
            names = {"site": site, "enclosure": "e", "telescope": telescope, "class": "1m0", "instruments": ["I"]}
            yield {"do": "telescope", **names}
        yield {"do": "night", "site": site, "spans": [[0, SEMESTER]]}
        for target in TARGETS:
            yield {"do": "visibility", "target": target, "site": site, "spans": [[0, SEMESTER]]}
    for proposal in PROPOSALS:
        yield {"do": "grant", "proposal": proposal, "account": "standard", "instrument_type": "I", "seconds": 100_000_000}
        yield {"do": "grant", "proposal": proposal, "account": "ipp", "seconds": 100_000_000}


def request(draw, desk):
    start = desk.now + draw.between(-3_600, 86_400)
    window = {"start": max(0, start), "end": max(0, start) + draw.between(7_200, 172_800)}
    configuration = {
        "instrument_type": "I",
        "target": {"name": draw.one(TARGETS), "ra": 202.469, "dec": 47.195},
        "instrument_configs": [{"exposure_time_ms": 1_000 * draw.between(30, 300), "exposure_count": draw.between(1, 4)}],
    }
    return {"location": {"telescope_class": "1m0"}, "windows": [window], "configurations": [configuration], "fade": draw.between(0, 20)}


def group(draw, desk):
    operator = draw.one(("SINGLE", "SINGLE", "MANY", "ONEOF", "AND"))
    return {
        "name": "a group",
        "proposal": draw.one(PROPOSALS),
        "operator": operator,
        "observation_type": "NORMAL",
        "ipp_thousandths": draw.one((1_000, 1_100)),
        "priority": draw.between(1, 100),
        "requests": [request(draw, desk) for _ in range(1 if operator == "SINGLE" else draw.between(2, 3))],
    }


def of_group(draw, desk, word):
    """A line about a pending group."""
    desk.named = draw.one(list(desk.pending))
    return {"do": word, "group_number": desk.named}


def clock(draw, desk):
    desk.now += draw.between(1, 60)
    return {"do": "clock", "at": desk.now}


def report(draw, desk):
    desk.reported = desk.running.pop() if desk.running else draw.between(1, desk.requests)
    return {"do": "report", "request": desk.reported, "percent": draw.between(80, 100), "used": draw.between(1, 60)}


def closure(draw, desk):
    """A closure of half an hour, or its end."""
    first = desk.now + 1_800 * draw.between(0, 48)
    names = {"site": draw.one(SITES), "enclosure": "e", "telescope": draw.one("ab")}
    return {"do": draw.one(("close", "reopen")), **names, "spans": [[first, first + 1_800]]}


def grant(draw, desk):
    seconds = draw.between(1, 1_000)
    return {"do": "grant", "proposal": draw.one(PROPOSALS), "account": "standard", "instrument_type": "I", "seconds": seconds}


LINES = {
    "submit": lambda draw, desk: {"do": "submit", "group": group(draw, desk)},
    "amend": lambda draw, desk: {**of_group(draw, desk, "amend"), "group": group(draw, desk)},
    "withdraw": lambda draw, desk: of_group(draw, desk, "withdraw"),
    "clock": clock,
    "report": report,
    "closure": closure,
    "grant": grant,
    "show": lambda draw, desk: of_group(draw, desk, "show"),
    "balances": lambda draw, desk: {"do": "balances"},
    "fault": lambda draw, desk: {"do": "submit", "group": {"name": ""}},
}
# How often in a hundred lines each comes, but for submissions and withdrawals, which keep the desk at its number of requests.
WEIGHTS = {"amend": 20, "clock": 8, "closure": 6, "grant": 10, "show": 12, "balances": 1, "fault": 3}


def next_line(draw, desk, place):
    if place % BETWEEN_PLANS == 0:
        return {"do": "plan"}
    if desk.running and draw.chance(50):
        return report(draw, desk)
    few = len(desk.home) < PENDING
    return LINES[draw.weighed({**WEIGHTS, "report": 2, "submit": 35 if few else 3, "withdraw": 3 if few else 35})](draw, desk)


def busy(count, answer):
    """So many lines, each drawn after the replies to those before it, which `answer` answers to the bytes of a line."""
    draw = Draw(1)
    desk = Desk(draw, 24)
    desk.now = 0
    first = list(beginning())
    for place in range(count):
        line = first[place] if place < len(first) else next_line(draw, desk, place)
        text = json.dumps(line, separators=(",", ":")).encode()
        for reply in answer(text):
            desk.hear(reply)
        yield text


def main(program, count):
    plain = Plain(program)
    for line in busy(int(count), plain.answer):
        sys.stdout.buffer.write(line + b"\n")
    plain.close()


if __name__ == "__main__":
    main(*sys.argv[1:])
