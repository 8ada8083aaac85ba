"""Lines that bring a desk to one of its limits, and past it."""

from drawing.draw import OPERATORS

NO_TIMES = {"front_ms": 0, "config_ms": 0, "readout_ms": 0, "change_ms": 0}


def grant(proposal):
    return {"do": "grant", "proposal": proposal, "account": "standard", "instrument_type": "SINISTRO", "seconds": 1_000_000}


def telescope(site, code):
    return {"do": "telescope", "site": site, "enclosure": "e", "telescope": code, "class": "1m0", "instruments": ["SINISTRO"]}


def instruments(desk):
    return [{"do": "instrument", "type": f"I{place}", **NO_TIMES} for place in range(66)]


def telescopes(desk):
    return [telescope("coj", f"t{place}") for place in range(34)]


def sites(desk):
    return [telescope(f"s{place}", "t") for place in range(18)]


def accounts(desk):
    return [grant(f"Q{place}") for place in range(1_030)]


def closures(desk):
    """300 spans, 300 more, which would be too many, and then one that 512 are taken out of, and 511."""

    def spans(places):
        return [[8 * each + 2, 8 * each + 4] for each in places]

    def line(word, spans):
        return {"do": word, "site": "coj", "spans": spans}

    return [
        line("close", spans(range(300))),
        line("close", spans(range(300, 600))),
        line("close", [[0, 8_000]]),
        line("reopen", spans(range(512))),
        line("reopen", spans(range(511))),
    ]


def request(desk, targets):
    """A request of one second for each of so many targets, in the next two horizons."""
    window = {"start": desk.now, "end": desk.now + 2 * desk.length}
    configurations = [
        {
            "instrument_type": "SINISTRO",
            "target": {"name": target},
            "instrument_configs": [{"exposure_time_ms": 1_000, "exposure_count": 1}],
        }
        for target in targets
    ]
    return {"location": {"telescope_class": "1m0"}, "windows": [window], "configurations": configurations}


def submit(requests):
    group = {
        "name": "crowd",
        "proposal": "Q",
        "operator": OPERATORS[1],
        "observation_type": "NORMAL",
        "requests": requests,
    }
    return {"do": "submit", "group": group}


def targets(desk):
    """Groups that name 320 targets each."""
    names = [[f"n{16 * place + each}" for each in range(16)] for place in range(140)]
    groups = [submit([request(desk, each) for each in names[from_ : from_ + 20]]) for from_ in range(0, 140, 20)]
    return [grant("Q"), *groups]


def requests(desk):
    """Groups of 32 requests each, which ask for what nobody can see."""
    one = submit([request(desk, ["nowhere"])] * 32)
    return [grant("Q"), *[one] * 33]


def starts(desk):
    """A group that may start anywhere on 32 telescopes, which is too much for a horizon of 1,440 slices, and its end."""
    one = submit([request(desk, ["everywhere"])] * 32)
    seen = [[desk.now, desk.now + 3 * desk.length]]
    return [
        grant("Q"),
        *[telescope("coj", f"t{place}") for place in range(32)],
        {"do": "night", "site": "coj", "spans": seen},
        {"do": "visibility", "target": "everywhere", "site": "coj", "spans": seen},
        one,
        {"do": "plan"},
        {"do": "withdraw", "group_number": 1},
    ]


CROWDS = (instruments, telescopes, sites, accounts, closures, targets, requests, starts)


def crowd(desk, number):
    """The lines that bring the desk to one of its limits."""
    return CROWDS[number % len(CROWDS)](desk)
