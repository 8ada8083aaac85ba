"""The lines that a desk reads, one function a command.

Each function gives the line as a ``dict``; ``documents.compact`` makes the text of it. Moments, those of
spans too, are anything that ``moments.seconds_of`` takes. Other ranges are tested by the desk, which
refuses a line that is out of them.
"""

from __future__ import annotations

from typing import Iterable, Mapping, Sequence

from purvelj.documents import encoded
from purvelj.model import Claim
from purvelj.moments import Moment, seconds_of

Line = dict[str, object]
#: Spans: pairs of moments, each the first second and the one after the last.
Pairs = Iterable[tuple[Moment, Moment]]
#: The most lines that a session reads, and the most bytes of them with their newlines.
MOST_LINES, MOST_BYTES = 65_536, 67_108_864


def size_of(text: str) -> int:
    """The bytes that a session reads of a line that is this text, its newline among them.

    A byte that isn't UTF-8 stands in the text as ``documents.decoded_lines`` reads it.
    """
    return len(encoded(text)) + 1


def open_line(
    now: Moment,
    slice_seconds: int,
    horizon: int,
    semester: tuple[Moment, Moment],
    lanes: int = 4,
    rounds: int = 32,
    workers: int = 1,
    quota: int | None = None,
) -> Line:
    """Opens the desk: slices of 60 to 3600 seconds, of which ``horizon`` (1 to 1440) are planned.

    ``quota`` is the most seconds that a plan may place of one proposal; there is none by default.
    """
    line: Line = {
        "do": "open",
        "now": seconds_of(now, "now"),
        "slice": slice_seconds,
        "horizon": horizon,
        "semester": [seconds_of(each, "semester") for each in semester],
        "lanes": lanes,
        "rounds": rounds,
        "workers": workers,
    }
    if quota is not None:
        line["quota"] = quota
    return line


def instrument_line(
    name: str, front_ms: int = 0, config_ms: int = 0, readout_ms: int = 0, change_ms: int = 0
) -> Line:
    """Registers an instrument type, with its overheads in milliseconds."""
    return {
        "do": "instrument",
        "type": name,
        "front_ms": front_ms,
        "config_ms": config_ms,
        "readout_ms": readout_ms,
        "change_ms": change_ms,
    }


def telescope_line(
    site: str, enclosure: str, telescope: str, telescope_class: str, instruments: Sequence[str]
) -> Line:
    """Registers a telescope of a site by its codes, with the instrument types that it carries."""
    return {
        "do": "telescope",
        "site": site,
        "enclosure": enclosure,
        "telescope": telescope,
        "class": telescope_class,
        "instruments": list(instruments),
    }


def night_line(site: str, spans: Pairs) -> Line:
    """Sets the night of a site to these seconds."""
    return {"do": "night", "site": site, "spans": _lists(spans)}


def visibility_line(target: str, site: str, spans: Pairs) -> Line:
    """Sets the seconds in which a target can be observed from a site."""
    return {"do": "visibility", "target": target, "site": site, "spans": _lists(spans)}


def close_line(site: str, spans: Pairs, enclosure: str | None = None, telescope: str | None = None) -> Line:
    """Closes a telescope for these seconds, or all telescopes that the site has so far."""
    return {"do": "close", **_scope(site, enclosure, telescope), "spans": _lists(spans)}


def reopen_line(site: str, spans: Pairs, enclosure: str | None = None, telescope: str | None = None) -> Line:
    """Takes these seconds out of the closures of a telescope, or of all telescopes of a site."""
    return {"do": "reopen", **_scope(site, enclosure, telescope), "spans": _lists(spans)}


def grant_line(proposal: str, account: str, seconds: int, instrument_type: str | None = None) -> Line:
    """Grants seconds to an account of a proposal; the account ``ipp`` is of no instrument type."""
    line: Line = {"do": "grant", "proposal": proposal, "account": account, "seconds": seconds}
    if instrument_type is not None:
        line["instrument_type"] = instrument_type
    return line


def submit_line(group: Mapping[str, object]) -> Line:
    """Submits a request group document."""
    return {"do": "submit", "group": dict(group)}


def amend_line(group_number: int, group: Mapping[str, object]) -> Line:
    """Withdraws a group and submits another in its place."""
    return {"do": "amend", "group_number": group_number, "group": dict(group)}


def withdraw_line(group_number: int) -> Line:
    """Withdraws a group."""
    return {"do": "withdraw", "group_number": group_number}


def clock_line(at: Moment) -> Line:
    """Sets the desk's moment."""
    return {"do": "clock", "at": seconds_of(at, "at")}


def report_line(request: int, percent: int, used: int) -> Line:
    """Reports that a running request ended: how many percent of it were done, and the seconds used."""
    return {"do": "report", "request": request, "percent": percent, "used": used}


def plan_line() -> Line:
    """Asks for a plan, which is answered twice: taken, and published."""
    return {"do": "plan"}


def publish_line(version: int, claim: Claim) -> Line:
    """Publishes a claim that was made elsewhere, for the desk at this version."""
    return {"do": "publish", "version": version, "claim": claim.document()}


def export_line() -> Line:
    """Asks for the last publication's claim and snapshot."""
    return {"do": "export"}


def balances_line() -> Line:
    """Asks for the balances of all accounts."""
    return {"do": "balances"}


def show_line(group_number: int) -> Line:
    """Asks for a group: its document, its state and its requests' states."""
    return {"do": "show", "group_number": group_number}


def _scope(site: str, enclosure: str | None, telescope: str | None) -> Line:
    if (enclosure is None) != (telescope is None):
        raise ValueError("a telescope is named by its site, its enclosure and its own code")
    scope: Line = {"site": site}
    if telescope is not None:
        scope.update(enclosure=enclosure, telescope=telescope)
    return scope


def _lists(spans: Pairs) -> list[list[int]]:
    pairs = enumerate(spans)
    return [[seconds_of(each, f"spans[{place}]") for each in (start, end)] for place, (start, end) in pairs]
