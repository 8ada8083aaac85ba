"""A drawn session: a desk that is kept busy, and each line drawn with what the replies before it told."""

from drawing import registering
from drawing.claims import draw_publish
from drawing.crowds import crowd
from drawing.desk import Desk
from drawing.documents import group
from drawing.draw import CODES, INSTRUMENTS, SITES, TARGETS, Draw
from drawing.faults import broken, nothing
from drawing.moments import moment
from drawing.texts import text_of

LINES = 300


def number(draw, greatest):
    """One of the numbers that were given, or, rarely, one that wasn't."""
    return draw.rarely(5, draw.one((0, greatest + 1, 4_294_967_295)), draw.between(1, max(1, greatest)))


def group_number(draw, desk):
    """The number of a group, mostly of one that was pending when it was spoken of last."""
    desk.named = draw.one(list(desk.pending)) if desk.pending and draw.chance(85) else number(draw, desk.groups)
    return desk.named


def site(draw, desk):
    """A site that is registered, or, rarely, one that isn't."""
    return draw.rarely(5, "none", draw.one(desk.sites))


def clock(draw, desk):
    """A moment just past the next start that is planned, or a little on, or back."""
    starts = [each * desk.slice for each in desk.planned if each * desk.slice >= desk.now]
    if starts and draw.chance(65):
        at = min(starts) + draw.one((0, 1, 1, 1, desk.slice))
    else:
        at = desk.now + draw.rarely(10, desk.length, draw.between(0, 2 * desk.slice))
    at = draw.rarely(4, desk.now - 1, at)
    desk.now = max(desk.now, at)
    return {"do": "clock", "at": moment(draw, at) if at >= 0 else at}


def report(draw, desk):
    """The end of what runs, or of what has ended already."""
    if desk.running and draw.chance(90):
        place = draw.between(0, len(desk.running) - 1)
        request = desk.running[place] if draw.chance(20) else desk.running.pop(place)
        desk.ended.append(request)
    else:
        request = draw.one(desk.ended) if desk.ended and draw.chance(70) else number(draw, desk.requests)
    desk.reported = request
    used = draw.rarely(8, 86_400, draw.between(0, desk.slice))
    return {"do": "report", "request": request, "percent": draw.one((0, 49, 50, 89, 90, 95, 100)), "used": used}


def amend(draw, desk):
    return {"do": "amend", "group_number": group_number(draw, desk), "group": group(draw, desk)}


FORMS = {
    "submit": (30, lambda draw, desk: {"do": "submit", "group": group(draw, desk)}),
    "amend": (8, amend),
    "withdraw": (5, lambda draw, desk: {"do": "withdraw", "group_number": group_number(draw, desk)}),
    "clock": (12, clock),
    "report": (3, report),
    "plan": (10, lambda draw, desk: {"do": "plan"}),
    "publish": (3, draw_publish),
    "export": (2, lambda draw, desk: {"do": "export"}),
    "balances": (2, lambda draw, desk: {"do": "balances"}),
    "show": (4, lambda draw, desk: {"do": "show", "group_number": group_number(draw, desk)}),
    "grant": (4, registering.any_grant),
    "night": (2, lambda draw, desk: registering.night(draw, desk, site(draw, desk))),
    "visibility": (4, lambda draw, desk: registering.visibility(draw, desk, site(draw, desk), draw.one(TARGETS))),
    "closure": (4, registering.closure),
    "telescope": (1, lambda draw, desk: registering.telescope(draw, draw.one(SITES), draw.one(CODES))),
    "instrument": (1, lambda draw, desk: registering.instrument(draw, draw.one(INSTRUMENTS))),
    "open": (0.5, registering.opening),
}
WEIGHTS = {word: weight for word, (weight, _) in FORMS.items()}


def next_word(draw, desk):
    """What the next line is for: often it goes on with what the last reply told."""
    if desk.refusal is not None and draw.chance(80):
        return "publish"
    if desk.last == "published" and draw.chance(60):
        return draw.one(("publish", "clock", "clock"))
    if desk.running and draw.chance(40):
        return "report"
    return draw.weighed(WEIGHTS)


def drawn_line(draw, desk):
    """A line, of which one in ten has a fault."""
    if draw.chance(3):
        return nothing(draw)
    line = FORMS[next_word(draw, desk)][1](draw, desk)
    # (a moment that is read by chance may be far away, where nothing goes on any more)
    if draw.chance(7) and line["do"] != "clock":
        line = broken(draw, line)
    return text_of(draw, line)


def session(seed, answer):
    """Draws a session and gives its lines, each with its replies, which `answer` answers to the bytes of the line."""
    draw = Draw(seed)
    desk = Desk(draw, 1_440 if seed % 80 == 79 else draw.one((1, 4, 8, 12)))
    first = [text_of(draw, line) for line in registering.beginning(draw, desk)]
    if draw.chance(10):
        first.insert(0, drawn_line(draw, desk))
    if seed % 10 == 9:
        first += [text_of(draw, line) for line in crowd(desk, seed // 10)]
    for place in range(max(LINES, len(first))):
        line = first[place] if place < len(first) else drawn_line(draw, desk)
        replies = answer(line)
        for reply in replies:
            desk.hear(reply)
        yield line, replies
