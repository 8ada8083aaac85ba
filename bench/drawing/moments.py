"""Moments and spans, in the forms that a line may have them."""

import datetime

EPOCH = datetime.datetime(1970, 1, 1)


def text_of(draw, second):
    """A moment as text, with any of the ends that mean UTC."""
    moment = EPOCH + datetime.timedelta(seconds=second)
    text = moment.strftime("%Y-%m-%d" + draw.one("T ") + "%H:%M:%S")
    return text + draw.one(("", ".0", ".000000000")) + draw.one(("", "Z", "+00:00"))


def moment(draw, second):
    """A moment as a number or a text."""
    return text_of(draw, second) if draw.chance(10) else second


def span(draw, least, most):
    """A span between two moments."""
    first = draw.between(least, most - 1)
    return [moment(draw, first), moment(draw, draw.between(first + 1, most))]


def spans(draw, least, most, count):
    """At most so many spans, in any order, some of which meet."""
    return [span(draw, least, most) for _ in range(draw.between(0, count))]
