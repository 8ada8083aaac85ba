"""The bytes of a line."""

import json

from drawing.draw import Raw


def text_of(draw, line):
    """The line as one of its many texts: members in any order, with spaces or escapes, and perhaps one that stands twice."""
    return written(draw, line, draw.one(((",", ":"), (", ", ": "), (" ,\t", " : "))), draw.chance(50)).encode()


def written(draw, value, marks, escaped):
    if isinstance(value, Raw):
        return value.text
    if isinstance(value, list):
        return "[" + marks[0].join(written(draw, each, marks, escaped) for each in value) + "]"
    if not isinstance(value, dict):
        return json.dumps(value, ensure_ascii=escaped)
    members = [member(draw, name, value[name], marks, escaped) for name in draw.some(list(value), len(value))]
    if members and draw.chance(2):
        members.insert(0, draw.one(members))
    return "{" + marks[0].join(members) + "}"


def member(draw, name, value, marks, escaped):
    return json.dumps(name) + marks[1] + written(draw, value, marks, escaped)
