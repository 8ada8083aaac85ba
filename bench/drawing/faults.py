"""Lines that have a fault: bytes that say nothing, and members that aren't what they should be."""

import copy
import functools
import operator

from drawing.draw import Raw

# What a member may be instead of what it is.
STRANGE = (
    None, True, 0, 1, -1, 4_294_967_296, "", "x", "x" * 128, "x" * 129, "é" * 65, [], [0], [[1, 1]], [[0, 1, 2]], [None], {}, {"a": 1},
    "2025-02-29T00:00:00Z", "2024-02-29 23:59:59", "1969-12-31T23:59:59Z", "9999-12-31T23:59:59Z", "2025-03-01T00:00:00.5Z",
    "2025-03-01T00:00:00+01:00", "2025-03-01", 253_402_300_799, 253_402_300_800,
    Raw("1.0"), Raw("1e2"), Raw("-0"), Raw("0.5"), Raw("18446744073709551615"), Raw("18446744073709551616"),
    Raw("9223372036854775808"), Raw("-9223372036854775808"), Raw("-9223372036854775809"), Raw("1e400"), Raw("01"), Raw("nul"),
)  # fmt: skip

# Lines that say nothing, or that say it strangely.
PIECES = (
    b"", b" ", b"\t", b"\r", b"null", b"true", b"0", b'""', b"[]", b"{}", b"{", b"}", b"{}{}", b"{} {", b"\xef\xbb\xbf{}", b"\x00", b"\xff",
    b'{"do":"plan"}x', b'{"do":"plan",}', b'{"do":"plan"', b"{'do':'plan'}", b'{do:"plan"}', b'{"do":"pl\xc3"}', b'{"do":"pl\\ud800"}',
    b'{"do":"\xed\xa0\x80"}', b'{"do":NaN}', b'{"do":"balances","x":1e400}', b'{"do":"balances","x":-}',
    b'{"do":"balances","x":' + b"[" * 126 + b"]" * 126 + b"}", b'{"do":"balances","x":' + b"[" * 127 + b"]" * 127 + b"}",
    b'{"do":"plan","do":"balances"}', b'{"do":"balances","do":null}', b'{"\\u0064o":"balances"}', b' {"do" : "balances"}\r',
    b'{"do":"Balances"}', b'{"do":"balances "}', b'{"do":"balances\\u0000"}', b'{"do":["balances"]}', b'{"do":""}', b'{"do":null}',
    b'{"do":"' + b"x" * 128 + b'"}', b'{"do":"' + b"x" * 129 + b'"}',
)  # fmt: skip

# The most bytes that a line may have.
LONG = 1_048_576


def places(value, path=()):
    """The paths to all members and elements of a value."""
    steps = value.items() if isinstance(value, dict) else enumerate(value) if isinstance(value, list) else ()
    for step, below in steps:
        yield (*path, step)
        yield from places(below, (*path, step))


def broken(draw, line):
    """The line with a member or an element that is gone, or is another."""
    line = copy.deepcopy(line)
    *way, last = draw.one(list(places(line)))
    held = functools.reduce(operator.getitem, way, line)
    if draw.chance(25):
        del held[last]
    else:
        held[last] = draw.one(STRANGE)
    return line


def nothing(draw):
    """The bytes of a line that mostly says nothing."""
    if draw.chance(1):
        return b'{"do":"balances"' + b" " * (LONG - 17 + draw.between(0, 1)) + b"}"
    return draw.one(PIECES)
