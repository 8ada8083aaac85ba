"""Colours that colour-blind people can tell apart, after Okabe and Ito, and patterns where they run out."""

from __future__ import annotations

from dataclasses import dataclass
from typing import Sequence

ORANGE, SKY, GREEN, YELLOW, BLUE, VERMILION, PURPLE = (
    "#E69F00",
    "#56B4E9",
    "#009E73",
    "#F0E442",
    "#0072B2",
    "#D55E00",
    "#CC79A7",
)
BLACK, GREY, DAY, NIGHT = "#000000", "#999999", "#D0D0D0", "#FFFFFF"
#: In an order in which neighbours differ in brightness too.
PALETTE = (BLUE, ORANGE, GREEN, YELLOW, PURPLE, SKY, VERMILION)
PATTERNS = ("", "////", "....", "xxxx")


@dataclass(frozen=True)
class Style:
    """A colour and a pattern, and the colour in which a text on it can be read."""

    colour: str
    pattern: str
    text: str


#: Of what has no proposal, or one too many.
OTHER = Style(GREY, "", BLACK)


def styles(names: Sequence[str]) -> dict[str, Style]:
    """A style for each name: first the colours alone, then with patterns, then one for all that are left."""
    pairs = [(colour, pattern) for pattern in PATTERNS for colour in PALETTE]
    styled = {name: Style(*pair, _readable(pair[0])) for name, pair in zip(names, pairs)}
    return {name: styled.get(name, OTHER) for name in names}


def _readable(colour: str) -> str:
    red, green, blue = (int(colour[place : place + 2], 16) for place in (1, 3, 5))
    return BLACK if 0.299 * red + 0.587 * green + 0.114 * blue > 120 else "#FFFFFF"
