"""The colours and patterns of proposals."""

from __future__ import annotations

from itertools import combinations

import numpy as np
import pytest

from purvelj.chart.colours import OTHER, PALETTE, styles


def test_there_are_styles_for_many_proposals() -> None:
    styled = styles([str(number) for number in range(40)])
    assert len({(each.colour, each.pattern) for each in list(styled.values())[:28]}) == 28
    assert set(list(styled.values())[28:]) == {OTHER}


#: How colours are seen without red, green and blue cones (Machado, Oliveira and Fernandes 2009, severity 1).
SEEN = {
    "protanopia": [
        [0.152286, 1.052583, -0.204868],
        [0.114503, 0.786281, 0.099216],
        [-0.003882, -0.048116, 1.051998],
    ],
    "deuteranopia": [
        [0.367322, 0.860646, -0.227968],
        [0.280085, 0.672501, 0.047413],
        [-0.011820, 0.042940, 0.968881],
    ],
    "tritanopia": [
        [1.255528, -0.076749, -0.178779],
        [-0.078411, 0.930809, 0.147602],
        [0.004733, 0.691367, 0.303900],
    ],
    "all cones": [[1, 0, 0], [0, 1, 0], [0, 0, 1]],
}


@pytest.mark.parametrize("seen", SEEN)
def test_colours_are_told_apart_by_the_colour_blind(seen: str) -> None:
    for first, second in combinations(PALETTE, 2):
        distance = np.linalg.norm(_lab(first, SEEN[seen]) - _lab(second, SEEN[seen]))
        assert distance > 12, (first, second)


def _lab(colour: str, matrix) -> np.ndarray:
    """The colour in CIELAB, as it is seen."""
    parts = np.array([int(colour[place : place + 2], 16) / 255 for place in (1, 3, 5)])
    linear = np.where(parts <= 0.04045, parts / 12.92, ((parts + 0.055) / 1.055) ** 2.4)
    linear = np.clip(np.array(matrix) @ linear, 0, 1)
    xyz = np.array([[0.4124, 0.3576, 0.1805], [0.2126, 0.7152, 0.0722], [0.0193, 0.1192, 0.9505]]) @ linear
    scaled = xyz / np.array([0.9505, 1.0, 1.089])
    f = np.where(scaled > 0.008856, np.cbrt(scaled), 7.787 * scaled + 16 / 116)
    return np.array([116 * f[1] - 16, 500 * (f[0] - f[1]), 200 * (f[1] - f[2])])
