"""The whole seconds in which a function of time isn't negative."""

from __future__ import annotations

from typing import Callable

import numpy as np
import numpy.typing as npt

from purvelj.spans import Span, Spans, union

Floats = npt.NDArray[np.float64]
Ints = npt.NDArray[np.int64]
Function = Callable[[Floats], Floats]

#: The step of the grid, in seconds.
STEP = 600
#: No function here bends more than this, a second of a second: the square of the Earth's rate of turning.
CURVATURE = 6e-9


def spans_where(function: Function, start: int, end: int) -> Spans:
    """The seconds from ``start`` to ``end`` throughout which a function is at least 0.

    The function's second derivative is at most ``CURVATURE`` in size. It is computed on a grid. Where
    the values at both ends of a step leave no doubt for all of the step, no more is computed; in every
    other step it is computed at each whole second, and a second counts where it holds at both its ends.
    So no span is missed, however short, and each is rounded inwards.
    """
    nodes = np.append(np.arange(start, end, STEP), end)
    values = function(nodes.astype(float))
    doubt = CURVATURE * STEP**2 / 8
    inside = np.minimum(values[:-1], values[1:]) > doubt
    unsure = ~inside & (np.maximum(values[:-1], values[1:]) >= -doubt)
    spans = [Span(int(low), int(high)) for low, high in zip(nodes[:-1][inside], nodes[1:][inside])]
    return union(spans + _by_the_second(function, nodes[:-1][unsure], end))


def _by_the_second(function: Function, steps: Ints, end: int) -> list[Span]:
    seconds = np.minimum(steps[:, None] + np.arange(STEP + 1)[None, :], end)
    holds = function(seconds.ravel().astype(float)).reshape(seconds.shape) >= CURVATURE / 8
    both = holds[:, :-1] & holds[:, 1:] & (seconds[:, 1:] > seconds[:, :-1])
    edges = np.diff(np.pad(both, ((0, 0), (1, 1))).astype(np.int8), axis=1)
    rises, falls = np.nonzero(edges == 1), np.nonzero(edges == -1)
    return [
        Span(int(steps[row] + first), int(steps[row] + last))
        for row, first, last in zip(rises[0], rises[1], falls[1])
    ]


def spans_by_steps(holds: Callable[[Ints], npt.NDArray[np.bool_]], start: int, end: int) -> Spans:
    """The seconds throughout which a yes or no is yes, as far as a grid and its changes tell.

    What changes twice within a step of the grid isn't seen. Each change is sought to the second.
    """
    nodes = np.append(np.arange(start, end, STEP), end)
    answers = holds(nodes)
    changes = np.flatnonzero(answers[1:] != answers[:-1])
    before, after = nodes[changes], nodes[changes + 1]
    while len(changes) and (after - before).max() > 1:
        middle = (before + after) // 2
        same = holds(middle) == answers[changes]
        before, after = np.where(same, middle, before), np.where(same, after, middle)
    rising = ~answers[changes]
    edges = [int(each) for each in np.where(rising, after, before)]
    if answers[0]:
        edges.insert(0, start)
    if answers[-1]:
        edges.append(end)
    return tuple(Span(low, high) for low, high in zip(edges[::2], edges[1::2]) if low < high)
