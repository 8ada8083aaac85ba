"""The picture of a plan: a row a telescope, and value beside bound."""

from __future__ import annotations

from datetime import datetime, timezone
from typing import Any

from matplotlib.dates import AutoDateLocator, ConciseDateFormatter, date2num
from matplotlib.figure import Figure
from matplotlib.patches import Patch, Rectangle

from purvelj.chart.colours import BLACK, BLUE, DAY, GREY, NIGHT, OTHER, SKY, Style, styles
from purvelj.chart.texts import shown
from purvelj.moments import text_of
from purvelj.spans import Span, Spans
from purvelj.views import Bar, PlanView, Row

#: Inches: a row, a line of the key, the strip of value and bound, and all that stands around them.
ROW, KEY, BOUND, AROUND = 0.34, 0.2, 0.3, 1.4
#: Inches: the least and greatest width.
LEAST_WIDTH, MOST_WIDTH = 11.0, 30.0
#: Inches an hour of the horizon, if the picture isn't too wide with it.
HOUR = 0.2
#: Points: the least and greatest size of a request's number.
LEAST_NUMBER, MOST_NUMBER = 3.5, 5.5
#: Points: a letter of the key, and the mark beside a name.
LETTER, MARK = 5.0, 48.0
#: How wide a digit is, in parts of a text's size.
DIGIT = 0.65
BAR = 0.78


def draw_plan(view: PlanView) -> Figure:
    """Draws a plan. Each placement has the id ``placement-N`` with its request's number."""
    width = min(MOST_WIDTH, max(LEAST_WIDTH, HOUR * view.horizon.seconds / 3600))
    style = styles(view.proposals)
    handles = _handles(view, style)
    longest = max(len(handle.get_label()) for handle in handles)
    columns = max(1, int(72 * 0.9 * width / (LETTER * longest + MARK)))
    heights = [ROW * max(3, len(view.rows)), KEY * -(-len(handles) // columns), BOUND]
    figure = Figure(figsize=(width, sum(heights) + AROUND), layout="constrained")
    above, key, below = figure.subplots(3, 1, height_ratios=heights)
    _draw_rows(above, view)
    points = 72 * 0.86 * width / view.horizon.seconds
    for bar in view.bars:
        _draw_bar(above, bar, style.get(bar.proposal or "", OTHER), points)
    _draw_axis(above, view)
    key.axis("off")
    key.legend(handles=handles, loc="center", ncols=columns, fontsize=8, frameon=False).set_in_layout(False)
    _draw_bound(below, view)
    return figure


def _draw_rows(axes: Any, view: PlanView) -> None:
    for place, row in enumerate(view.rows):
        _draw_span(axes, place, view.horizon, DAY, f"day-{place}")
        for span in _open(row):
            _draw_span(axes, place, span, NIGHT, f"night-{place}")
        for span in row.closed:
            _draw_span(axes, place, span, NIGHT, f"closed-{place}", hatch="xxxx", edgecolor=GREY)
    axes.hlines(
        [place - 0.5 for place in range(len(view.rows) + 1)],
        _day(view.horizon.start),
        _day(view.horizon.end),
        color=GREY,
        linewidth=0.4,
    )


def _open(row: Row) -> Spans:
    """The night where it is known, else the seconds in which the telescope can be used."""
    return row.night or row.usable


def _draw_span(axes: Any, place: int, span: Span, colour: str, name: str, **style: Any) -> None:
    style = {"linewidth": 0, **style}
    axes.add_patch(Rectangle(*_box(place, span, 1.0), facecolor=colour, gid=name, zorder=1, **style))


def _draw_bar(axes: Any, bar: Bar, style: Style, points: float) -> None:
    axes.add_patch(
        Rectangle(
            *_box(bar.row, bar.span, BAR),
            facecolor=style.colour,
            hatch=style.pattern,
            edgecolor=BLACK,
            linewidth=2.2 if bar.running else 0.4,
            linestyle=(0, (2, 1)) if bar.running else "solid",
            gid=f"{'running' if bar.running else 'placement'}-{bar.request}",
            zorder=4 if bar.running else 3,
        )
    )
    _draw_number(axes, bar, style, bar.span.seconds * points)


def _draw_number(axes: Any, bar: Bar, style: Style, width: float) -> None:
    """Writes a request's number on its bar, upright where it is narrow, and not at all where it is too narrow."""
    text, size = str(bar.request), min(MOST_NUMBER, width)
    if size < LEAST_NUMBER:
        return
    axes.text(
        _day(bar.span.start + bar.span.seconds / 2),
        bar.row,
        text,
        fontsize=size,
        rotation=90 if width < DIGIT * size * len(text) else 0,
        color=style.text,
        ha="center",
        va="center",
        zorder=5,
        bbox={"facecolor": style.colour, "edgecolor": "none", "pad": 0.4} if style.pattern else None,
    )


def _box(place: int, span: Span, height: float) -> tuple[tuple[float, float], float, float]:
    start, end = _day(span.start), _day(span.end)
    return (start, place - height / 2), end - start, height


def _draw_axis(axes: Any, view: PlanView) -> None:
    axes.set_xlim(_day(view.horizon.start), _day(view.horizon.end))
    axes.set_ylim(max(1, len(view.rows)) - 0.5, -0.5)
    axes.set_yticks(range(len(view.rows)), [shown(row.name) for row in view.rows], fontsize=8)
    # Else a user's settings could name another time zone.
    locator = AutoDateLocator(tz=timezone.utc, minticks=6, maxticks=18)
    axes.xaxis.set_major_locator(locator)
    axes.xaxis.set_major_formatter(ConciseDateFormatter(locator, tz=timezone.utc))
    axes.set_xlabel("UTC", fontsize=8)
    axes.tick_params(axis="x", labelsize=8)
    axes.set_title(
        f"Plan of version {view.version}: {len(view.claim.placements)} placements"
        f" from {text_of(view.horizon.start)} to {text_of(view.horizon.end)}",
        fontsize=10,
        loc="left",
    )
    if view.now is not None and view.horizon.start <= view.now <= view.horizon.end:
        axes.axvline(_day(view.now), color=BLACK, linewidth=1.2, linestyle="dotted", gid="now", zorder=6)


def _handles(view: PlanView, style: dict[str, Style]) -> list[Patch]:
    """The marks of the key: of the proposals that are placed, and of what else is drawn."""
    placed = {bar.proposal for bar in view.bars}
    handles = [
        Patch(facecolor=each.colour, hatch=each.pattern, edgecolor=BLACK, linewidth=0.4, label=shown(name))
        for name, each in style.items()
        if name in placed
    ]
    if any(bar.running for bar in view.bars):
        dashes = (0, (2, 1))
        handles.append(Patch(facecolor=NIGHT, edgecolor=BLACK, linewidth=2.2, linestyle=dashes, label="running"))
    known = any(row.night for row in view.rows)
    handles.append(Patch(facecolor=NIGHT, edgecolor=GREY, label="night" if known else "usable"))
    handles.append(Patch(facecolor=DAY, label="day" if known else "not usable"))
    if any(row.closed for row in view.rows):
        handles.append(Patch(facecolor=NIGHT, hatch="xxxx", edgecolor=GREY, linewidth=0, label="closed"))
    return handles


def _draw_bound(axes: Any, view: PlanView) -> None:
    claim = view.claim
    axes.barh(0, claim.bound, color=SKY, height=0.9, gid="bound")
    axes.barh(0, claim.value, color=BLUE, height=0.9, gid="value")
    axes.set_xlim(0, max(1, claim.bound))
    axes.set_yticks([])
    axes.set_xticks([])
    axes.set_title(
        f"value {claim.value:,} (dark), and no plan is worth more than {claim.bound:,}: {percent_text(claim)}",
        fontsize=9,
        loc="left",
    )


def percent_text(claim: Any) -> str:
    """The gap of a claim in words."""
    if claim.gap == 0:
        return "no gap, no plan is better"
    return f"a gap of {claim.gap:,}, {claim.gap_percent:.2f} %"


def _day(second: float) -> float:
    return float(date2num(datetime.fromtimestamp(second, timezone.utc)))
