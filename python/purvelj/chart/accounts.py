"""The picture of who got how much of their grants."""

from __future__ import annotations

from typing import Sequence

from matplotlib.figure import Figure

from purvelj.chart.colours import BLACK, BLUE, NIGHT, ORANGE, YELLOW
from purvelj.chart.texts import shown
from purvelj.views import Share

ROW, AROUND, WIDTH = 0.36, 1.6, 11.0


def draw_shares(shares: Sequence[Share]) -> Figure:
    """Draws a bar for each account, in hours: used, planned, held beside that, and left.

    What was used is drawn only where the grants are known.
    """
    figure = Figure(figsize=(WIDTH, AROUND + ROW * max(2, len(shares))), layout="constrained")
    axes, key = figure.subplots(2, 1, height_ratios=[ROW * max(2, len(shares)), 0.3])
    rows = range(len(shares))
    before = [0.0] * len(shares)
    for name, colour, pattern, seconds in _parts(shares):
        hours = [each / 3600 for each in seconds]
        axes.barh(
            rows,
            hours,
            left=before,
            height=0.7,
            color=colour,
            hatch=pattern,
            edgecolor=BLACK,
            linewidth=0.6,
            label=name,
            gid=name.replace(" ", "-"),
        )
        before = [low + more for low, more in zip(before, hours)]
    for row, share in enumerate(shares):
        axes.text(before[row], row, f"  {_share_text(share)}", va="center", fontsize=8)
    axes.set_yticks(rows, [shown(share.name) for share in shares], fontsize=8)
    axes.set_ylim(max(1, len(shares)) - 0.4, -0.6)
    axes.set_xlim(0, 1.4 * max(before, default=1) or 1)
    axes.set_xlabel("hours", fontsize=8)
    axes.tick_params(axis="x", labelsize=8)
    axes.set_title("Accounts", fontsize=10, loc="left")
    key.axis("off")
    key.legend(*axes.get_legend_handles_labels(), loc="center", ncols=4, fontsize=8, frameon=False)
    return figure


def _parts(shares: Sequence[Share]) -> list[tuple[str, str, str, list[int]]]:
    """What the bars are made of: a name, a colour, a pattern, and the seconds of each account."""
    parts = [
        ("used", BLUE, "", [share.used or 0 for share in shares]),
        ("planned or running", ORANGE, "////", [share.planned for share in shares]),
        ("held beside that", YELLOW, "", [share.held - share.planned for share in shares]),
        ("left", NIGHT, "", [share.available for share in shares]),
    ]
    return parts[1:] if all(share.used is None for share in shares) else parts


def _share_text(share: Share) -> str:
    if share.used is None:
        return f"{share.available / 3600:.1f} h left"
    granted = share.used + share.held + share.available
    got = share.used + share.planned
    part = 100 * got / granted if granted else 0
    return f"{got / 3600:.1f} of {granted / 3600:.1f} h used or planned, {part:.0f} %"
