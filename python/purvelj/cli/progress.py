"""The progress of ``tighten``, on standard error."""

from __future__ import annotations

from types import TracebackType

from rich.console import Console
from rich.progress import BarColumn, TextColumn, TimeElapsedColumn
from rich.progress import Progress as Bar

from purvelj.tighten import Step

STAGES = {"prices": "lowering the bound", "plan": "looking for a plan"}


class Progress:
    """A bar over the seconds that may be taken, with the gap so far."""

    def __init__(self, seconds: float, shown: bool) -> None:
        self._bar = Bar(
            TextColumn("{task.description}"),
            BarColumn(),
            TimeElapsedColumn(),
            TextColumn("{task.fields[gap]}"),
            console=Console(stderr=True),
            transient=True,
        )
        self._shown = shown
        self._task = self._bar.add_task("listing starts", total=seconds, gap="")

    def __enter__(self) -> Progress:
        if self._shown:
            self._bar.start()
        return self

    def __exit__(
        self, kind: type[BaseException] | None, fault: BaseException | None, trace: TracebackType | None
    ) -> None:
        if self._shown:
            self._bar.stop()

    def tell(self, step: Step) -> None:
        """Shows how far the search has come."""
        gap = 100 * (step.bound - step.value) / step.bound if step.bound else 0.0
        self._bar.update(
            self._task,
            description=STAGES[step.stage],
            completed=step.seconds,
            gap=f"gap {gap:.3f} %, {step.starts:,} starts in use",
        )
