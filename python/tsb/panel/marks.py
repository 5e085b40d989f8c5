"""Marks at each change of a watched value, found by `when`.

`when` gives the last change alone. To find the one before it, the bench goes to the
tick before, and is asked again; then it takes its ticks again.
"""

from bisect import bisect_right, insort
from dataclasses import dataclass, field
from typing import Any

from tsb.bench import Bench, Watch
from tsb.panel.requests import View

MARKS_MOST = 20_000  # changes of a value that are marked, the newest
WATCHED_MOST = 8  # values that are watched at a time


@dataclass
class Watched:
    """A watched value, and the ticks of its changes up to the tick `until`."""

    watch: Watch
    number: int
    until: int = 0
    ticks: list[int] = field(default_factory=list)

    @property
    def name(self) -> str:
        """Its name, as `call 4`."""
        return f"{self.watch} {self.number}" if self.number else self.watch

    def asked(self, bench: Bench) -> int | None:
        """The tick of the last change, as the bench has it."""
        return bench.when(self.watch, self.number or None)

    def add(self, tick: int) -> None:
        """Marks a change."""
        at = bisect_right(self.ticks, tick)
        if at == 0 or self.ticks[at - 1] != tick:
            insort(self.ticks, tick)
            del self.ticks[:-MARKS_MOST]

    def cut(self, tick: int) -> None:
        """Drops what lies ahead of a tick."""
        del self.ticks[bisect_right(self.ticks, tick) :]
        self.until = min(self.until, tick)

    def told(self, view: View | None) -> dict[str, Any]:
        """What a page gets: the marks in view, one for a column at most."""
        found: list[int] = []
        if view is not None:
            low = bisect_right(self.ticks, view.first - 1)
            high = bisect_right(self.ticks, view.last)
            width = max(1, (view.last - view.first + 1) // view.columns)
            for tick in self.ticks[low:high]:
                if not found or tick >= found[-1] + width:
                    found.append(tick)
        return {
            "name": self.name,
            "watch": self.watch,
            "number": self.number,
            "ticks": found,
            "count": len(self.ticks),
        }


def walk_back(bench: Bench, watched: list[Watched], low: int, most: int) -> None:
    """Marks the changes after the tick `low`, so many at most, and leaves the bench
    before the first of them, or where it was if there is none."""
    for _ in range(most):
        asked = [(it.asked(bench), it) for it in watched]
        newest = max((tick for tick, _ in asked if tick is not None), default=low)
        if newest <= low:
            return
        for tick, it in asked:
            if tick == newest:
                it.add(newest)
        if newest == 0:
            return
        bench.seek(newest - 1)
