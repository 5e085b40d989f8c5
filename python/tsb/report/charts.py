"""The charts of a report: each of the numbers of one run or two, as SVG."""

from collections.abc import Iterator, Sequence
from typing import Any

import numpy as np
import pandas as pd
from matplotlib import dates
from matplotlib.collections import LineCollection
from matplotlib.colors import to_rgba

from tsb.report.drawing import (
    CAUSES,
    INK,
    PALE,
    RUNS,
    Drawing,
    clock,
    drawn,
    legend,
    plain,
)
from tsb.report.numbers import ENDS, FOLDS, Numbers

Both = Sequence[Numbers]
BAR = 0.38  # width of one of two bars of a phase
DAY = 864000  # ticks
FEW = 6  # phases for which there is always room
NUMBERED = 60  # marks of preempts, of which each may have its number
DENSE = 1000  # actuations, above which dots are small
WALKS, WALKS_ABOVE = "#7a3e9d", 0.38  # of walks, their colour and place


def _phases(tables: Sequence[pd.DataFrame]) -> list[int]:
    """The phases that any of the tables has."""
    return sorted({int(it) for table in tables for it in table.index})


def _places(phases: Sequence[int], run: int, runs: int) -> dict[int, float]:
    """The place of a run's bar for each phase."""
    shift = 0.0 if runs == 1 else (run - 0.5) * BAR * 1.1
    return {phase: place + shift for place, phase in enumerate(phases)}


def _phase_axis(axis: Any, phases: Sequence[int], name: str = "phase") -> None:
    axis.set_xticks(range(len(phases)), [str(it) for it in phases])
    axis.set_xlabel(name)
    room = max(FEW - len(phases), 0) / 2
    axis.set_xlim(-0.6 - room, len(phases) - 0.4 + room)
    axis.tick_params(axis="x", length=0)


def _hours(numbers: Numbers) -> float:
    return numbers.run.ticks / 36000


def _dates(numbers: Numbers, ticks: Any) -> Any:
    """The moments at which ticks begin, as an axis of dates counts them: in days."""
    since = plain(pd.Series(ticks)) - 1
    return dates.date2num(numbers.run.start) + since / DAY


def _span(axis: Any, numbers: Numbers) -> None:
    """Has an axis show all of a run."""
    axis.set_xlim(*_dates(numbers, [1, max(numbers.run.ticks, 600)]))
    clock(axis, _hours(numbers))


# --- why greens ended ---


def terminations(both: Both) -> str:
    """A mark for the end of each green that is marked, by time of day and phase, and
    above it one for the begin of each walk."""
    phases = _phases([table.set_index("phase") for it in both for table in _marks(it)])
    lanes = dict(zip(ENDS, (-0.16, 0.02, 0.2, 0.36), strict=True))
    heights = [0.5 + 0.32 * len(phases)] * len(both)
    with drawn("terminations", heights) as drawing:
        for run, numbers in enumerate(both):
            axis = drawing.axes[run, 0]
            rows = {phase: place for place, phase in enumerate(phases)}
            for cause in ENDS:
                of = numbers.marked[numbers.marked["cause"] == cause]
                color, _, mark = CAUSES[cause]
                axis.plot(
                    _dates(numbers, of["end"]),
                    [rows[it] - lanes[cause] for it in of["phase"]],
                    linestyle="", marker=mark, markersize=3.8, markeredgewidth=0.8,
                    color=color, label=cause, rasterized=True,
                )  # fmt: skip
            axis.plot(
                _dates(numbers, numbers.walked["tick"]),
                [rows[it] + WALKS_ABOVE for it in numbers.walked["phase"]],
                linestyle="", marker="|", markersize=4.5, markeredgewidth=1.3,
                color=WALKS, label="walk begins", rasterized=True,
            )  # fmt: skip
            axis.set_yticks(range(len(phases)), [str(it) for it in phases])
            axis.set_ylim(-0.6, len(phases) - 0.4)
            axis.set_ylabel("phase")
            axis.set_title(numbers.label)
            _span(axis, numbers)
            if run == 0:
                legend(axis, 5)
    return drawing.svg


def _marks(numbers: Numbers) -> Sequence[pd.DataFrame]:
    """What has a mark: ends of greens, and walks."""
    return numbers.marked, numbers.walked


def causes(both: Both) -> str:
    """What share of each phase's greens ended by each cause."""
    phases = _phases([it.ended for it in both])
    with drawn("causes", [2.2]) as drawing:
        axis = drawing.axes[0, 0]
        for run, numbers in enumerate(both):
            places = _places(phases, run, len(both))
            table = numbers.ended
            at = [places[int(it)] for it in table.index]
            below = np.zeros(len(table))
            for cause in ENDS:
                share = 100 * plain(table[cause] / table["greens"])
                color, hatch, _ = CAUSES[cause]
                width = BAR if len(both) > 1 else 2 * BAR
                axis.bar(
                    at, share, width, below, color=color, hatch=hatch,
                    edgecolor="white", linewidth=0.5,
                    label=cause if run == 0 else None,
                )  # fmt: skip
                below += share
            if len(both) > 1:
                for place in at:
                    axis.text(place, 101, numbers.letter, ha="center", va="bottom")
        axis.set_ylim(0, 108)
        axis.set_yticks(range(0, 101, 25))
        axis.set_ylabel("per cent of greens")
        _phase_axis(axis, phases)
        legend(drawing.axes[0, 0], 4)
    return drawing.svg


# --- splits, waits: how times spread ---


def _spreads(
    drawing: Drawing, both: Both, tables: Sequence[pd.DataFrame], low: str, ylabel: str
) -> None:
    """For each phase a bar from `low` to the 85 per cent, a mark at the median, and a
    line to the longest."""
    axis = drawing.axes[0, 0]
    phases = _phases(tables)
    for run, (numbers, table) in enumerate(zip(both, tables, strict=True)):
        color, hatch, mark = RUNS[numbers.place]
        places = _places(phases, run, len(both))
        known = table[table["count"] > 0]
        at = [places[int(it)] for it in known.index]
        bottom, top = plain(known[low]), plain(known["p85"])
        longest = plain(known["longest"])
        axis.vlines(at, top, longest, color=color, linewidth=1.2)
        axis.scatter(at, longest, marker="_", s=60, color=color, linewidths=1.2)
        axis.bar(
            at, top - bottom, BAR * 0.8, bottom, facecolor=to_rgba(color, 0.35),
            hatch=hatch, edgecolor=color, linewidth=1,
        )  # fmt: skip
        axis.scatter(
            at, plain(known["median"]), marker=mark, s=26, color=color,
            edgecolors="white", linewidths=0.8, zorder=3, label=numbers.key,
        )  # fmt: skip
    axis.set_ylim(bottom=0)
    axis.set_ylabel(ylabel)
    _phase_axis(axis, phases)


def splits(both: Both) -> str:
    """Splits of each phase: from 15 to 85 per cent, the median, the longest, and those
    that were programmed as its greens began."""
    with drawn("splits", [2.4]) as drawing:
        tables = [it.splits for it in both]
        _spreads(drawing, both, tables, "p15", "seconds of service")
        phases = _phases(tables)
        told = False
        for run, numbers in enumerate(both):
            planned = numbers.programmed.dropna(subset="planned_s")
            places = _places(phases, run, len(both))
            at = np.array([places[int(it)] for it in planned["phase"]])
            drawing.axes[0, 0].hlines(
                plain(planned["planned_s"]), at - BAR / 2, at + BAR / 2, color=INK,
                linestyles="dashed", linewidth=1.1, zorder=4,
                label=None if told or not len(at) else "programmed split",
            )  # fmt: skip
            told = told or len(at) > 0
        legend(drawing.axes[0, 0], 3)
    return drawing.svg


def waits(both: Both) -> str:
    """From call to green: median, 85 per cent and the longest."""
    return _waits("waits", both, [it.waits for it in both], "call to green")


def walks(both: Both) -> str:
    """From button to walk, likewise."""
    return _waits("walks", both, [it.walks for it in both], "button to walk")


def _waits(name: str, both: Both, tables: Sequence[pd.DataFrame], what: str) -> str:
    with drawn(name, [2.4]) as drawing:
        _spreads(drawing, both, tables, "p15", f"seconds from {what}")
        legend(drawing.axes[0, 0], 2)
    return drawing.svg


# --- bars of a phase ---


def _bars(
    name: str,
    both: Both,
    values: Sequence["pd.Series[float]"],
    ylabel: str,
    line: float | None,
    xlabel: str = "phase",
) -> str:
    phases = sorted({int(it) for of in values for it in of.index})
    with drawn(name, [2.0]) as drawing:
        axis = drawing.axes[0, 0]
        for run, (numbers, of) in enumerate(zip(both, values, strict=True)):
            color, hatch, _ = RUNS[numbers.place]
            places = _places(phases, run, len(both))
            axis.bar(
                [places[int(it)] for it in of.index], plain(of),
                BAR if len(both) > 1 else 1.4 * BAR,
                color=color, hatch=hatch, edgecolor="white", linewidth=0.5,
                label=numbers.key,
            )  # fmt: skip
        if line is not None:
            axis.axhline(line, color=INK, linewidth=0.9, linestyle="dashed")
        axis.set_ylabel(ylabel)
        _phase_axis(axis, phases, xlabel)
        legend(drawing.axes[0, 0], 2)
    return drawing.svg


def greens_a_cycle(both: Both) -> str:
    """How many greens each phase has in a cycle."""
    values = [it.a_cycle["a_cycle"] for it in both]
    return _bars("greens_a_cycle", both, values, "greens a cycle", 1.0)


def arrivals(both: Both) -> str:
    """What share of each phase's actuations came while it was green."""
    values = [100 * it.arrivals["green"] for it in both]
    return _bars("arrivals", both, values, "per cent on green", None)


def arrows(both: Both) -> str:
    """What share of the run each arrow flashes."""
    values = [100 * it.arrows["flashing"] for it in both]
    return _bars("arrows", both, values, "per cent of the run", None, "overlap")


# --- coordination ---


def coordination(both: Both, phases: Sequence[int]) -> str:
    """Of each phase and run, the actuations by time of day and by their place in the
    cycle, over the greens; beside it those of each part of the cycle."""
    rows = [(phase, numbers) for phase in phases for numbers in both]
    with drawn("coordination", [1.5] * len(rows), [5, 1]) as drawing:
        for (phase, numbers), (dots, bars) in zip(rows, drawing.axes, strict=True):
            cycle = float(numbers.patterns["cycle_s"].max())
            _dots(dots, numbers, phase)
            _fold(bars, numbers, phase, cycle)
            for axis in (dots, bars):
                axis.set_ylim(0, cycle)
            bars.set_yticklabels([])
            dots.set_title(f"phase {phase}, {numbers.label}")
            dots.set_ylabel("seconds in cycle")
        drawing.axes[-1, 1].set_xlabel("actuations")
    return drawing.svg


def _dots(axis: Any, numbers: Numbers, phase: int) -> None:
    """The actuations of a phase as dots, over its greens as pale bars: each at its time
    and at its place in the cycle."""
    begin, low, end, high = greens_in_cycles(numbers, phase)
    from_to = [
        np.column_stack([_dates(numbers, ticks), place / 10])
        for ticks, place in ((begin, low), (end, high))
    ]
    lines = np.stack(from_to, axis=1)
    axis.add_collection(
        LineCollection(lines, colors="#a9d3b5", linewidths=2.2, rasterized=True)
    )
    came = numbers.arriving[numbers.arriving["phase"] == phase]
    came = came.dropna(subset=["in_cycle_s"])
    on_green = came["shows"] == "green"
    for of, color in ((came[on_green], "#14532d"), (came[~on_green], "#a3211a")):
        axis.plot(
            _dates(numbers, of["tick"]), plain(of["in_cycle_s"]),
            linestyle="", marker="o", markersize=2.5 if len(came) < DENSE else 1.2,
            markeredgewidth=0, color=color, rasterized=True,
        )  # fmt: skip
    _span(axis, numbers)


def greens_in_cycles(numbers: Numbers, phase: int) -> Sequence[Any]:
    """The greens of a phase, cut where whole cycles of patterns begin and end: arrays
    of the tick from which it is green and of the ticks since local zero there, and
    likewise of the tick to which it is."""
    whole = numbers.cycles.dropna(subset=["pattern"])
    greens = numbers.greens[numbers.greens["phase"] == phase]
    begins, ends = whole["begin"].tolist(), whole["end"].tolist()
    cuts = [
        (max(on, begin), max(on, begin) - begin, min(off, end), min(off, end) - begin)
        for on, off, first, last in _reaches(greens, whole)
        for begin, end in zip(begins[first:last], ends[first:last], strict=True)
    ]
    return list(np.array(cuts, np.int64).reshape(-1, 4).T)


def _reaches(greens: pd.DataFrame, whole: pd.DataFrame) -> Iterator[Any]:
    """The begin and the end of each green, and which of the cycles it reaches into:
    from the first to before the last."""
    begins, ends = (whole[it].to_numpy(np.int64) for it in ("begin", "end"))
    on, off = (greens[it].to_numpy(np.int64) for it in ("begin", "end"))
    first = np.searchsorted(ends, on, "right")
    last = np.searchsorted(begins, off, "left")
    return zip(*(it.tolist() for it in (on, off, first, last)), strict=True)


def _fold(axis: Any, numbers: Numbers, phase: int, cycle: float) -> None:
    """The actuations of each part of the cycle, on green and not."""
    folded = numbers.folded
    if phase in folded.index.get_level_values("phase"):
        of = folded.loc[phase].reindex(range(1, FOLDS + 1), fill_value=0)
        middle = (np.arange(FOLDS) + 0.5) * cycle / FOLDS
        green, others = plain(of["green"]), plain(of["yellow"] + of["red"])
        width = 0.85 * cycle / FOLDS
        axis.barh(middle, green, width, color="#8cc79d")
        axis.barh(middle, others, width, green, color="#a3211a")
        share = of["green"].sum() / of.to_numpy().sum()
        axis.set_title(f"{100 * share:.0f} % on green", weight="normal")
    axis.grid(visible=False)


# --- preempts and alarms ---


def preempts(both: Both) -> str:
    """Each service of a preempt whose request is known: the seconds from that to the
    green of its phases, and to its dwell."""
    with drawn("preempts", [1.7] * len(both)) as drawing:
        for run, numbers in enumerate(both):
            axis = drawing.axes[run, 0]
            table = numbers.preempts.dropna(subset=["request"])
            color, _, _ = RUNS[numbers.place]
            at = _dates(numbers, table["service"])
            to_green, to_dwell = plain(table["wait_s"]), plain(table["to_dwell_s"])
            highest = np.fmax(to_green, to_dwell)
            axis.vlines(at, 0, highest, color=PALE, linewidth=1)
            axis.scatter(
                at, to_green, marker="o", s=26, color=color, label="to green", zorder=3
            )
            axis.scatter(
                at, to_dwell, marker="s", s=34, facecolors="none", edgecolors=INK,
                label="to dwell", zorder=3, clip_on=False,
            )  # fmt: skip
            kinds = sorted(set(table["preempt"]))
            if len(kinds) > 1 and len(table) <= NUMBERED:
                _numbered(axis, at, highest, table["preempt"])
            of = ", ".join(map(str, kinds))
            axis.set_title(f"{numbers.label}: preempt {of}" if of else numbers.label)
            axis.set_ylabel("seconds from request")
            axis.set_ylim(0, 1.2 * np.nanmax([1.0, *highest]))
            _span(axis, numbers)
            if run == 0:
                legend(axis, 2)
    return drawing.svg


def _numbered(axis: Any, at: Any, heights: Any, texts: "pd.Series[int]") -> None:
    """Writes numbers above the marks whose height is known."""
    for when, height, text in zip(at, heights, texts, strict=True):
        if np.isfinite(height):
            axis.annotate(
                str(text), (when, height), (0, 5),
                textcoords="offset points", ha="center", fontsize=8,
            )  # fmt: skip


def alarms(both: Both) -> str:
    """When detectors had an alarm."""
    detectors = sorted({int(it) for of in both for it in of.alarms["detector"]})
    heights = [0.3 + 0.26 * len(detectors)] * len(both)
    with drawn("alarms", heights) as drawing:
        for run, numbers in enumerate(both):
            axis = drawing.axes[run, 0]
            rows = {it: place for place, it in enumerate(detectors)}
            table = numbers.alarms
            begin = _dates(numbers, table["comes"])
            end = _dates(numbers, table["goes"].fillna(numbers.run.ticks))
            axis.hlines(
                [rows[int(it)] for it in table["detector"]], begin, end,
                color=RUNS[numbers.place][0], linewidth=7,
            )  # fmt: skip
            axis.set_yticks(range(len(detectors)), [str(it) for it in detectors])
            axis.set_ylim(-0.6, len(detectors) - 0.4)
            axis.set_ylabel("detector")
            axis.set_title(numbers.label)
            _span(axis, numbers)
    return drawing.svg
