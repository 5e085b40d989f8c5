"""The sections of a page: each with its charts, and the tables behind them."""

from collections.abc import Callable, Iterable, Sequence
from dataclasses import replace
from typing import Any

import pandas as pd
from markupsafe import Markup

from tsb.measures import spread
from tsb.report import charts
from tsb.report.cells import (
    NONE,
    Both,
    Chart,
    Columns,
    Section,
    Table,
    clock,
    count,
    ratio,
    seconds,
    share,
    table_of,
)
from tsb.report.numbers import ENDS, FOLDS, SHOWN, Numbers, period_of
from tsb.told import FREE


def _section(
    name: str, title: str, text: str, is_there: bool, none: str,
    made: Callable[[], Iterable[Chart]],
) -> Section:  # fmt: skip
    """A section with its charts, or with what it says where there is nothing."""
    if not is_there:
        return Section(name, title, none)
    return Section(name, title, text, list(made()))


def _chart(caption: str, svg: str, *tables: Table) -> Chart:
    return Chart(caption, Markup(svg), tables)


ENDED = {
    **{it: (it, count) for it in ENDS},
    "greens": ("greens", count),
}
MARKED = {**ENDED, "walks": ("walks", count)}
#: Of causes, the names that reports of splits have.
BY_CAUSE = {"gap": "gap-out", "maximum": "max-out", "force-off": "force-off"}
NO_PLACE = (
    "No detector has a place, that is a type and a distance from the stop bar: so each"
    " actuation counts in the moment in which the input goes on, and these are"
    " actuations on green, not arrivals on green. The platoon ratio tells of platoons"
    " only where detectors lie well before the stop bar."
)
SPREAD = {
    "count": ("count", count),
    "mean": ("mean", seconds),
    "p15": ("15 %", seconds),
    "median": ("median", seconds),
    "p85": ("85 %", seconds),
    "longest": ("longest", seconds),
}


def terminations(both: Both) -> Section:
    """Why greens ended."""

    def made() -> Iterable[Chart]:
        several = in_a_row(both[0].consecutive)
        yield _chart(
            f"Each green's end{several}: a mark by its time of day, its phase and its"
            " cause; above the phase a mark for each walk that begins",
            charts.terminations(both),
            *(_by_time(it) for it in both),
        )
        yield _chart(
            "What share of the greens ended by each cause",
            charts.causes(both),
            table_of("Greens that ended", both, lambda it: it.ended, ENDED),
        )

    return _section(
        "terminations", "Why greens ended",
        "A green ends by its gap, by its maximum or by a force-off; by none of them"
        " (other) where a preempt or the conflict monitor ends it. A phase that often"
        " ends by its maximum, or in a pattern by a force-off, has too little green, or"
        " others have too much. That is not so of coordinated phases and of those with"
        " maximum recall, which always end so.",
        any(len(it.greens) for it in both), "No green ended.", made,
    )  # fmt: skip


def in_a_row(consecutive: int) -> str:
    """Which ends of greens are marked, where not all are."""
    if consecutive == 1:
        return ""
    return f" with {consecutive} or more of its phase in a row by one cause"


def _by_time(numbers: Numbers) -> Table:
    """Greens that ended and walks that began, by period of the day and phase."""
    length = period_of(numbers.run.ticks)
    table = numbers.marked_by_time.reset_index()
    rows = [
        [clock(numbers, 1 + it["period"] * length)[:-2], str(it["phase"])]
        + [count(it[name]) for name in MARKED]
        for it in table.to_dict("records")
    ]
    several = in_a_row(numbers.consecutive)
    ended = f"{numbers.label}: greens that ended{several}"
    caption = f"{ended}, each {length // 600} minutes"
    return Table(caption, ["from", "phase", *MARKED], rows)


def splits(both: Both) -> Section:
    """How long phases were served."""

    def made() -> Iterable[Chart]:
        columns = {**SPREAD, "planned_s": ("last programmed split", seconds)}
        drawn = _chart(
            "Bar: 15 to 85 per cent of the splits; mark: median; line: the longest",
            charts.splits(both),
            table_of("Splits, in seconds", both, lambda it: it.splits, columns),
        )
        yield replace(drawn, beside=[_programmed(both)])

    return _section(
        "splits", "Splits",
        "The split of a service is its green, yellow and red clearance together. Beside"
        " each programmed split is the share of its greens that gapped out, maxed out"
        " and were forced off; a dash is for no split, as in free operation.",
        any(it.splits["count"].sum() for it in both), "No service ended.", made,
    )  # fmt: skip


def _programmed(both: Both) -> Table:
    """Services beside each programmed split, with the shares of causes."""
    columns = {
        "planned_s": ("programmed split", seconds),
        "count": ("services", count),
        "mean": ("mean", seconds),
        "p85": ("85 %", seconds),
        **{cause: (name, share) for cause, name in BY_CAUSE.items()},
    }
    caption = "Programmed splits, in seconds, and the causes of their greens' ends"
    return table_of(caption, both, lambda it: it.programmed.set_index("phase"), columns)


def cycles(both: Both) -> Section:
    """Cycles, and greens in them."""

    def made() -> Iterable[Chart]:
        columns = {
            "cycles": ("whole cycles", count),
            "greens": ("greens", count),
            "a_cycle": ("greens a cycle", ratio),
            "without": ("cycles without", count),
            "with_more": ("with more than one", count),
        }
        yield _chart(
            "How often a phase was green in a cycle",
            charts.greens_a_cycle(both),
            table_of("Greens a cycle", both, lambda it: it.a_cycle, columns),
            table_of(
                "Lengths of cycles, in seconds", both, _lengths, SPREAD, "pattern"
            ),
        )

    return _section(
        "cycles", "Greens a cycle",
        "Below 1 a phase was skipped in some cycles; above, it came again within one."
        " Cycles of a pattern begin at local zero, where events tell it (150 with 5),"
        " and else by its cycle and its offset from midnight. Those of free operation"
        " begin where the barrier is crossed to the first side.",
        any(len(it.cycles) for it in both), "No whole cycle.", made,
    )  # fmt: skip


def _lengths(numbers: Numbers) -> pd.DataFrame:
    """How long the cycles of each pattern are."""
    cycles = numbers.cycles
    by = cycles["pattern"].astype(object)
    named = by.where(by.notna(), "free").map(str)
    told = numbers.told_at(cycles["begin"].astype("int64"))
    is_free = (told == 0) | (told >= FREE)
    named = named.mask((told < 0) | (by.isna() & ~is_free), "not known")
    return spread(numbers.cycles["cycle_s"], named)


def waits(both: Both) -> Section:
    """From call to green."""
    return _waits(
        both, "waits", "Waits from call to green",
        "A call comes with the first actuation that counts, or with a recall from the"
        " end of the green on. Of a phase on recall events of a street tell no call,"
        " nor those of the bench beside a street. What still waits at the end is"
        " counted apart.",
        lambda it: it.waits, charts.waits, "No vehicle call was served.",
    )  # fmt: skip


def walks(both: Both) -> Section:
    """From button to walk."""
    return _waits(
        both, "walks", "Waits from button to walk",
        "From the first press that counts, or from a recall at the end of the walk,"
        " to the walk; of a phase on recall not beside a street.",
        lambda it: it.walks, charts.walks, "No pedestrian call was served.",
    )  # fmt: skip


def _waits(
    both: Both, name: str, title: str, text: str,
    of: Callable[[Numbers], pd.DataFrame], drawn: Callable[[Both], str], none: str,
) -> Section:  # fmt: skip

    def made() -> Iterable[Chart]:
        columns = {
            **SPREAD,
            "still": ("still waiting", count),
            "still_s": ("the longest for", seconds),
        }
        yield _chart(
            "Bar: 15 to 85 per cent of the waits; mark: median; line: the longest",
            drawn(both),
            table_of("Waits, in seconds", both, of, columns),
        )

    there = any(of(it)["count"].sum() for it in both)
    return _section(name, title, text, there, none, made)


def arrivals(both: Both) -> Section:
    """Actuations on green, and over the cycle."""

    def made() -> Iterable[Chart]:
        columns = {
            "arrivals": ("actuations", count),
            "on_green": ("on green", count),
            "on_yellow": ("on yellow", count),
            "on_red": ("on red", count),
            "green": ("share on green", share),
            "time_green": ("time green", share),
            "platoon_ratio": ("platoon ratio", ratio),
        }
        yield _chart(
            "What share of the actuations came while their phase was green",
            charts.arrivals(both),
            table_of(
                "Actuations", both, lambda it: it.arrivals, columns, note=NO_PLACE
            ),
        )
        runs = [it for it in both if len(it.folded)]
        if runs:
            phases = sorted({phase for it in runs for phase in it.coordinated})
            yield _chart(
                "Each actuation of the coordinated phases by its time of day and its"
                " place in the cycle, over the greens as pale bars; at the right those"
                " of each part of the cycle",
                charts.coordination(runs, phases),
                *(_folded(it) for it in runs),
            )

    text = (
        "An actuation is the input of a detector that goes on: a queue that stands over"
        " a loop is one."
    )
    if not any(len(it.folded) for it in both):
        is_known = not any(it.run.is_observed for it in both)
        ran = "No pattern ran" if is_known else "No pattern is known with its cycle"
        text += f" {ran}, so there is no diagram over the cycle."
    known = any(it.run.phases for it in both)
    none = "No detector had an actuation." if known else (
        "Which phase a detector counts for only a plan says: give it with --plan-a."
    )  # fmt: skip
    there = any(len(it.arrivals) for it in both)
    return _section("arrivals", "Actuations and coordination", text, there, none, made)


def _folded(numbers: Numbers) -> Table:
    """The actuations of each part of the cycle."""
    rows = [
        [str(it["phase"]), f"{it['part']} of {FOLDS}"] + [count(it[s]) for s in SHOWN]
        for it in numbers.folded.reset_index().to_dict("records")
    ]
    caption = f"{numbers.label}: actuations by the part of the cycle"
    return Table(caption, ["phase", "part", *(f"on {it}" for it in SHOWN)], rows)


def arrows(both: Both) -> Section:
    """Flashes of flashing yellow arrows."""

    def made() -> Iterable[Chart]:
        columns = {**SPREAD, "flashing": ("share of the run", share)}
        table = table_of(
            "Flashes, in seconds", both, lambda it: it.arrows, columns, "overlap"
        )
        yield _chart("For how long arrows flash", charts.arrows(both), table)

    return _section(
        "arrows", "Flashing yellow arrows",
        "While an arrow flashes (from code 32 to 33) its turn is permissive. Actuations"
        " of the turn's own phase count as on red in these seconds.",
        has_arrows(both), "No arrow flashed.", made,
    )  # fmt: skip


def has_arrows(both: Both) -> bool:
    """Whether some arrow flashed."""
    return any(len(it.arrows) for it in both)


def preempts(both: Both) -> Section:
    """Services of preempts."""

    def made() -> Iterable[Chart]:
        known = any(it.preempts["request"].notna().any() for it in both)
        yield _chart(
            "From the request to the green of the preempt's phases (track, or dwell"
            " where it has none), and to the begin of dwell"
            if known
            else "No request is known, and so no time from one",
            charts.preempts(both) if known else "",
            *(_services(it) for it in both if len(it.preempts)),
        )

    return _section(
        "preempts", "Preempts",
        "The request is by the input of the preempt or by the operator's switch."
        " Numbers at marks are those of preempts.",
        any(len(it.preempts) for it in both), "No preempt was in service.", made,
    )  # fmt: skip


def _services(numbers: Numbers) -> Table:
    """Each service of a preempt."""
    moments = ["request", "service", "track", "green", "dwell", "exit"]
    spans = {
        "delay_s": "request to service",
        "wait_s": "request to green",
        "to_dwell_s": "request to dwell",
        "dwell_s": "dwell",
        "service_s": "service to exit",
    }
    rows = [
        [str(it["preempt"])]
        + [clock(numbers, it[name]) for name in moments]
        + [seconds(it[name]) for name in spans]
        for it in numbers.preempts.to_dict("records")
    ]
    caption = f"{numbers.label}: services, with seconds from one moment to another"
    return Table(caption, ["preempt", *moments, *spans.values()], rows)


def alarms(both: Both) -> Section:
    """Alarms of detectors."""

    def made() -> Iterable[Chart]:
        yield _chart(
            "When a detector had an alarm",
            charts.alarms(both),
            *(_alarms(it) for it in both if len(it.alarms)),
        )

    return _section(
        "alarms", "Detector alarms", "From code 84 (of a street 84 to 88) to 83.",
        any(len(it.alarms) for it in both), "No detector had an alarm.", made,
    )  # fmt: skip


def _alarms(numbers: Numbers) -> Table:
    """Each alarm."""
    rows = [
        [str(it["detector"]), clock(numbers, it["comes"]), clock(numbers, it["goes"])]
        + [seconds(it["alarm_s"]), str(it["code"])]
        for it in numbers.alarms.to_dict("records")
    ]
    caption = f"{numbers.label}: alarms"
    return Table(caption, ["detector", "comes", "goes", "seconds", "code"], rows)


SECTIONS: Sequence[Callable[[Both], Section]] = (
    terminations, splits, cycles, waits, walks, arrivals, arrows, preempts, alarms,
)  # fmt: skip


def sections_of(both: Both) -> list[Section]:
    """All sections; that of arrows where some arrow flashed."""
    return [make(both) for make in SECTIONS if make is not arrows or has_arrows(both)]
