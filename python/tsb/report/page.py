"""The page of a report: what its runs are, how they differ, and its sections."""

from collections.abc import Callable, Sequence

import jinja2
import pandas as pd

from tsb.diff import Change, further_of
from tsb.programs import marked
from tsb.report.cells import NONE, Both, Cell, Form, Table, count, seconds, share
from tsb.report.differences import Difference, differences
from tsb.report.numbers import ENDS, Numbers
from tsb.report.sections import sections_of

FIRST = 15  # differences that are shown at once, of plans and of runs
LOST = "seconds × actuations"


def page_of(
    both: Both, title: str | None, notes: Sequence[str], has_plans: bool
) -> str:
    """The page of one run or two, as a text of HTML that needs nothing else. It has
    what the plans of two runs differ in where each `has_plans` of its own."""
    named = " and ".join(it.run.name for it in both)
    loader = jinja2.PackageLoader("tsb.report", "")
    pages = jinja2.Environment(
        loader=loader, autoescape=True, trim_blocks=True, lstrip_blocks=True
    )
    found: str = pages.get_template("page.html.j2").render(
        title=marked(title or f"Signal report: {named}"),
        glance=glance(both),
        changed=changed(*both) if has_plans else None,
        unlike=unlike(*both) if len(both) > 1 else None,
        sections=sections_of(both),
        facts=[_facts(it) for it in both],
        notes=notes,
    )
    return found


def _facts(numbers: Numbers) -> list[tuple[str, str]]:
    """What a run is."""
    run = numbers.run
    begin, end = run.time(1), run.time(run.ticks + 1)
    return [
        ("run", numbers.label),
        ("what", "; ".join(run.facts)),
        ("from", f"{begin:%Y-%m-%d %H:%M:%S.%f}"[:-5]),
        ("to", f"{end:%Y-%m-%d %H:%M:%S.%f}"[:-5]),
        ("events", f"{len(run.events):,}"),
        ("operation", ", ".join(dict.fromkeys(numbers.operation())) or NONE),
    ]


def glance(both: Both) -> Table:
    """The whole of each run in a few numbers."""
    rows: list[tuple[str, Callable[[Numbers], Cell]]] = [
        ("greens", lambda it: count(it.ended["greens"].sum())),
        *((f"of them by {cause}", _ended_by(cause)) for cause in ENDS),
        ("whole cycles", lambda it: count(len(it.cycles))),
        ("cycle, mean (s)", lambda it: seconds(it.cycles["cycle_s"].mean())),
        (f"call to green ({LOST})", _lost),
        ("call to green, mean (s)", lambda it: _mean(it.each_wait)),
        ("call to green, longest (s)", lambda it: _longest(it.each_wait)),
        ("calls that wait at the end", lambda it: count(it.waits["still"].sum())),
        ("button to walk, mean (s)", lambda it: _mean(it.each_walk)),
        ("button to walk, longest (s)", lambda it: _longest(it.each_walk)),
        ("actuations on green", _on_green),
        ("services of preempts", lambda it: count(len(it.preempts))),
        ("detector alarms", lambda it: count(len(it.alarms))),
    ]  # fmt: skip
    head = ["", *(it.label for it in both)]
    return Table("", head, [[name, *map(of, both)] for name, of in rows])


def _mean(waits: pd.DataFrame) -> Cell:
    return seconds(waits["wait_s"].mean())


def _lost(numbers: Numbers) -> Cell:
    return NONE if numbers.lost is None else f"{numbers.lost:,.0f}"


def _longest(waits: pd.DataFrame) -> Cell:
    return seconds(waits["wait_s"].max())


def _ended_by(cause: str) -> Callable[[Numbers], Cell]:
    def told(numbers: Numbers) -> Cell:
        all_of = numbers.ended["greens"].sum()
        return share(numbers.ended[cause].sum() / all_of if all_of else pd.NA)

    return told


def _on_green(numbers: Numbers) -> Cell:
    came = numbers.arrivals["arrivals"].sum()
    return share(numbers.arrivals["on_green"].sum() / came if came else pd.NA)


def changed(a: Numbers, b: Numbers) -> tuple[Table, Table, Sequence[str]] | None:
    """The values in which the plans of two runs differ: what comes first, the rest,
    and what follows from them. None where a plan is not known."""
    was, now = a.run.plan, b.run.plan
    if was is None or now is None:
        return None
    head = ["object", "index", a.label, b.label]
    rows = [_changed(it) for it in was.diff(now)]
    further = further_of(was, now, (a.label, b.label)) if rows else []
    return Table("", head, rows[:FIRST]), Table("", head, rows[FIRST:]), further


def _changed(it: Change) -> Sequence[Cell]:
    return [it.name, it.place, it.with_said(it.before), it.with_said(it.after)]


def unlike(a: Numbers, b: Numbers) -> tuple[Table, Table]:
    """What differs between two runs: what comes first, and the rest."""
    head = ["what", "of", LOST, a.label, b.label, "difference", "standard errors"]
    rows = [_unlike(it) for it in differences(a, b)]
    return Table("", head, rows[:FIRST]), Table("", head, rows[FIRST:])


def _unlike(it: Difference) -> Sequence[Cell]:
    forms: dict[str, tuple[Form, str]] = {
        "s": (lambda value: f"{value:.1f} s", f"{it.b - it.a:+.1f} s"),
        "%": (share, f"{100 * (it.b - it.a):+.1f} points"),
        "": (count, f"{it.b - it.a:+.0f}"),
    }
    form, change = forms[it.unit]
    lost = NONE if it.lost is None else f"{it.lost:+,.0f}"
    errors = f"{abs(it.errors):.1f}"
    told = [lost, form(it.a), form(it.b), change, errors]
    return [it.what, it.of, *(cell.replace("-", "−") for cell in told)]
