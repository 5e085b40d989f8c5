"""The page of a timing sheet, as a text of HTML that needs nothing else."""

import hashlib
import re
from collections.abc import Iterator, Mapping, Sequence
from dataclasses import dataclass
from itertools import chain, product

import jinja2
from markupsafe import Markup

from tsb.manual import NEWEST, OBJECTS, Object
from tsb.patterns import Timing, timings_of
from tsb.plan import OK, Plan
from tsb.programs import marked
from tsb.sheet.drawing import drawing
from tsb.sheet.schedule import schedule_of
from tsb.sheet.tables import MONITOR, SCHEDULE, Table, index_of, tables, unit_in
from tsb.values import SEQUENCES, phases_of, time_of
from tsb.worksheet import Worksheet

PHASES, SPLITS, SEQUENCE, PATTERNS = "Phases", "Splits", "Sequences", "Patterns"
# Tables that have places of their own; all others follow one another.
IN_PLACES = (PHASES, SPLITS, SEQUENCE, PATTERNS, *SCHEDULE, MONITOR)
# What a channel of a conflict monitor shows, by its type.
CHANNELS = {2: "phase {}", 3: "pedestrians of phase {}", 4: "overlap {}"}
SAME = "–"  # of a phase and itself


@dataclass(frozen=True)
class Grid:
    """A table of the page: its title, the names of its columns, and its rows."""

    title: str
    head: Sequence[str]
    rows: Sequence[Sequence[str]]


@dataclass(frozen=True)
class Drawing:
    """A picture of rings and barriers, and when its sequence is in effect."""

    caption: str
    svg: Markup


def page_of(name: str, text: bytes, plan: Plan, title: str | None) -> str:
    """The page of a plan that `tsb check` takes, with the name of its file, and the sum
    of its text."""
    pages = jinja2.Environment(
        loader=jinja2.PackageLoader("tsb.sheet", ""),
        autoescape=True,
        trim_blocks=True,
        lstrip_blocks=True,
    )
    wide = plan.wide(NEWEST)
    by_title = {it.title: it for it in tables(NEWEST)}
    others = [it for title, it in by_title.items() if title not in IN_PLACES]
    found: str = pages.get_template("page.html.j2").render(
        title=marked(title or f"Timing sheet: {name}"),
        facts=_facts(name, text, plan),
        drawings=list(_drawings(wide)),
        phases=grid_of(by_title[PHASES], wide),
        patterns=grid_of(by_title[PATTERNS], wide),
        timings=list(_timings(wide, timings_of(plan))),
        other_splits=_other_splits(by_title[SPLITS], wide),
        intergreens=intergreens(wide),
        others=[it for table in others if (it := grid_of(table, wide)).rows],
        entries=entries(plan.worksheet(), not plan.has_trails),
        has_trails=plan.has_trails,
        card=card_of(wide),
        schedule=schedule_of(wide),
        notes=Grid("Notes", ["of", "note"], [[*it] for it in plan.notes.items()]),
        advices=plan.review(),
    )
    return found


def _facts(name: str, text: bytes, plan: Plan) -> list[tuple[str, str]]:
    """What the sheet is of."""
    return [
        ("plan", name),
        ("SHA-256 of the file", hashlib.sha256(text).hexdigest()),
        ("version of the text", str(plan.version)),
        ("tsb check", OK),
    ]


def grid_of(table: Table, plan: Plan) -> Grid:
    """The objects of a table that are not all 0, and the columns with a value."""
    rows = [
        (what, of)
        for what, of in table.rows()
        if any(plan[what.name][index_of(of, it)] for it in table.columns)
    ]
    columns = [
        it for it in table.columns
        if any(plan[what.name][index_of(of, it)] for what, of in rows)
    ]  # fmt: skip
    named = list(map(str, columns)) if len(table.columns) > 1 else [""]
    cells = []
    for what, of in rows:
        values = plan[what.name]
        name = f"{what.name}, {table.of(of)}" if of else what.name
        shown = (shown_in(what, values[index_of(of, it)]) for it in columns)
        cells.append([name, unit_told(what), *shown])
    return Grid(table.title, ["", "unit", *named], cells)


def shown_in(what: Object, number: int) -> str:
    """A value as the page has it: a time in its unit, phases of a list, or a word."""
    if what.is_list:
        return ", ".join(map(str, sorted(phases_of(number))))
    if what.unit == "yes or no":
        return "yes" if number else ""
    if words := _words(what):
        return words.get(number, str(number))
    return time_of(what, number) if what.time else str(number) if number else ""


def unit_told(what: Object) -> str:
    """The unit of an object, where its cells need one."""
    return "" if _words(what) or what.unit == "yes or no" else unit_in(what)


def _words(what: Object) -> Mapping[int, str]:
    """The words of an object whose unit has one for each number."""
    if not what.unit.startswith("0 "):
        return {}
    return {
        int(number): word for number, word in re.findall(r"(\d+) ([^,]+)", what.unit)
    }


def _drawings(plan: Plan) -> Iterator[Drawing]:
    """The sequences of a plan."""
    uses = plan["patternSequenceNumber"]
    for number in range(1, SEQUENCES + 1):
        if not plan.sequence(number, 1) and not plan.sequence(number, 2):
            continue
        patterns = [it for it in plan["patternCycleTime"] if uses[it] == number]
        said = ["free operation"] if number == 1 else []
        said += [f"pattern {it}" for it in patterns]
        caption = f"Sequence {number}: {', '.join(said) or 'not in use'}"
        yield Drawing(caption, drawing(plan, number))


def _timings(plan: Plan, timings: Mapping[int, Timing]) -> Iterator[Grid]:
    """A table for each used pattern, with phases as columns."""
    phases = sorted(plan.phases)
    for pattern, timing in timings.items():
        cycle, offset, table, sequence = (
            plan[f"pattern{it}"][pattern]
            for it in ("CycleTime", "OffsetTime", "SplitNumber", "SequenceNumber")
        )
        title = (
            f"Pattern {pattern}: cycle {cycle} s, offset {offset} s, split table"
            f" {table}, sequence {sequence}"
        )
        permissive = plan["patternPermissiveTime"][pattern]
        rows = {
            "split (s)": _tenths(timing.splits),
            "split mode": {it: _mode(plan, table, it) for it in phases},
            "coordinated": {
                it: "yes" for it in phases if plan["splitCoordPhase"][table, it]
            },
            "green of the split (s)": _tenths(timing.greens),
            "walk + clearance (s)": _pedestrians(plan),
            "left of that green (s)": _tenths(timing.margins),
            "force-off at (s)": _tenths(timing.force_offs),
            "yield from (s)": _tenths(timing.yields),
            "permissive time (s)": {it: str(permissive) for it in timing.yields},
        }
        shown = [
            [name, *(cells.get(it, "") for it in phases)]
            for name, cells in rows.items()
            if any(cells.values())
        ]
        yield Grid(title, ["phase", *map(str, phases)], shown)


def _tenths(times: Mapping[int, int]) -> dict[int, str]:
    """Times in seconds."""
    return {it: _seconds(tenths) for it, tenths in times.items()}


def _seconds(tenths: int) -> str:
    """A time in seconds, with a minus where it is below 0."""
    sign, tenths = "-" if tenths < 0 else "", abs(tenths)
    return f"{sign}{tenths // 10}.{tenths % 10}"


def _mode(plan: Plan, table: int, phase: int) -> str:
    """The mode of a split, where it has one."""
    mode = plan["splitMode"][table, phase]
    return shown_in(OBJECTS["splitMode"], mode) if mode else ""


def _pedestrians(plan: Plan) -> dict[int, str]:
    """Walk and clearance of phases that have a walk."""
    walks, clearances = plan["phaseWalk"], plan["phasePedestrianClear"]
    return {it: f"{walks[it]} + {clearances[it]}" for it in walks if it in plan.phases}


def entries(worksheet: Worksheet, is_proved: bool) -> Grid:
    """The preempts that are ever served, as columns, with their longest entries."""
    of, proved = worksheet.entries, "proved" if is_proved else "not proved"
    rows = {
        "delay (s)": {it: entry.delay for it, entry in of.items()},
        f"longest entry, {proved} (s)": {it: entry.longest for it, entry in of.items()},
    }
    shown = [[name, *_tenths(cells).values()] for name, cells in rows.items() if cells]
    return Grid("Preempts: the longest entry", ["preempt", *map(str, of)], shown)


def card_of(plan: Plan) -> Grid:
    """The program card of a conflict monitor, where the plan names its channels: what
    each shows, and the channels that are permissive with it."""
    head = ["channel", "shows", "permissive with channels"]
    types, sources = plan["channelControlType"], plan["channelControlSource"]
    pairs = plan.card() if types or sources else ()
    rows = []
    for channel in sorted({*types, *sources}):
        beside = sorted({*chain(*(it for it in pairs if channel in it))} - {channel})
        shows = CHANNELS.get(types[channel], "nothing of {}").format(sources[channel])
        rows.append([str(channel), shows, ", ".join(map(str, beside))])
    return Grid("Conflict monitor", head, rows)


def _other_splits(table: Table, plan: Plan) -> Grid:
    """The splits that no table of a pattern shows: those of no used pattern, and of
    phases that are not enabled."""
    used = {plan["patternSplitNumber"][it] for it in plan["patternCycleTime"]}
    rest = plan.wide(NEWEST)
    for what, number, phase in product(table.objects, used, plan.phases):
        rest[what.name][number, phase] = 0
    return grid_of(table, rest)


def intergreens(plan: Plan) -> Grid:
    """Yellow and red clearance between the phases that are not concurrent."""
    phases = sorted(plan.phases)
    yellow, red = plan["phaseYellowChange"], plan["phaseRedClear"]
    lists = plan["phaseConcurrency"]
    rows = []
    for ends in phases:
        clears = " + ".join(time_of(it.object, it[ends]) for it in (yellow, red))
        none = {ends: SAME, **dict.fromkeys(lists.phases(ends), "")}
        rows.append([str(ends), *(none.get(it, clears) for it in phases)])
    return Grid("", ["ends \\ begins", *map(str, phases)], rows)
