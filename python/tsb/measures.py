"""What a run's events say of its greens, waits, arrivals and preempts.

Each measure reads a table of events (`tick`, `code`, `parameter`; `tsb.frames`), of a
bench or of a street's controller, by the codes that docs/use/FIELD.md lists. Ticks are
tenths of a second; times in seconds end with `_s`. What begins before the first event
or does not end by the last is not known: its ticks and seconds are NA.
"""

from collections import Counter
from collections.abc import Callable, Mapping

import numpy as np
import pandas as pd

from tsb.cycles import cycles, greens_a_cycle, in_cycle, patterns
from tsb.plan import Plan
from tsb.spread import percentile, spread
from tsb.told import (
    ALARM_GOES,
    ALARMS,
    ARROW,
    ARROW_ENDS,
    CALL,
    CALL_GOES,
    CAUSES,
    DETECTOR_ON,
    DWELL,
    EXIT,
    GREEN,
    GREEN_ENDS,
    OTHER,
    OVER,
    PEDESTRIAN_CALL,
    PREEMPT_OFF,
    PREEMPT_ON,
    RED_CLEARANCE,
    RED_CLEARANCE_ENDS,
    SERVICE,
    TRACK,
    WALK,
    YELLOW_ENDS,
    Row,
    by_tick,
    ordered,
    seconds,
    table_of,
)

__all__ = [
    "MEASURES",
    "alarms",
    "arrivals",
    "arriving",
    "arrows",
    "counted",
    "cycles",
    "greens",
    "greens_a_cycle",
    "greens_of",
    "in_a_row",
    "in_cycle",
    "patterns",
    "percentile",
    "preempts",
    "services",
    "splits",
    "splits_of",
    "spread",
    "terminations",
    "waits",
    "walk_waits",
]


# What a phase shows from the tick of such an event on.
SHOWN = {GREEN: "green", GREEN_ENDS: "yellow", YELLOW_ENDS: "red"}
ASKS = (PREEMPT_ON, PREEMPT_OFF)


def services(events: pd.DataFrame) -> pd.DataFrame:
    """Each time that a phase was served: its phase, and the ticks at which its green
    began (`green`) and ended (`yellow`); at which red clearance began and its time
    ended (`red_clearance`, `red_end`, NA where there is none); and at which it was no
    longer in service (`over`). The `cause` that ended its green is gap, maximum,
    force-off, or other, which is a preempt or a trip; none for a green that goes on."""
    rows: list[Row] = []
    on: dict[int, Row] = {}
    ends = {RED_CLEARANCE: "red_clearance", RED_CLEARANCE_ENDS: "red_end", OVER: "over"}
    codes = {GREEN, *CAUSES, GREEN_ENDS, *ends}
    for tick, code, phase in ordered(events, codes):
        if code == GREEN:
            on[phase] = {"phase": phase, "green": tick}
            rows.append(on[phase])
        elif code in CAUSES and phase in on:
            on[phase]["cause"] = CAUSES[code]
        elif code == GREEN_ENDS and phase in on:
            on[phase]["yellow"] = tick
            on[phase].setdefault("cause", OTHER)
        elif code in ends and phase in on:
            on[phase][ends[code]] = tick
    names = ["phase", "green", "yellow", "red_clearance", "red_end", "over"]
    found: pd.DataFrame = table_of(rows, names, ["cause"])
    return found


def greens(events: pd.DataFrame) -> pd.DataFrame:
    """Each green: `phase`, the ticks at which it began and ended, its length
    `green_s`, and its `cause` (`services`)."""
    return greens_of(services(events))


def greens_of(served: pd.DataFrame) -> pd.DataFrame:
    """The `greens` of services."""
    ended = {
        "phase": served["phase"],
        "begin": served["green"],
        "end": served["yellow"],
    }
    length = seconds(served["yellow"], served["green"])
    return pd.DataFrame({**ended, "green_s": length, "cause": served["cause"]})


def splits(events: pd.DataFrame) -> pd.DataFrame:
    """The split of each service: `phase`, the ticks at which it began and was over,
    and the seconds of green, of yellow, of red clearance and of all, `split_s`. These
    last have the wait for the other ring too, in which a phase stays in red clearance."""
    return splits_of(services(events))


def splits_of(served: pd.DataFrame) -> pd.DataFrame:
    """The `splits` of services."""
    red = served["red_clearance"].fillna(served["over"])
    parts = {
        "phase": served["phase"],
        "begin": served["green"],
        "over": served["over"],
        "green_s": seconds(served["yellow"], served["green"]),
        "yellow_s": seconds(red, served["yellow"]),
        "red_clearance_s": seconds(served["red_end"].fillna(served["over"]), red),
        "split_s": seconds(served["over"], served["green"]),
    }
    return pd.DataFrame(parts)


def terminations(events: pd.DataFrame) -> pd.DataFrame:
    """How often the green of each phase ended by each cause: a row for a phase, a
    column for gap, maximum, force-off and other."""
    ended = greens(events).dropna(subset="end")
    found = pd.crosstab(ended["phase"], ended["cause"])
    columns = pd.Index([*CAUSES.values(), OTHER], name="cause")
    return found.reindex(columns=columns, fill_value=0)


def in_a_row(ended: pd.DataFrame) -> "pd.Series[int]":
    """For each green that ended (`greens`), how many greens of its phase up to it ended
    by its cause in a row: 1 where the one before ended by another."""
    by_phase = ended.groupby("phase")["cause"]
    changes = (ended["cause"] != by_phase.shift()).groupby(ended["phase"]).cumsum()
    found: pd.Series[int] = ended.groupby([ended["phase"], changes]).cumcount() + 1
    return found


def _waits(events: pd.DataFrame, begins: int, goes: int, served: int) -> pd.DataFrame:
    """Each wait of a phase from a call to what serves it, if the call stays."""
    rows: list[Row] = []
    called: dict[int, int] = {}
    for tick, code, phase in ordered(events, {begins, goes, served}):
        if code == begins:
            called.setdefault(phase, tick)
        elif code == served and phase in called:
            rows.append({"phase": phase, "call": called.pop(phase), "served": tick})
        elif code == goes:
            called.pop(phase, None)
    rows += [{"phase": phase, "call": tick} for phase, tick in called.items()]
    found: pd.DataFrame = table_of(rows, ["phase", "call", "served"], [])
    return found.assign(wait_s=seconds(found["served"], found["call"]))


def waits(events: pd.DataFrame) -> pd.DataFrame:
    """Each wait from a vehicle call to the green: `phase`, the ticks of the call and
    of the green, `wait_s`. A call that goes before, of a phase whose calls are not
    remembered, is left out. A phase on recall has no calls in the events, and
    so no waits; with `--recalls` of `record` it does, from the end of a green on."""
    return _waits(events, CALL, CALL_GOES, GREEN)


def walk_waits(events: pd.DataFrame) -> pd.DataFrame:
    """Each wait from a pedestrian call to the walk: `phase`, the ticks of the call
    and of the walk, `wait_s`. A call begins with the first press of a button that
    counts: one during the walk is lost. A recall calls as one of `waits`, from the
    end of a walk on."""
    return _waits(events, PEDESTRIAN_CALL, -1, WALK)


def arriving(events: pd.DataFrame, phases: Mapping[int, int]) -> pd.DataFrame:
    """Each actuation of a detector: its `phase`, `detector` and `tick`, and what its
    phase `shows` then: green, yellow or red.

    It is where the input goes on, or the output in events of outputs, and the detector
    has no place: a queue over a loop is one. `phases` has the phase of each detector
    that counts, as
    `plan["vehicleDetectorCallPhase"]` has it.
    """
    leads = {detector: phase for detector, phase in phases.items() if phase}
    cars = events[(events["code"] == DETECTOR_ON) & events["parameter"].isin(leads)]
    cars = cars.sort_values(["tick", "parameter"], kind="stable")
    found = pd.DataFrame(
        {
            "phase": cars["parameter"].map(leads),
            "detector": cars["parameter"],
            "tick": cars["tick"],
        }
    ).astype("Int64")
    found = found.reset_index(drop=True).assign(shows="red")
    shown = events[events["code"].isin(SHOWN)].sort_values(["tick", "code"])
    for phase, of in shown.groupby("parameter"):
        after = found.loc[found["phase"] == phase, "tick"].astype("int64")
        letters = np.array(["red", *of["code"].map(SHOWN)], dtype=object)
        place = np.searchsorted(of["tick"], after, side="right")
        found.loc[after.index, "shows"] = letters[place]
    return found


def arrivals(events: pd.DataFrame, phases: Mapping[int, int]) -> pd.DataFrame:
    """How many actuations (`arriving`) there were while their phase was green, yellow
    and red: a row for a phase, with `on_green`, `on_yellow`, `on_red`, all of them
    (`arrivals`) and the share `green`."""
    return counted(arriving(events, phases), phases)


def counted(came: pd.DataFrame, phases: Mapping[int, int]) -> pd.DataFrame:
    """The `arrivals` of actuations (`arriving`)."""
    columns = {"green": "on_green", "yellow": "on_yellow", "red": "on_red"}
    counts = pd.crosstab(came["phase"], came["shows"]).rename(columns=columns)
    known = pd.Index(sorted({it for it in phases.values() if it}), name="phase")
    found = counts.reindex(index=known, columns=list(columns.values()), fill_value=0)
    found.columns.name = None
    all_of = found.sum(axis=1)
    share = (found["on_green"] / all_of.where(all_of > 0)).astype("Float64")
    return found.assign(arrivals=all_of, green=share)


def preempts(events: pd.DataFrame, plan: Plan) -> pd.DataFrame:
    """Each service of a preempt: `preempt`, and the ticks of its request by an input or
    the operator's switch (NA where there is none); of its service; of the greens of its
    stages track, dwell and exit, as 106, 107 and 111 give them; and of the green of all
    phases that it is for (`green`): its track phases, or its dwell phases where it has
    none. `wait_s` is from the request to that green."""
    rows: list[Row] = []
    requests: dict[int, int] = {}
    shown: set[int] = set()
    stages = {TRACK: "track", DWELL: "dwell", EXIT: "exit"}
    last: Row = {}
    wanted: frozenset[int] = frozenset()
    codes = {GREEN, GREEN_ENDS, *ASKS, SERVICE, *stages}
    for tick, moment in by_tick(events, codes):
        for code, number in moment:
            if code == GREEN:
                shown.add(number)
            elif code == GREEN_ENDS:
                shown.discard(number)
        _ask(requests, tick, moment)
        for code, number in moment:
            if code == SERVICE:
                last = {"preempt": number, "service": tick}
                last["request"] = requests.get(number, pd.NA)
                wanted = _wanted(plan, number)
                rows.append(last)
            elif code in stages and last:
                last.setdefault(stages[code], tick)
        if last and "exit" in last:
            last.setdefault("green", pd.NA)
        if last and "green" not in last and wanted and wanted <= shown:
            last["green"] = tick
    ticks = ["preempt", "request", "service", "track", "green", "dwell", "exit"]
    found: pd.DataFrame = table_of(rows, ticks, [])
    return found.assign(wait_s=seconds(found["green"], found["request"]))


def _ask(requests: dict[int, int], tick: int, moment: list[tuple[int, int]]) -> None:
    """Takes over which preempts are asked for after a tick, and since when. In one tick
    an input may go and then a switch come, or a switch come and go again."""
    told = Counter(moment)
    for preempt in {number for code, number in moment if code in ASKS}:
        begins = told[PREEMPT_ON, preempt]
        if (preempt in requests) + begins <= told[PREEMPT_OFF, preempt]:
            requests.pop(preempt, None)
        elif begins:
            requests[preempt] = tick


def _wanted(plan: Plan, preempt: int) -> frozenset[int]:
    """The phases that a preempt is for; none of one that no plan has."""
    if not 1 <= preempt <= plan["preemptDwellPhase"].count:
        return frozenset()
    track = plan["preemptTrackPhase"].phases(preempt)
    return track or plan["preemptDwellPhase"].phases(preempt)


def arrows(events: pd.DataFrame) -> pd.DataFrame:
    """Each time that a flashing yellow arrow flashed, in which its turn was permissive:
    `overlap` (of a street the number that its controller gives the arrow), the ticks at
    which it began and ended, and `flash_s`."""
    rows: list[Row] = []
    on: dict[int, Row] = {}
    for tick, code, overlap in ordered(events, {ARROW, ARROW_ENDS}):
        if code == ARROW:
            on[overlap] = {"overlap": overlap, "begin": tick}
            rows.append(on[overlap])
        else:
            on.pop(overlap, {})["end"] = tick
    found: pd.DataFrame = table_of(rows, ["overlap", "begin", "end"], [])
    return found.assign(flash_s=seconds(found["end"], found["begin"]))


def alarms(events: pd.DataFrame) -> pd.DataFrame:
    """Each alarm of a detector: `detector`, the ticks at which it comes and goes,
    `alarm_s`, and the `code` that it came with, 84 to 88. What comes while an alarm
    of the detector is on belongs to that."""
    rows: list[Row] = []
    on: dict[int, Row] = {}
    for tick, code, detector in ordered(events, {ALARM_GOES, *ALARMS}):
        if code == ALARM_GOES:
            on.pop(detector, {})["goes"] = tick
        elif detector not in on:
            on[detector] = {"detector": detector, "comes": tick, "code": code}
            rows.append(on[detector])
    found: pd.DataFrame = table_of(rows, ["detector", "comes", "goes", "code"], [])
    return found.assign(alarm_s=seconds(found["goes"], found["comes"]))


#: Each measure by its name, of events and the plan that they ran on.
MEASURES: Mapping[str, Callable[[pd.DataFrame, Plan], pd.DataFrame]] = {
    "greens": lambda events, _: greens(events),
    "splits": lambda events, _: splits(events),
    "terminations": lambda events, _: terminations(events),
    "waits": lambda events, _: waits(events),
    "walk_waits": lambda events, _: walk_waits(events),
    "arrivals": lambda events, plan: arrivals(events, plan["vehicleDetectorCallPhase"]),
    "preempts": preempts,
    "alarms": lambda events, _: alarms(events),
    "arrows": lambda events, _: arrows(events),
    "cycles": lambda events, _: cycles(events),
    "greens_a_cycle": lambda events, _: greens_a_cycle(events),
}
