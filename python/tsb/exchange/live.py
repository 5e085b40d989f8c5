"""What of a running bench NTCIP 1201 and 1202 have as a status: a value for each OID.

Sets of phases, overlaps and detectors are sums, of eight in a group: 1 for the first,
2 for the second, 4, 8 and so on.
"""

from collections.abc import Callable, Iterator
from functools import lru_cache

from tsb.exchange.forms import Oid, Unsigned, Value
from tsb.exchange.objects import ASC, TABLES, TIME, plan_leaves
from tsb.manual import OBJECTS
from tsb.plan import Plan, Turn
from tsb.rows import PREEMPTS, VEHICLES
from tsb.status import EPOCH, Status
from tsb.values import RINGS, SECOND, SEQUENCES, parts_of
from tsb.values import TABLES as SPLIT_TABLES

GROUP = 8  # phases, overlaps or detectors in a group
FREE, FLASH = 254, 255  # of coordPatternStatus and systemPatternControl
PATTERNS = 2  # patternTableType: patterns
FREE_STATES = (
    "other", "notFree", "commandFree", "transitionFree", "inputFree", "coordFree",
    "badPlan", "badCycleTime", "splitOverrun", "invalidOffset", "failed",
)  # fmt: skip
FLASH_STATES = (
    "other", "notFlash", "automatic", "localManual", "faultMonitor", "mmu", "startup",
    "preempt",
)  # fmt: skip
PREEMPT_STATES = (
    "other", "notActive", "notActiveWithCall", "entryStarted", "trackService", "dwell",
    "linkActive", "exitStarted", "maxPresence",
)  # fmt: skip
OTHER = 1

#: What gives a value, of the plan in effect and the status.
Getter = Callable[[Plan, Status], Value]
#: Sets of phases, by the column of phaseStatusGroupTable.
PHASE_SETS = {
    2: "reds", 3: "yellows", 4: "greens", 5: "dont_walks", 6: "ped_clears", 7: "walks",
    8: "veh_calls", 9: "ped_calls", 10: "phase_ons", 11: "phase_nexts",
}  # fmt: skip
DETECTOR_SETS = {2: "active", 3: "alarms"}
OVERLAP_SETS = {2: "reds", 3: "yellows", 4: "greens"}


def group_of(members: frozenset[int], group: int) -> int:
    """The sum of the members that are in a group."""
    first = GROUP * (group - 1)
    return sum(1 << (it - first - 1) for it in members if first < it <= first + GROUP)


def _state(name: str, names: tuple[str, ...]) -> int:
    """The number of a state's name."""
    return names.index(name) + 1 if name in names else OTHER


def _constant(value: Value) -> Getter:
    return lambda plan, status: value


def _of_set(part: str, name: str, group: int) -> Getter:
    return lambda plan, status: group_of(getattr(getattr(status, part), name), group)


def _preempt_state(number: int) -> Getter:
    return lambda plan, status: _state(status.preempt_state[number - 1], PREEMPT_STATES)


def _cycle(plan: Plan, status: Status) -> int:
    """The seconds to the end of the cycle, counted down."""
    if status.local_counter is None:
        return 0
    cycle = plan["patternCycleTime"][status.coord_pattern_status]
    return max(10 * cycle - status.local_counter, 0) // 10


def _sync(plan: Plan, status: Status) -> int:
    """The seconds since the pattern's system reference, counted up."""
    return (status.coord_sync_status or 0) // 10


@lru_cache(maxsize=4)
def _week(plan: str, day: str) -> list[Turn]:
    """What a plan's schedule runs in the week from a day on."""
    return Plan.of_text(plan).week(day)


def turn(plan: Plan, status: Status) -> Turn | None:
    """What the schedule runs now, as the bench says it of the plan; None without a clock
    and without a schedule."""
    now = status.global_time
    if now is None or not plan.has_schedule:
        return None
    *_, last = (it for it in _week(plan.text, f"{now:%Y-%m-%d}") if it.begin <= now)
    return last


def _of_turn(name: str) -> Getter:
    """A number of what the schedule runs, 0 for none."""

    def getter(plan: Plan, status: Status) -> Value:
        found = turn(plan, status)
        return 0 if found is None else int(getattr(found, name))

    return getter


def _time(plan: Plan, status: Status) -> Value:
    """The seconds of the clock since 1970, as it shows them; 0 without a clock."""
    now = status.global_time
    return Unsigned(0 if now is None else (now - EPOCH) // SECOND)


def getters() -> dict[Oid, Getter]:
    """What gives each value that is no plan's, by its OID."""
    parts = (_sizes(), _groups(), _states())
    found = {ASC + place: getter for part in parts for place, getter in part}
    scheduled = {TIME + place: getter for place, getter in _schedule()}
    return found | scheduled | dict(_indices())


def _schedule() -> Iterator[tuple[Oid, Getter]]:
    """The clock, how many rows a schedule has, and which of them are in force."""
    events = parts_of(OBJECTS["dayPlanHour"])
    yield (1, 0), _time
    yield (3, 1, 0), _constant(OBJECTS["timeBaseScheduleMonth"].count)
    yield (3, 3, 0), _constant(events["day plan"][0])
    yield (3, 4, 0), _constant(events["event"][0])
    yield (3, 6, 0), _of_turn("day_plan")
    yield (3, 7, 0), _of_turn("entry")


def _sizes() -> Iterator[tuple[Oid, Getter]]:
    """How many rows tables have."""
    phases, overlaps = (OBJECTS[it].count for it in ("phaseRing", "overlapType"))
    for place, size in (
        ((1, 1, 0), phases),
        ((1, 3, 0), phases // GROUP),
        ((2, 1, 0), VEHICLES),
        ((2, 3, 0), VEHICLES // GROUP),
        ((2, 6, 0), OBJECTS["pedestrianDetectorCallPhase"].count),
        ((4, 5, 0), OBJECTS["patternCycleTime"].count),
        ((4, 6, 0), PATTERNS),
        ((4, 8, 0), SPLIT_TABLES),
        ((5, 2, 0), OBJECTS["timebaseAscPattern"].count),
        ((6, 1, 0), PREEMPTS),
        ((7, 1, 0), RINGS),
        ((7, 2, 0), SEQUENCES),
        ((9, 1, 0), overlaps),
        ((9, 3, 0), overlaps // GROUP),
    ):
        yield place, _constant(size)


def _indices() -> Iterator[tuple[Oid, Getter]]:
    """The first columns of the tables of a plan, which repeat the index."""
    of_plan = {id(leaf.table) for leaf in plan_leaves().values()}
    for table in TABLES:
        if id(table) in of_plan and table.keys:
            for row in table.rows():
                for number, part in enumerate(row, 1):
                    yield (*table.root, number, *row), _constant(part)


def _groups() -> Iterator[tuple[Oid, Getter]]:
    """Sets in groups of eight."""
    phases, overlaps = (OBJECTS[it].count for it in ("phaseRing", "overlapType"))
    for place, part, names, count in (
        ((1, 4, 1), "phases", PHASE_SETS, phases // GROUP),
        ((2, 4, 1), "detectors", DETECTOR_SETS, VEHICLES // GROUP),
        ((9, 4, 1), "overlaps", OVERLAP_SETS, overlaps // GROUP),
    ):
        for group in range(1, count + 1):
            yield (*place, 1, group), _constant(group)
            for number, name in names.items():
                yield (*place, number, group), _of_set(part, name, group)


def _states() -> Iterator[tuple[Oid, Getter]]:
    """States of the unit, of coordination and of preempts."""
    yield (3, 6, 0), lambda _, it: _state(it.unit_flash_status, FLASH_STATES)
    yield (4, 10, 0), lambda _, it: it.coord_pattern_status
    yield (4, 11, 0), lambda _, it: _state(it.local_free_status, FREE_STATES)
    yield (4, 12, 0), _cycle
    yield (4, 13, 0), _sync
    yield (5, 4, 0), _of_turn("action")
    for number in range(1, PREEMPTS + 1):
        yield (6, 2, 1, 16, number), _preempt_state(number)
        yield (6, 3, 1, 1, number), _constant(number)
