"""The events of an input of the bench, found in plain Python from the states of an independent reference.

An event has a tick number, a code and a parameter. The codes are those of the Indiana enumerations. `events_of` finds
the events of one input, from the states before and after it. `records` writes those of a session, as CSV, in several
forms: docs/use/FIELD.md says what `--recalls` and `--outputs` of `tsb_field record` change. What a tick works with and
does not keep, as whether a gap had expired, is found once more here: as chapter 8 of docs/use/MANUAL.md says it, from
the state before the tick, its row, and what the state after it has of detectors and preempts.

Nothing here is fast, and nothing of it comes from the program. `reference` is that of make_sessions.py.
"""
import datetime
from collections.abc import Iterator, Sequence
from typing import Any, NamedTuple

from tools.reference.make_sessions import Reference

State = Any  # a state of the reference
Given = tuple[Any, ...]  # an input of the reference: its kind, and what it has besides
Row = tuple[tuple[bool, ...], ...]  # vehicle detectors, pedestrian detectors and preempt inputs, whether they are on
Told = tuple[int, int]  # code and parameter
Event = tuple[int, int, int]  # tick number, code and parameter


class Form(NamedTuple):
    """The form of a record: whether calls of phases on recall have events, and whether vehicle detectors have those of
    their outputs in place of those of their inputs."""

    recalls: bool = False
    outputs: bool = False


USUAL, RECALLS, OUTPUTS = Form(), Form(recalls=True), Form(outputs=True)

HEADER = b"SignalID,Timestamp,EventCode,EventParam\n"
TENTH = datetime.timedelta(milliseconds=100)

DETECTORS, BUTTONS, PREEMPTS, OVERLAPS = range(1, 65), range(1, 17), range(1, 9), range(1, 17)

# Intervals of phases: green, yellow, red clearance. A code comes where one of these begins, or ends.
INTERVAL_BEGINS = {0: "G", 1: "G", 8: "Y", 10: "C"}
INTERVAL_ENDS = {7: "G", 9: "Y", 12: "GYC"}
# Pedestrian parts: walk and clearance.
PEDESTRIAN_BEGINS = {21: "W", 22: "C"}
PEDESTRIAN_ENDS = {23: "WC"}
# Heads of overlaps: green and yellow.
OVERLAP_BEGINS = {32: "P", 61: "G", 63: "Y"}
OVERLAP_ENDS = {33: "P", 64: "GYP"}
ARROW, TRAILING = 2, "T"
# Stages of preempts, by events once all of their phases are green, with the lists of these phases.
STAGE_BEGINS = {106: "Track", 107: "Dwell", 111: "Exit"}
STAGE_LISTS = {"Track": "preemptTrackPhase", "Dwell": "preemptDwellPhase", "Exit": "preemptExitPhase"}
# The number of a pattern in events where none is selected.
FREE = 254
# How the local counter of the pattern that runs goes, and the number where it is 0.
IN_STEP, ADDS, SUBTRACTS, DWELLS, LOCAL_ZERO = range(1, 6)
# The correction modes.
DWELL, SHORT_WAY = 1, 2
# The force modes in which phases are forced off behind their instants, and in which by the length of their greens too.
LATE, FLOATING = (1, 2), 2
# The maximum that acts in a pattern, by the maximum mode.
PATTERN_MAXIMUMS = {1: "phaseMaximum1", 2: "phaseMaximum2"}
# Split modes of the pattern that runs.
MINIMUM, MAXIMUM, PEDESTRIAN, MAXIMUM_AND_PEDESTRIAN, OMITTED = 1, 2, 3, 4, 5


def begun(code: int, before: set[int], after: set[int]) -> list[Told]:
    """An event for each number that is in the set after, and was not in it before."""
    return [(code, number) for number in after - before]


# --- what a state shows ---

def shown_intervals(state: State) -> list[str]:
    """The shown interval of each phase, from place 1 on: all are red while the controller has tripped."""
    return ["R" if state.trip is not None else interval for interval in state.interval]


def shown_parts(state: State) -> list[str]:
    """The shown pedestrian part of each phase, from place 1 on: don't walk while the controller has tripped."""
    return ["D" if state.trip is not None else part for part in state.ped]


def overlap_heads(bench: Any, state: State) -> list[str]:
    """What the head of each overlap shows, from place 1 on: none is green or yellow in flash."""
    return ["R"] + ["R" if state.trip is not None else bench.overlap(state, overlap) for overlap in OVERLAPS]


def showing(shown: list[str], letters: str) -> set[int]:
    """The numbers of those that show one of these letters."""
    return {number for number, letter in enumerate(shown) if number and letter in letters}


def in_conflict(state: State) -> set[int]:
    """The phases that are shown green and whose conflict timer is on."""
    return {phase for phase in showing(shown_intervals(state), "G") if state.conf[phase] is not None}


def timing_red_clearance(state: State) -> set[int]:
    """The phases that are shown in red clearance and whose timer has not reached their time."""
    shown, times = showing(shown_intervals(state), "C"), state.plan["phaseRedClear"]
    return {phase for phase in shown if state.itime[phase] < times[phase]}


def off_overlaps(bench: Any, state: State, heads: list[str]) -> set[int]:
    """The overlaps that are not lit, and of whose phases none is in service: those that they include, and the turn of an
    arrow."""
    served = showing(shown_intervals(state), "GYC")
    cleared = {overlap for overlap in OVERLAPS if served.isdisjoint(phases_of(bench, state.plan, overlap))}
    return cleared - showing(heads, "GYP")


def phases_of(bench: Any, plan: dict[str, list[int]], overlap: int) -> list[int]:
    """The phases that an overlap includes, and the turn of an arrow."""
    included: list[int] = bench.members(plan["overlapIncludedPhases"][overlap])
    is_arrow = plan["overlapType"][overlap] == ARROW and included
    return included + (bench.members(plan["overlapModifierPhases"][overlap]) if is_arrow else [])


def trailing_greens(state: State) -> set[int]:
    """The overlaps that are green after their phases: none in flash, nor of a reference that has no such overlaps."""
    parts = getattr(state, "parts", ())
    return {o for o, part in enumerate(parts) if state.trip is None and part.interval == TRAILING}


def failed_detectors(state: State) -> set[int]:
    """The vehicle detectors that have an alarm."""
    return {detector for detector in DETECTORS if state.alarm[detector] != "None"}


def in_stage(state: State, *stages: str) -> set[int]:
    """The preempt in service, if its stage is one of these."""
    return {state.service} if state.service and state.stage in stages else set()


def is_stage_green(bench: Any, state: State) -> bool:
    """Whether every phase of the list of the stage in service is shown green."""
    wanted = set(bench.members(state.plan[STAGE_LISTS[state.stage]][state.service])) if state.service else set()
    return bool(state.service) and wanted <= showing(shown_intervals(state), "G")


def in_green_stage(bench: Any, state: State, stage: str) -> set[int]:
    """The preempt in service, if this is its stage and every phase of it is shown green."""
    return in_stage(state, stage) if is_stage_green(bench, state) else set()


# --- patterns and calls ---

def runs_pattern(state: State) -> bool:
    """Whether a pattern runs: one is selected, and its cycle in the plan in effect is not 0."""
    return state.pattern != 0 and state.plan["patternCycleTime"][state.pattern] != 0


def of_split(state: State, name: str, phase: int) -> int:
    """A value that the split table of the pattern that runs has for a phase, and 0 where none runs."""
    if not runs_pattern(state):
        return 0
    table = state.plan["patternSplitNumber"][state.pattern]
    return state.plan[name][state.lim.phases * (table - 1) + phase]


def is_coordinated(state: State, phase: int) -> bool:
    """Whether it is a coordinated phase of the pattern that runs."""
    return of_split(state, "splitCoordPhase", phase) == 1


def acting_maximum(bench: Any, state: State, phase: int) -> int | None:
    """The maximum that acts on a green, and none where none does: in a pattern it is by the mode, and never on a
    coordinated phase."""
    if not runs_pattern(state):
        return bench.maximum(state, phase)
    name = PATTERN_MAXIMUMS.get(state.plan["coordMaximumMode"][1])
    return None if name is None or is_coordinated(state, phase) else 10 * state.plan[name][phase]


def coordinated_phases(bench: Any, state: State) -> list[int]:
    """The coordinated phases of the pattern that runs, that of ring 1 first."""
    rings = state.plan["phaseRing"]
    held = [it for it in bench.enabled(state.plan, state.lim) if is_coordinated(state, it)]
    return sorted(held, key=lambda it: rings[it])


def clearance(state: State, phase: int) -> int:
    """Yellow and red clearance of a phase."""
    return state.plan["phaseYellowChange"][phase] + state.plan["phaseRedClear"][phase]


def cycle_of(state: State) -> int:
    """The cycle of the pattern that runs, in ticks."""
    return 10 * state.plan["patternCycleTime"][state.pattern]


def force_off_instant(bench: Any, state: State, phase: int) -> int:
    """The local counter at which the phase is forced off in the pattern that runs: it is 0 at the end of the split of
    ring 1's coordinated phase, or else of ring 2's."""
    plan = state.plan
    table, order = plan["patternSplitNumber"][state.pattern], plan["patternSequenceNumber"][state.pattern]
    held = coordinated_phases(bench, state)[0]
    end, zero = (bench.ends_at(plan, state.lim, order, table, it) for it in (phase, held))
    return (10 * (end - zero) - clearance(state, phase)) % cycle_of(state)


def cycle_state(bench: Any, state: State) -> int:
    """How the local counter of the pattern that runs goes, by the numbers of events: 0 where none runs."""
    if not runs_pattern(state):
        return 0
    if bench.ahead_at(state, state.now) == 0:
        return IN_STEP
    mode, cycle = bench.correction(state)[0], cycle_of(state)
    is_faster = mode == SHORT_WAY and 2 * (state.ahead % cycle) > cycle
    return DWELLS if mode == DWELL else SUBTRACTS if is_faster else ADDS


def has_minimum_recall(state: State, phase: int) -> bool:
    """Whether the phase, its split mode or its being coordinated recalls it to its minimum."""
    by_mode = of_split(state, "splitMode", phase) == MINIMUM
    return state.plan["phaseMinRecall"][phase] == 1 or by_mode or is_coordinated(state, phase)


def has_maximum_recall(state: State, phase: int) -> bool:
    """Whether the phase or its split mode recalls it to its maximum."""
    by_mode = of_split(state, "splitMode", phase) in (MAXIMUM, MAXIMUM_AND_PEDESTRIAN)
    return state.plan["phaseMaxRecall"][phase] == 1 or by_mode


def has_pedestrian_recall(state: State, phase: int) -> bool:
    """Whether the phase or its split mode recalls its pedestrians."""
    by_mode = of_split(state, "splitMode", phase) in (PEDESTRIAN, MAXIMUM_AND_PEDESTRIAN)
    return state.plan["phasePedRecall"][phase] == 1 or by_mode


def with_output(state: State) -> set[int]:
    """The phases that some vehicle detector calls whose output is on."""
    called = state.plan["vehicleDetectorCallPhase"]
    return {called[detector] for detector in DETECTORS if state.out[detector]} - {0}


def vehicle_calls(bench: Any, state: State) -> set[int]:
    """The phases that have a vehicle call: enabled and not green, and remembered, called by an output, or recalled."""
    outputs, non_locking = with_output(state), state.plan["phaseNonLock"]

    def is_called(phase: int) -> bool:
        by_output = non_locking[phase] == 1 and phase in outputs
        recalled = has_minimum_recall(state, phase) or has_maximum_recall(state, phase)
        return state.vmem[phase] or by_output or recalled

    enabled = bench.enabled(state.plan, state.lim)
    return {phase for phase in enabled if state.interval[phase] != "G" and is_called(phase)}


def pedestrian_calls(bench: Any, state: State) -> set[int]:
    """The phases that have a pedestrian call: enabled, with a walk, not in it, and remembered or recalled."""
    def is_called(phase: int) -> bool:
        return state.pmem[phase] or has_pedestrian_recall(state, phase)

    crossed = {phase for phase in bench.enabled(state.plan, state.lim) if state.plan["phaseWalk"][phase] != 0}
    return {phase for phase in crossed if state.ped[phase] != "W" and is_called(phase)}


def recalled(bench: Any, state: State) -> set[int]:
    """The phases that have minimum or maximum recall, so that no vehicle has to call them."""
    return {phase for phase in bench.enabled(state.plan, state.lim)
            if has_minimum_recall(state, phase) or has_maximum_recall(state, phase)}


def recalled_pedestrians(bench: Any, state: State) -> set[int]:
    """The phases that have pedestrian recall, so that no pedestrian has to call them."""
    return {phase for phase in bench.enabled(state.plan, state.lim) if has_pedestrian_recall(state, phase)}


def outputs_on(state: State) -> set[int]:
    """The vehicle detectors whose output is on: what their delay and extension make of the input."""
    return {detector for detector in DETECTORS if state.out[detector]}


def inputs_on(row: Row, field: int) -> set[int]:
    """The inputs of a field of a row that are on."""
    return {number for number, is_on in enumerate(row[field], 1) if is_on}


def asking_preempts(row: Row, state: State) -> set[int]:
    """The preempts that are asked for, by an input of the row or by the operator's switch."""
    return inputs_on(row, 2) | {preempt for preempt in PREEMPTS if state.switches[preempt]}


def pattern_values(state: State) -> dict[int, int]:
    """Cycle, offset and splits of the pattern that runs, by their codes, all 0 where none runs."""
    def of_pattern(name: str) -> int:
        return state.plan[name][state.pattern] if runs_pattern(state) else 0

    splits = {133 + phase: of_split(state, "splitTime", phase) for phase in range(1, state.lim.phases + 1)}
    return {132: of_pattern("patternCycleTime"), 133: of_pattern("patternOffsetTime")} | splits


# --- what a tick works with ---

class Tick(NamedTuple):
    """A tick: the states before and after it, and its row."""

    bench: Any
    before: State
    after: State
    row: Row


def one_more(timer: int | None) -> int:
    """What a timer has in this tick that is on in it: it begins with 0."""
    return 0 if timer is None else timer + 1


def lets_all_go(tick: Tick) -> bool:
    """Whether in this tick the service of a preempt ends and none is in service: all that is not green is called."""
    return tick.before.service != 0 and tick.after.service == 0


def is_pressed(tick: Tick, phase: int) -> bool:
    """Whether a button of the phase is on."""
    called, buttons = tick.before.plan["pedestrianDetectorCallPhase"], tick.row[1]
    return any(buttons[button - 1] and called[button] == phase for button in BUTTONS)


def is_called(tick: Tick, phase: int) -> bool:
    """Whether a phase that was not green is called in this tick, by vehicles, pedestrians or recalls."""
    before, plan = tick.before, tick.before.plan
    by_output = phase in with_output(tick.after)
    by_vehicles = before.vmem[phase] or by_output or lets_all_go(tick)
    by_button = before.pmem[phase] or is_pressed(tick, phase) or has_pedestrian_recall(before, phase)
    recalled = has_minimum_recall(before, phase) or has_maximum_recall(before, phase)
    return by_vehicles or recalled or plan["phaseWalk"][phase] != 0 and by_button


def callable_phases(tick: Tick) -> set[int]:
    """The phases that wait to be served: called ones, and where there are none those with soft recall."""
    before, plan = tick.before, tick.before.plan
    free = {phase for phase in tick.bench.enabled(plan, before.lim)
            if before.interval[phase] != "G" and of_split(before, "splitMode", phase) != OMITTED}
    called = {phase for phase in free if is_called(tick, phase)}
    return called or {phase for phase in free if plan["phaseSoftRecall"][phase] == 1}


def conflicting(tick: Tick, phase: int) -> set[int]:
    """The phases that wait to be served and are not concurrent with this one."""
    plan = tick.before.plan
    return {other for other in callable_phases(tick) if other != phase and not tick.bench.conc(plan, phase, other)}


def cars(tick: Tick, phase: int) -> int:
    """How many cars are counted, 255 at most, of a phase that was not green."""
    called = tick.before.plan["vehicleDetectorCallPhase"]
    came = sum(called[detector] == phase and tick.after.act[detector] for detector in DETECTORS)
    return min(255, tick.before.count[phase] + came)


def reduction_time(tick: Tick, phase: int) -> int | None:
    """How long the gap of a green has been reduced, and none where it is not."""
    plan, others = tick.before.plan, conflicting(tick, phase)
    if not others:
        return None
    enough = plan["phaseCarsBeforeReduction"][phase]
    by_cars = 0 < enough <= sum(cars(tick, other) for other in others)
    by_time = one_more(tick.before.conf[phase]) >= 10 * plan["phaseTimeBeforeReduction"][phase]
    is_reduced = tick.before.red[phase] is not None
    return one_more(tick.before.red[phase]) if is_reduced or by_cars or by_time else None


def has_expired(tick: Tick, phase: int) -> bool:
    """Whether the gap of a green has expired: no output of the phase was on for so long."""
    gap = tick.bench.gap(tick.before.plan, phase, reduction_time(tick, phase))
    return phase not in with_output(tick.after) and one_more(tick.before.passage[phase]) >= gap


def has_gapped_out(tick: Tick, phase: int) -> bool:
    """Whether a green has gapped out: its gap has expired, or had before and stays so while there is a conflict."""
    stays = tick.before.plan["phaseSimGapDisable"][phase] == 1 and tick.before.gapped[phase]
    return has_expired(tick, phase) or stays and bool(conflicting(tick, phase))


def has_maxed_out(tick: Tick, phase: int) -> bool:
    """Whether a conflict has stood for the maximum that acts."""
    stood = one_more(tick.before.conf[phase]) if conflicting(tick, phase) else None
    most = acting_maximum(tick.bench, tick.before, phase)
    return stood is not None and most is not None and stood >= most


def was_in_step(tick: Tick) -> bool:
    """Whether the local counter of the pattern that runs was in step in the tick before, by the plan in effect."""
    return bool(tick.bench.ahead_at(tick.after, tick.after.now - 1) == 0)


def steps(tick: Tick) -> list[int]:
    """The local counter at each step that it takes in a tick: one, or two where it is faster, and where it is if it
    takes none."""
    cycle, now = cycle_of(tick.before), tick.bench.local_of(tick.after)
    taken = (now - tick.bench.local_at(tick.after, tick.after.now - 1)) % cycle
    return [(now - 1) % cycle, now] if taken == 2 else [now]


def behind_instant(tick: Tick, phase: int, local: int) -> int:
    """How many steps ago the local counter was at the instant of the phase last."""
    return (local - force_off_instant(tick.bench, tick.before, phase)) % cycle_of(tick.before)


def late_steps(tick: Tick, phase: int) -> int:
    """At how many steps from its instant on the force mode has a phase forced off that is not coordinated: those up to
    the instant of the coordinated phase of its ring, or else of the other ring."""
    if tick.before.plan["coordForceMode"][1] not in LATE:
        return 0
    held, rings = coordinated_phases(tick.bench, tick.before), tick.before.plan["phaseRing"]
    beside = [it for it in held if rings[it] == rings[phase]]
    ends, begins = (force_off_instant(tick.bench, tick.before, it) for it in ([*beside, *held][0], phase))
    return (ends - begins) % cycle_of(tick.before)


def has_floated(tick: Tick, phase: int) -> bool:
    """Whether by the force mode a green is forced off that has lasted its split without its clearance."""
    time = max(0, 10 * of_split(tick.before, "splitTime", phase) - clearance(tick.before, phase))
    return tick.before.plan["coordForceMode"][1] == FLOATING and one_more(tick.before.itime[phase]) >= time


def cause_at(tick: Tick, phase: int, local: int) -> str | None:
    """Why a phase is forced off in a tick at a step of the local counter, and none where it is not."""
    behind = behind_instant(tick, phase, local)
    if behind == 0:
        return "at the instant"
    if is_coordinated(tick.before, phase):
        permissive = 10 * tick.before.plan["patternPermissiveTime"][tick.before.pattern]
        return "within the permissive time" if behind <= permissive else None
    if behind < late_steps(tick, phase):
        return "behind the instant"
    return "by the length of the green" if has_floated(tick, phase) else None


def force_off_cause(tick: Tick, phase: int) -> str | None:
    """Why a phase is forced off in a tick in which a pattern runs, at the first step at which it is: none where it is
    not."""
    return next(filter(None, (cause_at(tick, phase, local) for local in steps(tick))), None)


def is_forced_off(tick: Tick, phase: int) -> bool:
    """Whether a conflict has stood from a tick on in which it is forced off, in a pattern and outside of preempts."""
    if not runs_pattern(tick.before) or tick.after.service or not conflicting(tick, phase):
        return False
    return tick.before.forced[phase] or force_off_cause(tick, phase) is not None


def is_ended_by_preempt(tick: Tick, phase: int) -> bool:
    """Whether a preempt is in service in this tick and the phase is not in the list of its stage."""
    service, stage = tick.after.service, tick.after.stage
    if not service:
        return False
    return phase not in tick.bench.members(tick.after.plan[STAGE_LISTS[stage]][service])


def ending_codes(tick: Tick, phase: int) -> list[int]:
    """Why a ring ends the green of a phase: the code of gap-out, max-out or force-off, and none for a preempt."""
    if is_ended_by_preempt(tick, phase):
        return []
    if not tick.after.service and is_coordinated(tick.before, phase):
        return [6]
    if has_gapped_out(tick, phase) and not has_maximum_recall(tick.before, phase):
        return [4]
    if has_maxed_out(tick, phase):
        return [5]
    return [6] if is_forced_off(tick, phase) else []


# --- events ---

def shown_events(begins: dict[int, str], ends: dict[int, str], before: list[str], after: list[str]) -> list[Told]:
    """The events of letters that are shown: the codes of those that begin, and of those that end."""
    told: list[Told] = []
    for code, letters in begins.items():
        told += begun(code, showing(before, letters), showing(after, letters))
    for code, letters in ends.items():
        told += begun(code, showing(after, letters), showing(before, letters))
    return told


def red_clearance_ends(before: State, after: State) -> list[Told]:
    """The ends of the times of red clearances: where a time is 0 it ends as it begins."""
    begins = showing(shown_intervals(after), "C") - showing(shown_intervals(before), "C")
    timed = timing_red_clearance(before) | begins
    return [(11, phase) for phase in timed - timing_red_clearance(after)]


def phase_events(before: State, after: State) -> list[Told]:
    """The events of what phases and their pedestrians show, and of conflicts with greens."""
    told = shown_events(INTERVAL_BEGINS, INTERVAL_ENDS, shown_intervals(before), shown_intervals(after))
    told += shown_events(PEDESTRIAN_BEGINS, PEDESTRIAN_ENDS, shown_parts(before), shown_parts(after))
    told += red_clearance_ends(before, after)
    return told + begun(2, in_conflict(before), in_conflict(after))


def overlap_events(bench: Any, before: State, after: State) -> list[Told]:
    """The events of what overlaps show, and of those whose phases have all cleared."""
    heads, new_heads = overlap_heads(bench, before), overlap_heads(bench, after)
    off, are_off = off_overlaps(bench, before, heads), off_overlaps(bench, after, new_heads)
    told = shown_events(OVERLAP_BEGINS, OVERLAP_ENDS, heads, new_heads) + begun(65, off, are_off)
    return told + begun(62, trailing_greens(before), trailing_greens(after))


def switched(on_code: int, off_code: int, before: set[int], after: set[int]) -> list[Told]:
    """The events of numbers that come into a set, and that leave it."""
    return begun(on_code, before, after) + begun(off_code, after, before)


def failure_events(before: State, after: State) -> list[Told]:
    """The events of detectors that fail, and of those that are well again."""
    return switched(84, 83, failed_detectors(before), failed_detectors(after))


def call_events(bench: Any, before: State, after: State, form: Form) -> list[Told]:
    """The events of calls: those of phases on recall only where the form has them."""
    def vehicles(state: State) -> set[int]:
        return vehicle_calls(bench, state) - (set() if form.recalls else recalled(bench, state))

    def pedestrians(state: State) -> set[int]:
        return pedestrian_calls(bench, state) - (set() if form.recalls else recalled_pedestrians(bench, state))

    return switched(43, 44, vehicles(before), vehicles(after)) + begun(45, pedestrians(before), pedestrians(after))


def preempt_events(bench: Any, before: State, after: State) -> list[Told]:
    """The events of a preempt that enters service, and of a stage once its last phase is green."""
    told = begun(105, in_stage(before, *STAGE_LISTS), in_stage(after, *STAGE_LISTS))
    for code, stage in STAGE_BEGINS.items():
        told += begun(code, in_green_stage(bench, before, stage), in_green_stage(bench, after, stage))
    return told


def pattern_events(before: State, after: State) -> list[Told]:
    """The events of another selected pattern, by its number, and of values of the one that runs that are others."""
    selected = [] if after.pattern == before.pattern else [(131, after.pattern or FREE)]
    values, new = pattern_values(before), pattern_values(after)
    return selected + [(code, new[code]) for code in new if new[code] != values[code]]


def cycle_events(bench: Any, before: State, after: State) -> list[Told]:
    """The event of a local counter that goes otherwise than before."""
    state, was = cycle_state(bench, after), cycle_state(bench, before)
    return [] if state == was else [(150, state)]


def flash_events(before: State, after: State) -> list[Told]:
    """The event of a trip or of the end of one, with the number that the flash status of NTCIP 1202 has."""
    if (before.trip is None) == (after.trip is None):
        return []
    return [(173, 6 if after.trip is not None else 2)]


def vehicle_events(before: State, after: State, row_before: Row, row: Row, form: Form) -> list[Told]:
    """The events of vehicle detectors: of their outputs where the form has these, and of their inputs otherwise."""
    if form.outputs:
        return switched(82, 81, outputs_on(before), outputs_on(after))
    return switched(82, 81, inputs_on(row_before, 0), inputs_on(row, 0))


def asking_events(before: State, after: State, row_before: Row, row: Row) -> list[Told]:
    """The events of walk buttons, and of preempts that are asked for."""
    buttons = switched(90, 89, inputs_on(row_before, 1), inputs_on(row, 1))
    return buttons + switched(102, 104, asking_preempts(row_before, before), asking_preempts(row, after))


def crossing_events(tick: Tick) -> list[Told]:
    """The event of a barrier that the rings have crossed, with the side on the other side of it."""
    is_crossed = tick.before.cross is not None and tick.after.cross is None
    return [(31, tick.after.side)] if is_crossed else []


def ending_events(tick: Tick) -> list[Told]:
    """The events of why greens end, of those that rings end."""
    ended = [phase for phase, interval in enumerate(tick.before.interval)
             if interval == "G" and tick.after.interval[phase] == "Y"]
    return [(code, phase) for phase in ended for code in ending_codes(tick, phase)]


def minimum_events(tick: Tick) -> list[Told]:
    """The events of greens whose minimum green is over in this tick, also where they end in it."""
    times, timers = tick.before.plan["phaseMinimumGreen"], tick.before.itime
    shown = showing(shown_intervals(tick.before), "G")
    return [(3, phase) for phase in shown if timers[phase] < 10 * times[phase] <= timers[phase] + 1]


def presence_events(tick: Tick) -> list[Told]:
    """The event of a dwell that ends by its maximum presence, and would not end otherwise."""
    before, preempt = tick.before, tick.before.service
    stays = before.stage != "Dwell" or in_stage(tick.after, "Dwell") == {preempt}
    if not preempt or stays or tick.after.service not in (0, preempt):
        return []
    served, most = one_more(before.stime), 10 * before.plan["preemptMaximumPresence"][preempt]
    is_on = tick.row[2][preempt - 1] or before.switches[preempt]
    is_short = served < 10 * before.plan["preemptMinimumDuration"][preempt]
    return [(110, preempt)] if 0 < most <= served and (is_on or is_short) else []


def places(tick: Tick) -> list[int]:
    """Where the local counter comes to in a tick: none where it stands still, and both of two steps."""
    now, was = tick.bench.local_of(tick.after), tick.bench.local_at(tick.after, tick.after.now - 1)
    return [] if now == was else steps(tick)


def place_events(tick: Tick) -> list[Told]:
    """The events of places that the local counter comes to: 0, and the instants of coordinated phases."""
    if not runs_pattern(tick.before):
        return []
    bench, before, found = tick.bench, tick.before, places(tick)
    yielding = [it for it in coordinated_phases(bench, before) if force_off_instant(bench, before, it) in found]
    return [(150, LOCAL_ZERO)] * (0 in found) + [(151, phase) for phase in yielding]


def tick_events(tick: Tick) -> list[Told]:
    """The events of what a tick alone does: while the controller has tripped the local counter alone moves."""
    if tick.before.trip is not None:
        return place_events(tick)
    return place_events(tick) + crossing_events(tick) + minimum_events(tick) + ending_events(tick) + presence_events(tick)


def common_events(bench: Any, before: State, given: Given, after: State) -> list[Told]:
    """The events of an input that a record has in each form, without those of rows."""
    told = phase_events(before, after) + overlap_events(bench, before, after) + failure_events(before, after)
    told += preempt_events(bench, before, after) + pattern_events(before, after) + cycle_events(bench, before, after)
    told += flash_events(before, after)
    return told + (tick_events(Tick(bench, before, after, given[1])) if given[0] == "tick" else [])


def events_of(reference: Reference, before: State, given: Given, after: State, row_before: Row,
              forms: Sequence[Form]) -> list[list[Event]]:
    """The events of an input that was taken, by code and parameter, in each of these forms.

    `before` and `after` are the states before and after it, and `row_before` is the row of the newest tick before it:
    one with all inputs off where there is none. Where the input is no tick, that row stays.
    """
    bench, row = reference.bench, given[1] if given[0] == "tick" else row_before
    common = common_events(bench, before, given, after) + asking_events(before, after, row_before, row)

    def of_form(form: Form) -> list[Event]:
        told = call_events(bench, before, after, form) + vehicle_events(before, after, row_before, row, form)
        return [(after.now, code, parameter) for code, parameter in sorted(common + told)]

    return [of_form(form) for form in forms]


# --- the record of a session ---

def opened(bench: Any, plan: bytes, log: bytes) -> Any | None:
    """A session of the reference on a plan and a log: none where one of them has a fault."""
    timing, fault = bench.read_plan(plan, bench.V2)
    if fault:
        return None
    rows, fault = bench.read_log(log)
    return None if fault else bench.Session(timing, rows, bench.V2)


def commands_of(bench: Any, text: bytes) -> Iterator[Given]:
    """The commands of a session, up to `quit`; a line that is none is passed over."""
    for line in bench.lines_of(text):
        command = bench.read_command(line, bench.V2)
        if command == ("quit",):
            return
        if command is not None:
            yield command


def replayed(reference: Reference, session: Any, forms: Sequence[Form]) -> Iterator[list[list[Event]]]:
    """The events of the inputs that remain of a session, one input after the other, in each of these forms."""
    row = reference.bench.OFF
    for before, given, after in zip(session.states, session.inputs, session.states[1:]):
        yield events_of(reference, before, given, after, row, forms)
        if given[0] == "tick":
            row = given[1]


def spelled(event: Event, from_time: datetime.datetime, device: str) -> bytes:
    """An event as a line; tick 0 has the time of tick 1."""
    tick, code, parameter = event
    at = from_time + max(tick - 1, 0) * TENTH
    return f"{device},{at:%Y-%m-%d %H:%M:%S}.{at.microsecond // 100_000},{code},{parameter}\n".encode()


def records(reference: Reference, plan: bytes, log: bytes, commands: bytes, from_time: datetime.datetime,
            device: str, forms: Sequence[Form]) -> list[bytes] | None:
    """The record of a session in each of these forms, as CSV: none where its plan or its log has a fault.

    It has the events of the inputs that remain when the commands end. What was refused or taken back has none.
    """
    session = opened(reference.bench, plan, log)
    if session is None:
        return None
    for command in commands_of(reference.bench, commands):
        session.answer(command, [])
    told = list(replayed(reference, session, forms))
    return [HEADER + b"".join(spelled(event, from_time, device) for it in told for event in it[place])
            for place in range(len(forms))]
