"""The status of a bench, found in plain Python from a state of an independent reference.

`status_of` gives what NTCIP 1202 names as status objects: sets of phases, overlaps and detectors, the state of each
preempt, of coordination, flash, desk and rings, and what each phase waits for that is called and not green. It says it
as docs/work/DECISIONS.md has it under "What a status says", from the state alone. `line_of` writes it as one line of
JSON.

Nothing here is fast, and nothing of it comes from the program. `reference` is that of make_sessions.py.
"""
import json
from typing import Any, NamedTuple

from tools.reference.make_sessions import Reference
from tools.reference.reference_events import (ARROW, DETECTORS, FLOATING, FREE, OVERLAPS, PREEMPTS, STAGE_LISTS, State,
                                              acting_maximum,
                                              clearance, cycle_of, failed_detectors, force_off_instant,
                                              has_maximum_recall, is_coordinated, of_split, overlap_heads,
                                              pedestrian_calls, runs_pattern, shown_intervals, shown_parts, showing,
                                              vehicle_calls)

RINGS = (1, 2)
# How many preempts a status has where no other is active.
FEW = 4
OMITTED = 5
# The coded part of ringStatus.
MINIMUM, EXTENSION, MAXIMUM, GREEN_REST, YELLOW_CHANGE, RED_CLEARANCE, RED_REST = range(7)
# preemptState: by stage, once it was entered; before; and of a preempt that is not in service, with its input off, on,
# and on while it is spent.
STAGE_STATES = {"Track": 5, "Dwell": 6, "Exit": 8}
ENTRY_STARTED = 4
NOT_ACTIVE, WITH_CALL, MAX_PRESENCE = 2, 3, 9
# localFreeStatus and unitFlashStatus.
NOT_FREE, COMMAND_FREE, BAD_PLAN = 2, 3, 7
NOT_FLASH, MMU = 2, 6


class Wait(NamedTuple):
    """What a phase waits for: its kind, the phase or preempt that is named, what is left, and what a green lacks."""

    kind: str
    number: int | None = None
    left: int | None = None
    lack: str | None = None
    overlap: int | None = None


def left(time: int, timer: int | None) -> int:
    """What is left of a time by its timer: all of it where that is off."""
    return max(time - (timer or 0), 0)


# --- phases ---

def red_revert(state: State, phase: int) -> int:
    """The red revert time of a phase."""
    return max(state.plan["phaseRedRevert"][phase], state.plan["unitRedRevert"][1])


def ends_yellow(state: State, phase: int) -> bool:
    """Whether the yellow of a phase ends in the next tick."""
    return state.interval[phase] == "Y" and state.itime[phase] + 1 >= state.plan["phaseYellowChange"][phase]


def is_cleared(state: State, phase: int) -> bool:
    """Whether the own clearance of a phase is done in the next tick."""
    red = state.plan["phaseRedClear"][phase]
    in_red = state.interval[phase] == "C" and state.itime[phase] + 1 >= red
    return in_red or ends_yellow(state, phase) and red == 0


def holders(bench: Any, state: State, phase: int) -> list[int]:
    """The overlaps that hold a phase in clearance in the next tick, if the preempt in service stays."""
    held: dict[int, list[int]] = bench.held_next(state) if hasattr(bench, "held_next") else {}
    return sorted(overlap for overlap, phases in held.items() if phase in phases)


def is_over(bench: Any, state: State, phase: int) -> bool:
    """Whether the clearance of a phase is done in the next tick, and no overlap holds it."""
    return is_cleared(state, phase) and not holders(bench, state, phase)


def trail_left(state: State, overlap: int) -> int:
    """How long an overlap that trails holds its phases still, at most."""
    part, plan = state.parts[overlap], state.plan
    green = 0 if state.service else 10 * plan["overlapTrailGreen"][overlap]
    yellow, red = plan["overlapTrailYellow"][overlap], plan["overlapTrailRed"][overlap]
    lasts = {"T": max(left(green, part.timer), 1) + yellow + red, "Y": max(left(yellow, part.timer), 1) + red,
             "C": max(left(red, part.timer), 1)}
    return lasts.get(part.interval, 0)


def has_reverted(state: State, phase: int) -> bool:
    """Whether the red revert of a phase has passed in the next tick."""
    timer = state.revert[phase]
    ticks = 0 if ends_yellow(state, phase) else timer if timer is None else timer + 1
    return ticks is None or ticks >= red_revert(state, phase)


def until_over(state: State, phase: int) -> int:
    """How long a phase still clears, by its own times."""
    yellow, red = state.plan["phaseYellowChange"][phase], state.plan["phaseRedClear"][phase]
    timer = state.itime[phase]
    return {"Y": left(yellow, timer) + red, "C": left(red, timer)}.get(state.interval[phase], 0)


def clearing_wait(bench: Any, state: State, kind: str, phase: int) -> "Wait":
    """The wait for a phase that clears: for the overlap that holds it, where its own clearance is done."""
    held = holders(bench, state, phase) if is_cleared(state, phase) else []
    if held:
        return Wait("trails", phase, trail_left(state, held[0]), None, held[0])
    return Wait(kind, phase, until_over(state, phase))


def stage_phases(bench: Any, state: State) -> set[int] | None:
    """The phases of the stage in service, and none where no preempt is in service."""
    if not state.service:
        return None
    return set(bench.members(state.plan[STAGE_LISTS[state.stage]][state.service]))


def ended_by(bench: Any, state: State, phase: int) -> int:
    """The preempt in service, if its stage does not have the phase, and 0 otherwise."""
    wanted = stage_phases(bench, state)
    return 0 if wanted is None or phase in wanted else state.service


def shorter(bench: Any, state: State, phase: int, time: int, name: str) -> int:
    """A time of a phase, or that of the preempt that ends it, if that is shorter."""
    preempt = ended_by(bench, state, phase)
    return min(time, 10 * state.plan[name][preempt]) if preempt else time


def walk_left(bench: Any, state: State, phase: int) -> int:
    """What is left of a walk."""
    time = shorter(bench, state, phase, 10 * state.plan["phaseWalk"][phase], "preemptMinimumWalk")
    return left(time, state.ptime[phase])


def clearance_left(bench: Any, state: State, phase: int) -> int:
    """What is left of a pedestrian clearance."""
    time = shorter(bench, state, phase, 10 * state.plan["phasePedestrianClear"][phase], "preemptEnterPedClear")
    return left(time, state.ptime[phase])


def initial_left(bench: Any, state: State, phase: int) -> int:
    """What is left of the initial time of a green."""
    time = bench.initial(state.plan, phase, state.count[phase])
    return left(shorter(bench, state, phase, time, "preemptMinimumGreen"), state.itime[phase])


def gap_left(bench: Any, state: State, phase: int) -> int:
    """What is left of the gap in force: all of it while an output of the phase is on."""
    return left(bench.gap(state.plan, phase, state.red[phase]), state.passage[phase])


def has_gapped(bench: Any, state: State, phase: int) -> bool:
    """Whether a green has gapped out."""
    expired = state.passage[phase] is not None and gap_left(bench, state, phase) == 0
    lasted = state.itime[phase] >= bench.initial(state.plan, phase, state.count[phase])
    disabled = state.plan["phaseSimGapDisable"][phase] == 1 and state.conf[phase] is not None
    return expired or disabled and (state.gapped[phase] or lasted and expired)


def maximum_left(bench: Any, state: State, phase: int) -> int | None:
    """What is left of the maximum that acts on a green, and none where none does or there is no conflict."""
    most, stood = acting_maximum(bench, state, phase), state.conf[phase]
    return None if most is None or stood is None else left(most, stood)


def has_floated(state: State, phase: int) -> bool:
    """Whether by the force mode a green has lasted its split without its clearance, by its timer as the last tick left
    it."""
    time = max(0, 10 * of_split(state, "splitTime", phase) - clearance(state, phase))
    return state.plan["coordForceMode"][1] == FLOATING and state.itime[phase] >= time


def may_end(bench: Any, state: State, phase: int) -> bool:
    """Whether a green may end by its gap, its maximum or its force-off."""
    can_force = runs_pattern(state) and not state.service and state.conf[phase] is not None
    if is_coordinated(state, phase) and not state.service:
        return can_force and state.forced[phase]
    forced = can_force and (state.forced[phase] or has_floated(state, phase))
    maxed = maximum_left(bench, state, phase) == 0
    return has_gapped(bench, state, phase) and not has_maximum_recall(state, phase) or maxed or forced


def lack(bench: Any, state: State, phase: int) -> tuple[str, int] | None:
    """What a green lacked in the last tick, with what is left: none where it could have ended."""
    if state.ped[phase] == "W":
        return "walk", walk_left(bench, state, phase)
    if state.ped[phase] == "C":
        return "clearance", clearance_left(bench, state, phase)
    if initial_left(bench, state, phase):
        return "initial", initial_left(bench, state, phase)
    if ended_by(bench, state, phase) or may_end(bench, state, phase):
        return None
    if is_coordinated(state, phase) and not state.service:
        return "forceOff", 0
    return "gap", gap_left(bench, state, phase)


# --- waits ---

def first(phases: list[int | None]) -> int | None:
    """The first that there is."""
    return next((phase for phase in phases if phase), None)


def unless_over(bench: Any, state: State, phase: int | None) -> int | None:
    """A phase in service, if there is one and it is not over in the next tick."""
    return phase if phase and not is_over(bench, state, phase) else None


def committed_wait(bench: Any, state: State, phase: int, ring: int) -> Wait:
    """What a phase waits for that its ring is committed to."""
    own, other = (bench.service_of(state, it) for it in (ring, 3 - ring))
    crossing = state.cross is not None
    if unless_over(bench, state, own):
        return clearing_wait(bench, state, "clears", own)
    if not has_reverted(state, phase):
        return Wait("redRevert", None, left(red_revert(state, phase), state.revert[phase]))
    if unless_over(bench, state, other) and (crossing or not bench.conc(state.plan, phase, other)):
        return clearing_wait(bench, state, "across", other)
    beside = state.commit[3 - ring]
    if crossing and beside and not has_reverted(state, beside):
        return Wait("beside", beside, left(red_revert(state, beside), state.revert[beside]))
    return Wait("due")


def lacking(bench: Any, state: State, phase: int | None) -> int | None:
    """A phase, if there is one, that is green and lacked something."""
    return phase if phase and state.interval[phase] == "G" and lack(bench, state, phase) else None


def free_wait(bench: Any, state: State, phase: int, ring: int) -> Wait:
    """What any other phase waits for."""
    own, other = (bench.service_of(state, it) for it in (ring, 3 - ring))
    wanted, beside = stage_phases(bench, state), state.commit[3 - ring]
    if of_split(state, "splitMode", phase) == OMITTED and not state.service:
        return Wait("omitted")
    if wanted is not None and phase not in wanted:
        return Wait("preempted", state.service)
    if state.commit[ring]:
        return Wait("next", state.commit[ring])
    if state.cross is not None:
        return Wait("crossing", first([unless_over(bench, state, own), unless_over(bench, state, other)]))
    if own and state.interval[own] != "G":
        return clearing_wait(bench, state, "clears", own)
    if not has_reverted(state, phase):
        return Wait("redRevert", None, left(red_revert(state, phase), state.revert[phase]))
    if state.plan["phaseSide"][phase] != state.side:
        return Wait("barrier", first([beside, lacking(bench, state, own), lacking(bench, state, other)]))
    if lacking(bench, state, own):
        what, time = lack(bench, state, own)
        return Wait("green", own, None if what == "forceOff" else time, what)
    apart = first([it if it and not bench.conc(state.plan, phase, it) else None for it in (other, beside)])
    return Wait("conflict", apart) if apart else Wait("turn")


def wait_of(bench: Any, state: State, phase: int) -> Wait:
    """What a phase waits for, called or not."""
    ring = 1 if state.plan["phaseRing"][phase] == 1 else 2
    if state.trip is not None:
        return Wait("flash")
    found = committed_wait if state.commit[ring] == phase else free_wait
    return found(bench, state, phase, ring)


def waits(bench: Any, state: State) -> dict[int, Wait]:
    """What each phase waits for that is called and not green."""
    called = vehicle_calls(bench, state) | pedestrian_calls(bench, state)
    return {phase: wait_of(bench, state, phase) for phase in sorted(called) if state.interval[phase] != "G"}


# --- rings ---

def green_part(bench: Any, state: State, phase: int) -> int:
    """The part of a green."""
    walks = state.ped[phase] == "W" and walk_left(bench, state, phase) > 0
    if walks or state.ped[phase] == "C" or initial_left(bench, state, phase) > 0:
        return MINIMUM
    if not has_gapped(bench, state, phase):
        return EXTENSION
    return MAXIMUM if state.conf[phase] is not None else GREEN_REST


def force_off_in(bench: Any, state: State, phase: int) -> int | None:
    """How many steps of the local counter until the force-off instant of a phase, in a pattern."""
    if not runs_pattern(state):
        return None
    return (force_off_instant(bench, state, phase) - bench.local_of(state)) % cycle_of(state)


def ring_status(bench: Any, state: State, ring: int) -> dict[str, int | None]:
    """The status of a ring: its part, its phases, and what is left of the times that run."""
    phase = None if state.trip is not None else bench.service_of(state, ring)
    interval, part = (state.interval[phase], state.ped[phase]) if phase else ("R", "D")
    green, plan = interval == "G", state.plan
    parts = {"R": RED_REST, "Y": YELLOW_CHANGE, "C": RED_CLEARANCE}
    return {
        "ringStatus": green_part(bench, state, phase) if green else parts[interval],
        "phase": phase,
        "next": state.commit[ring],
        "initialLeft": initial_left(bench, state, phase) if green else None,
        "gap": bench.gap(plan, phase, state.red[phase]) if green else None,
        "gapLeft": gap_left(bench, state, phase) if green else None,
        "maximumLeft": maximum_left(bench, state, phase) if green else None,
        "walkLeft": walk_left(bench, state, phase) if part == "W" else None,
        "clearanceLeft": clearance_left(bench, state, phase) if part == "C" else None,
        "yellowLeft": left(plan["phaseYellowChange"][phase], state.itime[phase]) if interval == "Y" else None,
        "redClearanceLeft": left(plan["phaseRedClear"][phase], state.itime[phase]) if interval == "C" else None,
        "forceOffIn": force_off_in(bench, state, phase) if green else None,
    }


# --- everything ---

def shows_green(bench: Any, state: State, name: str) -> bool:
    """Whether all phases of a list of the preempt in service are green."""
    return all(state.interval[phase] == "G" for phase in bench.members(state.plan[name][state.service]))


def has_entered(bench: Any, state: State) -> bool:
    """Whether all phases of the stage with which service begins were green, that of the track where there is one.

    The timer of the track stage runs once they were; in a dwell that is the first stage they stay green.
    """
    if state.stage == "Track":
        return state.sttime is not None or shows_green(bench, state, "preemptTrackPhase")
    follows = state.stage == "Exit" or state.plan["preemptTrackPhase"][state.service] != 0
    return follows or shows_green(bench, state, "preemptDwellPhase")


def preempt_state(bench: Any, state: State, preempt: int) -> int:
    """The state of a preempt."""
    if state.service == preempt:
        return STAGE_STATES[state.stage] if has_entered(bench, state) else ENTRY_STARTED
    if state.spent[preempt]:
        return MAX_PRESENCE
    return WITH_CALL if state.delay[preempt] is not None or state.switches[preempt] else NOT_ACTIVE


def coordination(bench: Any, state: State) -> dict[str, int | None]:
    """The members of coordination."""
    runs = runs_pattern(state)
    cycle = 10 * state.plan["patternCycleTime"][state.pattern] if runs else 0
    return {
        "coordPatternStatus": state.pattern if runs else FREE,
        "localFreeStatus": NOT_FREE if runs else BAD_PLAN if state.pattern else COMMAND_FREE,
        "localCounter": bench.local_of(state),
        "coordSyncStatus": state.now % cycle if runs else None,
    }


def phase_groups(bench: Any, state: State) -> dict[str, set[int]]:
    """The groups of phases."""
    intervals, parts = shown_intervals(state), shown_parts(state)
    enabled = set(bench.enabled(state.plan, state.lim))
    walked = {phase for phase in enabled if state.plan["phaseWalk"][phase] != 0}
    return {
        "Reds": enabled & showing(intervals, "RC"), "Yellows": showing(intervals, "Y"), "Greens": showing(intervals, "G"),
        "DontWalks": walked & showing(parts, "D"), "PedClears": showing(parts, "C"), "Walks": showing(parts, "W"),
        "VehCalls": vehicle_calls(bench, state), "PedCalls": pedestrian_calls(bench, state),
        "PhaseOns": showing(intervals, "GYC"), "PhaseNexts": {state.commit[ring] for ring in RINGS} - {None},
    }


def overlap_groups(bench: Any, state: State) -> dict[str, set[int]]:
    """The groups of overlaps: one that includes no phase is dark."""
    heads, included = overlap_heads(bench, state), state.plan["overlapIncludedPhases"]
    lit = {overlap for overlap in OVERLAPS if included[overlap] != 0}
    names = [("Reds", "R"), ("Yellows", "Y"), ("Greens", "G")]
    if any(kind == ARROW and state.plan["overlapIncludedPhases"][o] for o, kind in enumerate(state.plan["overlapType"])):
        names.append(("FlashingYellows", "P"))
    return {name: lit & showing(heads, letter) for name, letter in names}


def status_of(reference: Reference, state: State) -> dict[str, Any]:
    """The status of a state, by the names and in the order of its line."""
    bench = reference.bench
    told: dict[str, Any] = {"tick": state.now}
    told |= {f"phaseStatusGroup{name}": sorted(them) for name, them in phase_groups(bench, state).items()}
    told |= {f"overlapStatusGroup{name}": sorted(them) for name, them in overlap_groups(bench, state).items()}
    told["vehicleDetectorStatusGroupActive"] = [detector for detector in DETECTORS if state.out[detector]]
    told["vehicleDetectorStatusGroupAlarms"] = sorted(failed_detectors(state))
    states = [preempt_state(bench, state, preempt) for preempt in PREEMPTS]
    told["preemptState"] = states if any(it != NOT_ACTIVE for it in states[FEW:]) else states[:FEW]
    told |= coordination(bench, state)
    told["unitFlashStatus"] = NOT_FLASH if state.trip is None else MMU
    told |= {"deskOwner": state.owner, "deskState": state.desk}
    told["rings"] = [ring_status(bench, state, ring) for ring in RINGS]
    told["waits"] = [{"phase": phase} | wait._asdict() for phase, wait in waits(bench, state).items()]
    return told


def line_of(reference: Reference, state: State) -> str:
    """The status of a state as one line of JSON."""
    return json.dumps(status_of(reference, state), separators=(",", ":"))
