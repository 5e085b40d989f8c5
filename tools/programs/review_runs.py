"""Runs of the bench that show what an advice warns of, and that it does not come a step beside.

Each run is a plan with the advice or a step beside, what happens on the street, and commands with the answers that show
it, worked by hand from docs/use/REVIEW.md. Display lines are left out, but for what heads have to show in one of them.
"""
import dataclasses

from tools.programs.review_cases import CLEAN, NO_ENTRY, Change, Table, changed, example


@dataclasses.dataclass(frozen=True)
class Run:
    """An advice, whether the plan has it, the plan, the rows of a log, commands and what they are answered, and heads."""

    advice: int
    has: bool
    plan: Table
    log: str
    commands: list[str]
    answers: list[str]
    heads: str = ""


def row(tick: int, *detectors: int, button: int = 0) -> str:
    """A row of a log with these vehicle detectors on, and this button or none."""
    on = ("".join("1" if number in which else "0" for number in range(1, most + 1))
          for most, which in [(16, detectors), (8, (button,)), (4, ())])
    return f"{tick:07} {' '.join(on)}\n"


def with_recalls(phases: str, change: Change) -> Table:
    """The plan without advices, with minimum recalls and a change."""
    return changed(CLEAN, {**{f"phaseMinRecall.{phase}": 1 for phase in phases}, **change})


# Each phase of side 1 is concurrent with one of the other ring alone.
APART: Change = {"phaseConcurrency.1": 16, "phaseConcurrency.5": 1, "phaseConcurrency.2": 32, "phaseConcurrency.6": 2}
# Cars of half a second, a second behind one another, from tick 31 to 115, while phase 4 waits.
CARS = row(20, 4) + "".join(row(tick, 2, 4) + row(tick + 5, 4) for tick in range(31, 112, 15))
# A car that comes to detector 3 and stays: at the instant of the coordinated phases, and a tick later.
AT_INSTANT, LATE = row(1245, 3), row(1246, 3)
# A green that begins behind its force-off instant is forced off.
FORCED_LATE: Change = {"coordForceMode.1": 1}
# All phases but the coordinated ones wait for calls.
ACTUATED: Change = {f"splitMode.{phase}": 0 for phase in (1, 3, 4, 5, 7, 8)}
# A clearance of 10 s along Main Street.
SHORT_CROSSING: Change = {"phasePedestrianClear.2": 10}
# Pedestrian recycle, and a clearance of 4 s, for phase 4; the same for phase 2.
RECYCLING: Change = {"phasePedestrianRecycle.4": 1, "phasePedestrianClear.4": 4}
RECYCLING_MAIN: Change = {"phasePedestrianRecycle.2": 1, "phasePedestrianClear.2": 4}
# The other street is coordinated.
OTHERS_COORDINATED: Change = {"splitCoordPhase.2": 0, "splitCoordPhase.6": 0, "splitCoordPhase.4": 1, "splitCoordPhase.8": 1}
# A second pattern, as the first but for its offset, and add only.
ADD_ONLY: Change = {"patternCycleTime.2": 90, "patternOffsetTime.2": 15, "patternSplitNumber.2": 1,
                    "patternSequenceNumber.2": 1, "coordCorrectionMode.1": 3}
# Cars stay on detectors 2 and 6, and one is on detector 3 for 6 s.
OVER_LOOP = row(1, 2, 6) + row(100, 2, 3, 6) + row(160, 2, 6)
# Someone presses button 4 in the first cycle, and cars stay on detectors 1 and 3.
CROSSING = row(100, 1, 3, button=4) + row(103, 1, 3)
# A right turn beside phase 4 with phase 1, and no crossing of phase 4.
WRONG_PAIR: Change = {"overlapIncludedPhases.1": 9, "phaseWalk.4": 0, "phasePedestrianClear.4": 0, "pedestrianDetectorCallPhase.4": 0}

RUNS = [
    # Nothing calls phase 1, and it stays red. With a recall it is the first of its ring.
    Run(1, True, with_recalls("26", {"vehicleDetectorCallPhase.1": 0, "splitMode.1": 0}), row(100, 1, 3, 4),
        ["step 4000", "when interval 1"], ["never"]),
    Run(1, False, with_recalls("126", {"vehicleDetectorCallPhase.1": 0, "splitMode.1": 0}), row(100, 1, 3, 4),
        ["step 1", "when interval 1"], ["tick 0000001"]),
    # Phases 2 and 6 rest, and a car waits at phase 1, which goes with 5 alone. Else phase 2 ends for it at once.
    Run(3, True, with_recalls("26", APART), row(100, 1), ["step 4000", "when call 1", "when interval 1"], ["tick 0000100", "never"]),
    Run(3, False, with_recalls("26", {}), row(100, 1), ["step 150", "when interval 1"], ["tick 0000150"]),
    # A pattern is coordinated on phases 2 and 6, and 1 and 5 come before them whenever side 1 is served.
    Run(4, True, with_recalls("145", APART), "", ["pattern 1", "step 4000", "when interval 2", "when interval 6"],
        ["ok", "never", "never"]),
    Run(4, False, with_recalls("145", {}), "", ["pattern 1", "step 101", "when interval 2", "when interval 6"],
        ["ok", "tick 0000101", "tick 0000101"]),
    # The recalls of phases 1 and 3 call one of them at all times. With that of 1 alone, phase 2 has its turn.
    Run(7, True, with_recalls("13", {"phaseSoftRecall.2": 1}), "", ["step 4000", "when interval 2"], ["never"]),
    Run(7, False, with_recalls("1", {"phaseSoftRecall.2": 1}), "", ["step 101", "when interval 2"], ["tick 0000101"]),
    # The clearance of phase 2 begins at its instant and lasts 12 s, so phase 3 begins 1 s behind its own, and is green
    # for 89 s. Its split and its maximum are 15 s.
    Run(14, True, example("main_and_oak"), AT_INSTANT,
        ["pattern 1", "step 2309", "when ped 2", "when interval 3", "step 1", "when interval 3"],
        ["ok", "tick 0001365", "tick 0001420", "tick 0002310"]),
    # A clearance of 10 s: phase 3 begins 1 s before its instant. It ends after the 7 s of phase 8, which is green
    # beside it.
    Run(14, False, changed(example("main_and_oak"), SHORT_CROSSING), AT_INSTANT,
        ["pattern 1", "step 1470", "when interval 3"], ["ok", "tick 0001470"]),
    # With a permissive time of 2 s the car can come 2 s later, and phase 3 begins 1 s behind its instant again.
    Run(14, True, changed(example("main_and_oak"), {**SHORT_CROSSING, "patternPermissiveTime.1": 2}), row(1265, 3),
        ["pattern 1", "step 2309", "when ped 2", "when interval 3", "step 1", "when interval 3"],
        ["ok", "tick 0001365", "tick 0001420", "tick 0002310"]),
    # With late force-off phase 3 begins behind its instant too, and ends after the 7 s of phase 8.
    Run(14, False, changed(example("main_and_oak"), FORCED_LATE), AT_INSTANT,
        ["pattern 1", "step 1489", "when ped 2", "when interval 3", "step 1", "when interval 3"],
        ["ok", "tick 0001365", "tick 0001420", "tick 0001490"]),
    # The gap of phase 2 is half a second, not 2.5 s: the first gap between cars after its 5 s ends its green.
    Run(18, True, with_recalls("26", {"phaseMinimumGap.2": 5}), CARS, ["step 56", "when interval 2"], ["tick 0000056"]),
    Run(18, False, with_recalls("26", {}), CARS, ["step 136", "when interval 2"], ["tick 0000136"]),
    # Walk and clearance of phase 4 overrun its split by 15 s, so phase 1 begins at its instant, local 600, and is green
    # for a whole cycle. With a second less it begins a second before, and ends after its minimum of 5 s.
    Run(28, True, changed(CLEAN, {"phasePedestrianClear.4": 28}), CROSSING,
        ["pattern 1", "step 1949", "when interval 1", "step 1", "when interval 1"], ["ok", "tick 0001050", "tick 0001950"]),
    Run(28, False, changed(CLEAN, {"phasePedestrianClear.4": 27}), CROSSING,
        ["pattern 1", "step 1090", "when interval 1"], ["ok", "tick 0001090"]),
    # With late force-off phase 1 begins at its instant too, and ends after its minimum of 5 s.
    Run(28, False, changed(CLEAN, {"phasePedestrianClear.4": 28, **FORCED_LATE}), CROSSING,
        ["pattern 1", "step 1099", "when interval 1", "step 1", "when interval 1"],
        ["ok", "tick 0001050", "tick 0001100"]),
    # Where a maximum acts, phase 1 begins at its instant too, and ends after its maximum of 25 s.
    Run(28, False, changed(CLEAN, {"phasePedestrianClear.4": 28, "coordMaximumMode.1": 1}), CROSSING,
        ["pattern 1", "step 1299", "when interval 1", "step 1", "when interval 1"],
        ["ok", "tick 0001050", "tick 0001300"]),
    # The same car a tick later finds no yield, and waits for the next cycle.
    Run(32, True, example("main_and_oak"), LATE, ["pattern 1", "step 2199", "when interval 3", "step 1", "when interval 3"],
        ["ok", "never", "tick 0002200"]),
    # It does with late force-off too.
    Run(32, True, changed(example("main_and_oak"), FORCED_LATE), LATE,
        ["pattern 1", "step 2199", "when interval 3", "step 1", "when interval 3"], ["ok", "never", "tick 0002200"]),
    # With a permissive time of 1 s it finds one: the clearance of phase 2 begins with it, and phase 3 a tick later.
    Run(32, False, changed(example("main_and_oak"), {"patternPermissiveTime.1": 1}), LATE,
        ["pattern 1", "step 1420", "when interval 3", "step 1", "when interval 3"], ["ok", "never", "tick 0001421"]),
    # Cars stay on detectors 3 and 4. The maximum of phase 4 ends it 1 s before its instant, tick 850.
    Run(42, True, changed(CLEAN, {"coordMaximumMode.1": 1, "phaseMaximum1.4": 19}), row(100, 3, 4),
        ["pattern 1", "step 839", "when interval 4", "step 1", "when interval 4"], ["ok", "tick 0000650", "tick 0000840"]),
    Run(42, False, changed(CLEAN, {"coordMaximumMode.1": 1, "phaseMaximum1.4": 20}), row(100, 3, 4),
        ["pattern 1", "step 849", "when interval 4", "step 1", "when interval 4"], ["ok", "tick 0000650", "tick 0000850"]),
    # A car comes to detector 3 at the end of a permissive time, and stays. The instant of phase 3 is tick 600. With 11
    # s its minimum ends 1 s behind it, and with 10 s at it. With 15 s it begins there, and is green for a cycle.
    Run(43, True, changed(CLEAN, {**ACTUATED, "patternPermissiveTime.1": 11}), row(510, 3),
        ["pattern 1", "step 609", "when interval 3", "step 1", "when interval 3"], ["ok", "tick 0000560", "tick 0000610"]),
    Run(43, False, changed(CLEAN, {**ACTUATED, "patternPermissiveTime.1": 10}), row(500, 3),
        ["pattern 1", "step 599", "when interval 3", "step 1", "when interval 3"], ["ok", "tick 0000550", "tick 0000600"]),
    Run(43, True, changed(CLEAN, {**ACTUATED, "patternPermissiveTime.1": 15}), row(550, 3),
        ["pattern 1", "step 1499", "when interval 3", "step 1", "when interval 3"], ["ok", "tick 0000600", "tick 0001500"]),
    # A car stays at phase 4, which is green from tick 550 to its instant, tick 850. Someone presses its button in
    # between, and waits. Where phases 4 and 8 are coordinated they are green from tick 201 to 400, and the walk begins
    # at once: with the clearance it takes 11 s, and 12 s are left.
    Run(45, True, changed(CLEAN, RECYCLING), row(100, 4) + row(600, 4, button=4) + row(603, 4),
        ["pattern 1", "step 849", "when interval 4", "when ped 4", "step 1", "when interval 4"],
        ["ok", "tick 0000550", "never", "tick 0000850"]),
    Run(45, False, changed(CLEAN, {**RECYCLING, **OTHERS_COORDINATED}), row(100, 4) + row(280, 4, button=4) + row(283, 4),
        ["pattern 1", "step 280", "when interval 4", "when ped 4"], ["ok", "tick 0000201", "tick 0000280"]),
    # Phase 2 is green from tick 101 to its instant, tick 400. Its walk of 7 s and its clearance of 4 s are over at tick
    # 211, and by its recall it walks again a tick later. With its button alone it does not.
    Run(46, True, changed(CLEAN, {**RECYCLING_MAIN, "phasePedRecall.2": 1}), "",
        ["pattern 1", "step 211", "when ped 2", "step 1", "when ped 2"], ["ok", "tick 0000211", "tick 0000212"]),
    Run(46, False, changed(CLEAN, RECYCLING_MAIN), row(50, button=2) + row(53),
        ["pattern 1", "step 399", "when ped 2"], ["ok", "tick 0000211"]),
    # Pattern 2 is selected at tick 200, with the local counter at 650. In step it is at 50, so it is 600 ticks ahead,
    # and the instant of phase 2 comes at tick 1000. With a limit of 50 percent it goes on, and is at the instant, 850,
    # once it has lost 99 of 299 ticks.
    Run(47, True, changed(CLEAN, ADD_ONLY), "",
        ["pattern 1", "step 200", "pattern 2", "step 799", "when interval 2", "step 1", "when interval 2"],
        ["ok", "ok", "tick 0000101", "tick 0001000"]),
    Run(47, False, changed(CLEAN, {**ADD_ONLY, "coordCorrectionLimit.1": 50}), "",
        ["pattern 1", "step 200", "pattern 2", "step 298", "when interval 2", "step 1", "when interval 2"],
        ["ok", "ok", "tick 0000101", "tick 0000499"]),
    # A car stays on detector 3 from tick 100. Phase 3 is green at 150, for its maximum, and at 550 again. At 700 its alarm
    # comes, at 725 its gap is over, at 775 it is red, and then nothing calls it. With fail time 255 it has a green every 40 s.
    Run(48, True, with_recalls("26", {"vehicleDetectorMaxPresence.3": 1}), row(100, 3),
        ["step 4000", "when alarm 3", "when interval 3"], ["tick 0000700", "tick 0000775"]),
    Run(48, False, with_recalls("26", {"vehicleDetectorMaxPresence.3": 1, "vehicleDetectorFailTime.3": 255}), row(100, 3),
        ["step 4000", "when alarm 3", "when interval 3"], ["tick 0000700", "tick 0004000"]),
    # The input of preempt 2 stays on. Its phases are green from tick 1, and with a maximum presence of 60 s for that long.
    Run(50, True, with_recalls("26", {"preemptDwellPhase.2": 34}), "", ["preempt 2 on", "step 4000", "when stage"],
        ["ok", "tick 0000001"]),
    Run(50, False, with_recalls("26", {"preemptDwellPhase.2": 34, "preemptMaximumPresence.2": 60}), "",
        ["preempt 2 on", "step 4000", "when stage"], ["ok", "tick 0000601"]),
    # A preempt serves phase 2 alone, and cars wait at phase 6.
    Run(51, True, with_recalls("26", {"preemptDwellPhase.2": 2}), row(1, 6), ["preempt 2 on", "step 1000", "when interval 6"],
        ["ok", "never"]),
    Run(51, False, with_recalls("26", {"preemptDwellPhase.2": 34}), row(1, 6), ["preempt 2 on", "step 1000", "when interval 6"],
        ["ok", "tick 0000001"]),
    # A car comes to detector 4, and one to detector 2 later. The rings cross back for phase 2, and ring 2 has none.
    Run(52, True, with_recalls("", {"phaseDualEntry.6": 0}), row(1, 4) + row(2) + row(200, 2), ["step 1000", "when interval 2", "when interval 6"],
        ["tick 0000250", "never"]),
    Run(52, False, with_recalls("", {}), row(1, 4) + row(2) + row(200, 2),
        ["step 1000", "when interval 2", "when interval 6"], ["tick 0000250", "tick 0000250"]),
    # Cars hold phases 2 and 6. One comes over detector 3 in 6 s, of which its call lasts 1 s. With a call that is remembered
    # phase 2 has its maximum from tick 150 on.
    Run(53, True, with_recalls("26", {"phaseNonLock.3": 1, "vehicleDetectorDelay.3": 50}), OVER_LOOP,
        ["step 4000", "when output 3", "when interval 3"], ["tick 0000160", "never"]),
    Run(53, False, with_recalls("26", {"vehicleDetectorDelay.3": 50}), OVER_LOOP, ["step 450", "when output 3", "when interval 3"],
        ["tick 0000160", "tick 0000450"]),
    # The permissive time lets phase 3 begin at its instant, tick 600. With late force-off it ends after its minimum.
    Run(54, True, changed(CLEAN, {**ACTUATED, "patternPermissiveTime.1": 15}), row(550, 3),
        ["pattern 1", "step 1499", "when interval 3", "step 1", "when interval 3"], ["ok", "tick 0000600", "tick 0001500"]),
    Run(54, False, changed(CLEAN, {**ACTUATED, "patternPermissiveTime.1": 15, **FORCED_LATE}), row(550, 3),
        ["pattern 1", "step 649", "when interval 3", "step 1", "when interval 3"], ["ok", "tick 0000600", "tick 0000650"]),
    # A car waits on detector 3, and its phase is left out of each cycle.
    Run(55, True, changed(CLEAN, {"splitMode.3": 5}), row(100, 3), ["pattern 1", "step 4000", "when call 3", "when interval 3"],
        ["ok", "tick 0000100", "never"]),
    Run(55, False, CLEAN, row(100, 3), ["pattern 1", "step 450", "when interval 3"], ["ok", "tick 0000450"]),
    # Phases 1 and 6 begin, and with phase 1 a right turn into the leg that phase 6 goes into. As a modifier phase 6 keeps
    # the right turn red.
    Run(56, True, with_recalls("16", WRONG_PAIR), "", ["step 1"], [], "GRRRRGRR-------- -D-----D-------- G---"),
    Run(56, False, with_recalls("16", {**WRONG_PAIR, "overlapType.1": 1, "overlapModifierPhases.1": 32}), "", ["step 1"], [],
        "GRRRRGRR-------- -D-----D-------- R---"),
    # Phases 2 and 6 end at tick 100 for a car at phase 3, and are red from tick 135 on. Phase 3 is green 0.4 s later, and
    # with a red clearance of half a second a tick later.
    Run(57, True, with_recalls("26", {"phaseRedClear.2": 4, "phaseRedClear.6": 4}), row(100, 3), ["step 139", "when interval 3"],
        ["tick 0000139"]),
    Run(57, False, with_recalls("26", {"phaseRedClear.2": 5, "phaseRedClear.6": 5}), row(100, 3), ["step 140", "when interval 3"],
        ["tick 0000140"]),
    # The gap of phase 2 is 0.3 s: the first gap between cars after its 5 s ends its green.
    Run(58, True, with_recalls("26", {"phasePassage.2": 3, "phaseMinimumGap.2": 3}), CARS, ["step 54", "when interval 2"], ["tick 0000054"]),
    Run(58, False, with_recalls("26", {"phasePassage.2": 11, "phaseMinimumGap.2": 11}), CARS, ["step 122", "when interval 2"], ["tick 0000122"]),
    # A recall of a phase that is not enabled brings nothing.
    Run(59, True, with_recalls("9", {}), "", ["step 1000", "when interval 9"], ["never"]),
    Run(59, False, with_recalls("1", {}), "", ["step 1", "when interval 1"], ["tick 0000001"]),
    # As for A52: a car comes to detector 4, and one to detector 2 later, and ring 2 is red beside both.
    Run(63, True, with_recalls("", NO_ENTRY), row(1, 4) + row(2) + row(200, 2),
        ["step 1000", "when interval 2", "when interval 6", "when interval 8"], ["tick 0000250", "never", "never"]),
    Run(63, False, with_recalls("", {}), row(1, 4) + row(2) + row(200, 2),
        ["step 1000", "when interval 2", "when interval 6", "when interval 8"], ["tick 0000250", "tick 0000250", "tick 0000250"]),
]
