"""Plans that have each advice, and plans a step beside that have not, with the lines that were written by hand.

Each case is a change of a plan without advices: the number of the advice, what is changed, the lines of that advice
which it then has, and the last change that takes it away.
"""
import copy
import dataclasses
import json

from tools import TOP

Table = dict[str, dict[str, int]]
Change = dict[str, int]

EXAMPLES = TOP / "examples"


def example(name: str) -> Table:
    """A plan of examples/, which is of version 2."""
    plan = json.loads((EXAMPLES / f"{name}.json").read_bytes())
    return {name: table for name, table in plan.items() if name != "version"}


# Two rings and two sides, a pattern in which all phases are recalled, a railroad preempt, and an overlap for the right
# turn that goes with phases 6 and 7. Phase 6 has no walk: its crossing would lie where that turn goes.
CLEAN: Table = example("no_advice")


@dataclasses.dataclass(frozen=True)
class Case:
    """An advice, a change that brings it, its lines then, and a change after which it is gone."""

    advice: int
    change: Change
    lines: list[str]
    beside: Change


LOST = "so a call of one can wait for ever while the other rests"
IDLE_RECYCLE = "its pedestrian recycle has no effect, since no used pattern has it as a coordinated phase with a walk"
WALKING_ON = "its walk begins again after each clearance in pattern 1, since it has pedestrian recall and pedestrian recycle"
AT_ONCE = "unit: local counters come into step at once, since coordCorrectionMode is %d and coordCorrectionLimit is %d"
# A second pattern, as the first but for its offset.
FOURTH: Change = {"patternCycleTime.4": 90, "patternOffsetTime.4": 44, "patternSplitNumber.4": 1, "patternSequenceNumber.4": 1}
# A second split table, as the first but for a second that phases 3 and 7 give to 4 and 8.
SECOND_TABLE: Change = {**{f"splitTime.{16 + p}": split for p, split in enumerate([20, 25, 19, 26] * 2, 1)},
                        "splitCoordPhase.18": 1, "splitCoordPhase.22": 1}
# Another split table, of 30 s for each phase, for a cycle of 120 s.
LONG_TABLE: Change = {**{f"splitTime.{16 + p}": 30 for p in range(1, 9)}, "splitCoordPhase.18": 1, "splitCoordPhase.22": 1}
HELD = "it has no maximum presence and no track phases, so an input that stays on holds it for ever"
ALONE = "its dwell serves phase %d alone, and leaves the other ring without a phase"
ENTRIES = "%d of its phases have dual entry, not 1, and the other ring has one there"
FORGOTTEN = "it is non-locking, and each of its detectors has a delay, so a car that stops beyond them is forgotten"
LATE_GREENS = "its permissive time of %d s lets greens begin late, and one that misses its force-off can last up to a cycle"
SHUT_OUT = "it has calls of its own, and each used pattern omits it, so in coordination they have no effect"
OVER = "if phases stand as usual, it turns right beside phase %d over its crossing, and is green with its walk"
INTO = "if phases stand as usual, it turns right beside phase %d into the leg that phase %d goes into, and both can be green"
# No phase has dual entry.
NO_ENTRY: Change = {f"phaseDualEntry.{p}": 0 for p in (2, 4, 6, 8)}
NO_ENTRY_LINE = "unit: no phase has dual entry, so a ring rests in red while the other serves a phase alone"
# No walk but that of phase 6, which has none either.
NO_WALKS: Change = {f"{name}.{p}": 0 for p in (2, 4, 8) for name in ("phaseWalk", "phasePedestrianClear", "pedestrianDetectorCallPhase")}
# Pattern 1 from 7:00 on each day.
EACH_DAY: Change = {"timeBaseScheduleMonth.1": 8190, "timeBaseScheduleDay.1": 254, "timeBaseScheduleDate.1": 65534, "timeBaseScheduleDate.33": 65535,
                    "timeBaseScheduleDayPlan.1": 1, "dayPlanHour.1": 7, "dayPlanActionNumber.1": 1, "timebaseAscPattern.1": 1}
OPEN = ("unit: no entry of the schedule holds on day %d of month %d where that is weekday %d, "
        "so the action of the day before stays")
AS_SECONDS = "as if it were given in seconds and not in tenths"
UNUSED = "it is not enabled, so its values have no effect, such as"
NO_CALL = "while it has an alarm no car calls phase %d, since its fail time is 0 s"
CASES = [
    Case(1, {"vehicleDetectorCallPhase.1": 0, "splitMode.1": 0}, ["phase 1: no detector, button, recall or split mode calls it"],
         {"phaseSoftRecall.1": 1}),
    Case(1, {"vehicleDetectorCallPhase.1": 0, "splitMode.1": 5}, ["phase 1: no detector, button, recall or split mode calls it"],
         {"splitMode.1": 3, "phaseWalk.1": 7}),
    Case(1, {"vehicleDetectorCallPhase.2": 0, "pedestrianDetectorCallPhase.2": 0, "splitCoordPhase.2": 0, "splitCoordPhase.6": 0,
             "splitCoordPhase.1": 1, "splitCoordPhase.5": 1}, ["phase 2: no detector, button, recall or split mode calls it"],
         {"pedestrianDetectorCallPhase.8": 2}),
    Case(2, {"vehicleDetectorDelay.12": 5}, ["vehicle detector 12: it calls no phase, so its settings have no effect"],
         {"vehicleDetectorCallPhase.12": 4}),
    Case(2, {"vehicleDetectorErraticCounts.16": 1}, ["vehicle detector 16: it calls no phase, so its settings have no effect"],
         {"vehicleDetectorErraticCounts.16": 0}),
    Case(3, {"phaseConcurrency.1": 16, "phaseConcurrency.6": 2},
         [f"phases 1 and 6: they are on one side and not concurrent, {LOST}"], {"phaseConcurrency.1": 48, "phaseConcurrency.6": 3}),
    Case(4, {"phaseConcurrency.1": 16, "phaseConcurrency.6": 2},
         ["phase 6: it is coordinated in pattern 1 and not concurrent with phase 1 of its side, so it may never be served"],
         {"splitMode.1": 5}),
    Case(5, {f"phaseMaxRecall.{p}": 1 for p in (5, 6, 7, 8)}, ["ring 2: all its phases have maximum recall, so its times are fixed"],
         {"phaseMaxRecall.7": 0}),
    Case(6, {"phaseSoftRecall.2": 1, "phaseMinRecall.2": 1},
         ["phase 2: its soft recall never acts, since another recall calls it at all times"], {"phaseMinRecall.2": 0}),
    Case(7, {"phaseSoftRecall.2": 1, "phasePedRecall.4": 1, "phaseMinRecall.6": 1},
         ["phase 2: its soft recall never acts in free operation, since phases 4 and 6 are recalled and not concurrent"],
         {"phasePedRecall.4": 0, "phaseMinRecall.1": 1}),
    Case(8, {"phasePedestrianClear.4": 0}, ["phase 4: its walk of 7 s has no pedestrian clearance"], {"phasePedestrianClear.4": 1}),
    Case(9, {"phaseWalk.8": 3}, ["phase 8: its walk of 3 s is under 4 s"], {"phaseWalk.8": 4}),
    Case(10, {"phasePedestrianClear.3": 9}, ["phase 3: its pedestrian clearance of 9 s is never shown, since it has no walk"],
         {"phaseWalk.3": 4}),
    Case(11, {"pedestrianDetectorCallPhase.8": 0},
         ["phase 8: its walk of 7 s is never shown, since no button and no pedestrian recall calls it"], {"splitMode.8": 4}),
    Case(12, {"phasePedestrianClear.4": 14},
         ["phase 4: its walk and clearance of 21 s are longer than the 20 s of green that its split leaves in pattern 1"],
         {"phasePedestrianClear.4": 13}),
    Case(12, {"phaseRedClear.8": 56},
         ["phase 8: its walk and clearance of 16 s are longer than the 15.9 s of green that its split leaves in pattern 1"],
         {"phaseRedClear.8": 55}),
    # Patterns whose splits leave the same green have one line, and others their own. Table 2 gives phase 4 a second more.
    Case(12, {"phasePedestrianClear.4": 14, **FOURTH},
         ["phase 4: its walk and clearance of 21 s are longer than the 20 s of green that its split leaves in pattern 1, 4"],
         {"phasePedestrianClear.4": 13}),
    Case(12, {"phasePedestrianClear.4": 15, **FOURTH, "patternSplitNumber.4": 2, **SECOND_TABLE},
         [f"phase 4: its walk and clearance of 22 s are longer than the {green} s of green that its split leaves in pattern {n}"
          for n, green in ((1, 20), (4, 21))], {"phasePedestrianClear.4": 13}),
    Case(13, {"phasePedestrianClear.2": 19}, ["phase 2: its walk and clearance of 26 s are longer than its maximum of 25 s"],
         {"unitMax2.1": 1}),
    # The instant of phases 3 and 7 is 15 s after the end of the coordinated splits.
    Case(14, {"phaseRestInWalk.2": 1, "phasePedestrianClear.2": 15},
         ["phase 2: it rests in walk, and its clearance of 15 s can end after the force-off of phase 3 in pattern 1"],
         {"phasePedestrianClear.2": 14}),
    # With late force-off a green that begins behind its instant is forced off.
    Case(14, {"phaseWalk.6": 7, "phaseRestInWalk.6": 1, "phasePedestrianClear.6": 15},
         ["phase 6: it rests in walk, and its clearance of 15 s can end after the force-off of phase 3 in pattern 1"],
         {"coordForceMode.1": 1}),
    # With floating force-off too; and where a maximum acts, demand does not hold it to the next cycle.
    Case(14, {"phaseWalk.6": 7, "phaseRestInWalk.6": 1, "phasePedestrianClear.6": 15},
         ["phase 6: it rests in walk, and its clearance of 15 s can end after the force-off of phase 3 in pattern 1"],
         {"coordForceMode.1": 2}),
    Case(14, {"phaseWalk.6": 7, "phaseRestInWalk.6": 1, "phasePedestrianClear.6": 15},
         ["phase 6: it rests in walk, and its clearance of 15 s can end after the force-off of phase 3 in pattern 1"],
         {"coordMaximumMode.1": 2}),
    # A conflict that begins at the end of the permissive time ends the walk so much later.
    Case(14, {"phaseRestInWalk.2": 1, "phasePedestrianClear.2": 12, "patternPermissiveTime.1": 3},
         ["phase 2: it rests in walk, and its clearance of 12 s can end after the force-off of phase 3 in pattern 1"],
         {"patternPermissiveTime.1": 2}),
    Case(14, {"phaseRestInWalk.2": 1, "phasePedestrianClear.2": 15, "splitMode.3": 5},
         ["phase 2: it rests in walk, and its clearance of 15 s can end after the force-off of phase 7 in pattern 1"],
         {"splitMode.7": 5}),
    Case(15, {"phaseRedClear.7": 0}, ["phase 7: its red clearance is 0 s, and phases across the barrier conflict with it"],
         {"phaseRedClear.7": 1}),
    Case(16, {"unitRedRevert.1": 19, "phaseRedRevert.1": 20}, ["unit: red reverts are under 2 s, that of phase 2 is 1.9 s"],
         {"unitRedRevert.1": 20}),
    Case(17, {"phasePassage.4": 0, "phaseMinimumGap.4": 0},
         ["phase 4: its passage is 0 s and no detector extends it, so any gap between cars ends its green"],
         {"vehicleDetectorExtend.4": 1}),
    Case(18, {"phaseMinimumGap.2": 20},
         ["phase 2: its gap is 2 s as soon as a conflict begins, and not its passage of 2.5 s, since its times of reduction are 0 s"],
         {"phaseTimeToReduce.2": 1}),
    Case(18, {"phaseMinimumGap.2": 20, "phaseCarsBeforeReduction.2": 5},
         ["phase 2: its gap is 2 s as soon as a conflict begins, and not its passage of 2.5 s, since its times of reduction are 0 s"],
         {"phaseTimeBeforeReduction.2": 1}),
    Case(19, {"phaseCarsBeforeReduction.6": 3}, ["phase 6: its gap is never reduced, since its minimum gap is its passage of 2.5 s"],
         {"phaseMinimumGap.6": 24}),
    Case(20, {"phaseMinimumGap.2": 20, "phaseTimeBeforeReduction.2": 25},
         ["phase 2: its time before reduction of 25 s is not below its maximum of 25 s, so its gap is not reduced in time"],
         {"phaseTimeBeforeReduction.2": 24}),
    Case(21, {"phaseVariableInitial.2": 1, "phaseAddedInitial.2": 20, "phaseMaximumInitial.2": 5},
         ["phase 2: its variable initial is never over its minimum green of 5 s"], {"phaseMaximumInitial.2": 6}),
    Case(21, {"phaseVariableInitial.2": 1, "phaseMaximumInitial.2": 15},
         ["phase 2: its variable initial is never over its minimum green of 5 s"], {"phaseAddedInitial.2": 1}),
    Case(22, {"phaseAddedInitial.8": 1}, ["phase 8: its added initial has no effect, since phaseVariableInitial is 0"],
         {"phaseVariableInitial.8": 1, "phaseMaximumInitial.8": 12}),
    Case(23, {"phaseDynamicMaxLimit.2": 50}, ["phase 2: its dynamic maximum has no effect, since its step is 0 s"],
         {"phaseDynamicMaxStep.2": 1}),
    Case(24, {"phaseDynamicMaxStep.2": 50}, ["phase 2: its dynamic maximum has no effect, since its limit is 0 s"],
         {"phaseDynamicMaxLimit.2": 5}),
    Case(25, {"vehicleDetectorDelay.3": 251},
         ["vehicle detector 3: its delay of 25.1 s is longer than the maximum of each phase that conflicts with phase 3"],
         {"vehicleDetectorDelay.3": 250}),
    Case(26, {"vehicleDetectorExtend.9": 12, "vehicleDetectorCallPhase.9": 5, "phaseMaxRecall.5": 1},
         ["vehicle detector 9: its extension of 1.2 s has no effect, since phase 5 has maximum recall"], {"phaseMaxRecall.5": 0}),
    Case(27, {"phaseMinimumGreen.3": 15}, ["phase 3: its split leaves 0 s over minimum green, yellow and red clearance in pattern 1"],
         {"phaseMinimumGreen.3": 14}),
    Case(27, {"phaseMinimumGreen.3": 14, "phaseRedClear.3": 16},
         ["phase 3: its split leaves 0.9 s over minimum green, yellow and red clearance in pattern 1"], {"phaseRedClear.3": 15}),
    # Phases 1 and 5 have 15 s of green after phase 4: 20 s of its own green and 15 s more are 35 s.
    Case(28, {"phasePedestrianClear.4": 28},
         ["phase 4: its walk and clearance can end after the force-off of phase 1 in pattern 1, which then lasts up to a cycle"],
         {"phasePedestrianClear.4": 27}),
    Case(28, {"phasePedestrianClear.8": 38},
         ["phase 8: its walk and clearance can end after the force-off of phase 1 in pattern 1, which then lasts up to a cycle"],
         {"coordForceMode.1": 1}),
    Case(28, {"phasePedestrianClear.8": 38},
         ["phase 8: its walk and clearance can end after the force-off of phase 1 in pattern 1, which then lasts up to a cycle"],
         {"coordMaximumMode.1": 1}),
    Case(29, {"splitMode.3": 5, "phaseMinRecall.3": 1}, ["phase 3: its recall has no effect in pattern 1, which omits it"],
         {"phaseMinRecall.3": 0}),
    Case(30, {"patternCycleTime.4": 90, "patternOffsetTime.4": 45, "patternSplitNumber.4": 1, "patternSequenceNumber.4": 1},
         ["pattern 4: it is the same as pattern 1"], {"patternOffsetTime.4": 44}),
    Case(30, {"patternCycleTime.4": 90, "patternOffsetTime.4": 45, "patternSplitNumber.4": 1, "patternSequenceNumber.4": 1,
              "patternPermissiveTime.4": 5, "patternPermissiveTime.1": 5},
         ["pattern 4: it is the same as pattern 1"], {"patternPermissiveTime.4": 6}),
    Case(30, {"patternCycleTime.4": 90, "patternOffsetTime.4": 45, "patternSplitNumber.4": 1, "patternSequenceNumber.4": 1},
         ["pattern 4: it is the same as pattern 1"], {"patternLeadLag.4": 1}),
    Case(32, {"splitMode.7": 0},
         ["pattern 1: its coordinated phases yield in one tick of each cycle of 90 s, so a later call waits for the next one"],
         {"splitMode.7": 5}),
    # They yield once with late force-off as well.
    Case(32, {"splitMode.3": 0, "coordForceMode.1": 1},
         ["pattern 1: its coordinated phases yield in one tick of each cycle of 90 s, so a later call waits for the next one"],
         {"splitMode.3": 1}),
    Case(32, {"splitMode.3": 0},
         ["pattern 1: its coordinated phases yield in one tick of each cycle of 90 s, so a later call waits for the next one"],
         {"patternPermissiveTime.1": 1}),
    Case(33, {"preemptTrackPhase.1": 34}, [f"preempt 1: phase {p} is a track phase and a dwell phase, so cars go on to come over the track"
                                           for p in (2, 6)], {"preemptDwellPhase.1": 17}),
    Case(34, {"preemptTrackPhase.1": 0}, ["preempt 1: it has no delay and no track phases, so it clears no track"], {"preemptDelay.1": 1}),
    # A track green is a sign of a railroad, and so are the track phases of another preempt.
    Case(34, {"preemptTrackPhase.1": 0}, ["preempt 1: it has no delay and no track phases, so it clears no track"],
         {"preemptTrackGreen.1": 0}),
    Case(34, {"preemptDwellPhase.2": 34}, ["preempt 2: it has no delay and no track phases, so it clears no track"],
         {"preemptTrackPhase.1": 0, "preemptTrackGreen.1": 0}),
    Case(35, {"preemptMinimumDuration.1": 41, "preemptMaximumPresence.1": 40},
         ["preempt 1: its minimum duration of 41 s is longer than its maximum presence of 40 s"], {"preemptMaximumPresence.1": 41}),
    Case(36, {"preemptMinimumWalk.1": 0}, [f"preempt 1: it can end a walk of phase {p} at once, as is allowed where a track has to be cleared"
                                           for p in (2, 4, 8)], {"preemptMinimumWalk.1": 1}),
    Case(36, {"preemptMinimumWalk.1": 0, "preemptTrackPhase.1": 0},
         [f"preempt 1: its minimum walk is 0 s, so it can end a walk of phase {p} at once" for p in (4, 8)], {"preemptMinimumWalk.1": 1}),
    Case(37, {"preemptEnterPedClear.1": 0, "preemptTrackPhase.1": 0},
         [f"preempt 1: its pedestrian clearance is 0 s, so phase {p} can end with people on its crossing" for p in (4, 8)],
         {"preemptEnterPedClear.1": 1}),
    Case(38, {"preemptDelay.2": 1}, ["preempt 2: it has no dwell phases, so its times have no effect"], {"preemptDelay.2": 0}),
    Case(39, {"overlapIncludedPhases.1": 129},
         ["overlap 1: it includes phases 1 and 8 of two rings that are not concurrent, so it turns yellow between them"],
         {"overlapIncludedPhases.1": 33}),
    Case(39, {"overlapIncludedPhases.1": 24},
         ["overlap 1: it includes phases 4 and 5 of two rings that are not concurrent, so it turns yellow between them"],
         {"overlapAcrossRings.1": 1}),
    # (an arrow is yellow after each phase by which it flashes)
    Case(39, {"overlapIncludedPhases.1": 130},
         ["overlap 1: it includes phases 2 and 8 of two rings that are not concurrent, so it turns yellow between them"],
         {"overlapType.1": 2, "overlapModifierPhases.1": 1}),
    Case(40, {"overlapType.1": 1, "overlapModifierPhases.1": 64},
         ["overlap 1: phase 7 is an included and a modifier phase, so it is not green with it"], {"overlapModifierPhases.1": 4}),
    Case(41, {"overlapIncludedPhases.1": 33}, ["overlap 1: no phase of it follows another in a ring, so it shows what its phases show"],
         {"overlapIncludedPhases.1": 41}),
    Case(41, {"overlapIncludedPhases.2": 1}, ["overlap 2: no phase of it follows another in a ring, so it shows what its phases show"],
         {"overlapType.2": 1, "overlapModifierPhases.2": 2}),
    Case(41, {"overlapIncludedPhases.2": 8}, ["overlap 2: no phase of it follows another in a ring, so it shows what its phases show"],
         {"overlapTrailGreen.2": 6, "overlapTrailYellow.2": 36}),
    # Phases 3 and 7 have 15 s of green in splits of 20 s, and 4 and 8 have 20 s.
    Case(42, {"coordMaximumMode.1": 1, "phaseMaximum1.4": 19},
         ["phase 4: its maximum of 19 s is under the 20 s of green that its split leaves in pattern 1"], {"phaseMaximum1.4": 20}),
    Case(42, {"coordMaximumMode.1": 2, "phaseMaximum2.7": 14},
         ["phase 7: its maximum of 14 s is under the 15 s of green that its split leaves in pattern 1"], {"coordMaximumMode.1": 1}),
    # The instant of phases 3 and 7 is 15 s after the end of the coordinated splits, and their minimum green 5 s.
    Case(43, {"patternPermissiveTime.1": 11},
         [f"phase {p}: its permissive time of 11 s is over the 10 s that leave phase 3 its minimum green before its force-off in pattern 1"
          for p in (2, 6)], {"patternPermissiveTime.1": 10}),
    Case(43, {"patternPermissiveTime.1": 10, "phaseMinimumGreen.7": 6, "coordForceMode.1": 2},
         [f"phase {p}: its permissive time of 10 s is over the 9 s that leave phase 7 its minimum green before its force-off in pattern 1"
          for p in (2, 6)], {"splitMode.7": 5}),
    Case(43, {"patternPermissiveTime.1": 11, **FOURTH, "patternPermissiveTime.4": 11},
         [f"phase {p}: its permissive time of 11 s is over the 10 s that leave phase 3 its minimum green before its force-off in pattern 1, 4"
          for p in (2, 6)], {"patternPermissiveTime.1": 10, "patternPermissiveTime.4": 10}),
    Case(43, {"patternPermissiveTime.1": 11, **FOURTH, "patternPermissiveTime.4": 12},
         [f"phase {p}: its permissive time of {time} s is over the 10 s that leave phase 3 its minimum green before its force-off in pattern {n}"
          for n, time in ((1, 11), (4, 12)) for p in (2, 6)], {"patternPermissiveTime.1": 10, "patternPermissiveTime.4": 10}),
    # Phase 5 behind phase 6 takes the end of its split to another time than that of phase 2.
    Case(44, {"patternLeadLag.1": 1},
         ["pattern 1: patternLeadLag has no effect, since the splits of its coordinated phases end at one time"],
         {"sequenceData.17": 6, "sequenceData.18": 5}),
    # Phases 2 and 6 are coordinated, and phase 2 has a walk.
    Case(45, {"phasePedestrianRecycle.4": 1}, [f"phase 4: {IDLE_RECYCLE}"],
         {"splitCoordPhase.2": 0, "splitCoordPhase.6": 0, "splitCoordPhase.4": 1, "splitCoordPhase.8": 1}),
    Case(45, {"phasePedestrianRecycle.2": 1, "phaseWalk.2": 0, "phasePedestrianClear.2": 0, "pedestrianDetectorCallPhase.2": 0},
         [f"phase 2: {IDLE_RECYCLE}"], {"phaseWalk.2": 7}),
    Case(45, {"phasePedestrianRecycle.2": 1, "phaseWalk.6": 7, "phasePedestrianRecycle.6": 1, "patternCycleTime.1": 0},
         [f"phase {p}: {IDLE_RECYCLE}" for p in (2, 6)], {"patternCycleTime.1": 90}),
    Case(46, {"phasePedestrianRecycle.2": 1, "phasePedRecall.2": 1}, [f"phase 2: {WALKING_ON}"], {"phasePedRecall.2": 0}),
    Case(46, {"phaseWalk.6": 7, "phasePedestrianRecycle.6": 1, "splitMode.6": 4}, [f"phase 6: {WALKING_ON}"], {"splitMode.6": 2}),
    Case(46, {"phaseWalk.6": 7, "phasePedestrianRecycle.6": 1, "splitMode.6": 3, "splitMode.2": 3}, [f"phase 6: {WALKING_ON}"],
         {"phasePedestrianRecycle.6": 0}),
    Case(47, {"coordCorrectionMode.1": 2}, [AT_ONCE % (2, 0)], {"coordCorrectionLimit.1": 1}),
    Case(47, {"coordCorrectionMode.1": 3}, [AT_ONCE % (3, 0)], {"coordCorrectionMode.1": 1}),
    Case(47, {"coordCorrectionLimit.1": 50}, [AT_ONCE % (0, 50)], {"coordCorrectionMode.1": 3}),
    Case(47, {"coordCorrectionLimit.1": 1}, [AT_ONCE % (0, 1)], {"coordCorrectionLimit.1": 0}),
    Case(48, {"vehicleDetectorMaxPresence.3": 5}, [f"vehicle detector 3: {NO_CALL % 3}"], {"vehicleDetectorFailTime.3": 1}),
    Case(48, {"vehicleDetectorErraticCounts.4": 60, "vehicleDetectorNoActivity.5": 30},
         [f"vehicle detector {d}: {NO_CALL % d}" for d in (4, 5)], {"vehicleDetectorCallPhase.9": 4, "phaseSoftRecall.5": 1}),
    Case(48, {"vehicleDetectorNoActivity.7": 30}, [f"vehicle detector 7: {NO_CALL % 7}"], {"phasePedRecall.7": 1, "phaseWalk.7": 7}),
    Case(49, {"vehicleDetectorMaxPresence.2": 3},
         ["vehicle detector 2: its maximum presence of 180 s is at most two cycles of 90 s in pattern 1, so a queue can trip it"],
         {"vehicleDetectorMaxPresence.2": 4}),
    Case(49, {**FOURTH, "patternCycleTime.4": 120, "patternSplitNumber.4": 2, **LONG_TABLE, "vehicleDetectorMaxPresence.2": 4},
         ["vehicle detector 2: its maximum presence of 240 s is at most two cycles of 120 s in pattern 4, so a queue can trip it"],
         {"vehicleDetectorCallPhase.2": 0}),
    Case(50, {"preemptDwellPhase.2": 34}, [f"preempt 2: {HELD}"], {"preemptMaximumPresence.2": 1}),
    Case(50, {"preemptTrackPhase.1": 0}, [f"preempt 1: {HELD}"], {"preemptTrackPhase.1": 8}),
    Case(51, {"preemptDwellPhase.1": 2}, [f"preempt 1: {ALONE % 2}"], {"preemptDwellPhase.1": 34}),
    # A phase that is concurrent with none has to dwell alone.
    Case(51, {"preemptDwellPhase.3": 128}, [f"preempt 3: {ALONE % 8}"],
         {f"phaseConcurrency.{p}": 0 for p in (3, 4, 7, 8)} | {"preemptTrackPhase.1": 8, "preemptExitPhase.1": 8}),
    Case(52, {"phaseDualEntry.6": 0}, [f"ring 2, side 1: {ENTRIES % 0}"], {"phaseDualEntry.6": 1}),
    Case(52, {"phaseDualEntry.3": 1, "phaseDualEntry.4": 1, "phaseDualEntry.8": 1}, [f"ring 1, side 2: {ENTRIES % 2}"], {"phaseDualEntry.3": 0}),
    Case(52, {f"phaseDualEntry.{p}": 1 for p in (1, 2, 5, 6)}, [f"ring {r}, side 1: {ENTRIES % 2}" for r in (1, 2)],
         {"phaseDualEntry.1": 0, "phaseDualEntry.5": 0}),
    Case(53, {"phaseNonLock.3": 1, "vehicleDetectorDelay.3": 50}, [f"phase 3: {FORGOTTEN}"], {"vehicleDetectorCallPhase.9": 3}),
    Case(53, {"phaseNonLock.3": 1, "phaseNonLock.7": 1, "vehicleDetectorDelay.3": 1, "vehicleDetectorDelay.7": 1},
         [f"phase {p}: {FORGOTTEN}" for p in (3, 7)], {"phaseNonLock.3": 0, "phaseMinRecall.7": 1}),
    Case(54, {"patternPermissiveTime.1": 5}, [f"pattern 1: {LATE_GREENS % 5}"], {"coordForceMode.1": 2}),
    Case(54, {**FOURTH, "patternPermissiveTime.1": 5, "patternPermissiveTime.4": 6}, [f"pattern {n}: {LATE_GREENS % t}" for n, t in ((1, 5), (4, 6))],
         {"coordMaximumMode.1": 1}),
    Case(55, {"splitMode.3": 5}, [f"phase 3: {SHUT_OUT}"], {"vehicleDetectorCallPhase.3": 0}),
    Case(55, {"splitMode.3": 5, "splitMode.8": 5, "vehicleDetectorCallPhase.8": 0}, [f"phase {p}: {SHUT_OUT}" for p in (3, 8)],
         {**FOURTH, "patternSplitNumber.4": 2, **SECOND_TABLE}),
    # Right turns with the wrong left turns. Of phases 1 and 2, 2 and 6, and 1 to 3 no place is usual.
    Case(56, {"overlapIncludedPhases.1": 9}, [f"overlap 1: {OVER % 4}", f"overlap 1: {INTO % (4, 6)}"], {"overlapIncludedPhases.1": 96}),
    Case(56, {"overlapIncludedPhases.1": 66, "overlapIncludedPhases.2": 36, "overlapIncludedPhases.3": 144},
         [f"overlap 1: {OVER % 2}", f"overlap 1: {INTO % (2, 4)}", f"overlap 2: {INTO % (6, 8)}",
          f"overlap 3: {INTO % (8, 2)}", f"overlap 3: {OVER % 8}"],
         {"overlapIncludedPhases.1": 3, "overlapIncludedPhases.2": 34, "overlapIncludedPhases.3": 7}),
    # Right turns with the left turns that swap legs with them.
    Case(56, {"phaseWalk.6": 7}, [f"overlap 1: {OVER % 6}"], {"phaseWalk.6": 0}),
    Case(56, {f"overlapIncludedPhases.{o}": phases for o, phases in enumerate([6, 24, 96, 129], 1)},
         [f"overlap {o}: {OVER % p}" for o, p in ((1, 2), (2, 4), (4, 8))], NO_WALKS),
    Case(56, {"overlapIncludedPhases.1": 9, "overlapType.1": 1, "overlapModifierPhases.1": 8}, [f"overlap 1: {INTO % (4, 6)}"],
         {"overlapModifierPhases.1": 40}),
    Case(57, {"phaseRedClear.3": 4}, [f"phase 3: its red clearance of 0.4 s is under 0.5 s, {AS_SECONDS}"], {"phaseRedClear.3": 5}),
    Case(57, {f"phaseRedClear.{p}": 1 for p in range(1, 9)},
         [f"phase {p}: its red clearance of 0.1 s is under 0.5 s, {AS_SECONDS}" for p in range(1, 9)], {f"phaseRedClear.{p}": 0 for p in range(1, 9)}),
    Case(58, {"phasePassage.4": 9, "phaseMinimumGap.4": 9},
         [f"phase 4: its passage of 0.9 s is under 1 s and no detector extends it, {AS_SECONDS}"], {"phasePassage.4": 10}),
    Case(58, {f"phase{it}.{p}": 3 for p in (3, 4) for it in ("Passage", "MinimumGap")},
         [f"phase {p}: its passage of 0.3 s is under 1 s and no detector extends it, {AS_SECONDS}" for p in (3, 4)],
         {"vehicleDetectorExtend.4": 1, "phaseMaxRecall.3": 1}),
    Case(58, {"phasePassage.7": 1, "phaseMinimumGap.7": 1},
         [f"phase 7: its passage of 0.1 s is under 1 s and no detector extends it, {AS_SECONDS}"],
         {"vehicleDetectorCallPhase.7": 0}),
    # Phase 9 is not enabled. Values come object by object, and those of splits table by table.
    Case(59, {"phaseWalk.9": 7}, [f"phase 9: {UNUSED} phaseWalk.9"], {"phaseWalk.9": 0, "phaseWalk.8": 8}),
    Case(59, {"splitTime.9": 20, "phasePassage.16": 20, "phasePedestrianRecycle.16": 1},
         [f"phase 9: {UNUSED} splitTime.9 of split table 1", f"phase 16: {UNUSED} phasePassage.16"],
         {"splitTime.9": 0, "phasePassage.16": 0, "phasePedestrianRecycle.16": 0}),
    Case(59, {"splitMode.25": 1, "splitTime.121": 20, "phaseDynamicMaxStep.12": 5},
         [f"phase 9: {UNUSED} splitTime.121 of split table 8", f"phase 12: {UNUSED} phaseDynamicMaxStep.12"],
         {"splitMode.25": 0, "splitTime.121": 0, "phaseDynamicMaxStep.12": 0, "phaseRing.12": 1, "phaseSide.12": 2}),
    # Index 32 is phase 16 of table 2, and 33 phase 1 of table 3.
    Case(59, {"splitMode.32": 1}, [f"phase 16: {UNUSED} splitMode.32 of split table 2"], {"splitMode.32": 0, "splitMode.33": 1}),
    Case(60, {**EACH_DAY, "timeBaseScheduleDay.1": 124}, [OPEN % (1, 1, 1)], {"timeBaseScheduleDay.1": 254}),
    Case(60, {**EACH_DAY, "timeBaseScheduleMonth.1": 4094}, [OPEN % (1, 12, 1)],
         {"timeBaseScheduleMonth.2": 4096, "timeBaseScheduleDay.2": 254, "timeBaseScheduleDate.2": 65534, "timeBaseScheduleDate.34": 65535,
          "timeBaseScheduleDayPlan.2": 1}),
    # Of Wednesdays the 29th of February alone has no entry.
    Case(60, {**EACH_DAY, "timeBaseScheduleDay.1": 238, "timeBaseScheduleMonth.2": 8186, "timeBaseScheduleDay.2": 16,
              "timeBaseScheduleDate.2": 65534, "timeBaseScheduleDate.34": 65535, "timeBaseScheduleDayPlan.2": 1,
              "timeBaseScheduleMonth.3": 4, "timeBaseScheduleDay.3": 254, "timeBaseScheduleDate.3": 65534,
              "timeBaseScheduleDate.35": 65535 - 8192, "timeBaseScheduleDayPlan.3": 1}, [OPEN % (29, 2, 4)],
         {"timeBaseScheduleDate.35": 8191 + 8192}),
    Case(61, {**EACH_DAY, "timebaseAscPattern.1": 254}, ["pattern 1: it is used, and no event of a day plan selects it"],
         {"timebaseAscPattern.1": 1}),
    Case(61, {**EACH_DAY, "timebaseAscPattern.2": 254, "dayPlanActionNumber.1": 2},
         ["pattern 1: it is used, and no event of a day plan selects it"], {"dayPlanActionNumber.256": 1}),
    # The cycle is 90 s.
    Case(62, {**EACH_DAY, "dayPlanHour.2": 7, "dayPlanMinute.2": 1, "dayPlanActionNumber.2": 2, "timebaseAscPattern.2": 254},
         ["day plan 1, event 1: another event comes before a cycle of its pattern 1 is over"], {"dayPlanMinute.2": 2}),
    Case(62, {**EACH_DAY, "dayPlanHour.2": 6, "dayPlanMinute.2": 59, "dayPlanActionNumber.2": 1},
         ["day plan 1, event 2: another event comes before a cycle of its pattern 1 is over"], {"dayPlanMinute.2": 58}),
    # A single phase with it is enough; where no phases are concurrent, none needs it.
    Case(63, NO_ENTRY, [NO_ENTRY_LINE], {"phaseDualEntry.1": 1}),
    Case(63, {**NO_ENTRY, "phaseDualEntry.9": 1}, [NO_ENTRY_LINE],
         {f"phaseConcurrency.{p}": 0 for p in range(1, 9)} | {f"preempt{it}Phase.1": 8 for it in ("Track", "Dwell", "Exit")}
         | {"patternCycleTime.1": 0}),
]


def changed(plan: Table, change: Change) -> Table:
    """A plan with values in place of its own."""
    new = copy.deepcopy(plan)
    for at, value in change.items():
        name, index = at.split(".")
        new.setdefault(name, {})[index] = value
    return new
