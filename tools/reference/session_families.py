"""Families of sessions: what sessions at random seldom meet. Each gives a plan, a log and commands.

A family is given the reference (make_sessions.py says what that is), a source of random numbers, and how many sessions
of it came before.
"""
import json

SECONDS = """phaseMinimumGreen phaseMaximum1 phaseMaximum2 phaseMaximumInitial phaseWalk phasePedestrianClear
    phaseTimeBeforeReduction phaseTimeToReduce phaseDynamicMaxLimit preemptMinimumDuration preemptMaximumPresence
    preemptTrackGreen preemptMinimumGreen preemptMinimumWalk preemptEnterPedClear""".split()
CYCLES = "splitTime patternCycleTime patternOffsetTime".split()


def brisk(plan):
    """The plan with times of two fifths, so that more happens in as many ticks."""
    found = json.loads(json.dumps(plan))
    for name in SECONDS:
        for index, value in found.get(name, {}).items():
            found[name][index] = -(-value * 2 // 5)
    for name in CYCLES:
        for index, value in found.get(name, {}).items():
            found[name][index] = value * 2 // 5
    return found


def quick_quad(reference, **changes):
    """The plan of eight phases in two rings with short times, and changes of it."""
    plan = brisk(reference.even.quad(2))
    for name, values in changes.items():
        plan.setdefault(name, {}).update({str(index): value for index, value in values.items()})
    return plan


def partly(rng, plan):
    """Lets some pairs of phases on one side no more be served together."""
    for p, q in rng.sample([(1, 5), (4, 8), (1, 6), (2, 5), (3, 7)], rng.randint(0, 3)):
        plan["phaseConcurrency"][str(p)] &= ~(1 << q - 1)
        plan["phaseConcurrency"][str(q)] &= ~(1 << p - 1)


def row(tick, vehicles=(), pedestrians=(), preempts=()):
    """A row of a log, by the numbers of the inputs that are on."""
    fields = [(vehicles, 16), (pedestrians, 8), (preempts, 4)]
    bits = ["".join("01"[k in on] for k in range(1, count + 1)) for on, count in fields]
    return "%07d %s\n" % (tick, " ".join(bits))


def commit(station, edits):
    """The commands that put edits into effect, and close the desk where they do not."""
    found = [f"begin {station}"] + [f"set {station} {name} {index} {value}" for name, index, value in edits]
    return found + [f"verify {station}", f"commit {station}", f"abort {station}"]


BREAKING = {
    1: [[("phaseEnabled", p, 0) for p in range(1, 9)]],
    2: [[("phaseRing", 3, 0)], [("phaseSide", 8, 0)], [("phaseEnabled", 9, 1)]],
    3: [[("phaseConcurrency", 9, 1)], [("phaseEnabled", 1, 0)]],
    4: [[("phaseConcurrency", 1, 52)], [("phaseSide", 2, 2)], [("phaseConcurrency", 1, 112)],
        [("phaseConcurrency", 4, 256)]],
    5: [[("phaseConcurrency", 1, 32)], [("phaseConcurrency", 7, 4)]],
    6: [[("sequenceData", 1, 2)], [("sequenceData", 5, 1)], [("sequenceData", 2, 3), ("sequenceData", 3, 2)],
        [("sequenceData", 17, 0)]],
    7: [[("sequenceData", 33, 1)], [("sequenceData", 128, 8)]],
    8: [[("phaseYellowChange", 2, 29)], [("phaseYellowChange", 8, 0)]],
    9: [[("phaseMinimumGap", 1, 21)], [("phasePassage", 7, 19)]],
    10: [[("phaseMaximum1", 1, 1)], [("phaseMaximum2", 8, 0)], [("phaseMinimumGreen", 3, 9)]],
    11: [[("phasePedRecall", 1, 1)], [("phasePedRecall", 2, 1), ("phaseWalk", 2, 0)]],
    12: [[("vehicleDetectorCallPhase", 16, 9)]],
    13: [[("pedestrianDetectorCallPhase", 1, 1)], [("phaseWalk", 2, 0)], [("pedestrianDetectorCallPhase", 8, 16)]],
    14: [[("overlapIncludedPhases", 1, 256)], [("overlapIncludedPhases", 4, 32768)]],
    15: [[("preemptDwellPhase", 1, 3)], [("preemptExitPhase", 2, 256)], [("preemptTrackPhase", 1, 36)]],
    16: [[("preemptTrackPhase", 3, 1)], [("preemptExitPhase", 4, 2)], [("preemptExitPhase", 1, 34),
                                                                      ("preemptDwellPhase", 1, 0)]],
    17: [[("patternCycleTime", 3, 32)], [("patternOffsetTime", 2, 32)], [("patternSequenceNumber", 1, 2)],
         [("patternSplitNumber", 2, 0)]],
    18: [[("splitTime", 1, 5)], [("phaseRedClear", 5, 51)]],
    19: [[("splitTime", 3, 7)], [("patternCycleTime", 1, 33)], [("splitMode", 1, 5), ("splitTime", 1, 0)]],
    20: [[("splitCoordPhase", 2, 0)], [("splitMode", 6, 5)], [("splitCoordPhase", 1, 1)], [("splitCoordPhase", 9, 1)],
         [("splitTime", 1, 7), ("splitTime", 2, 9), ("sequenceData", 1, 2), ("sequenceData", 2, 1)],
         [("sequenceData", 17, 6), ("sequenceData", 18, 5), ("patternLeadLag", 1, 1)]],
    21: [[("overlapModifierPhases", 1, 1)], [("overlapType", 2, 1), ("overlapModifierPhases", 2, 256)]],
    22: [[("phaseDynamicMaxLimit", 1, 1)], [("phaseDynamicMaxLimit", 8, 1), ("phaseDynamicMaxStep", 8, 5)]],
    23: [[("patternPermissiveTime", 2, 32)], [("patternLeadLag", 1, 1), ("patternPermissiveTime", 1, 255)]],
}
MOMENTS = [[], ["step 3"], ["step 25"], ["pattern 1", "step 40"], ["step 9", "preempt 1 on", "step 5"],
           ["step 7", "fault P4 G"], ["step 30", "fault P2 R", "reset"]]


def broken_rules(reference, rng, turn):
    """Edits that break a rule, what verify says of it, and the way on from there."""
    rule = turn % len(BREAKING) + 1
    station = rng.randint(1, 4)
    found = rng.choice(MOMENTS) + [f"begin {station}"]
    edits = rng.choice(BREAKING[rule])
    found += [f"set {station} {name} {index} {value}" for name, index, value in edits]
    found += [f"verify {station}", f"commit {station}", "step 2", f"verify {station}", "undo", "undo", "undo"]
    found += ["undo"] * len(edits) + [f"set {station} phasePassage 1 {rng.randint(20, 40)}", f"verify {station}"]
    found += [f"commit {station}", "step 60", "when interval 2", "undo", "undo", f"verify {station}"]
    found.append(f"abort {station}")
    return quick_quad(reference), "".join([row(5, [1, 3]), row(20, [4])]), found


def many_edits(reference, rng, _turn):
    """As many edits as the desk takes and more, those that are there already among them."""
    names = ["phasePassage", "phaseMaximum1", "phaseMaximum2", "vehicleDetectorDelay", "vehicleDetectorExtend"]
    pairs = [(name, index) for name in names for index in range(1, 17)]
    rng.shuffle(pairs)
    found = ["step 1", "begin 3"] + [f"set 3 {name} {index} {rng.randint(20, 90)}" for name, index in pairs[:64]]
    name, index = pairs[64]
    found += [f"set 3 {name} {index} 30", f"set 3 {name} 17 30", f"set 3 {name} {index} 9999", f"set 2 {name} 1 1"]
    found += [f"set 3 {name} {index} {rng.randint(20, 90)}" for name, index in rng.sample(pairs[:64], 3)]
    found += ["undo", "undo"] * rng.randint(0, 1) + ["verify 3", "commit 3", "step 30", "undo"]
    return quick_quad(reference), row(4, [3, 4]), found + ["step 30"] + ["undo"] * rng.randint(30, 130) + ["show"]


ROUND = """step 1|step 1|pattern 1|pattern 0|preempt 1 on|preempt 1 off|fault P3 G|reset|fault none|begin 1
    |set 1 phaseMaximum1 2 30|verify 1|commit 1|begin 2|abort 2""".replace("\n    ", "").split("|")


def rounds(reference, rng, _turn):
    """Rounds of all inputs in a random order, all taken back."""
    count, found, log = rng.randint(3, 9), [], ""
    for k in range(count):
        some = ROUND[:]
        if k:
            rng.shuffle(some)
        found += some
        log += row(2 * k + 1, range(1, 17), range(1, 9), rng.sample(range(1, 5), 2)) + row(2 * k + 2)
    found += ["when trip", "when stage", "show"] + ["undo"] * (len(ROUND) * count + 1) + ["show", "step 3"]
    return quick_quad(reference), log, found


def pulses(rng, detectors, last):
    """A log in which some detectors rise now and then, some often and some stay on."""
    now, log, on = 0, "", set()
    often = rng.choice([2, 9, 40])
    while now < last:
        now += rng.randint(1, often) if rng.random() < 0.7 else rng.randint(50, 400)
        on ^= set(rng.sample(detectors, rng.randint(1, 2)))
        log += row(now, on)
        if rng.random() < 0.02:
            now += 650
    return log


def toggled(changes):
    """A log in which detectors change at ticks: pairs of a tick and a detector."""
    on, log = set(), ""
    for now in sorted({tick for tick, _ in changes}):
        on ^= {detector for tick, detector in changes if tick == now}
        log += row(now, on)
    return log


def minutes(reference, rng, _turn):
    """Detectors that fail in each way, over minutes, and that recover."""
    if rng.random() < 0.1:
        return long_rest(reference, rng)
    plan = quick_quad(reference)
    quiet, stuck, busy = detectors = rng.sample(range(1, 9), 3)
    for name, values in (("vehicleDetectorErraticCounts", [0, 0, 40]), ("vehicleDetectorNoActivity", [0, 0, 2]),
                         ("vehicleDetectorMaxPresence", [0, 0, 2]), ("vehicleDetectorFailTime", [0, 1, 2, 5, 254, 255]),
                         ("vehicleDetectorDelay", [0, 0, 7, 30]), ("vehicleDetectorExtend", [0, 5, 30])):
        plan[name] = {str(d): rng.choice(values) for d in detectors}
    plan["vehicleDetectorNoActivity"][str(quiet)] = 1
    plan["vehicleDetectorMaxPresence"][str(stuck)] = 1
    plan["vehicleDetectorErraticCounts"][str(busy)] = rng.choice([1, 5, 9])
    changes = [(rng.randint(650, 1000), quiet), (rng.randint(1001, 1100), quiet), (rng.randint(1, 100), stuck)]
    changes += [(rng.randint(720, 1150), stuck)]
    others = [d for d in range(1, 9) if d not in detectors]
    changes += [(tick, rng.choice(others)) for tick in rng.sample(range(1, 1300), 8)]
    changes += [(tick, busy) for tick in rng.sample(range(1, rng.choice([590, 900])), rng.choice([12, 20, 30]))]
    watches = [f"when {kind} {d}" for d in detectors for kind in ("alarm", "output")]
    found = ["step 599"] + watches + ["step 1"] + watches + [f"step {rng.randint(20, 200)}"] + watches
    if rng.random() < 0.3:
        found += ["fault P3 G", "fault P2 G", "step 30", "reset", "step 90"] + watches
    found += [f"step {rng.randint(200, 400)}", "step 200"] + watches + ["back 300"] + watches
    return plan, toggled(changes), found


def long_rest(reference, rng):
    """A green that rests for minutes, with detectors that failed: the two greatest fail times, and a small one."""
    plan = reference.even.two(2)
    plan["phaseMaxRecall"], plan["phaseMinRecall"] = {}, {"2": 1}
    plan["vehicleDetectorCallPhase"] = {str(d): 2 for d in (1, 2, 3)}
    plan["vehicleDetectorNoActivity"] = {str(d): 1 for d in (1, 2, 3)}
    plan["vehicleDetectorFailTime"] = {"1": 254, "2": 255, "3": rng.randint(60, 200)}
    watches = ["when output 1", "when output 2", "when output 3"]
    found = ["step 2540"] + watches + ["step 1"] + watches + ["step 12"] + watches + ["back 700"] + watches
    return plan, row(rng.randint(10, 300), [4]), found


def stages(reference, rng, _turn):
    """Preempts through their stages, one over another, spent ones, with trips and commits among them."""
    lists = [rng.choice([132, 72, 34, 17, 8, 1]) for _ in range(12)]
    plan = quick_quad(reference, preemptDwellPhase=dict(zip(range(1, 5), lists)))
    for name, share in (("preemptTrackPhase", 0.7), ("preemptExitPhase", 0.7)):
        plan[name] = {str(n): rng.choice(lists) for n in range(1, 5) if rng.random() < share}
    for name, values in (("preemptTrackGreen", [0, 1, 3]), ("preemptDelay", [0, 0, 1]),
                         ("preemptMaximumPresence", [0, 8]), ("preemptMinimumDuration", [0, 2, 6]),
                         ("preemptMinimumGreen", [0, 1, 2])):
        plan[name] = {str(n): rng.choice(values) for n in range(1, 5)}
    found = [f"step {rng.randint(1, 40)}"]
    for _ in range(rng.randint(8, 14)):
        found += [f"preempt {rng.randint(1, 4)} {rng.choice(['on', 'on', 'off'])}", f"step {rng.randint(1, 70)}"]
        if rng.random() < 0.2:
            name = rng.choice(["preemptDwellPhase", "preemptExitPhase", "preemptTrackPhase", "preemptTrackGreen"])
            found += commit(1, [(name, rng.randint(1, 4), rng.choice([0, 34, 132]))])
        if rng.random() < 0.1:
            found += [f"fault P{rng.randint(1, 8)} {rng.choice('GR')}", "step 2", "reset", "fault none"]
        found += rng.choice([["when stage"], ["when stage", f"when call {rng.randint(1, 8)}"], []])
    log = pulses(rng, range(1, 9), 500) if rng.random() < 0.5 else ""
    found += [f"preempt {n} off" for n in range(1, 5)] + ["step 120", "when stage", "when call 1", "when call 7"]
    return plan, log, found


def coordination(reference, rng, _turn):
    """Patterns over some cycles: offsets, split modes, an order of phases of their own, preempts and commits."""
    plan = quick_quad(reference)
    if rng.random() < 0.6:
        reference.even.second_sequence(rng, plan)
        plan["patternCycleTime"]["3"], plan["patternOffsetTime"]["3"] = 32, rng.randint(0, 31)
        if not reference.accepts(plan):
            plan = quick_quad(reference)
    is_calm = rng.random() < 0.4
    modes = [0, 5] if is_calm else [0, 1, 2, 3, 4, 5]
    for p in rng.sample([1, 3, 4, 5, 7, 8], 3):
        plan.setdefault("splitMode", {})[str(p)] = rng.choice(modes)
    plan["patternOffsetTime"]["2"] = rng.randint(0, 31)
    if not is_calm:
        plan["phaseMaxRecall"] = {str(rng.randint(1, 8)): rng.randint(0, 1)}
    plan["phaseNonLock"] = {str(p): rng.randint(0, 1) for p in range(1, 9)}
    plan["phaseWalk"] = {str(p): rng.choice([0, 1, 3] if p != 2 else [1, 2]) for p in range(1, 9)}
    found = []
    for _ in range(rng.randint(3, 6)):
        found += [f"pattern {rng.choice([1, 1, 2, 2, 3, 0])}", f"step {rng.randint(20, 250)}"]
        if rng.random() < 0.3:
            n = rng.randint(1, 2)
            found += [f"preempt {n} on", f"step {rng.randint(5, 60)}", f"preempt {n} off", f"step {rng.randint(5, 60)}"]
        if rng.random() < 0.3:
            found += commit(2, [("patternCycleTime", rng.randint(1, 2), rng.choice([0, 32]))])
        found += [f"when {kind} {rng.randint(1, 8)}" for kind in ("interval", "call", "ped")]
    log = pulses(rng, rng.sample(range(1, 9), rng.randint(2, 8)), 700)
    return plan, log, found + [f"when call {p}" for p in range(1, 9)]


def shapes(reference, rng, _turn):
    """Structural commits where nothing is in service, and what the controller then does."""
    plan = quick_quad(reference)
    changes = [[("phaseConcurrency", 1, 32), ("phaseConcurrency", 5, 2)], [("overlapIncludedPhases", 2, 36)],
               [("overlapIncludedPhases", 3, 6), ("overlapType", 3, 1), ("overlapModifierPhases", 3, 32)],
               [("overlapIncludedPhases", 1, 0)], [("phaseEnabled", 9, 1), ("phaseRing", 9, 1), ("phaseSide", 9, 3),
                                                   ("sequenceData", 5, 9), ("phaseYellowChange", 9, 30),
                                                   ("patternCycleTime", 1, 0), ("patternCycleTime", 2, 0),
                                                   ("vehicleDetectorCallPhase", 9, 9)],
               [("phaseConcurrency", 3, 64), ("phaseConcurrency", 8, 8)]]
    found = []
    for edits in rng.sample(changes, 3):
        found += rng.choice([[], ["step 20", "fault P4 G", "fault P2 G", "step 1", "reset"], ["step 3"]])
        found.append("begin 4")
        found += [f"set 4 {name} {index} {value}" for name, index, value in edits]
        found += ["verify 4", "commit 4", "reset", "commit 4", "abort 4", f"step {rng.randint(20, 120)}"]
        found += rng.choice([[], ["undo"] * 3, [f"back {rng.randint(1, 30)}", "step 10"]])
    return plan, pulses(rng, range(1, 10), 300), found


def walks(reference, rng, _turn):
    """Pedestrians: calls at any time, recalls, rests in walk, clearances that a preempt cuts."""
    plan = quick_quad(reference, preemptDwellPhase={3: 34})
    plan["phaseWalk"] = {str(p): rng.choice([0, 2, 4, 7]) for p in range(1, 9)}
    plan["phaseWalk"]["2"] = rng.randint(1, 7)
    walking = [int(p) for p, value in plan["phaseWalk"].items() if value]
    plan["phasePedestrianClear"] = {str(p): rng.choice([0, 1, 3, 6]) for p in range(1, 9)}
    is_calm = rng.random() < 0.4
    plan["phaseMinRecall"] = {str(p): 1 for p in ([2, 6] if is_calm else rng.sample(range(1, 9), 4))}
    plan["pedestrianDetectorCallPhase"] = {str(d): rng.choice(walking) for d in range(1, 9)}
    for name, share in (("phasePedRecall", 0.1), ("phaseRestInWalk", 0.9 if is_calm else 0.4)):
        plan[name] = {str(p): 1 for p in walking if rng.random() < share}
    for name in ("preemptMinimumWalk", "preemptEnterPedClear", "preemptMinimumGreen"):
        plan[name] = {str(n): rng.choice([0, 1, 2]) for n in range(1, 4)}
    log, now, seldom = "", 0, rng.choice([40, 90, 200] if is_calm else [10, 40, 90])
    while now < 500:
        now += rng.randint(1, seldom)
        on = rng.sample(range(1, 9), 1)
        log += row(now, rng.choice([[], on]), on, rng.choice([[], [], [], [], [], [3]])) + row(now + 1, ())
        now += 1
    found = []
    for _ in range(rng.randint(4, 7)):
        found += [f"step {rng.randint(20, 130)}"]
        found += [f"when ped {rng.choice(walking)}", f"when call {rng.choice(walking)}"]
        found += rng.choice([[], ["preempt 1 on", f"step {rng.randint(1, 40)}", "preempt 1 off"], ["pattern 1"],
                             ["pattern 0"]])
    watches = [f"when ped {p}" for p in walking]
    return plan, log, found + watches + ["back 70"] + watches


def maximums(reference, rng, _turn):
    """Maximums that move with the endings of greens, and what stops them."""
    plan = brisk(rng.choice([reference.even.two(2), reference.even.quad(2)]))
    phases = [int(p) for p in plan["phaseEnabled"]]
    names = [("phaseDynamicMaxLimit", [0, 2, 3, 6, 9]), ("phaseDynamicMaxStep", [0, 1, 7, 15, 255])]
    for name, values in names:
        plan[name] = {str(p): rng.choice(values) for p in phases}
    plan["phaseMaxRecall"] = {str(p): int(rng.random() < 0.4) for p in phases}
    plan["phaseMinRecall"] = {str(p): 1 for p in phases}
    plan["vehicleDetectorCallPhase"] = {str(d): d for d in phases}
    plan["unitMax2"] = {"1": rng.randint(0, 1)}
    found = []
    for _ in range(rng.randint(3, 5)):
        name, values = rng.choice(names + [("phaseMaximum1", [2, 4, 9])])
        found += [f"step {rng.randint(80, 400)}", f"when interval {rng.choice(phases)}"]
        found += rng.choice([[], [], ["pattern 1", "step 90", "pattern 0"],
                             ["preempt 1 on", "step 50", "preempt 1 off"],
                             commit(1, [(name, rng.choice(phases), rng.choice(values))])])
    return plan, pulses(rng, phases, 1200), found + [f"step {rng.randint(100, 300)}"]


def come_and_go(rng, plan):
    """Lets conflicts come and go while a green lasts: calls that are not locked, and hardly a recall."""
    plan["phaseNonLock"] = {str(p): int(rng.random() < 0.9) for p in range(1, 9)}
    plan["phaseMinRecall"] = {"2": 1, "6": 1}
    plan["phaseMaxRecall"], plan["phaseSoftRecall"] = {}, {}
    if rng.random() < 0.3:
        plan["phaseMinRecall"], plan["phaseSoftRecall"] = {}, {str(p): 1 for p in rng.sample(range(1, 9), 3)}
    plan["phaseSimGapDisable"] = {str(p): int(rng.random() < 0.7) for p in range(1, 9)}
    plan["phaseMinimumGreen"] = {str(p): 8 for p in range(1, 9)}
    plan["phaseMaximum1"] = plan["phaseMaximum2"] = {str(p): 30 for p in range(1, 9)}
    plan["patternCycleTime"] = {}


def gaps(reference, rng, _turn):
    """Greens that end by gap: its reduction by time and by vehicles, added initial, gaps that are kept, recalls."""
    plan = quick_quad(reference)
    settings = [("phasePassage", [20, 30, 45]), ("phaseMinimumGap", [0, 5, 20]), ("phaseTimeToReduce", [0, 1, 3, 7]),
                ("phaseTimeBeforeReduction", [0, 1, 3, 30]), ("phaseCarsBeforeReduction", [0, 1, 4, 9]),
                ("phaseSimGapDisable", [0, 1]), ("phaseVariableInitial", [0, 1, 1]), ("phaseAddedInitial", [0, 7, 20]),
                ("phaseMaximumInitial", [0, 9, 20]), ("phaseMinRecall", [0, 0, 1]), ("phaseMaxRecall", [0, 0, 0, 1]),
                ("phaseSoftRecall", [0, 0, 1]), ("phaseNonLock", [0, 1]), ("phaseDualEntry", [0, 1]),
                ("phaseRedRevert", [0, 0, 30, 90, 150]), ("phaseMaximum1", [4, 6, 9])]
    for name, values in settings:
        plan[name] = {str(p): rng.choice(values) for p in range(1, 9)}
    partly(rng, plan)
    if rng.random() < 0.5:
        come_and_go(rng, plan)
    plan["unitRedRevert"] = {"1": rng.choice([0, 20, 120, 200])}
    plan["vehicleDetectorCallPhase"]["9"] = rng.randint(1, 8)
    plan["vehicleDetectorExtend"] = {str(d): rng.choice([0, 0, 5, 20]) for d in range(1, 10)}
    plan["vehicleDetectorDelay"] = {str(d): rng.choice([0, 0, 0, 15]) for d in range(1, 10)}
    log, now, often = "", 0, rng.choice([10, 20, 40])
    while now < 420:
        now += rng.randint(1, often)
        log += row(now, rng.sample(range(1, 10), rng.choice([0, 0, 1, 2])))
    found = []
    for _ in range(5):
        name, values = rng.choice(settings[1:8])
        edits = [(name, rng.randint(1, 8), rng.choice(values))]
        if rng.random() < 0.4:
            edits = [("phaseSimGapDisable", p, rng.choice([0, 0, 1])) for p in range(1, 9)]
        found += [f"step {rng.randint(60, 100)}"] + commit(1, edits)
        found += [f"when {rng.choice(['call', 'interval', 'output'])} {rng.randint(1, 8)}" for _ in range(3)]
    return plan, log, found + ["back 120", "when interval 2", "when interval 5"]


def few_phases(reference, rng, _turn):
    """Plans of one to three phases anywhere."""
    phases = sorted(rng.sample(range(1, 17), rng.randint(1, 3)))
    plan = {"version": 2, "phaseEnabled": dict.fromkeys(phases, 1), "sequenceData": {}, "phaseConcurrency": {}}
    plan["phaseRing"] = {p: rng.randint(1, 2) for p in phases}
    plan["phaseSide"] = {p: rng.randint(1, 4) for p in phases}
    for name, values in (("phaseMinimumGreen", [0, 1, 2]), ("phaseMaximum1", [2, 4]), ("phaseMaximum2", [3]),
                         ("phaseYellowChange", [30, 37]), ("phaseRedClear", [0, 8]), ("phasePassage", [0, 10]),
                         ("phaseMinRecall", [0, 1]), ("phaseSoftRecall", [0, 1]), ("phaseRedRevert", [0, 40]),
                         ("phaseDualEntry", [0, 1]), ("phaseWalk", [0, 1]), ("phasePedRecall", [0])):
        plan[name] = {p: rng.choice(values) for p in phases}
    for ring in (1, 2):
        order = sorted((p for p in phases if plan["phaseRing"][p] == ring), key=lambda p: (plan["phaseSide"][p], -p))
        plan["sequenceData"].update({16 * ring - 15 + k: p for k, p in enumerate(order)})
    for p in phases:
        friends = [q for q in phases if plan["phaseRing"][q] != plan["phaseRing"][p]
                   and plan["phaseSide"][q] == plan["phaseSide"][p]]
        plan["phaseConcurrency"][p] = sum(1 << q - 1 for q in friends)
    plan["vehicleDetectorCallPhase"] = {d: rng.choice(phases) for d in range(1, 17)}
    plan["preemptDwellPhase"] = {n: 1 << rng.choice(phases) - 1 for n in (1, 4)}
    plan["overlapIncludedPhases"] = {2: 1 << rng.choice(phases) - 1, 3: sum(1 << p - 1 for p in phases)}
    dark = rng.choice([p for p in range(1, 17) if p not in phases])
    found = [f"fault P{dark} G", rng.choice(["fault none", f"fault P{dark} R", "step 1"]), "when trip"]
    found *= rng.randint(0, 1)
    for _ in range(rng.randint(3, 6)):
        found += [f"step {rng.randint(10, 90)}", f"preempt {rng.choice([1, 4])} {rng.choice(['on', 'off'])}"]
        lamp = f"fault P{rng.choice(phases + [rng.randint(1, 16)])} "
        found += rng.choice([[], [lamp + "G", "fault none"], [lamp + "G", lamp + "R"], [lamp + rng.choice("GYR")]])
        found += rng.choice([[], ["reset"], ["undo", "show"], ["show", "when trip"]])
        found += [f"when {rng.choice(['interval', 'ped', 'call'])} {rng.choice(phases)}", "when stage"]
    plan = json.loads(json.dumps(plan))
    return plan, pulses(rng, range(1, 17), 300), found


def an_event(rng):
    """Something that a controller has to answer."""
    timing = rng.choice([("phaseRedClear", [0, 3, 25]), ("phaseYellowChange", [30, 45]), ("phaseRedRevert", [0, 50]),
                         ("phaseMinimumGreen", [0, 2, 5]), ("phaseMaximum1", [5, 9]), ("phasePedestrianClear", [0, 4]),
                         ("preemptTrackGreen", [0, 4]), ("preemptExitPhase", [0, 34, 136]),
                         ("patternCycleTime", [0, 32])])
    kinds = [[f"preempt {rng.randint(1, 4)} on"], [f"preempt {rng.randint(1, 4)} on"],
             [f"preempt {rng.randint(1, 4)} off"], [f"pattern {rng.choice([0, 1, 2])}"],
             ["fault P2 G", "fault P4 G", "reset"], ["fault P8 G", "fault none"],
             commit(1, [(timing[0], rng.randint(1, 2), rng.choice(timing[1]))]),
             commit(2, [("overlapIncludedPhases", 4, rng.choice([0, 6, 130]))])]
    return rng.choice(kinds)


def clearing_to_none(reference, rng):
    """A ring that clears to no phase for a preempt, and a crossing that begins about when it has cleared."""
    red = rng.choice([0, 10, 22])
    plan = quick_quad(reference, preemptDwellPhase={3: rng.choice([2, 32])}, phaseRedClear={2: red, 6: red},
                      overlapIncludedPhases={2: 36, 3: 130})
    watches = ["when interval 2", "when interval 6"]
    found = [f"step {rng.randint(25, 50)}", "preempt 3 on", f"step {30 + red + rng.choice([-1, 0, 0, 1])}"]
    found += [f"preempt {rng.choice([1, 2])} on", "step 1"] + watches + ["step 8"] + watches + ["step 70"] + watches
    return plan, "", found + ["back 76"] + watches + ["undo", "undo", "step 20"] + watches


def coincidences(reference, rng, _turn):
    """Events at any distance from each other: in yellows, clearances and crossings, preempts of one ring among them."""
    if rng.random() < 0.3:
        return clearing_to_none(reference, rng)
    plan = quick_quad(reference, preemptDwellPhase={3: rng.choice([8, 4, 32]), 4: rng.choice([1, 16, 64])},
                      preemptMinimumGreen={3: 1, 4: 1}, overlapIncludedPhases={2: 6, 3: 36, 4: 130},
                      phaseNonLock={3: 1, 5: 1})
    partly(rng, plan)
    plan["preemptExitPhase"] = {str(n): rng.choice([0, 0, 34, 8]) for n in (1, 2, 3)}
    plan["phaseRedClear"] = {str(p): rng.choice([0, 10, 22 if p % 2 == 0 else 10]) for p in range(1, 9)}
    found = [f"step {rng.randint(1, 30)}"]
    for _ in range(rng.randint(5, 7)):
        found += an_event(rng) + [f"step {rng.randint(1, 45)}"] + an_event(rng) + [f"step {rng.choice([1, 4, 12, 40])}"]
        found += [f"when interval {p}" for p in rng.sample(range(1, 9), 4)] + [f"when call {rng.randint(1, 8)}"]
    log = pulses(rng, range(1, 9), 400) if rng.random() < 0.7 else ""
    return plan, log, found + [f"when call {p}" for p in range(1, 9)] + ["back 90", "step 30"]


def late_lists(reference, rng, _turn):
    """Preempts whose lists are filled and emptied by commits while their inputs are on."""
    plan = quick_quad(reference, preemptDelay={1: rng.choice([0, 1]), 3: rng.choice([1, 3])})
    log, now = "", 0
    while now < 300:
        now += rng.randint(5, 60)
        log += row(now, rng.sample(range(1, 9), 1), (), rng.choice([[], [3], [3], [1], [1, 3], [4]]))
    found = []
    for _ in range(rng.randint(5, 8)):
        edits = rng.choice([[("preemptDwellPhase", 3, rng.choice([34, 132, 8, 0]))], [("preemptExitPhase", 1, 34)],
                            [("preemptDwellPhase", 1, 0), ("preemptExitPhase", 1, 0)], [("preemptDwellPhase", 1, 17)],
                            [("preemptDwellPhase", 4, 72), ("preemptTrackPhase", 4, 1)], [("preemptTrackGreen", 4, 1)],
                            [("preemptDwellPhase", 1, 132), ("preemptMaximumPresence", 1, 4)],
                            [("preemptDelay", 3, 0)]])
        found += [f"step {rng.randint(10, 60)}"] + commit(3, edits) + rng.choice([["when stage"], [], ["undo"]])
    return plan, log, found + ["step 40", "when stage", "back 80", "when stage"]


def forced_starts(reference, rng, _turn):
    """Greens that start just before, at and just after their instant of force-off."""
    late = rng.choice([-1, 0, 0, 1])
    phase, offset = rng.choice([(2, 5), (6, 5), (5, 15), (1, 15)])
    plan = quick_quad(reference, phaseYellowChange={phase: 39 - late}, phaseMinRecall={phase: 1})
    plan["phaseMinRecall"][str(rng.choice([3, 4, 7, 8]))] = 1
    plan["phaseMinimumGreen"][str(phase)] = 1
    plan["patternOffsetTime"]["1"] = offset
    found = ["pattern 1", "step 150", f"when interval {phase}", "pattern 1", "step 200", f"when interval {phase}"]
    return plan, pulses(rng, range(1, 9), 350), found + ["back 340", "pattern 2", "pattern 1", "step 40"]


LAMPS = [f"{kind}{number} {aspect}" for kind, aspects in (("P", "GYR"), ("W", "WCD"), ("O", "GYR"))
         for number in range(1, 5 if kind == "O" else 17) for aspect in aspects]


def lamps(reference, rng, _turn):
    """Lamps on heads of each kind, at any time, and what trips."""
    plan = quick_quad(reference, overlapIncludedPhases={2: 6, 3: 96}, phaseWalk={4: 2, 6: 2}, phasePedRecall={6: 1})
    found = []
    for _ in range(rng.randint(8, 14)):
        found += [f"step {rng.randint(1, 30)}", f"fault {rng.choice(LAMPS)}"]
        found += rng.choice([["fault none"], ["show"], [f"fault {rng.choice(LAMPS)}"], ["step 2", "when trip", "reset"],
                             ["pattern 1", "preempt 1 on", "begin 1", "step 1", "reset", "abort 1"]])
    return plan, pulses(rng, range(1, 9), 250), found + ["when trip", "back 50", "when trip", "undo", "undo", "show"]


ODD = """step|step x|step 1 2|step -1|step 4294967296|step 99999999999|step 00000000001|back|back 4294967295|seek x
    |seek 4294967295|undo 1|show 1|quit now|reset 1|when|when interval|when interval 0|when interval 17|when ped 17
    |when call x|when output 17|when alarm 0|when stage 1|when trip 0|when phase 1|begin|begin 0|begin 5|begin 1 1
    |commit 5|abort 0|verify|verify 5|set 1 phaseWalk 2|set 1 phaseWalk 2 x|set 1 PhaseWalk 2 1|set 1 phaseWalk 2 1 1
    |set 5 phaseWalk 2 1|set 0 phaseWalk 2 1|set 1 phaseWalk 0 1|set 1 phaseWalk 17 1|set 1 phaseWalk 4294967295 1
    |set 1 phaseWalk 2 256|set 1 phaseWalk 2 4294967295|set 1 unitMax2 2 1|set 1 splitTime 129 1|set 1 splitTime 128 1
    |set 1 preemptDelay 4 601|set 1 preemptDelay 4 600|set 1 vehicleDetectorDelay 16 2551|set 1 overlapType 4 2
    |set 1 preemptMaximumPresence 1 65536|set 1 phaseConcurrency 16 65536|set 1 phaseSide 16 5|set 1 phaseRing 16 3
    |set 1 patternOffsetTime 16 255|set 1 patternSequenceNumber 16 5|set 1 splitMode 1 6|set 1 sequenceData 128 17
    |pattern|pattern x|pattern 16|pattern 17|pattern 4294967295|pattern 3|preempt 1|preempt 1 yes|preempt 0 on
    |preempt 5 off|preempt 4294967295 on|preempt 3 on|preempt 3 off|preempt 01 on|preempt 1 on off|fault|fault P1
    |fault none none|fault P0 G|fault P17 G|fault P01 G|fault P16 G|fault P1 W|fault W1 G|fault W16 D|fault O5 G
    |fault O4 Y|fault O1 W|fault p1 G|fault P1 g|fault G P1|fault None|when trip|when stage|show|begin 01
    |abort 0000000001|commit 1|verify 1|begin 1|begin 2|step 0|back 0|seek 0""".replace("\n    ", "").split("|")


def odd_words(reference, rng, _turn):
    """Words and numbers that are no commands, and such as are at the edge of what they may be."""
    found = []
    for _ in range(40):
        found += [rng.choice(ODD)] + rng.choice([[], [], [], ["step 1"], ["undo"], ["show"]])
    return quick_quad(reference), "", found


FAMILIES = [broken_rules, broken_rules, many_edits, rounds, minutes, stages, stages, coordination, coordination, shapes,
            walks, walks, maximums, gaps, gaps, few_phases, coincidences, coincidences, late_lists, forced_starts,
            lamps, odd_words]
