"""Families of sessions in which the monitor trips, at a chosen moment, and of what is done until it is reset.

A family is given the reference (make_sessions.py says what that is), a source of random numbers, and how many sessions
of it came before. It runs the reference as it writes the session, to find the moment.
"""
import json

from tools.reference.session_families import LAMPS, commit, partly, pulses, quick_quad

MOMENTS = {
    "in a crossing": lambda s: s.cross is not None,
    "in a preempt's track": lambda s: s.stage == "Track",
    "in a preempt's dwell": lambda s: s.stage == "Dwell",
    "in a preempt's exit": lambda s: s.stage == "Exit",
    "in a preempt, in a crossing": lambda s: s.service and s.cross is not None,
    "in a yellow": lambda s: "Y" in s.interval[1:],
    "in a red clearance": lambda s: "C" in s.interval[1:],
    "in a walk": lambda s: "W" in s.ped[1:],
    "in a pedestrian clearance": lambda s: "C" in s.ped[1:],
    "in a pattern": lambda s: s.pattern and s.plan["patternCycleTime"][s.pattern],
}
LISTS = ["preemptDwellPhase", "preemptTrackPhase", "preemptExitPhase"]
DURING = ["in a transaction", "with edits that are verified", "in no transaction"]
AT_A_TICK = {
    "in a preempt's track, all red": lambda s: s.stage == "Track" and is_red(s),
    "in a preempt's dwell, all red": lambda s: s.stage == "Dwell" and is_red(s),
    "in a preempt's exit, all red": lambda s: s.stage == "Exit" and is_red(s),
    "in a crossing, all red": lambda s: s.cross is not None and is_red(s),
}


def is_red(state):
    """Whether no head of a phase shows green or yellow, so that a lamp of one conflicts with none yet."""
    return not set("GY") & set(state.interval[1:])


class Run:
    """A session of the reference, and the commands that it was given."""

    def __init__(self, reference, plan, log):
        bench = self.bench = reference.bench
        plan, fault = bench.read_plan(json.dumps(plan).encode(), bench.V2)
        assert fault is None, fault
        self.session = bench.Session(plan, bench.read_log(log.encode())[0], bench.V2)
        self.commands = []

    @property
    def state(self):
        """The state after all commands."""
        return self.session.states[-1]

    def do(self, *commands):
        """Gives commands."""
        for command in commands:
            self.commands.append(command)
            self.session.answer(self.bench.read_command(command.encode(), self.bench.V2), [])

    def go_until(self, holds, most):
        """Steps to the first tick after which something holds, and returns whether there was one within so many."""
        count = 0
        while count < most and not holds(self.state):
            self.session.answer(("step", 1), [])
            count += 1
        if count:
            self.commands.append(f"step {count}")
        return bool(holds(self.state))

    def trips(self, lamps, ticks):
        """Whether the monitor has tripped after these lamps, and so many ticks behind each."""
        state = self.state
        for lamp in lamps:
            state = self.bench.step(state, self.bench.read_command(f"fault {lamp}".encode(), self.bench.V2))
            for tick in range(ticks):
                state = self.bench.step(state, ("tick", self.session.row(state.now + 1)))
        return state.trip is not None


def plan_of_stages(reference, rng):
    """Eight phases with short times, preempts of all stages, walks and an overlap more."""
    lists = [rng.choice([132, 72, 34, 17, 8, 1]) for _ in range(12)]
    plan = quick_quad(reference, preemptDwellPhase=dict(zip(range(1, 5), lists)), overlapIncludedPhases={2: 36, 3: 130})
    for k, name in enumerate(LISTS[1:]):
        plan[name] = {str(n): lists[4 + 4 * k + n - 1] for n in range(1, 5)}
    for name, values in (("preemptTrackGreen", [1, 2, 3]), ("preemptMaximumPresence", [0, 8]),
                         ("preemptMinimumDuration", [0, 2]), ("preemptMinimumGreen", [0, 1, 2])):
        plan[name] = {str(n): rng.choice(values) for n in range(1, 5)}
    plan["phaseWalk"].update({"4": 2, "6": rng.choice([1, 3])})
    plan["phasePedestrianClear"].update({"4": 2, "6": 3})
    plan["phasePedRecall"] = {"2": 1, "6": rng.randint(0, 1)}
    plan["phaseMinRecall"].update({str(rng.choice([3, 4, 7, 8])): 1})
    plan["phaseRedClear"] = {str(p): rng.choice([5, 10] if p % 2 else [5, 10, 22]) for p in range(1, 9)}
    apart = json.loads(json.dumps(plan))
    partly(rng, apart)
    return apart if reference.accepts(apart) else plan


def come_to(run, rng, moment):
    """Brings a moment about, if it comes."""
    holds = {**MOMENTS, **AT_A_TICK}[moment]
    if "pattern" in moment:
        run.do(f"pattern {rng.randint(1, 2)}")
    run.go_until(lambda s: False, rng.randint(1, 40))
    if "preempt" in moment:
        n = rng.randint(1, 4)
        run.do(f"preempt {n} on")
        if "exit" in moment:
            run.go_until(lambda s: s.stage == "Dwell", 150)
            run.do(f"preempt {n} off")
    found = run.go_until(holds, 200)
    for _ in range(rng.choice([0, 0, 1, 2, 5])):
        if found and holds(run.bench.step(run.state, ("tick", run.session.row(run.state.now + 1)))):
            run.do("step 1")


def lamps_that_trip(run, rng, kind):
    """Lamps that trip the monitor at once, behind one another or at a tick soon after, or none if there are no such."""
    ticks = rng.randint(1, 40) if kind == "at a tick" else 0
    for lamp in rng.sample(LAMPS, 20 if ticks else len(LAMPS)):
        pair = [lamp[:-1] + "G", lamp[:-1] + "R"] if kind == "behind another" and lamp[0] != "W" else [lamp]
        if run.trips(pair, ticks) and (len(pair) == 1 or not run.trips(pair[:1], 0)):
            if not ticks or not run.trips(pair, 0):
                return pair
    return []


def trip(run, rng, *first):
    """Lights lamps that trip the monitor, in the first of these ways in which there are such."""
    kinds = ["at once", "behind another", "at a tick"]
    for kind in [*first, *rng.sample(kinds, len(kinds))]:
        lamps = lamps_that_trip(run, rng, kind)
        if lamps:
            run.do(*(f"fault {lamp}" for lamp in lamps))
            run.go_until(lambda s: s.trip, 40)
            return


def an_edit(rng):
    """Edits of a time, of a preempt's list, or of the structure."""
    return rng.choice([[("phasePassage", rng.randint(1, 8), rng.randint(20, 40))],
                       [("phaseMaximum1", rng.randint(1, 8), rng.randint(8, 20))],
                       [("phaseYellowChange", rng.randint(1, 8), rng.choice([29, 30, 45]))],
                       [(rng.choice(LISTS), rng.randint(1, 4), rng.choice([0, 34, 132, 8]))],
                       [("overlapIncludedPhases", 4, rng.choice([0, 6, 130]))],
                       [("phaseConcurrency", 1, 32), ("phaseConcurrency", 5, 2)]])


def while_tripped(run, rng, station):
    """What may be done while the monitor has tripped, in any order."""
    on = rng.choice(["on", "off"])
    kinds = [["pattern 1"], ["pattern 0"], [f"preempt {rng.randint(1, 4)} {on}"], [f"preempt {rng.randint(1, 4)} {on}"],
             ["fault none"], [f"fault {rng.choice(LAMPS)}"], [f"step {rng.randint(1, 9)}"], ["show", "when trip"],
             ["when stage", f"when interval {rng.randint(1, 8)}"], commit(station, an_edit(rng)),
             [f"verify {station}", f"commit {station}"], ["undo"], ["back 1"], [f"begin {station}"],
             [f"abort {station}"]]
    rng.shuffle(kinds)
    for commands in kinds[:rng.randint(5, 12)]:
        run.do(*commands)


def way_back(run, rng):
    """Takes inputs back one by one with the display of each, and then all, and goes the first ticks again."""
    for _ in range(min(len(run.session.inputs), rng.choice([20, 30, 45]))):
        run.do("undo", "show")
    run.do("when trip", "when stage")
    if rng.random() < 0.5:
        run.do(f"step {rng.randint(1, 12)}", "show")
    run.do("seek 0", "show", *["undo"] * rng.randint(1, 4), "show", "step 5")


def tripped(reference, rng, turn):
    """A trip at each moment, in a transaction or none, what is done while it lasts, a reset, and the way back."""
    moment = list(MOMENTS)[turn % len(MOMENTS)]
    during = DURING[turn // len(MOMENTS) % len(DURING)]
    plan = plan_of_stages(reference, rng)
    log = pulses(rng, range(1, 9), 300) if rng.random() < 0.7 else ""
    run, station = Run(reference, plan, log), rng.randint(1, 4)
    come_to(run, rng, moment)
    if during != "in no transaction":
        run.do(*commit(station, an_edit(rng))[:-2 if "verified" in during else -3])
    run.do("show", "when stage")
    trip(run, rng)
    run.do("show", "when trip")
    while_tripped(run, rng, station)
    run.do("reset", "show", rng.choice([f"commit {station}", f"abort {station}", "fault none", "reset"]))
    run.go_until(lambda s: False, rng.randint(3, 60))
    if rng.random() < 0.5:
        trip(run, rng)
        while_tripped(run, rng, station)
        run.do(*rng.choice([[], ["reset", "step 4"]]))
    run.do("show", "when trip", "when stage", f"when interval {rng.randint(1, 8)}", f"when call {rng.randint(1, 8)}")
    way_back(run, rng)
    return plan, log, run.commands


STRUCTURAL = [[("phaseConcurrency", 1, 32), ("phaseConcurrency", 5, 2)], [("overlapIncludedPhases", 4, 130)],
              [("overlapIncludedPhases", 2, 0), ("phaseMaximum1", 2, 9)]]
OF_LISTS = [[("preemptDwellPhase", 1, 34)], [("preemptDwellPhase", 2, 34)], [("preemptDwellPhase", 3, 34)],
            [("preemptDwellPhase", 4, 34)], [("preemptExitPhase", 1, 0), ("preemptExitPhase", 2, 17)]]


def undone(run, rng, most):
    """Takes inputs back one by one with the display of each, to the very first if there are no more than this."""
    for _ in range(min(len(run.session.inputs), most) + 1):
        run.do("undo", "show")
    run.do("when trip", "when stage", f"step {rng.randint(1, 40)}", "show", "seek 0", "show", "undo")


def at_rest(reference, rng, turn):
    """A trip while no phase is in service, at power-up or after a reset: commits of the structure take effect."""
    plan, station = plan_of_stages(reference, rng), rng.randint(1, 4)
    run = Run(reference, plan, "")
    if turn % 2:
        come_to(run, rng, rng.choice(list(MOMENTS)))
        trip(run, rng)
        run.do("reset", "show")
    first, second = rng.sample([rng.choice(STRUCTURAL), rng.choice(OF_LISTS), an_edit(rng)], 2)
    run.do(*commit(station, first)[:rng.choice([-1, -2, -3])] if turn // 2 % 2 else [])
    trip(run, rng, "behind another")
    run.do("show", "when trip", *commit(station, first), "show", "pattern 1", f"preempt {rng.randint(1, 4)} on")
    run.do(*commit(station % 4 + 1, second), f"step {rng.randint(1, 3)}", "undo", "show", "fault none", "show")
    run.do(*commit(station, rng.choice(STRUCTURAL)), "reset", "show", f"step {rng.randint(1, 20)}")
    undone(run, rng, 70)
    return plan, "", run.commands


def at_a_tick(reference, rng, turn):
    """A lamp that conflicts with no phase yet, and trips the monitor at the tick at which the next phase starts."""
    moment = list(AT_A_TICK)[turn % len(AT_A_TICK)]
    plan, station = plan_of_stages(reference, rng), rng.randint(1, 4)
    log = pulses(rng, range(1, 9), 300)
    run, edits = Run(reference, plan, log), rng.choice([an_edit(rng), rng.choice(OF_LISTS)])
    come_to(run, rng, moment)
    run.do(*commit(station, edits)[:[-2, -3, 0][turn // len(AT_A_TICK) % 3]])
    trip(run, rng, *["at a tick"] * 5)
    run.do("show", "when trip", "when stage")
    while_tripped(run, rng, station)
    run.do("reset", "show", f"step {rng.randint(1, 20)}")
    way_back(run, rng)
    return plan, log, run.commands


def refused_until_reset(reference, rng, turn):
    """A commit that has to wait is refused while the monitor has tripped in service, and taken after the reset."""
    moment = list(MOMENTS)[turn % len(MOMENTS)]
    plan, station = plan_of_stages(reference, rng), rng.randint(1, 4)
    log = pulses(rng, range(1, 9), 300) if rng.random() < 0.5 else ""
    run = Run(reference, plan, log)
    come_to(run, rng, moment)
    edits = rng.choice(OF_LISTS if "preempt" in moment and rng.random() < 0.5 else STRUCTURAL)
    run.do(*commit(station, edits)[:-2])
    trip(run, rng)
    run.do("show", f"commit {station}", *rng.sample(["pattern 1", "preempt 1 off", "step 2", "fault none"], 2))
    run.do(f"commit {station}", "reset", "show", f"commit {station}", "show", "when trip", f"step {rng.randint(1, 30)}")
    way_back(run, rng)
    return plan, log, run.commands


# The sessions from this one on are of these families in turn. Those before are of the first, which came before them.
FIRST_OF_LATER = 240
LATER = [at_rest, at_a_tick, refused_until_reset]


def trips(reference, rng, seed):
    """The session of a seed."""
    if seed < FIRST_OF_LATER:
        return tripped(reference, rng, seed)
    return LATER[seed % len(LATER)](reference, rng, seed // len(LATER))
