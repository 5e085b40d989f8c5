"""Sessions of the sizes of real cabinets: up to 64 vehicle detectors, 16 pedestrian detectors, 16 overlaps, 8 preempts.

`sizes` gives the plan, the log and the commands of a seed; none is stored. The plans are those of the reference with
short times, of two rings and two sides or at random, in texts of version 3. Their detectors, buttons, overlaps and
preempts are at all numbers, mostly beyond 16, 8, 4 and 4. Logs are in lists, now and then in digits, and with ranges or
without. Commands watch, edit, switch and light what is beyond, and ask for wide lines; some name what there is not.
"""
import json

from tools.reference.session_families import brisk, commit, partly, quick_quad

MOST = {"vehicle": 64, "pedestrian": 16, "overlap": 16, "preempt": 8}
BEFORE = {"vehicle": 16, "pedestrian": 8, "overlap": 4, "preempt": 4}
SETTINGS = {
    "vehicleDetectorDelay": [0, 0, 5, 20, 60], "vehicleDetectorExtend": [0, 0, 5, 20, 50], "vehicleDetectorNoActivity": [0, 0, 0, 1],
    "vehicleDetectorMaxPresence": [0, 0, 0, 1], "vehicleDetectorErraticCounts": [0, 0, 2, 5], "vehicleDetectorFailTime": [0, 2, 255],
}
TIMES = {
    "preemptDelay": [0, 0, 0, 1], "preemptTrackGreen": [0, 1, 3], "preemptMinimumDuration": [0, 1, 4], "preemptMaximumPresence": [0, 0, 8],
    "preemptMinimumGreen": [0, 1, 3], "preemptMinimumWalk": [0, 1], "preemptEnterPedClear": [0, 2], "preemptChoosesAnew": [0, 0, 1],
}
# Lists of one and two phases of the plan of eight phases that go together, and of overlaps.
TOGETHER = [132, 72, 34, 17, 18, 33, 68, 136, 8, 1, 2, 16, 128, 4]
INCLUDED = [3, 6, 12, 48, 96, 129, 24, 10, 160, 66, 9, 2, 8]


def a_number(rng, kind):
    """A number of a kind: mostly one beyond those that there were."""
    if rng.random() < 0.75:
        return rng.randint(BEFORE[kind] + 1, MOST[kind])
    return rng.randint(1, MOST[kind])


def some(rng, kind, most):
    """Some numbers of a kind."""
    return sorted({a_number(rng, kind) for _ in range(rng.randint(1, most))})


def enabled(plan):
    """The phases of a plan."""
    return [int(index) for index, value in plan["phaseEnabled"].items() if value]


def with_detectors(rng, plan):
    """Gives a plan detectors with delays, extensions and diagnostics of their own, and buttons."""
    detectors, phases = some(rng, "vehicle", 40), enabled(plan)
    plan["vehicleDetectorCallPhase"] = {str(d): rng.choice(phases) for d in detectors}
    for name, values in SETTINGS.items():
        plan[name] = {str(d): rng.choice(values) for d in some(rng, "vehicle", 30)}
    walking = [int(index) for index, value in plan.get("phaseWalk", {}).items() if value and int(index) in phases]
    buttons = some(rng, "pedestrian", 10) if walking else []
    plan["pedestrianDetectorCallPhase"] = {str(b): rng.choice(walking) for b in buttons}


def with_overlaps(rng, plan, is_quad):
    """Gives a plan overlaps, with modifiers and across rings."""
    phases = enabled(plan)
    def a_list():
        return rng.choice(INCLUDED) if is_quad else sum(1 << p - 1 for p in rng.sample(phases, min(len(phases), rng.randint(1, 3))))
    numbers = some(rng, "overlap", 10)
    plan["overlapIncludedPhases"] = {str(n): a_list() for n in numbers}
    plan["overlapType"] = {str(n): int(rng.random() < 0.4) for n in numbers}
    plan["overlapModifierPhases"] = {str(n): a_list() for n in numbers if plan["overlapType"][str(n)] and rng.random() < 0.7}
    plan["overlapAcrossRings"] = {str(n): int(rng.random() < 0.4) for n in numbers}


def with_preempts(rng, plan, is_quad):
    """Gives a plan preempts."""
    phases = enabled(plan)
    def a_list():
        return rng.choice(TOGETHER) if is_quad else 1 << rng.choice(phases) - 1
    numbers = some(rng, "preempt", 6)
    plan["preemptDwellPhase"] = {str(n): a_list() for n in numbers}
    for name in ("preemptTrackPhase", "preemptExitPhase"):
        plan[name] = {str(n): a_list() for n in numbers if rng.random() < 0.5}
    for name, values in TIMES.items():
        plan[name] = {str(n): rng.choice(values) for n in some(rng, "preempt", 6)}


def a_plan(reference, rng):
    """A plan of version 3 that breaks no rule, with numbers beyond those that there were."""
    while True:
        is_quad = rng.random() < 0.7
        plan = quick_quad(reference) if is_quad else brisk(reference.even.hexa(rng))
        if is_quad:
            plan["phaseWalk"] = {str(p): rng.choice([0, 1, 2]) for p in (2, 4, 6, 8)} | {"2": 2}
            plan["phaseRedClear"] = {str(p): rng.choice([0, 5, 10, 22]) for p in range(1, 9)}
            if rng.random() < 0.3:
                partly(rng, plan)
        with_detectors(rng, plan)
        with_overlaps(rng, plan, is_quad)
        with_preempts(rng, plan, is_quad)
        plan["version"] = 3
        if rng.random() < 0.5:
            plan["phaseMinRecall"] = {}
        if reference.accepts(plan):
            return json.loads(json.dumps(plan))


def listed(rng, numbers):
    """A list of numbers, with ranges where they follow one another, or, now and then, without."""
    numbers, found = sorted(numbers), []
    while numbers:
        run = 1
        while run < len(numbers) and numbers[run] == numbers[0] + run and rng.random() < 0.95:
            run += 1
        found.append(f"{numbers[0]}-{numbers[run - 1]}" if run > 1 else str(numbers[0]))
        numbers = numbers[run:]
    return ",".join(found)


def list_row(rng, on):
    """The lists of what is on of each kind: `V1,4 P2 E1`."""
    return " ".join(letter + listed(rng, it) for letter, it in zip("VPE", on) if it)


def a_log(rng, plan, last):
    """Detectors and buttons that come and go, and preempt inputs now and then: in lists, or in digits as far as those go."""
    used = [int(d) for d in plan["vehicleDetectorCallPhase"]]
    buttons = [int(b) for b in plan["pedestrianDetectorCallPhase"]] or [1]
    now, log, on, in_digits = 0, "", set(), rng.random() < 0.05
    held, preempts = set(), set()
    gap = rng.choice([8, 30, 90])
    while now < last:
        now += rng.randint(1, gap)
        on ^= {rng.choice(used) if rng.random() < 0.8 else a_number(rng, "vehicle") for _ in range(rng.randint(1, 6))}
        held ^= {rng.choice(buttons)} if rng.random() < 0.2 else set()
        preempts ^= {a_number(rng, "preempt")} if rng.random() < 0.06 else set()
        if in_digits:
            fields = [(on, 16), (held, 8), (preempts, 4)]
            log += "%07d %s\n" % (now, " ".join("".join("01"[k in it] for k in range(1, most + 1)) for it, most in fields))
        else:
            row = list_row(rng, (on, held, preempts))
            log += "%07d%s\n" % (now, row and f" {row}")
        if rng.random() < 0.02:
            log += rng.choice(["# V1 P2\n", "\n", "   \n"])
    return log


def an_edit(rng, plan):
    """An edit beyond the numbers that there were; some name an index or a value that there is not."""
    name, values = rng.choice(list((SETTINGS | TIMES).items()) + [
        ("vehicleDetectorCallPhase", [0, *enabled(plan)]), ("pedestrianDetectorCallPhase", [0, 2]), ("overlapIncludedPhases", [0, *INCLUDED]),
        ("overlapType", [0, 1]), ("overlapModifierPhases", [0, 1, 32]), ("overlapAcrossRings", [0, 1]),
        ("preemptTrackPhase", [0, *TOGETHER]), ("preemptDwellPhase", [0, *TOGETHER]), ("preemptExitPhase", [0, *TOGETHER])])
    kind = next(it for it in MOST if name.startswith(it))
    index = rng.choice([0, MOST[kind] + 1, 255]) if rng.random() < 0.05 else a_number(rng, kind)
    return name, index, rng.choice(values) if rng.random() < 0.97 else 70000


def a_command(rng, plan):
    """Some commands on what is beyond."""
    kind = rng.random()
    if kind < 0.3:
        return [f"preempt {rng.choice([a_number(rng, 'preempt'), a_number(rng, 'preempt'), 9])} {rng.choice(['on', 'on', 'off'])}",
                f"step {rng.randint(1, 40)}"]
    if kind < 0.45:
        return [f"when {rng.choice(['output', 'alarm'])} {rng.choice([a_number(rng, 'vehicle'), 65]) if rng.random() < 0.1 else a_number(rng, 'vehicle')}"]
    if kind < 0.55:
        return [f"fault O{rng.choice([a_number(rng, 'overlap'), 17])} {rng.choice('GYR')}", f"step {rng.randint(1, 5)}", "reset", "fault none"]
    if kind < 0.65:
        return [f"lines {rng.choice(['wide', 'wide', 'narrow', 'long'])}", "show"]
    if kind < 0.85:
        return commit(rng.randint(1, 4), [an_edit(rng, plan) for _ in range(rng.choice([1, 1, 2, 5]))]) + ["when stage"]
    return rng.choice([["undo"], ["undo", "undo", "show"], [f"back {rng.randint(1, 60)}"], [f"pattern {rng.randint(0, 2)}"],
                       [f"preempt {n} off" for n in range(1, 9)], [f"step {rng.randint(40, 300)}"]])


def sizes(reference, rng, _seed):
    """The plan, log and commands of a session."""
    plan = a_plan(reference, rng)
    found = [f"lines {rng.choice(['wide', 'wide', 'narrow'])}", f"step {rng.randint(1, 60)}"]
    for _ in range(rng.randint(10, 20)):
        found += a_command(rng, plan)
        found += rng.choice([["when stage"], [f"when interval {rng.choice(enabled(plan))}"], [f"step {rng.randint(1, 60)}"], []])
    ends = [f"when output {a_number(rng, 'vehicle')}", f"when alarm {a_number(rng, 'vehicle')}", "when stage", "when trip"]
    return plan, a_log(rng, plan, rng.choice([600, 1500])), found + ["step 150", *ends]
