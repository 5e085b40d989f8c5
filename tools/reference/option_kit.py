"""What families of sessions with options of coordination share: edits of options, logs, ticks and commands.

A plan is one of option_plans.py, with its keys as strings, and `table` the table of its pattern 1.
"""
from tools.reference.session_families import commit, row

FORCE, MAXIMUM, PERMISSIVE, LEAD = "coordForceMode coordMaximumMode patternPermissiveTime patternLeadLag".split()
RECYCLE = "phasePedestrianRecycle"
MODE, LIMIT = "coordCorrectionMode", "coordCorrectionLimit"
AT_ONCE, DWELL, SHORT_WAY, ADD_ONLY = range(4)
RECALLS = "phaseMinRecall phaseMaxRecall phasePedRecall".split()


# --- options ---

def a_time(rng, cycle, clearance=40):
    """A permissive time of a pattern, in seconds: short, about as far as the cycle's end, or nearly the whole cycle."""
    far = clearance // 10 + rng.choice([0, 1, 2, 4, 8])
    return min(rng.choice([1, 2, 3, far, far, cycle - 1]), cycle - 1)


def a_limit(rng):
    """A limit in percent of the cycle."""
    return rng.choice([0, 1, 17, 17, 33, 50, 50, 50, rng.randint(2, 49)])


def an_edit(rng, plan, number=None):
    """An edit of an option: its name, index and new value. That of lead and lag breaks a rule where it is needed."""
    name = rng.choice([FORCE, FORCE, MAXIMUM, PERMISSIVE, PERMISSIVE, LEAD, RECYCLE, MODE, LIMIT])
    number = number or rng.choice([1, 1, 2])
    if name in (FORCE, MAXIMUM):
        return name, 1, rng.randint(0, 2)
    if name in (MODE, LIMIT):
        return name, 1, rng.randint(AT_ONCE, ADD_ONLY) if name == MODE else a_limit(rng)
    if name == RECYCLE:
        return name, rng.choice(numbers(plan, "phaseWalk")), rng.randint(0, 1)
    if name == LEAD:
        return name, number, rng.randint(0, 1)
    return name, number, rng.choice([0, a_time(rng, plan["patternCycleTime"][str(number)])])


def edits(rng, plan):
    """One or two edits of options, of two values."""
    found = {}
    for _ in range(rng.choice([1, 1, 2])):
        name, index, value = an_edit(rng, plan)
        found[name, index] = value
    return [(name, index, value) for (name, index), value in found.items()]


def change(rng, changes):
    """Commands that change options. The desk is closed after them where a rule may be broken, and now and then."""
    closed = any(name == LEAD and not value for name, _, value in changes) or rng.random() < 0.1
    return commit(rng.randint(1, 4), changes)[:None if closed else -1]


def chosen(rng, seed, plan):
    """Values of the options, which of them are on: of four seeds one has but one option on, if lead and lag is not."""
    cycles = plan["patternCycleTime"]
    values = {FORCE: {"1": seed % 3}, MAXIMUM: {"1": rng.choice([0, 0, 1, 2])},
              PERMISSIVE: {number: rng.choice([0, a_time(rng, cycle)]) for number, cycle in cycles.items()},
              RECYCLE: {str(phase): rng.choice([0, 1, 1]) for phase in numbers(plan, "phaseWalk")}}
    if rng.random() < 0.25:
        alone = rng.choice(list(values))
        values = {alone: values[alone]}
    if rng.random() < 0.5:
        values |= {MODE: {"1": rng.choice([DWELL, SHORT_WAY, SHORT_WAY, ADD_ONLY])}, LIMIT: {"1": a_limit(rng)}}
    return values


# --- logs and commands ---

def numbers(plan, name):
    """The numbers of a plan's object whose value is not 0."""
    return [int(index) for index, value in plan[name].items() if value]


def pressed(rng, plan, chance):
    """Buttons, each of which is pressed by this chance."""
    return [button for button in numbers(plan, "pedestrianDetectorCallPhase") if rng.random() < chance]


def busy(rng, plan, last, gaps):
    """A log in which all phases are called, with cars throughout except on some detectors now and then, and buttons."""
    detectors = numbers(plan, "vehicleDetectorCallPhase")
    found, now = row(1, detectors, pressed(rng, plan, 0.5)), 1
    for _ in range(gaps):
        now += rng.randint(1, max(2 * last // (gaps + 1), 2))
        on = rng.sample(detectors, rng.randint(0, len(detectors)))
        found += row(now, on, pressed(rng, plan, 0.4))
    return found


def some(rng, plan, table):
    """A log with cars throughout on some detectors: none on the phases whose instants come first, mostly, so that those
    after them begin before their splits do."""
    called = {int(detector): phase for detector, phase in plan["vehicleDetectorCallPhase"].items()}
    firsts = {min((p for p in table.found.phases if table.found.rings[p] == ring), key=table.instant, default=0)
              for ring in (1, 2)}
    on = [detector for detector, phase in called.items() if phase not in firsts or rng.random() < 0.2]
    on = rng.sample(on, rng.randint(1, len(on))) if on and rng.random() < 0.4 else on
    later = rng.sample(list(called), rng.randint(1, len(called)))
    return row(1, on) + (row(rng.randint(60, 200), later) if rng.random() < 0.3 else "")


def changed_within(rng, commands, changes):
    """The commands with a change of options within the first long step after a pattern."""
    begun = next(place for place, command in enumerate(commands) if command.startswith("pattern"))
    for place, command in enumerate(commands[begun:], begun):
        word, *ticks = command.split(" ")
        if word == "step" and int(ticks[0]) > 20:
            before = rng.randint(1, int(ticks[0]) // 2)
            parts = [f"step {before}", *change(rng, changes), f"step {int(ticks[0]) - before}"]
            return commands[:place] + parts + commands[place + 1:]
    return commands


def watched(rng, plan):
    """A value of the state that `when` can be asked for."""
    phase = rng.choice(numbers(plan, "phaseEnabled"))
    return rng.choice([f"when interval {phase}", f"when interval {phase}", f"when call {phase}"])


def steps(rng, table, *shares):
    """Ticks that are about one of these shares of a cycle."""
    return f"step {max(1, round(rng.choice(shares) * 10 * table.cycle * rng.uniform(0.8, 1.2)))}"


def tick_at(plan, table, local):
    """A tick number not long after the first ones at which the local counter of pattern 1 is this."""
    tick = (local + 10 * plan["patternOffsetTime"].get("1", 0)) % (10 * table.cycle)
    return tick if tick >= 30 else tick + 10 * table.cycle
