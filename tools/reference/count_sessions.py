"""Counts what occurs in stored sessions, and names those whose stored answers are not the reference's.

    python3 -m tools.reference.count_sessions --reference FOLDER FILE..

FOLDER holds the independent reference (make_sessions.py says what that is). Two tables are printed: totals, and for
each command, refusal, rule, watch, trip, stage, force-off, cause of an ending in a pattern, walk within a green and way
of a local counter into step in how many places and in how many sessions it occurs. Of a walk that pedestrian recycle
does not begin it is told what keeps it back, once for as long as that does. Of the sessions that have options of
coordination it is told of how many the answers are others with an option at 0.
"""
import argparse
import os
import re
from collections import Counter

from tools.programs import stored_cases
from tools.reference.make_sessions import Reference
from tools.reference.reference_events import (Tick, behind_instant, cause_at, conflicting, coordinated_phases,
                                              cycle_of, force_off_cause, force_off_instant, has_gapped_out,
                                              has_maxed_out, has_maximum_recall, has_pedestrian_recall, is_coordinated,
                                              is_ended_by_preempt, is_forced_off, is_pressed, runs_pattern, steps,
                                              was_in_step)

# The options that are 0 where a plan does not name them, and their values that stand in a plan text or in a command.
OPTIONS = ("coordForceMode coordMaximumMode patternPermissiveTime patternLeadLag phasePedestrianRecycle "
           "coordCorrectionMode coordCorrectionLimit").split()
# The modes in which a local counter comes into step, by their numbers.
AT_ONCE, DWELL, SHORT_WAY = range(3)


def counting(bench, found):
    """A session of the reference that counts in `found` what its commands meet."""

    class Counting(bench.Session):
        def apply(self, given):
            before = self.states[-1]
            refusal = super().apply(given)
            if before.trip:
                found[while_tripped(given, before, refusal)] += 1
            if refusal:
                found["refusal " + " ".join(refusal.split(" ")[:2])] += 1
            else:
                count_change(found, given, before, self.states[-1])
                count_ways(found, bench, given, before, self.states[-1])
                if given[0] == "tick":
                    tick = Tick(bench, before, self.states[-1], given[1])
                    count_coordination(found, self, tick)
                    count_recycle(found, self, tick)
                    count_steps(found, tick)
            return refusal

        def answer(self, command, out):
            found["command " + {"switch": "preempt"}.get(command[0], command[0])] += 1
            size, states = len(out), list(self.states)
            super().answer(command, out)
            count_answer(found, command, out[size:])
            undone = states[len(self.states) - 1:]
            found["trips taken back"] += sum(bool(y.trip and not x.trip) for x, y in zip(undone, undone[1:]))

    return Counting


def count_change(found, given, before, after):
    """Counts what an input that was not refused brings."""
    if given[0] == "tick":
        count_tick(found, before, after)
    if given[0] == "verify" and after.rule:
        found[f"rule K{after.rule:02}"] += 1
    if given[0] == "commit":
        found[f"commit {kind_of_commit(before)}"] += 1
    if after.trip and not before.trip:
        cause = f"at a {'tick' if given[0] == 'tick' else 'fault'}"
        found[f"trip {after.trip[1]} {cause}"] += 1
        for place in places(before):
            found[f"trip in {place} {cause}"] += 1
    if given[0] == "reset":
        found["reset of a tripped bench" if before.trip else "reset of another"] += 1


def kind_of_commit(before):
    """What the edits of a commit change."""
    changed = {name for (name, index), value in before.edits if before.plan[name][index] != value}
    return "structural" if changed & before.lim.structural else "other" if changed else "unchanged"


def places(state):
    """What goes on in a state."""
    found = ["a crossing"] * (state.cross is not None) + ["a transaction"] * (state.owner is not None)
    found += [f"the stage {state.stage}"] if state.service else []
    return found or (["service"] if "G" in state.interval[1:] else ["no service"])


def while_tripped(given, before, refusal):
    """The name of an input that is given while the monitor has tripped."""
    kind = {"switch": "preempt"}.get(given[0], given[0])
    if refusal:
        return f"tripped: {kind}, refused {refusal.split(' ')[0]}"
    return f"tripped: {kind}" + (f" {kind_of_commit(before)}" if kind == "commit" else "")


def count_tick(found, before, after):
    """Counts what a tick brings."""
    found["ticks"] += 1
    if after.trip:
        found["ticks tripped"] += 1
    elif after.pattern and after.plan["patternCycleTime"][after.pattern]:
        found["ticks in a pattern"] += 1
    if after.service:
        found[f"stage {after.stage}, ticks"] += 1
    if after.service and (before.service, before.stage) != (after.service, after.stage):
        found[f"stage {after.stage}, beginnings"] += 1
    if after.cross and not before.cross:
        found["crossings"] += 1
    for name in sorted(set(after.alarm) - {"None"} - set(before.alarm)):
        found[f"alarm {name}"] += 1
    found["starts"] += sum(x == "G" != y for x, y in zip(after.interval, before.interval))
    found["walks"] += sum(x == "W" != y for x, y in zip(after.ped, before.ped))
    if after.lastend != before.lastend and not before.trip:
        found["endings that move a maximum"] += 1


def count_coordination(found, session, tick):
    """Counts the force-offs of a tick of a session, the newest, and what ends greens in it, where a pattern runs."""
    if tick.before.trip or not runs_pattern(tick.before):
        return
    count_force_offs(found, tick)
    for phase in ended_in(tick):
        found[f"green in a pattern ends by {causes(session, tick, phase)}"] += 1


def causes(session, tick, phase):
    """What ends a green: the gap, the maximum and a force-off, with what it is forced off by first."""
    if is_ended_by_preempt(tick, phase):
        return "a preempt"
    gapped = has_gapped_out(tick, phase) and not has_maximum_recall(tick.before, phase)
    named = ["the gap"] * gapped + ["the maximum"] * has_maxed_out(tick, phase)
    if is_coordinated(tick.before, phase) and not tick.after.service:
        named = []
    if is_forced_off(tick, phase):
        named.append(f"force-off {first_cause(session, tick, phase)}")
    return " and ".join(named) or "no cause"


def first_cause(session, tick, phase):
    """By what a phase is forced off in the tick from which on it is."""
    states, place = session.states, len(session.states) - 2
    while place > 0 and states[place].forced[phase]:
        given = session.inputs[place - 1]
        if given[0] == "tick" and not states[place - 1].forced[phase]:
            return force_off_cause(Tick(tick.bench, states[place - 1], states[place], given[1]), phase)
        place -= 1
    return force_off_cause(tick, phase)


def ended_in(tick):
    """The phases whose greens end in a tick."""
    letters = enumerate(zip(tick.before.interval, tick.after.interval))
    return [phase for phase, (was, now) in letters if (was, now) == ("G", "Y")]


def is_apart(bench, state):
    """Whether a pattern with lead and lag runs in which the splits of the coordinated phases end at different times."""
    plan = state.plan
    if not plan["patternLeadLag"][state.pattern]:
        return False
    table, order = plan["patternSplitNumber"][state.pattern], plan["patternSequenceNumber"][state.pattern]
    held = coordinated_phases(bench, state)
    return len({bench.ends_at(plan, state.lim, order, table, phase) for phase in held}) > 1


def count_force_offs(found, tick):
    """Counts the phases that are forced off from a tick on, by what that is: where they end in it too."""
    begun = {p for p, forced in enumerate(tick.after.forced) if forced and not tick.before.forced[p]}
    begun |= {p for p in ended_in(tick) if not tick.before.forced[p] and is_forced_off(tick, p)}
    for phase in begun:
        cause = force_off_cause(tick, phase)
        found[f"force-offs {cause}"] += 1
        is_new = tick.bench.local_of(tick.after) < force_off_instant(tick.bench, tick.before, phase)
        if is_new and cause not in ("at the instant", "by the length of the green"):
            found[f"force-offs {cause}, past the end of the cycle"] += 1
        if cause and cause_at(tick, phase, steps(tick)[-1]) is None:
            found["force-offs at the first of two steps alone"] += 1
        if not was_in_step(tick):
            found[f"force-offs {cause}, out of step"] += 1
        if is_apart(tick.bench, tick.before):
            kind = "coordinated" if is_coordinated(tick.before, phase) else "other"
            found[f"force-offs with lead and lag {cause}, {kind} phase of ring {ring_of(tick, phase)}"] += 1


def count_recycle(found, session, tick):
    """Counts the walks that begin within greens, and what keeps others back from a tick on."""
    for phase, held in walks_held_back(tick).items():
        if (tick.after.ped[phase] == "W") != (held is None):
            found["walks by pedestrian recycle that are not as told"] += 1
        if held is None:
            room = "with no tick to spare" if time_left(tick, phase) == walk_and_clearance(tick, phase) else "in time"
            found[f"walk within a green, {room}"] += 1
            found["walk within a green, while a conflict waits"] += bool(conflicting(tick, phase))
        elif walks_held_back(tick_before(session, tick)).get(phase) != held:
            found[f"no walk within a green by {held}"] += 1


def tick_before(session, tick):
    """The tick before the newest of a session, if that was the input before, and none otherwise."""
    if len(session.inputs) < 2 or session.inputs[-2][0] != "tick":
        return None
    return Tick(tick.bench, session.states[-3], session.states[-2], session.inputs[-2][1])


def walks_held_back(tick):
    """What keeps each phase with pedestrian recycle from a walk that is green in don't walk and called by pedestrians:
    none where nothing does."""
    if tick is None or tick.before.trip:
        return {}
    before, plan = tick.before, tick.before.plan
    green = [p for p in tick.bench.enabled(plan, before.lim) if (before.interval[p], before.ped[p]) == ("G", "D")]
    asked = [p for p in green if plan["phasePedestrianRecycle"][p] and plan["phaseWalk"][p]]
    return {p: held_back_by(tick, p) for p in asked
            if before.pmem[p] or is_pressed(tick, p) or has_pedestrian_recall(before, p)}


def held_back_by(tick, phase):
    """What keeps a phase from a walk within its green, and none where nothing does."""
    before = tick.before
    if not runs_pattern(before):
        return "free operation"
    if not is_coordinated(before, phase):
        return "a phase that is not coordinated"
    if tick.after.service:
        return "a preempt"
    cause = force_off_cause(tick, phase)
    if cause or before.forced[phase] and conflicting(tick, phase):
        return f"a force-off {cause or 'that stands'}"
    if not was_in_step(tick):
        return "a counter that was not in step"
    times = walk_and_clearance(tick, phase)
    if times > time_left(tick, phase):
        return "a cycle that is shorter" if times >= cycle_of(before) else "the time that is left"
    return None


def walk_and_clearance(tick, phase):
    """The walk and the pedestrian clearance of a phase."""
    return 10 * (tick.before.plan["phaseWalk"][phase] + tick.before.plan["phasePedestrianClear"][phase])


def time_left(tick, phase):
    """How long it is to the instant of a phase of the pattern that runs, once its counter is in step."""
    return -behind_instant(tick, phase, steps(tick)[-1]) % cycle_of(tick.before)


def ring_of(tick, phase):
    """The ring of a phase."""
    return tick.before.plan["phaseRing"][phase]


def way_of(bench, state):
    """How the local counter of the pattern that runs comes into step: a word."""
    mode = bench.correction(state)[0]
    if mode == SHORT_WAY:
        return "faster" if 2 * (state.ahead % cycle_of(state)) > cycle_of(state) else "slower"
    return {AT_ONCE: "at once", DWELL: "dwell"}.get(mode, "add only")


def is_out_of_step(bench, state):
    """Whether a pattern runs whose local counter is not in step."""
    return runs_pattern(state) and bench.ahead_at(state, state.now) != 0


def count_ways(found, bench, given, before, after):
    """Counts the selections of one pattern while another one runs, and the commits, trips and preempts out of step."""
    if given[0] == "pattern" and runs_pattern(before) and runs_pattern(after):
        if bench.correction(before)[0] == AT_ONCE:
            way = "at once"
        else:
            way = f"that goes on, {way_of(bench, after)}" if after.ahead else "in step already"
        again = " again" if before.pattern == after.pattern else ""
        found[f"selection{again} {way}"] += 1
        found["selection again, out of step"] += is_out_of_step(bench, before) and before.pattern == after.pattern
        if after.ahead and 2 * after.ahead == cycle_of(after):
            found["selection that goes on, half a cycle ahead"] += 1
    elif is_out_of_step(bench, before) and given[0] in ("commit", "pattern", "reset", "switch"):
        found[f"{given[0]} out of step"] += 1
        if given[0] == "commit" and bench.local_of(before) != bench.local_of(after):
            found["commit out of step that moves a counter"] += 1
    if is_out_of_step(bench, before) and after.trip and not before.trip:
        found["trip out of step"] += 1


def count_steps(found, tick):
    """Counts how the local counter of a tick comes into step."""
    before, after, bench = tick.before, tick.after, tick.bench
    if not runs_pattern(before) or was_in_step(tick):
        return
    way = way_of(bench, before)
    found[f"out of step, {way}, ticks"] += 1
    found["out of step, tripped, ticks"] += before.trip is not None
    found["out of step, a preempt in service, ticks"] += bool(after.service)
    found["out of step, ticks of two steps"] += len(steps(tick)) == 2
    moved = (bench.local_of(after) - bench.local_at(after, after.now - 1)) % cycle_of(before)
    found[f"out of step, {way}, ticks that stand still"] += moved == 0
    found[f"in step again, {way}"] += bench.ahead_at(after, after.now) == 0


def without(case, option):
    """The plan and the commands of a case, with 0 in the place of each value of an option."""
    def cleared(table):
        return re.sub(rb":[0-9]+", b":0", table.group(0))

    name = option.encode()
    plan = re.sub(rb'"%s":\{[^}]*\}' % name, cleared, case.plan)
    return plan, re.sub(rb"(?m)^(set [1-4] %s [0-9]+) [0-9]+$" % name, rb"\1 0", case.commands)


def is_by_the_option(reference, case, answers, option):
    """Whether a case is answered otherwise with an option at 0."""
    plan, commands = without(case, option)
    if (plan, commands) == (case.plan, case.commands):
        return False
    return reference.answers(plan, case.log, commands) != answers


def count_answer(found, command, answers):
    """Counts the kinds of a command's answer."""
    if command[0] == "undo":
        found[answers[0]] += 1
    if command[0] in ("back", "seek") and answers == ["nothing"]:
        found[command[0] + " to no tick"] += 1
    if command[0] == "when":
        found[f"when {command[1]}, {answers[0].split(' ')[0]}"] += 1


def counted(reference, case):
    """What occurs in a case, and its answers."""
    bench, found = reference.bench, Counter()
    plan, fault = bench.read_plan(case.plan, bench.V2)
    rows = None
    if not fault:
        rows, fault = bench.read_log(case.log)
    if fault:
        return Counter({"fault of the " + fault.split(" ")[0].strip(":"): 1}), (fault + "\n").encode()
    enabled, rings = bench.enabled(plan, bench.V2), set()
    rings = {plan["phaseRing"][p] for p in enabled}
    sides = {plan["phaseSide"][p] for p in enabled}
    found[f"plan of {(len(enabled) - 1) // 4 * 4 + 1} to {(len(enabled) - 1) // 4 * 4 + 4} phases"] += 1
    found[f"plan of {len(rings)} rings"] += 1
    found[f"plan of {len(sides)} sides"] += 1
    answers = answered(bench, counting(bench, found)(plan, rows, bench.V2), case.commands, found)
    return +found, "".join(line + "\n" for line in answers).encode()


def answered(bench, session, commands, found):
    """The answer lines of a session's commands, as the reference reads them."""
    out = []
    for line in bench.lines_of(commands):
        if len(line) <= 200 and bench.blank(line):
            continue
        command = bench.read_command(line, bench.V2)
        if command is None:
            found["bad command"] += 1
            out.append("bad command")
        elif command[0] == "quit":
            found["command quit"] += 1
            break
        else:
            session.answer(command, out)
    return out


def main():
    """Reads the words, counts and prints."""
    parser = argparse.ArgumentParser(description=__doc__.split("\n", 1)[0])
    parser.add_argument("--reference", required=True, help="the folder of the reference")
    parser.add_argument("files", nargs="+", metavar="FILE")
    words = parser.parse_args()
    reference = Reference(words.reference)
    places, sessions, totals = Counter(), Counter(), Counter()
    for path in words.files:
        totals["bytes of files"] += os.path.getsize(path)
        for case in stored_cases.read(path):
            found, answers = counted(reference, case)
            places.update(found)
            sessions.update(found.keys())
            totals.update({"sessions": 1, "answer lines": case.lines, "answer bytes": len(answers)})
            totals["sessions told in full"] += case.answers is not None
            totals.update(f"sessions that differ with {option} 0" for option in OPTIONS
                          if is_by_the_option(reference, case, answers, option))
            if (answers.count(b"\n"), stored_cases.checksum(answers)) != (case.lines, case.sum):
                print(f"{case.name}: the reference answers something else")
    print("| Total | |\n|---|---|")
    for name, count in totals.items():
        print(f"| {name} | {count} |")
    print("\n| What | Places | Sessions |\n|---|---|---|")
    for name in sorted(places, key=lambda name: [int(x) if x.isdigit() else x for x in re.split("([0-9]+)", name)]):
        print(f"| {name} | {places[name]} | {sessions[name]} |")


if __name__ == "__main__":
    main()
