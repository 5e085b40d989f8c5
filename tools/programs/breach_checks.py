"""Compares what a review says of plans that break rules with lines that were written by hand, and with an independent
reading (tools/programs/breach_rules.py)."""
import collections
import json
import random
from collections.abc import Callable

from tools.programs import breach_cases, breach_rules, review_cases
from tools.programs.review_cases import Table

RULES = 29
# What a plan has many of, with values that break rules. The number is that of the indices that are changed.
LISTS = [0, 1, 2, 3, 8, 9, 17, 34, 42, 48, 72, 129, 136, 192, 256, 304, 65535]
VALUES: dict[str, tuple[int, list[int]]] = {
    "phaseEnabled": (10, [0, 1]), "phaseRing": (10, [0, 1, 2]), "phaseSide": (10, [0, 1, 2, 3]), "phaseConcurrency": (10, LISTS),
    "sequenceData": (128, list(range(11))), "phaseYellowChange": (9, [0, 29, 30, 255]), "phaseMinimumGap": (8, [0, 20, 26, 255]),
    "phasePassage": (8, [0, 20, 26, 255]), "phaseMinimumGreen": (8, [0, 5, 26, 255]), "phaseMaximum1": (8, [0, 4, 5, 255]),
    "phaseMaximum2": (8, [0, 4, 5, 255]), "phasePedRecall": (9, [0, 1]), "phaseWalk": (8, [0, 7]), "phaseRedClear": (8, [0, 15, 255]),
    "vehicleDetectorCallPhase": (16, [0, 1, 8, 9, 16]), "pedestrianDetectorCallPhase": (8, [0, 1, 2, 9]),
    "overlapIncludedPhases": (4, LISTS), "overlapModifierPhases": (4, LISTS), "overlapType": (4, [0, 1, 2]),
    "overlapTrailGreen": (4, [0, 6]), "overlapTrailYellow": (4, [0, 29, 30]),
    "preemptTrackPhase": (4, LISTS), "preemptDwellPhase": (4, LISTS), "preemptExitPhase": (4, LISTS),
    "patternCycleTime": (3, [0, 1, 89, 90, 91]), "patternOffsetTime": (3, [0, 45, 89, 90, 254]), "patternSplitNumber": (3, [0, 1, 2, 8]),
    "patternSequenceNumber": (3, [0, 1, 2, 4]), "splitTime": (32, [0, 9, 10, 19, 20, 25, 255]), "splitMode": (32, [0, 1, 5]),
    "splitCoordPhase": (32, [0, 1]), "phaseDynamicMaxLimit": (9, [0, 4, 5]),
    "patternPermissiveTime": (3, [0, 1, 89, 90, 91, 255]), "patternLeadLag": (3, [0, 1]),
    "timeBaseScheduleDayPlan": (3, [0, 1, 2, 16]), "dayPlanHour": (20, [0, 7, 23]), "dayPlanMinute": (20, [0, 59]),
    "dayPlanActionNumber": (20, [0, 1, 2, 32]), "timebaseAscPattern": (3, [0, 1, 2, 17, 253, 254]),
}

# The lines that a review says of each of some plans.
Answers = Callable[[list[Table]], list[list[str]]]


def case_faults(answers: Answers) -> list[str]:
    """What the cases have otherwise than they should."""
    clean = review_cases.CLEAN
    pairs = [(review_cases.changed(clean, case.change), case) for case in breach_cases.CASES]
    plans = [plan for has, case in pairs for plan in (has, review_cases.changed(has, case.beside))]
    given = answers(plans)
    faults = []
    for number, case in enumerate(breach_cases.CASES):
        rule = f"K{case.rule} "
        no_lines: list[str] = []
        for plan, lines, wanted in zip(plans[2 * number:], given[2 * number:], [list(case.lines), no_lines]):
            found = [line.removeprefix(rule) for line in lines if line.startswith(rule)]
            if sorted(found) != sorted(wanted) or lines != breach_rules.breaches(plan):
                faults.append(f"K{case.rule} with {case.change}: {lines}, not {wanted}, by the reading {breach_rules.breaches(plan)}")
    missing = set(range(1, RULES + 1)) - {case.rule for case in breach_cases.CASES}
    return [*faults, *(f"K{rule} has no case" for rule in sorted(missing))]


def at_random(source: random.Random) -> Table:
    """A plan with some of the cases on it, and some values changed."""
    plan = review_cases.CLEAN
    for case in source.sample(breach_cases.CASES, source.choice([0, 0, 1, 2, 3])):
        plan = review_cases.changed(plan, case.change)
        if source.random() < 0.3:
            plan = review_cases.changed(plan, case.beside)
    change: review_cases.Change = {}
    for _ in range(source.choice([0, 1, 2, 4, 8])):
        name, (indices, values) = source.choice(list(VALUES.items()))
        change[f"{name}.{source.randint(1, indices)}"] = source.choice(values)
    if source.random() < 0.3:
        # (a second table, which is the first with another value, and a pattern that uses it)
        change |= {f"splitTime.{16 + phase}": plan["splitTime"].get(str(phase), 0) for phase in range(1, 9)}
        change |= {f"splitCoordPhase.{16 + phase}": source.choice([0, 1]) for phase in source.sample(range(1, 9), 3)}
        change |= {"patternCycleTime.2": 90, "patternSplitNumber.2": 2, "patternSequenceNumber.2": 1}
    return review_cases.changed(plan, change)


def random_faults(answers: Answers, plans: int, seed: int) -> list[str]:
    """What plans at random have otherwise than by the reading, and which rules none of them breaks."""
    source = random.Random(seed)
    drawn = [at_random(source) for _ in range(plans)]
    counted: collections.Counter[str] = collections.Counter()
    faults = []
    for plan, lines in zip(drawn, answers(drawn)):
        counted.update({line.split(" ")[0] for line in lines})
        if lines != breach_rules.breaches(plan):
            faults.append(f"{json.dumps(plan)}: {lines}, by the reading {breach_rules.breaches(plan)}")
    print("plans that break each rule: " + ", ".join(f"K{n} {counted[f'K{n}']}" for n in range(1, RULES + 1)))
    return [*faults, *(f"no plan breaks K{n}" for n in range(1, RULES + 1) if not counted[f"K{n}"])]
