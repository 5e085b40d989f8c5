"""Compares the reviews of plans with lines that were written by hand, and with an independent reading.

    python3 -m tools.programs.run_review FIELD TSB [PLANS [SEED]]

FIELD is the program tsb_field. It reviews the plans of tools/programs/review_cases.py, the plans of examples/, and as
many at random as PLANS says (3,000): changes of these. What it answers is compared with tools/programs/review_rules.py,
and of the cases also with their own lines. Each advice has to occur in both. Of a plan that breaks a rule it has to
answer what TSB, the program tsb, says to `check`, and then where: that is compared with tools/programs/breach_rules.py,
on the plans of tools/programs/breach_cases.py, also with their own lines, and on as many at random
(tools/programs/breach_checks.py). The example of each advice in docs/use/REVIEW.md, and the reviews of its plans, have
to be what it answers. As many texts at random, in which names come twice and values are no whole numbers, are compared
with tools/programs/review_notes.py. TSB also runs tools/programs/review_runs.py, which show in runs what some advices
warn of.
"""
import collections
import concurrent.futures
import dataclasses
import json
import pathlib
import random
import re
import subprocess
import sys
import tempfile

from tools import TOP
from tools.programs import (breach_cases, breach_checks, breach_rules, review_cases, review_notes, review_rules,
                            review_runs)
from tools.programs.review_cases import Table

# The text of which the manual tells, the first fault, and what is printed.
NOTED = re.compile(r"^```\n(\"phase(?:.*\n)*?.*)\n```\n\n.* `(plan: [^`]+)`.*\n\n```notes\n((?:.*\n)*?)```$", re.M)
# The plans that the manual reviews.
REVIEWED_PLANS = ["first_plan.json", "main_and_oak.json", "tee.json"]
# What notes on a text say.
KINDS = ["it stands twice", "is no whole number: seconds", "is no whole number: tenths of a second, ", "is no whole number: minutes",
         "is negative", "has an exponent", "is too large", ": list of phases, ", "is out of range", "no such index",
         "no such object, did you mean", "phases, a sum of 2^(phase-1), ", ": version 3 has it, and this text is of version 2",
         ": version 3 has it, and this text is of version 1", ": version 2 has it, and this text is of version 1"]
WRONG = "is no whole number|is negative|has an exponent|is too large"
# What a review ends with.
REVIEWED, REFUSED = 0, 1
# What `tsb check` says of a plan that breaks a rule begins so, and what its errors have of each refused one.
RULE = "plan: rule "
LISTED = "all faults, each with its place: tsb_field review PLAN\n"
ADVICES = [n for n in range(1, 64) if n != 31]
# Display lines have so many characters.
DISPLAY = 53
# Objects of phases, detectors and so on, with the number of their indices and values that bring advices about.
LIST = [0, 1, 2, 8, 9, 34, 33, 48, 72, 129, 132, 136, 192]
# A through phase and a left turn of the other street.
TURNS = [6, 9, 24, 36, 66, 96, 129, 144]
VALUES = {
    **{f"phase{it}": (8, [0, 1]) for it in ["MinRecall", "MaxRecall", "PedRecall", "SoftRecall", "RestInWalk", "VariableInitial",
                                           "NonLock", "DualEntry", "PedestrianRecycle"]},
    "phaseEnabled": (9, [0, 1]), "phaseConcurrency": (8, [1, 2, 3, 4, 8, 12, 16, 32, 48, 64, 128, 192]),
    "phaseWalk": (8, [0, 1, 3, 4, 5, 7, 10, 20]), "phasePedestrianClear": (8, [0, 1, 5, 9, 12, 15, 16, 20, 28, 40]),
    "phaseMinimumGreen": (8, [0, 1, 5, 9, 10, 14, 15]), "phaseMaximum1": (8, [5, 10, 20, 25, 30]), "phaseMaximum2": (8, [15, 20, 40]),
    "phaseMaximumInitial": (8, [0, 4, 5, 10, 20]), "phaseAddedInitial": (8, [0, 1, 20]),
    "phaseTimeBeforeReduction": (8, [0, 1, 10, 20, 25, 30]), "phaseTimeToReduce": (8, [0, 1, 10]),
    "phaseCarsBeforeReduction": (8, [0, 1, 5]), "phasePassage": (8, [0, 9, 10, 20, 25, 30]), "phaseMinimumGap": (8, [0, 9, 10, 20, 25]),
    "phaseYellowChange": (8, [30, 35, 40]), "phaseRedClear": (8, [0, 1, 4, 5, 10, 15, 20, 55]), "phaseRedRevert": (8, [0, 10, 20]),
    "phaseDynamicMaxLimit": (8, [0, 30]), "phaseDynamicMaxStep": (8, [0, 50]), "unitRedRevert": (1, [0, 19, 20]), "unitMax2": (1, [0, 1]),
    "coordForceMode": (1, [0, 0, 1, 2]), "coordMaximumMode": (1, [0, 0, 1, 2]), "patternPermissiveTime": (2, [0, 1, 5, 9, 10, 11, 15, 25]),
    "patternLeadLag": (2, [0, 1]), "coordCorrectionMode": (1, [0, 1, 2, 3]), "coordCorrectionLimit": (1, [0, 0, 1, 25, 50]),
    "vehicleDetectorCallPhase": (16, list(range(9))), "vehicleDetectorDelay": (16, [0, 5, 150, 200, 250, 251, 400]),
    "vehicleDetectorExtend": (16, [0, 5]), "vehicleDetectorMaxPresence": (16, [0, 2, 3, 4, 5]), "vehicleDetectorFailTime": (16, [0, 0, 1, 255]), "pedestrianDetectorCallPhase": (8, list(range(9))),
    "patternOffsetTime": (2, [0, 10, 40, 45, 46, 79]), "splitMode": (8, [0, 1, 2, 3, 4, 5]),
    "splitTime": (8, [10, 15, 20, 25, 30, 35, 40]), "splitCoordPhase": (8, [0, 1]),
    "preemptDelay": (4, [0, 1, 5]), "preemptMinimumDuration": (4, [0, 10, 30]), "preemptMaximumPresence": (4, [0, 20, 60]),
    "preemptMinimumGreen": (4, [0, 5]), "preemptMinimumWalk": (4, [0, 4]), "preemptEnterPedClear": (4, [0, 8]),
    "preemptTrackGreen": (4, [0, 8]), "preemptTrackPhase": (4, LIST), "preemptDwellPhase": (4, LIST), "preemptExitPhase": (4, LIST),
    "overlapIncludedPhases": (4, [*LIST, *TURNS]), "overlapType": (4, [0, 1]), "overlapModifierPhases": (4, LIST),
    "overlapAcrossRings": (4, [0, 0, 1]),
    "timeBaseScheduleDay": (2, [0, 124, 254]), "dayPlanMinute": (4, [0, 1, 2, 3]), "dayPlanActionNumber": (4, [0, 1, 2]),
    "timebaseAscPattern": (2, [1, 254]),
}
# Objects of phases and of splits, the first and the last of them among these.
UNUSED = ["phaseNonLock", "phaseMaxRecall", "phaseWalk", "phaseMinimumGreen", "phasePassage", "phaseCarsBeforeReduction", "phaseRing",
          "phaseDynamicMaxStep", "phasePedestrianRecycle", "splitTime", "splitMode"]
# The version of plan texts that has all objects.
NEWEST = 3
# A pattern, given as a whole, with what it may have of each.
PATTERN = {"patternCycleTime": [80, 90], "patternOffsetTime": [0, 40, 45, 50], "patternSplitNumber": [1], "patternSequenceNumber": [1],
           "patternPermissiveTime": [0, 0, 0, 10], "patternLeadLag": [0, 0, 0, 1]}


def examples() -> list[Table]:
    """The plans of examples/ in version 2."""
    plans = [json.loads(path.read_bytes()) for path in sorted((TOP / "examples").glob("*.json")) if path.stat().st_size]
    return [{name: table for name, table in plan.items() if name != "version"} for plan in plans if plan["version"] == 2]


def of_cases(source: random.Random) -> Table:
    """The plan without advices with some of the cases on it, each with its last change or without."""
    plan = review_cases.CLEAN
    for case in source.sample(review_cases.CASES, source.randint(1, 4)):
        plan = review_cases.changed(plan, case.change)
        if source.random() < 0.25:
            plan = review_cases.changed(plan, case.beside)
    return plan


def at_random(source: random.Random, bases: list[Table]) -> Table:
    """A plan with some values changed."""
    base = of_cases(source) if source.random() < 0.6 else source.choice(bases)
    change: review_cases.Change = {}
    for _ in range(source.choice([0, 1, 1, 2, 3, 5])):
        name, (indices, values) = source.choice(list(VALUES.items()))
        change[f"{name}.{source.randint(1, indices)}"] = source.choice(values)
    if source.random() < 0.2:
        pattern = source.randint(1, 16)
        change |= {f"{name}.{pattern}": source.choice(values) for name, values in PATTERN.items()}
    if source.random() < 0.1:
        # (ring 2 serves its left turn of side 1 last, and may end its coordinated split before ring 1)
        change |= {"sequenceData.17": 6, "sequenceData.18": 5, "patternLeadLag.1": 1}
    if source.random() < 0.1:
        # (an arrow of the turn of phase 1, or an overlap that trails)
        change |= {"overlapIncludedPhases.1": source.choice([2, 130]), "overlapType.1": 2, "overlapModifierPhases.1": 1}
    elif source.random() < 0.1:
        change |= {"overlapIncludedPhases.1": source.choice([1, 3]), "overlapTrailGreen.1": 5, "overlapTrailYellow.1": 30}
    if source.random() < 0.2:
        change = {**review_cases.EACH_DAY, **change}
    if source.random() < 0.1:
        # (a value for a phase that is not enabled)
        name = source.choice(UNUSED)
        change[f"{name}.{source.choice([9, 16, 25, 128] if name.startswith('split') else [9, 10, 16])}"] = source.choice([0, 1])
    if source.random() < 0.3:
        # (two splits of one ring and side, whose sum stays)
        one, other = source.choice([(1, 2), (3, 4), (5, 6), (7, 8)])
        first = source.randint(8, 37)
        change |= {f"splitTime.{one}": first, f"splitTime.{other}": 45 - first}
    return review_cases.changed(base, change)


@dataclasses.dataclass(frozen=True)
class Programs:
    """The programs tsb_field and tsb."""

    field: str
    tsb: str

    def told(self, *words: str, text: str) -> tuple[int, str, str]:
        """The status of a program that reads this text as its last file, and what it writes."""
        done = subprocess.run([*words, "/dev/stdin"], input=text, capture_output=True, text=True)
        return done.returncode, done.stdout, done.stderr

    def answer(self, plan: Table) -> list[str] | None:
        """The lines of a review, or none where the plan breaks a rule."""
        status, lines = self.lines(plan)
        return lines if status == REVIEWED else None

    def lines(self, plan: Table) -> tuple[int, list[str]]:
        """The status and the lines of a review, but for the first of a plan that is refused: that is what `tsb check` says,
        and names the rule of the next line."""
        text = json.dumps({"version": NEWEST, **plan})
        status, written, errors = self.told(self.field, "review", text=text)
        assert not errors, errors
        lines = written.splitlines()
        if status == REVIEWED:
            return status, lines
        checked = self.told(self.tsb, "check", text=text)
        assert (status, f"{lines[0]}\n", LISTED) == checked and status == REFUSED, (text, status, written)
        assert lines[0] == f"plan: rule {lines[1].split(' ')[0]}", (text, lines)
        return status, lines[1:]

    def breaches(self, plans: list[Table]) -> list[list[str]]:
        """The lines of each plan that say where it breaks rules: none of one that meets them."""
        with concurrent.futures.ThreadPoolExecutor() as pool:
            return [lines if status == REFUSED else [] for status, lines in pool.map(self.lines, plans)]

    def answers(self, plans: list[Table]) -> list[list[str] | None]:
        """The same of each plan."""
        with concurrent.futures.ThreadPoolExecutor() as pool:
            return list(pool.map(self.answer, plans))


def case_faults(programs: Programs) -> list[str]:
    """What the cases have otherwise than they should."""
    clean = review_cases.CLEAN
    plans = [clean]
    for case in review_cases.CASES:
        has = review_cases.changed(clean, case.change)
        plans += [has, review_cases.changed(has, case.beside)]
    given = programs.answers(plans)
    faults = [] if given[0] == [] else [f"the clean plan: {given[0]}"]
    for number, case in enumerate(review_cases.CASES):
        name = f"A{case.advice} "
        for lines, plan, wanted in zip(given[2 * number + 1:], plans[2 * number + 1:], [case.lines, []]):
            found = [line.removeprefix(name) for line in lines or [] if line.startswith(name)]
            if lines is None or found != wanted:
                faults.append(f"A{case.advice} with {case.change}: {lines}, not {wanted}")
            elif lines != review_rules.review(plan):
                faults.append(f"A{case.advice}: {lines}, by the reading {review_rules.review(plan)}")
    missing = set(ADVICES) - {case.advice for case in review_cases.CASES}
    return [*faults, *(f"A{advice} has no case" for advice in sorted(missing))]


def random_faults(programs: Programs, plans: int, seed: int) -> list[str]:
    """What plans at random have otherwise than by the reading, and which advices they do not have."""
    source = random.Random(seed)
    bases = [review_cases.CLEAN, *examples()]
    drawn = [*bases, *(at_random(source, bases) for _ in range(plans))]
    counted: collections.Counter[str] = collections.Counter()
    faults: list[str] = []
    passed = 0
    for plan, lines in zip(drawn, programs.answers(drawn)):
        if lines is None:
            continue
        passed += 1
        counted.update({line.split(" ")[0] for line in lines})
        if lines != review_rules.review(plan):
            faults.append(f"{json.dumps(plan)}: {lines}, by the reading {review_rules.review(plan)}")
    print(f"{passed} of {len(drawn)} plans meet the rules; plans with each advice: "
          + ", ".join(f"A{n} {counted[f'A{n}']}" for n in ADVICES))
    return [*faults, *(f"no plan has A{n}" for n in ADVICES if not counted[f"A{n}"])]


def note_faults(programs: Programs, texts: int, seed: int) -> list[str]:
    """What texts at random have otherwise than by the reading, and which kinds of lines they do not have."""
    source = random.Random(seed)
    bases = [review_cases.CLEAN, *examples()]
    counted: collections.Counter[str] = collections.Counter()
    faults: list[str] = []
    drawn = [review_notes.written(source, source.choice(bases)).decode() for _ in range(texts)]
    drawn.append(json.dumps({"version": 2, **{name: {"1": 1.5} for name in review_notes.OBJECTS}}))
    drawn.append(json.dumps({"version": 1, "notes": {}, "overlapType": {"1": 1}}))
    with concurrent.futures.ThreadPoolExecutor() as pool:
        answered = list(pool.map(lambda text: programs.told(programs.field, "review", text=text), drawn))
        checked = list(pool.map(lambda text: programs.told(programs.tsb, "check", text=text), drawn))
    for text, answer, (status, line, errors) in zip(drawn, answered, checked):
        told = review_notes.notes(text.encode())
        counted.update(kind for kind in KINDS for it in told if kind in it)
        advices = review_rules.review(review_notes.counting(text)) if status == REVIEWED else []
        breaches = breach_rules.breaches(review_notes.counting(text)) if line.startswith(RULE) else []
        lines = [*told, *advices] if status == REVIEWED else [*line.splitlines(), *told, *breaches]
        if errors != ("" if status == REVIEWED else LISTED):
            faults.append(f"{text}: the errors of `check` are {errors}")
        if answer != (status, "".join(f"{it}\n" for it in lines), ""):
            faults.append(f"{text}: {answer}, by the reading {lines}")
        where = re.fullmatch(r"plan: (.*): not a whole number\n", line)
        if where and not any(re.match(rf"{re.escape(where[1])}: .* (?:{WRONG})", it) for it in told):
            faults.append(f"{text}: nothing is told of {where[1]}")
        where = re.fullmatch(r"plan: (.*): (?:no such object|out of range)\n", line, re.S)
        if where and not any(it.startswith(f"{where[1]}: ") for it in told):
            faults.append(f"{text}: nothing is told of {where[1]}")
    print(f"texts with each line: {', '.join(f'{kind} {count}' for kind, count in counted.items())}")
    return [*faults, *(f"no text has `{kind}`" for kind in KINDS if not counted[kind])]


def manual_faults(programs: Programs) -> list[str]:
    """What the manual has otherwise: what is printed of a text, the reviews of its plans, and the example of each advice."""
    text = (TOP / "docs/use/REVIEW.md").read_text()
    given, line, noted = NOTED.search(text).groups()  # type: ignore[union-attr]
    told = programs.told(programs.field, "review", text=f'{{"version": 2, {given}}}')
    if told != (REFUSED, f"{line}\n{noted}", ""):
        return [f"the manual's notes: {told}"]
    blocks = dict(re.findall(r"^```review (\S+)\n(.*?)^```$", text, re.M | re.S))
    faults = [f"no review of {name} in the manual" for name in REVIEWED_PLANS if name not in blocks]
    for name, block in blocks.items():
        told = programs.told(programs.field, "review", text=(TOP / "examples" / name).read_text())
        if told != (REVIEWED, block, ""):
            faults.append(f"the manual's review of {name}: {told}")
    faults += breach_faults(programs, text)
    shown = set()
    for change, advice, line in re.findall(r"((?:`\w+\.\d+` \d+(?:, )?)+): `A(\d+) ([^`]+)`", text):
        shown.add(int(advice))
        values = {at: int(value) for at, value in re.findall(r"`(\w+\.\d+)` (\d+)", change)}
        lines = programs.answer(review_cases.changed(review_cases.CLEAN, values)) or []
        if not [it for it in lines if it.startswith(f"A{advice} ")][:1] == [f"A{advice} {line}"]:
            faults.append(f"the manual's example of A{advice}: {lines}")
    return [*faults, *(f"no example of A{n} in the manual" for n in ADVICES if n not in shown)]


def breach_faults(programs: Programs, text: str) -> list[str]:
    """What the manual's example of a refused plan has otherwise: the plan is one of examples/ with the values before it."""
    change, name, block = re.search(r"^`\S+` with ((?:.|\n)*?), which.*\n\n^```breaches (\S+)\n(.*?)^```$", text, re.M | re.S).groups()  # type: ignore[union-attr]
    values = {at: int(value) for at, value in re.findall(r"`(\w+\.\d+)` (\d+)", change)}
    plan = review_cases.changed(review_cases.example(name.removesuffix(".json")), values)
    lines = programs.breaches([plan])[0]
    return [] if lines == block.splitlines() else [f"the manual's breaches: {lines}"]


def run_faults(programs: Programs) -> list[str]:
    """What the runs of the bench show otherwise than they should."""
    faults = []
    with tempfile.TemporaryDirectory() as folder:
        plan, log = (pathlib.Path(folder, name) for name in ("plan.json", "rows.log"))
        for it in review_runs.RUNS:
            plan.write_text(json.dumps({"version": NEWEST, **it.plan}))
            log.write_text(it.log)
            done = subprocess.run([programs.tsb, "run", plan, log], input="\n".join(it.commands) + "\n", capture_output=True, text=True, check=True)
            lines = done.stdout.splitlines()
            answers = [line for line in lines if len(line) < DISPLAY]
            has = any(line.startswith(f"A{it.advice} ") for line in review_rules.review(it.plan))
            shown = not it.heads or any(len(line) == DISPLAY and it.heads in line for line in lines)
            if answers != it.answers or has != it.has or not shown:
                faults.append(f"A{it.advice} in a run: {answers}, not {it.answers}")
    return faults


def main(words: list[str]) -> int:
    """Runs all seven, and says what differs."""
    programs = Programs(*(str(pathlib.Path(word).resolve()) for word in words[:2]))
    plans, seed = int(words[2]) if len(words) > 2 else 3_000, int(words[3]) if len(words) > 3 else 1
    faults = [*case_faults(programs), *random_faults(programs, plans, seed), *note_faults(programs, plans, seed),
              *breach_checks.case_faults(programs.breaches), *breach_checks.random_faults(programs.breaches, plans, seed),
              *manual_faults(programs), *run_faults(programs)]
    for fault in faults[:20]:
        print(fault)
    passed = len(review_cases.CASES) + len(breach_cases.CASES) + len(review_runs.RUNS) + 4
    print(f"0 passed, {len(faults)} failed" if faults else f"{passed} passed, 0 failed")
    return 1 if faults else 0


if __name__ == "__main__":
    sys.exit(main(sys.argv[1:]))
