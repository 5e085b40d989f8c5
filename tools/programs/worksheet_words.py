"""Worked runs of `tsb_field worksheet`: its words, and what it has to write, found by hand from docs/use/FIELD.md. Beside
them are worksheets of plans at random, which tools/programs/worksheet_rules.py reads a second time.

tools/programs/run_field.py runs them with those of tools/programs/field_cases.py, in the same folder.
"""
import json
import pathlib
import random
from collections.abc import Iterator

from tools.programs import breach_rules, worksheet_rules
from tools.programs.field_cases import bad
from tools.programs.review_cases import CLEAN, Change, Table, changed
from tools.programs.run_program import ENDLESS, FULL, IS_LOG, NOT_JSON, RULE, TORN, WRITE, Run, not_read

# Main and Oak: 4 s of walk and 8 s of clearance that the preempt leaves, longer than 5.5 s of clearance, 5 s of green and
# a tick; then 5.5 s of clearance and 4 ticks. The split of 2 ends at 50 s, so that of 4, at 90 s, 40 s later: less 5.1 s.
MAIN_AND_OAK = b"""\
preempt 1: delay 1.0 s, longest entry 17.9 s
pattern 1, phase 1: split 15.0 s, green 11.0 s, force-off at 51.0 s
pattern 1, phase 2: split 35.0 s, green 29.5 s, force-off at 84.5 s, walk and clearance 19.0 s, margin 10.5 s
pattern 1, phase 3: split 15.0 s, green 11.0 s, force-off at 11.0 s
pattern 1, phase 4: split 25.0 s, green 19.9 s, force-off at 34.9 s, walk and clearance 19.0 s, margin 0.9 s
pattern 1, phase 5: split 15.0 s, green 11.0 s, force-off at 51.0 s
pattern 1, phase 6: split 35.0 s, green 29.5 s, force-off at 84.5 s
pattern 1, phase 7: split 15.0 s, green 11.0 s, force-off at 11.0 s
pattern 1, phase 8: split 25.0 s, green 19.9 s, force-off at 34.9 s, walk and clearance 19.0 s, margin 0.9 s
"""
# Railroad: 5.8 s of clearance, 5 s of green and a tick, longer than 6 s of pedestrian clearance; 5.8 s and 4 ticks.
RAILROAD = b"preempt 1: delay 0.0 s, longest entry 17.1 s\n"
# Where it chooses anew, and there is no overlap: 6 s of pedestrian clearance, 5.8 s and 4 ticks.
ANEW = b"preempt 1: delay 0.0 s, longest entry 12.2 s\n"
PLANS = 60
VALUES = {
    "phaseWalk": (16, [4, 7, 25]), "phasePedestrianClear": (16, [0, 9, 40, 255]), "phaseYellowChange": (16, [30, 43, 255]),
    "phaseRedClear": (16, [0, 15, 255]), "phaseRedRevert": (16, [0, 21, 120, 255]), "unitRedRevert": (1, [0, 20, 255]),
    "preemptDelay": (4, [0, 1, 600]), "preemptMinimumGreen": (4, [0, 5, 25, 255]), "preemptMinimumWalk": (4, [0, 4, 255]),
    "preemptEnterPedClear": (4, [0, 8, 255]), "preemptChoosesAnew": (4, [0, 1, 1]), "preemptDwellPhase": (4, [34, 136, 2]),
    "overlapTrailGreen": (1, [0, 6]), "overlapTrailYellow": (1, [30, 100, 255]), "overlapTrailRed": (1, [0, 15, 255]),
    "overlapIncludedPhases": (1, [0, 0, 96]), "splitMode": (8, [0, 2, 5]), "splitCoordPhase": (8, [0, 1]),
}


def runs() -> Iterator[Run]:
    """Plans with and without preempts and patterns, plans that are refused, bad words, and streams and files that fail."""
    for words in [["worksheet", "main_and_oak.json"], ["worksheet", "--", "main_and_oak.json"]]:
        yield Run(words, 0, MAIN_AND_OAK, b"", stdin=TORN)
    yield Run(["worksheet", "railroad.json"], 0, RAILROAD, b"")
    yield Run(["worksheet", "first_plan.json"], 0, b"", b"")
    yield Run(["worksheet", "main_and_oak.json"], 3, b"", WRITE, stdout=FULL)
    yield Run(["worksheet", "main_and_oak.json"], 3, b"", b"", stdout=FULL, stderr=FULL)
    for name, line in [("two_short_yellow.json", RULE), ("car.log", NOT_JSON + IS_LOG), (ENDLESS, b"plan: too large\n")]:
        yield Run(["worksheet", name], 1, b"", line, stdin=TORN)
    for name in ["none.json", "folder", TORN]:
        yield Run(["worksheet", name], 3, b"", not_read(name), stdout="/dev/null")
    for more in ["", "quad.json tee.json", "--week 2026-12-06 quad.json", "quad.json --count"]:
        yield bad(["worksheet", *more.split()], stdout="/dev/null")


def at_random(source: random.Random) -> Table:
    """A plan that meets the rules, with some values changed."""
    while True:
        change: Change = {}
        for _ in range(source.randint(1, 12)):
            name, (most, values) = source.choice(list(VALUES.items()))
            change[f"{name}.{source.randint(1, most)}"] = source.choice(values)
        plan = changed(CLEAN, change)
        if not breach_rules.breaches(plan):
            return plan


def at_random_runs(folder: pathlib.Path) -> Iterator[Run]:
    """Worksheets of plans at random, whose files are written into this folder, and of the one that chooses anew."""
    anew = json.loads((folder / "railroad.json").read_text()) | {"version": 3, "preemptChoosesAnew": {"1": 1}}
    (folder / "anew.json").write_text(json.dumps(anew))
    yield Run(["worksheet", "anew.json"], 0, ANEW, b"")
    source = random.Random(1)
    for number in range(PLANS):
        plan = at_random(source)
        name = f"worksheet_{number}.json"
        (folder / name).write_text(json.dumps({"version": 3, **plan}))
        yield Run(["worksheet", name], 0, worksheet_rules.worksheet(plan).encode(), b"")
