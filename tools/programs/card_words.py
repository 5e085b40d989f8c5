"""Worked runs of `tsb_field card`: its words, and what it has to write, found by hand from docs/use/FIELD.md and
examples/ARROWS.md. Beside them are cards of plans at random, which tools/programs/card_rules.py reads a second time.

tools/programs/run_field.py runs them with those of tools/programs/field_cases.py, in the same folder.
"""
import json
import pathlib
import random
from collections.abc import Iterator

from tools.programs import breach_rules, card_rules
from tools.programs.review_cases import CLEAN, Change, Table, changed
from tools.programs.run_program import FULL, RULE, TORN, WRITE, Run, not_read

# The two phases of the plan are never green at once, and there is no walk and no overlap.
TWO = b""
# Phases 2 and 4, with crosswalks 2 and 4 on channels 13 and 14, and overlap 1 of phase 2 on channel 9.
WALKS = b"2-9\n2-13\n4-14\n9-13\n"
# The same where channel 3 shows the overlap and channel 1 phase 2; 16 shows phase 9, which there is not.
NAMED = b"1-3\n"
PLANS = 60
LISTS = [0, 1, 2, 3, 8, 34, 130, 136]
VALUES: dict[str, tuple[int, list[int]]] = {
    "overlapIncludedPhases": (16, LISTS), "overlapModifierPhases": (16, LISTS), "overlapType": (16, [0, 1, 2, 2]),
    "phaseWalk": (9, [0, 7]), "channelControlType": (16, [0, 1, 2, 3, 4]), "channelControlSource": (16, [*range(17)]),
}


def written(folder: pathlib.Path, name: str, change: Table) -> None:
    """Writes a plan of phases 2 and 4 with some objects more into the folder."""
    two = json.loads((folder / "first_plan.json").read_text())
    (folder / name).write_text(json.dumps({**two, "version": 3, **change}))


def runs(folder: pathlib.Path) -> Iterator[Run]:
    """Plans whose cards were found by hand, cards that differ or are none, and streams and files that fail."""
    walks = {"phaseWalk": {"2": 7, "4": 7}, "phasePedestrianClear": {"2": 9, "4": 9}, "overlapIncludedPhases": {"1": 2}}
    channels = {"channelControlType": {"1": 2, "3": 4, "16": 2}, "channelControlSource": {"1": 2, "3": 1, "16": 9}}
    written(folder, "walks.json", walks)
    written(folder, "named.json", walks | channels)
    (folder / "same.txt").write_bytes(b"# The cabinet.\n\n4-14\r\n2-13\n9-13\n2-9\n2-9")
    (folder / "other.txt").write_bytes(b"2-9\n2-13\n2-4\n9-13\n")
    for name, text in [("first_plan.json", TWO), ("walks.json", WALKS), ("named.json", NAMED)]:
        yield Run(["card", name], 0, text, b"", stdin=TORN)
    yield Run(["card", "--against", "same.txt", "walks.json"], 0, b"", b"")
    yield Run(["card", "walks.json", "--against=other.txt"], 5, b"too many 2-4\nmissing 4-14\n", b"")
    for count, line in enumerate([b"2", b"2-", b"-9", b"9-2", b"2-2", b"0-2", b"2-17", b"2-9 ", b"2 9", b"2-9-13"], 1):
        (folder / f"bad_{count}.txt").write_bytes(b"2-9\n\n#\n" + line + b"\n2-13\n")
        yield Run(["card", f"--against=bad_{count}.txt", "walks.json"], 1, b"", b"card line 4: malformed\n")
    (folder / "most.txt").write_bytes(b"2-9\n" * 16_384)
    (folder / "large.txt").write_bytes(b"2-9\n" * 16_384 + b"\n")
    yield Run(["card", "--against=most.txt", "walks.json"], 5, b"missing 2-13\nmissing 4-14\nmissing 9-13\n", b"")
    yield Run(["card", "--against=large.txt", "walks.json"], 1, b"", b"card: too large\n")
    yield Run(["card", "two_short_yellow.json"], 1, b"", RULE)
    yield Run(["card", "--against=none.json", "walks.json"], 3, b"", not_read("none.json"))
    yield Run(["card", "walks.json"], 3, b"", WRITE, stdout=FULL)


def at_random(source: random.Random) -> Table:
    """A plan that meets the rules, with some values changed."""
    while True:
        change: Change = {}
        for _ in range(source.randint(1, 16)):
            name, (most, values) = source.choice(list(VALUES.items()))
            change[f"{name}.{source.randint(1, most)}"] = source.choice(values)
        plan = changed(CLEAN, change)
        if not breach_rules.breaches(plan):
            return plan


def at_random_runs(folder: pathlib.Path) -> Iterator[Run]:
    """Cards of plans at random, whose files are written into this folder, and what other cards have otherwise."""
    source = random.Random(1)
    every = [(a, b) for a in card_rules.CHANNELS for b in card_rules.CHANNELS if a < b]
    for number in range(PLANS):
        plan = at_random(source)
        name, other = f"card_{number}.json", f"card_{number}.txt"
        (folder / name).write_text(json.dumps({"version": 3, **plan}))
        wanted = card_rules.card(plan)
        yield Run(["card", name], 0, card_rules.text_of(wanted).encode(), b"")
        found = [it for it in every if (it in wanted) != (source.random() < 0.04)]
        (folder / other).write_text(card_rules.text_of(source.sample(found, len(found))))
        told = card_rules.differences(wanted, found).encode()
        yield Run(["card", f"--against={other}", name], 5 if told else 0, told, b"")
