"""Worked runs of `tsb_field review`: its words, and what it has to write, each found by hand from docs/use/REVIEW.md.

tools/programs/run_field.py runs them with those of tools/programs/field_cases.py, in the same folder.
"""
from collections.abc import Iterator

from tools.programs.field_cases import bad
from tools.programs.run_program import EMPTY, ENDLESS, FULL, IS_LOG, NOT_JSON, RULE, TORN, WRITE, Run, not_read

NO_REVERT = b"A16 unit: red reverts are under 2 s, that of phase %d is 0 s\n"
APART = b"A39 overlap 1: it includes phases 1 and 8 of two rings that are not concurrent, so it turns yellow between them\n"
REST = b"A14 phase %d: it rests in walk, and its clearance of 12 s can end after the force-off of phase 3 in pattern 1\n"
YIELD = (b"A32 pattern 1: its coordinated phases yield in one tick of each cycle of 90 s, "
         b"so a later call waits for the next one\n")
LONE = b"A63 unit: no phase has dual entry, so a ring rests in red while the other serves a phase alone\n"
SHORT_YELLOW = b"K8 phase 2: its yellow is 2.9 s, under 3 s\n"
REVIEWS = {
    "first_plan.json": NO_REVERT % 2,
    "one_way_pair.json": NO_REVERT % 2,
    "main_and_oak.json": REST % 2 + YIELD,
    "tee.json": NO_REVERT % 1 + APART + LONE,
}


def runs() -> Iterator[Run]:
    """Plans that run, plans that are refused as `tsb check` refuses them, bad words, and streams and files that fail."""
    for name, lines in REVIEWS.items():
        yield Run(["review", name], 0, lines, b"")
        yield Run(["review", "--", name], 0, lines, b"", stdin=TORN)
        yield Run(["review", name], 3, b"", WRITE, stdout=FULL)
        yield Run(["review", name], 3, b"", b"", stdout=FULL, stderr=FULL)
    for name, line in [
        ("two_short_yellow.json", RULE + SHORT_YELLOW), ("car.log", NOT_JSON + IS_LOG), (ENDLESS, b"plan: too large\n"),
        ("/dev/null", NOT_JSON + EMPTY),
        ("main_and_oak_1.json", b"plan: rule K1\nK1 unit: no phase is enabled\n"),
    ]:
        yield Run(["review", name], 1, line, b"", stdin=TORN)
        yield Run(["review", name], 3, b"", WRITE, stdout=FULL)
    for name in ["none.json", "folder", TORN]:
        yield Run(["review", name], 3, b"", not_read(name), stdout="/dev/null")
    for words in ["", "tee.json empty.log", "--log=empty.log tee.json", "tee.json --help", "tee.json --count"]:
        yield bad(["review", *words.split()], stdout="/dev/null")
