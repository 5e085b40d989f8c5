"""Waits for overlaps that trail, of the reference alone: they are over in the time that they show, in ticks without
other inputs; and statuses are found of each state.

    python3 -m tools.reference.test_trail_waits FOLDER LO HI
"""
import sys

from tools.reference.arrow_families import session
from tools.reference.arrow_kit import ArrowReference
from tools.reference.make_sessions import compact
from tools.reference.reference_events import opened
from tools.reference.reference_status import status_of


def main(words):
    reference, found, exact = ArrowReference(words[0]), 0, 0
    bench = reference.bench
    for seed in range(int(words[1]), int(words[2])):
        plan, log, _ = session(reference, seed, reference.count())
        run = opened(bench, compact(plan), log)
        run.answer(("step", 500), [])
        for at, state in enumerate(run.states):
            for wait in status_of(reference, state)["waits"]:
                if wait["kind"] != "trails" or at + wait["left"] >= len(run.states):
                    continue
                overlap, later = wait["overlap"], run.states[at + wait["left"]]
                if any(it.trip for it in run.states[at:at + wait["left"] + 1]):
                    continue
                parts = [it.parts[overlap].interval for it in run.states[at:at + wait["left"] + 1]]
                assert any(it in "RG" for it in parts), (seed, at, wait, parts)
                found += 1
                exact += later.parts[overlap].interval in "RG" and parts[-2] not in "RG"
    print(f"{found} waits for overlaps that trail are over in time, {exact} of them just then")


if __name__ == "__main__":
    main(sys.argv[1:])
