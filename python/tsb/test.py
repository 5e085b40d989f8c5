"""Scenario files: what is expected of plans, met or not (docs/use/SCENARIOS.md)."""

import asyncio
import sys
from argparse import ArgumentParser, Namespace
from collections.abc import Iterator, Sequence
from pathlib import Path

from tsb.errors import Error
from tsb.options import Words
from tsb.scenario import Result, Scenario, play, source_of
from tsb.scenario.play import PROGRAM

MET, NOT_MET, FAULT = 0, 1, 2  # statuses


def _words() -> ArgumentParser:
    words = Words(
        prog=PROGRAM,
        description="Runs scenario files, and prints each line that is not met.",
    )
    words.add_argument("files", type=Path, nargs="+", metavar="FILE")
    words.add_argument(
        "--plan",
        type=Path,
        action="append",
        default=[],
        metavar="PLAN",
        help="run all on this plan in place of their own; may come again",
    )
    words.add_argument(
        "--panel",
        type=int,
        metavar="TICK",
        help="show one file in the browser, at this tick (docs/use/PANEL.md)",
    )
    return words


def main(words: Sequence[str]) -> int:
    """Carries out `python3 -m tsb test ..`; its status: 1 where a line is not met, 2
    where a file has a fault or words are bad."""
    known = _words()
    given = known.parse_args(words)
    if given.panel is not None:
        if len(given.files) > 1 or len(given.plan) > 1 or given.panel < 0:
            known.error("--panel shows one FILE, on one plan, at a tick of 0 or more")
        return _shown(given)
    status, counts = MET, {"met": 0, "not met": 0, "left out": 0, "with a fault": 0}
    for line, what in _told(given):
        print(line, file=sys.stderr if what == "with a fault" else sys.stdout)
        counts[what] += 1
    status = NOT_MET if counts["not met"] else MET
    told = ", ".join(f"{count} {what}" for what, count in counts.items() if count)
    all_of = sum(counts.values())
    print(f"{all_of} run{'s' * (all_of > 1)}: {told}")
    return FAULT if counts["with a fault"] else status


def _told(given: Namespace) -> Iterator[tuple[str, str]]:
    """What is printed of each file on each plan, and what came of it."""
    for path in given.files:
        try:
            scenario = Scenario.read(path)
        except Error as fault:
            yield str(fault), "with a fault"
            continue
        for plan in given.plan or [None]:
            try:
                yield _of(play(scenario, plan))
            except Error as fault:
                yield str(fault), "with a fault"


def _of(result: Result) -> tuple[str, str]:
    """What is printed of a run, and what came of it."""
    on = f"{result.path} on {result.plan.name}"
    if result.left_out is not None:
        return f"{on}: left out: {result.left_out}", "left out"
    if result.misses:
        return result.text, "not met"
    return f"{on}: {result.count} met", "met"


def _shown(given: Namespace) -> int:
    """Serves a panel that shows a scenario at a tick."""
    from tsb.panel.command import RUNS, serve
    from tsb.panel.keep import Keep

    source = source_of(Scenario.read(given.files[0]), given.panel, *given.plan)
    return asyncio.run(serve(source, Keep(RUNS.resolve())))
