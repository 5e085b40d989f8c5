"""The words of `python3 -m tsb report`."""

import argparse
from collections.abc import Sequence
from pathlib import Path

from tsb.options import Words, called

PROGRAM = called("report")
USAGE = f"""
  {PROGRAM} --plan-a PLAN [--plan-b PLAN | --street]
      (--log LOG | --export CSV --from TIME) --out HTML
  {PROGRAM} --events-a CSV [--events-b CSV] [--plan-a PLAN] [--plan-b PLAN]
      --out HTML"""
# What is said of runs of the bench, and not of events that are there.
OF_BENCH = (
    "log", "export", "street", "commands", "pattern-a", "pattern-b",
    "vehicle", "pedestrian", "preempt", "no-clock",
)  # fmt: skip


def read_words(words: Sequence[str]) -> argparse.Namespace:
    """What the words say. Bad ones end the program with status 2, after the usage
    and what is wrong with them."""
    known = _words()
    given = known.parse_args(words)
    if wrong := _wrong(given):
        known.error(wrong)
    return given


def _words() -> argparse.ArgumentParser:
    words = Words(
        prog=PROGRAM,
        usage=USAGE,
        description="Writes a page of charts and tables of one run or two.",
        epilog='docs/use/PYTHON.md, "A page to hand on", says what each number means.',
        allow_abbrev=False,
    )
    for run, which in (("a", "the first run"), ("b", "the second run")):
        _of_run(words, run, which)
    words.add_argument("--log", type=Path, help="the inputs that plans run on")
    words.add_argument(
        "--export", metavar="CSV", type=Path,
        help="a controller's event log, whose inputs plans run on",
    )  # fmt: skip
    words.add_argument(
        "--street", action="store_true",
        help="the export's own events are the first run, --plan-a the second",
    )  # fmt: skip
    words.add_argument(
        "--from", dest="begin", metavar="TIME",
        help="when tick 1 begins; the clocks of plans are set to it",
    )  # fmt: skip
    words.add_argument(
        "--no-clock", action="store_true",
        help="plans run without a clock: offsets count from tick 0, not from midnight",
    )  # fmt: skip
    words.add_argument(
        "--seconds", type=_positive, metavar="N", help="how long runs are"
    )
    words.add_argument("--device", metavar="ID", help="of event logs, the controller")
    words.add_argument(
        "--commands", metavar="FILE", type=Path,
        help="the commands of a session, in place of ticks alone",
    )  # fmt: skip
    words.add_argument(
        "--consecutive", type=_positive, default=1, metavar="N",
        help="mark ends of greens with N or more of a phase in a row by one cause",
    )  # fmt: skip
    for kind in ("vehicle", "pedestrian", "preempt"):
        words.add_argument(
            f"--{kind}", action="append", default=[], type=_lead,
            metavar="CHANNEL=INPUT", help="of --export, as `tsb_field log` has it",
        )  # fmt: skip
    words.add_argument("--title", help="what stands over the page")
    words.add_argument("--out", type=Path, required=True, metavar="HTML")
    return words


def _of_run(words: argparse.ArgumentParser, run: str, which: str) -> None:
    """Adds the words of a run."""
    words.add_argument(
        f"--plan-{run}", metavar="PLAN", type=Path, help=f"the plan of {which}"
    )
    words.add_argument(
        f"--pattern-{run}", metavar="N", type=_positive,
        help="a pattern that is selected before its first tick",
    )  # fmt: skip
    words.add_argument(
        f"--events-{run}", metavar="CSV", type=Path,
        help=f"the events of {which}: a record, or a controller's event log",
    )  # fmt: skip


def _positive(text: str) -> int:
    number = int(text)
    if number < 1:
        raise ValueError
    return number


_positive.__name__ = "whole number above 0"  # (as argparse tells a bad one)


def _lead(text: str) -> tuple[int, int]:
    channel, _, lead = text.partition("=")
    return int(channel), int(lead)


_lead.__name__ = "CHANNEL=INPUT"


def _wrong(given: argparse.Namespace) -> str | None:
    """What is wrong with words that don't go together, if anything."""
    found = _wrong_events(given) if given.events_a else _wrong_bench(given)
    return next((said for is_wrong, said in found if is_wrong), None)


def _wrong_events(given: argparse.Namespace) -> list[tuple[object, str]]:
    """What can be wrong where events are there."""
    more = [it for it in OF_BENCH if getattr(given, it.replace("-", "_"))]
    named = ", ".join(f"--{it}" for it in more)
    return [
        (more, f"--events-a has its events: leave {named} out"),
        (given.plan_b and not given.events_b, "--plan-b needs --events-b"),
    ]


def _wrong_bench(given: argparse.Namespace) -> list[tuple[object, str]]:
    """What can be wrong where the bench runs."""
    channels = [given.vehicle, given.pedestrian, given.preempt]
    return [
        (given.events_b, "--events-b needs --events-a"),
        (not given.plan_a, "give --plan-a or --events-a"),
        (not given.log and not given.export, "give --log or --export"),
        (given.log and given.export, "give --log or --export, not both"),
        (given.export and not given.begin, "--export needs --from"),
        (given.street and not given.export, "--street needs --export"),
        (given.street and given.plan_b, "--street is one of two runs: no --plan-b"),
        (given.pattern_b and not given.plan_b, "--pattern-b needs --plan-b"),
        (given.commands and given.seconds, "--commands say how long: no --seconds"),
        (any(channels) and not given.export, "channels are those of --export"),
        (
            any(len(dict(it)) < len(it) for it in channels),
            "a channel leads to one input: it is named twice",
        ),
    ]
