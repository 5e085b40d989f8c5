"""Refuses programs whose time does not grow as what they are given: tools/programs/run_growth.py TSB TSB_FIELD
TSB_LIVE.

Each row runs a program on a short text and on one that is LONGER times as long, and compares the processor seconds of
the two. What takes LONGER times as long, and somewhat more, passes; what copies or searches all that came before, at
each tick or line, takes LONGER times that, and fails. Ticks in which nothing changes have to take less than those in
which inputs change, as they are passed over. The bounds are wide, so that other work on the machine does not fail a row.
A row that is over one is measured again, up to TRIES times.
"""
import dataclasses
import os
import pathlib
import subprocess
import sys
import tempfile
import threading
from collections.abc import Callable

from tools.programs import field_rules, made_traffic
from tools.programs.field_cases import BEGIN, FROM

PLAN = "examples/quad.json"
SEED = 3
# How many ticks, rows or lines the short text has, and how many times as many the long one.
SHORT, LONGER = 60_000, 8
# The seconds of a short run count as so many at least: below, what starts a program is most of it.
LEAST_SECONDS = 0.02
# The long run may take so many times what it would if time grew as the text.
ROOM = 3.0
# Ticks in which nothing changes may take such a part of the time of those in which inputs change.
QUIET = 0.5
TRIES = 3


@dataclasses.dataclass(frozen=True)
class Texts:
    """What runs are given, of one length: the number of ticks, and files of a log, of display lines and of an export."""

    ticks: int
    log: pathlib.Path
    lines: pathlib.Path
    export: pathlib.Path


@dataclasses.dataclass(frozen=True)
class Row:
    """A way to run a program: its words, and its standard input, for texts of some length."""

    name: str
    words: Callable[[Texts], list[str]]
    given: Callable[[Texts], bytes]


def seconds_of(words: list[str], given: bytes, most: float) -> float:
    """The processor seconds of a run; of one that is ended after so many, more than these."""
    with tempfile.TemporaryFile() as source, open(os.devnull, "wb") as target:
        source.write(given)
        source.seek(0)
        running = subprocess.Popen(words, stdin=source, stdout=target)
        ends = threading.Timer(2 * most + 5, running.kill)
        ends.start()
        _, status, used = os.wait4(running.pid, 0)
        running.returncode = os.waitstatus_to_exitcode(status)
        ends.cancel()
    if running.returncode not in (0, -9):
        sys.exit(f"{words} ended with {running.returncode}")
    return used.ru_utime + used.ru_stime if running.returncode == 0 else float("inf")


def ratio(row: Row, short: Texts, long: Texts) -> float:
    """How many times the seconds of the short run the long one takes."""
    first = max(min(seconds_of(row.words(short), row.given(short), 60.0) for _ in range(2)), LEAST_SECONDS)
    return seconds_of(row.words(long), row.given(long), first * LONGER * ROOM) / first


def is_within(name: str, most: float, measure: Callable[[], float]) -> bool:
    """Whether what is measured, a number of times as long, is within a bound; prints the least."""
    found = float("inf")
    for _ in range(TRIES):
        found = min(found, measure())
        if found <= most:
            break
    print(f"{name}: {found:.2f} times as long, at most {most:g}")
    return found <= most


def quiet_share(tsb: str, texts: Texts) -> float:
    """How many times the seconds of ticks with changing inputs those take in which nothing changes."""
    steps = b"step %d\n" % texts.ticks
    quiet, busy = (seconds_of([tsb, "run", PLAN, str(log)], steps, 60.0) for log in (os.devnull, texts.log))
    return quiet / busy


def text_of_rows(ticks: int) -> bytes:
    """A row of inputs for each tick, each another than the one before."""
    rows = [field_rules.row_text(1, lit)[8:] for lit in ({("vehicle", 2)}, {("vehicle", 4), ("vehicle", 7)})]
    return b"".join(rows[tick % 2] for tick in range(ticks))


def write_texts(tsb: str, folder: pathlib.Path, ticks: int) -> Texts:
    """The files for runs of so many ticks."""
    texts = Texts(ticks, *(folder / f"{name}-{ticks}" for name in ("log", "lines", "export")))
    rows = (b"%07d " % tick + row + b"\n" for tick, row in enumerate(text_of_rows(ticks).splitlines(), 1))
    texts.log.write_bytes(b"".join(rows))
    traffic = folder / f"traffic-{ticks}"
    traffic.write_bytes(b"".join(made_traffic.rows(SEED, ticks // 10)))
    with open(texts.lines, "wb") as target:
        subprocess.run([tsb, "run", PLAN, traffic], input=b"step %d\n" % ticks, stdout=target, check=True)
    with open(texts.export, "wb") as target:
        target.write(field_rules.HEADER)
        for at in range(ticks):
            moment = field_rules.time_text(BEGIN + at * field_rules.TENTH)
            target.write(b"1001,%s,%d,%d\n" % (moment, 82 - at % 2, 1 + at // 2 % 4))
    return texts


def rows_of(tsb: str, field: str, live: str) -> list[Row]:
    """All that is measured."""
    def run(texts: Texts) -> list[str]:
        return [tsb, "run", PLAN, str(texts.log)]

    record = [field, "record", *FROM, "--device=1001", PLAN]
    return [
        Row("ticks", run, lambda it: b"step %d\n" % it.ticks),
        Row("ticks that are taken back", run, lambda it: b"step %d\nseek 0\n" % it.ticks),
        Row("last changes", run, lambda it: b"step %d\n" % it.ticks + b"when trip\nwhen stage\n" * 10),
        Row("a log that is read", run, lambda _: b"show\n"),
        Row("a record", lambda it: [*record, str(it.log)], lambda it: b"step %d\n" % it.ticks),
        Row("a live run", lambda _: [live, PLAN], lambda it: text_of_rows(it.ticks)),
        Row("a live run that is saved", lambda _: [live, PLAN], lambda it: text_of_rows(it.ticks) + b"save\n"),
        Row("a live run that tells events", lambda _: [live, PLAN], lambda it: b"events on\n" + text_of_rows(it.ticks)),
        Row("an export", lambda _: [field, "log", *FROM], lambda it: it.export.read_bytes()),
        Row("events of lines", lambda _: [field, "events", *FROM, "--device=1001"], lambda it: it.lines.read_bytes()),
        Row("a diagram", lambda _: [field, "diagram"], lambda it: it.lines.read_bytes()),
    ]


def main(words: list[str]) -> int:
    if len(words) != 3:
        sys.exit("usage: python3 -m tools.programs.run_growth TSB TSB_FIELD TSB_LIVE")
    tsb, field, live = (str(pathlib.Path(word).resolve()) for word in words)
    with tempfile.TemporaryDirectory() as name:
        short, long = (write_texts(tsb, pathlib.Path(name), SHORT * times) for times in (1, LONGER))
        passed = [is_within(f"{row.name}, {LONGER} times as much", LONGER * ROOM, lambda it=row: ratio(it, short, long))
                  for row in rows_of(tsb, field, live)]
        passed.append(is_within("ticks that change nothing", QUIET, lambda: quiet_share(tsb, long)))
    print(f"{sum(passed)} passed, {len(passed) - sum(passed)} failed")
    return 0 if all(passed) else 1


if __name__ == "__main__":
    sys.exit(main(sys.argv[1:]))
