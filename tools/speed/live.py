"""Live runs, for tools/speed: round trips of a tick through pipes, beside a program that answers a fixed line."""

import pathlib
import shutil
import statistics
import subprocess
import time

from tools.speed.kit import Counted, Run, Setup, Table, Talk, counts, ratio, rounded
from tools.speed.sessions import PLAN

# Round trips of a turn, and the rows that are written before their answers are read.
TRIPS, AHEAD = 20_000, 100
ALL_TICKS, COUNTED = 6_000_000, 100_000
# How many ticks go by before the row changes.
HELD = 37
ROWS = [b"1010101010000000 00000000 0000\n", b"0101000100000000 00000000 0000\n"]
MICRO = 1e-6

FIXED = """
#include <string.h>
#include <unistd.h>
int main(void)
{
    static char text[1 << 16];
    static const char line[] = "0000000 RRRRRRRR-------- -D-------------- R--- 0 ----\\n";
    for (long got; (got = read(0, text, sizeof text)) > 0;)
        for (char *at = text; (at = memchr(at, 10, text + got - at)); at++)
            if (write(1, line, sizeof line - 1) < 0)
                return 3;
    return 0;
}
"""


def built(folder: pathlib.Path) -> str:
    """The program that answers a fixed line."""
    source, program = folder / "fixed.c", folder / "fixed"
    source.write_text(FIXED)
    kit = pathlib.Path(shutil.which("rt") or "rt").resolve().parent.parent / "toolchain" / "bin" / "clang"
    compiler = shutil.which("cc") or shutil.which("clang") or str(kit)
    subprocess.run([compiler, "-O2", "-o", program, source], check=True)
    return str(program)


def row(tick: int) -> bytes:
    """The row of a tick."""
    return ROWS[tick // HELD % 2]


def rows(first: int, behind: int) -> bytes:
    """The rows of some ticks."""
    return b"".join(row(tick) for tick in range(first, behind))


def trips_of(words: list[str], count: int) -> tuple[list[float], float]:
    """The seconds of single round trips, and the seconds that the program's own code took for each."""
    talk = Talk(words)
    found = [talk.ask(row(tick)) for tick in range(count)]
    used = talk.end()
    return found, used.ru_utime / count


def trips(live: str, fixed: str, setup: Setup) -> list[list[str]]:
    """Rows of the table: round trips of both programs, in turn."""
    names = {"tsb_live": [live, PLAN], "fixed": [fixed]}
    found: dict[str, list[float]] = {name: [] for name in names}
    own: dict[str, list[float]] = {name: [] for name in names}
    for _ in range(setup.runs):
        for name, words in names.items():
            times, used = trips_of(words, setup.ticks(TRIPS))
            found[name] += times
            own[name].append(used)
    cuts = {name: statistics.quantiles(it, n=100) for name, it in found.items()}
    lines = [("a round trip of one tick, the median", {name: it[49] for name, it in cuts.items()}),
             ("of this the program's own code", {name: statistics.median(it) for name, it in own.items()}),
             ("a round trip, the 99th of a hundred", {name: it[98] for name, it in cuts.items()})]
    return [[what, *(f"{rounded(it / MICRO)} us" for it in both.values()), ratio(*both.values())]
            for what, both in lines]


def ahead(live: str, count: int) -> list[list[str]]:
    """Rows of the table: many ticks with a hundred rows ahead, and the memory that they take."""
    texts = [rows(first, first + AHEAD) for first in range(0, count, AHEAD)]
    talk = Talk([live, PLAN])
    begun = time.perf_counter()
    for text in texts:
        talk.ask(text, AHEAD)
    seconds, memory = time.perf_counter() - begun, talk.memory() / (1 << 20)
    talk.end()
    what = f"{count:,} ticks, a hundred rows ahead"
    return [[what, f"{seconds:.1f} s, {seconds / count / MICRO:.2f} us a tick, {memory:.0f} MiB", "", ""]]


def lives(setup: Setup, live: str) -> Table:
    """The table of live runs."""
    count = setup.ticks(COUNTED)
    found = trips(live, built(setup.files.folder), setup) + ahead(live, setup.ticks(ALL_TICKS))
    counted = counts([Counted(Run((live, PLAN), rows(0, count)), Run((live, PLAN)), count)])
    return Table("lives", ["What", "tsb_live", "A fixed line", "Ratio"],
                 [*found, ["instructions of a tick with its row and its line", *counted, "", ""]])
