"""Runs stored plans, plan texts, logs and short sessions with the built programs, and compares their answers.

    python3 -m tools.programs.run_cases TSB TSB_FIELD [--all]

They are `checks.txt`, `plans.cases`, `logs.cases` and `sessions.cases` of the folder `cases`. The answers are in the
file `.answers` beside each. A plan of `checks.txt` is written as a plan text of its version. What a log has at a tick
is seen in the events of its inputs: `tsb_field record` writes them of a run that steps to the last tick that is asked
for. It takes seconds to come to tick 6,000,000. With --all it is looked at in each log that asks for it, and otherwise
only where another tick is asked for within the last million.
"""
import concurrent.futures
import datetime
import itertools
import json
import os
import pathlib
import subprocess
import sys
import tempfile
from collections.abc import Iterator, Sequence
from typing import NamedTuple

from tools.programs import stored_cases
from tools.programs.stored_cases import CASES

USAGE = "python3 -m tools.programs.run_cases TSB TSB_FIELD [--all]"
EXAMPLES = pathlib.Path("examples")
# The seconds that a run has at most; most take some thousandths.
SECONDS = 600
# How many cases that differ are named.
NAMED = 10
# What a good plan is answered, and what the line of a log's fault begins with.
PLAN_OK, FAULT = b"plan ok\n", b"log "
# The line on standard error after a refused plan's.
REVIEW = b"all faults, each with its place: tsb_field review PLAN\n"

# The objects whose index counts rows, of 8 places in version 1 and of 16 later.
IN_ROWS = {"splitTime", "splitMode", "splitCoordPhase", "sequenceData"}
NARROW, WIDE = 8, 16

# The last tick of a run, how many ticks before a last tick are too many to be played, and the most of one command.
LAST, MANY, STEP = 6_000_000, 1_000_000, 1_000_000
FROM = datetime.datetime(2026, 11, 22, 7)
TICK = datetime.timedelta(seconds=0.1)
# The codes of inputs that go on and off, by their column in the answers: vehicle and pedestrian detectors, preempts.
ON, OFF = {"82": 0, "90": 1, "102": 2}, {"81": 0, "89": 1, "104": 2}
# A plan in which one phase rests in green, as nothing else is called: each input has its events all the same.
AT_REST = json.dumps({
    "version": 2, "phaseEnabled": {"1": 1}, "phaseRing": {"1": 1}, "phaseSide": {"1": 1}, "sequenceData": {"1": 1},
    "phaseMinimumGreen": {"1": 5}, "phaseMaximum1": {"1": 10}, "phaseMaximum2": {"1": 10},
    "phaseYellowChange": {"1": 30},
}).encode()

# What a plan text has: an index, and the value as it is spelled, by the name of each object.
Members = dict[str, dict[str, str]]


class Plan(NamedTuple):
    """A plan as texts of a version have it."""

    version: str
    members: Members


class Job(NamedTuple):
    """A case with its file, and what it is answered."""

    file: str
    case: stored_cases.Spelled
    wanted: bytes


class Programs(NamedTuple):
    """The programs, and whether all ticks are played."""

    tsb: pathlib.Path
    field: pathlib.Path
    plays_all: bool


def example(name: str) -> Plan:
    """The plan of an example."""
    text = json.loads((EXAMPLES / f"{name}.json").read_text(encoding="utf-8"))
    version = str(text.pop("version"))
    return Plan(version, {name: {index: str(it) for index, it in values.items()} for name, values in text.items()})


def widened(name: str, index: str) -> str:
    """The index of a later version for one of version 1."""
    row, place = divmod(int(index) - 1, NARROW)
    return str(WIDE * row + place + 1) if name in IN_ROWS else index


def members_in(version: str, plan: Plan) -> Members:
    """What a text of this version has of the plan, for changes to be made in it."""
    if plan.version in ("", version):
        return {name: dict(values) for name, values in plan.members.items()}
    assert version != "1", "a plan of a later version has no text of version 1"
    if plan.version != "1":
        return members_in(plan.version, plan)
    return {name: {widened(name, index): it for index, it in values.items()} for name, values in plan.members.items()}


def changed(words: list[str], bases: dict[str, Plan]) -> Plan:
    """The plan `VERSION BASE CHANGE CHANGE ..`."""
    version, base, *changes = words
    members = members_in(version, bases[base])
    for change in changes:
        place, _, value = change.partition("=")
        name, _, index = place.partition(".")
        members.setdefault(name, {})[index] = value
    return Plan(version, members)


def text_of(plan: Plan) -> bytes:
    """The plan text. Values are written as they are spelled, also where they are no values."""
    tables = (f'"{name}":{{' + ",".join(f'"{index}":{it}' for index, it in values.items()) + "}"
              for name, values in plan.members.items())
    return ("{" + ",".join([f'"version":{plan.version}', *tables]) + "}").encode()


def checks() -> Iterator[stored_cases.Spelled]:
    """The cases of `checks.txt`, each as a plan text."""
    bases = {"empty": Plan("", {}), "two": example("two"), "quad": example("quad")}
    for number, line in enumerate((CASES / "checks.txt").read_text(encoding="utf-8").splitlines(), 1):
        words = line.split()
        if not words or line.startswith("#"):
            continue
        if words[0] == "plan":
            bases[words[1]] = changed(words[2:], bases)
        else:
            yield stored_cases.Spelled(f"line {number}", [text_of(changed(words, bases))], [])


def answers_of(file: str, cases: list[stored_cases.Spelled]) -> list[bytes]:
    """The stored answers to these cases: each follows a line with its name; those of `checks.txt` are lines."""
    text = (CASES / f"{file}.answers").read_bytes()
    if file == "checks":
        return text.splitlines(keepends=True)
    names = [f"== {it.name}\n".encode() for it in cases]
    found = []
    for name, following in zip(names, [*names[1:], b""]):
        assert text.startswith(name), f"{file}.answers has no {name!r} where it should be"
        end = text.index(b"\n" + following, len(name) - 1) + 1 if following else len(text)
        found.append(text[len(name):end])
        text = text[end:]
    return found


def jobs_of(file: str) -> list[Job]:
    """The cases of a file with their answers; there have to be as many as are counted."""
    cases = list(checks() if file == "checks" else stored_cases.read_spelled(CASES / f"{file}.cases"))
    answers, count = answers_of(file, cases), stored_cases.counts()[file]
    assert len(cases) == len(answers) == count, f"{file}: {len(cases)} cases, {len(answers)} answers, and not {count}"
    return [Job(file, case, wanted) for case, wanted in zip(cases, answers)]


def run(words: Sequence[str | pathlib.Path], files: list[bytes], commands: bytes) -> subprocess.CompletedProcess[bytes]:
    """A run of a program: its words, then files that have these bytes; it reads the commands."""
    with tempfile.TemporaryDirectory() as folder:
        paths = [pathlib.Path(folder, str(number)) for number in range(len(files))]
        for path, text in zip(paths, files):
            path.write_bytes(text)
        return subprocess.run([*words, *paths], input=commands, capture_output=True, check=False, timeout=SECONDS)


def ended(done: subprocess.CompletedProcess[bytes], status: int) -> bytes:
    """What a run wrote on the one stream that it may write on; it has to end with this status."""
    wrote, nothing = (done.stderr, done.stdout) if done.returncode else (done.stdout, done.stderr)
    is_well = done.returncode == status and not nothing
    return wrote if is_well else f"status {done.returncode}, {done.stdout!r}, {done.stderr!r}".encode()


def checked(tsb: pathlib.Path, text: bytes) -> bytes:
    """What `tsb check` writes of a plan text on standard output, where its status and standard error fit that."""
    done = run([tsb, "check"], [text], b"")
    is_well = (done.returncode, done.stderr) == ((0, b"") if done.stdout == PLAN_OK else (1, REVIEW))
    return done.stdout if is_well else f"status {done.returncode}, {done.stdout!r}, {done.stderr!r}".encode()


def talked(tsb: pathlib.Path, plan: bytes, log: bytes, commands: bytes) -> bytes:
    """What `tsb run` writes: the answers, or with status 1 the first fault of the plan or of the log."""
    done = run([tsb, "run"], [plan, log], commands)
    return ended(done, 1 if done.returncode == 1 else 0)


def steps_to(tick: int) -> bytes:
    """The commands that step to a tick."""
    whole, rest = divmod(tick, STEP)
    return f"step {STEP}\n".encode() * whole + f"step {rest}\n".encode()


def played(ticks: list[int], plays_all: bool) -> list[int]:
    """The ticks of those that are asked for at which the run is looked at: without those that no run has, and without
    the last one where all others are long before it."""
    asked = sorted({it for it in ticks if 1 <= it <= LAST})
    is_far = len(asked) > 1 and asked[-1] - asked[-2] > MANY
    return asked[:-1] if is_far and not plays_all else asked


def inputs_at(record: bytes, ticks: list[int]) -> dict[int, bytes]:
    """The line of the inputs that are on at each of these ticks, which rise, by the events of a record."""
    rows = [line.split(",") for line in record.decode().splitlines()[1:]]
    events = iter([(1 + round((datetime.datetime.fromisoformat(time) - FROM) / TICK), code, int(number))
                   for _, time, code, number in rows])
    on, found = [0, 0, 0], {}
    event = next(events, None)
    for tick in ticks:
        while event is not None and event[0] <= tick:
            _, code, number = event
            if code in ON:
                on[ON[code]] |= 1 << (number - 1)
            elif code in OFF:
                on[OFF[code]] &= ~(1 << (number - 1))
            event = next(events, None)
        found[tick] = f"{tick} {on[0]} {on[1]} {on[2]}\n".encode()
    return found


def rows_seen(programs: Programs, job: Job) -> bytes:
    """The first fault of a log; else the lines of the ticks that are asked for, as far as they are played, and as they
    are stored behind that."""
    [log], ticks = job.case.pieces, job.case.numbers
    fault = talked(programs.tsb, AT_REST, log, b"")
    if fault or job.wanted.startswith(FAULT):
        return fault
    looked_at = played(ticks, programs.plays_all)
    recorded = run([programs.field, "record", "--from", str(FROM), "--device", "1"], [AT_REST, log],
                   steps_to(looked_at[-1]))
    seen = inputs_at(ended(recorded, 0), looked_at)
    stored = job.wanted.splitlines(keepends=True)
    return b"".join(seen.get(tick, line) for tick, line in zip(ticks, stored, strict=True))


def answered(programs: Programs, job: Job) -> bytes:
    """What a case is answered."""
    if job.file == "logs":
        return rows_seen(programs, job)
    if job.file == "sessions":
        plan, log, commands = job.case.pieces
        return talked(programs.tsb, plan, log, commands)
    return checked(programs.tsb, job.case.pieces[0])


def difference(programs: Programs, job: Job) -> str | None:
    """What a case is answered otherwise than it should be: the first line that differs."""
    found = answered(programs, job)
    if found == job.wanted:
        return None
    pairs = itertools.zip_longest(found.splitlines(), job.wanted.splitlines())
    differs = next((f"{it!r}, not {wanted!r}" for it, wanted in pairs if it != wanted), "the ends of lines differ")
    return f"{job.file}: {job.case.name}: {differs}"


def main(words: list[str]) -> int:
    """Compares all cases, and prints what differs or how many there are."""
    plays_all = words[2:] == ["--all"]
    if len(words) != 2 + plays_all:
        sys.exit(f"usage: {USAGE}")
    tsb, field = (pathlib.Path(word).resolve() for word in words[:2])
    for program in [tsb, field]:
        if not program.is_file():
            sys.exit(f"there is no {program}")
    # (logs first: some of them take seconds)
    jobs = [job for file in ["logs", "sessions", "plans", "checks"] for job in jobs_of(file)]
    programs = Programs(tsb, field, plays_all)
    with concurrent.futures.ThreadPoolExecutor(os.cpu_count()) as pool:
        wrong = [it for it in pool.map(difference, [programs] * len(jobs), jobs) if it is not None]
    print("\n".join(wrong[:NAMED]) if wrong else f"stored cases: {len(jobs)} as expected")
    return 1 if wrong else 0


if __name__ == "__main__":
    sys.exit(main(sys.argv[1:]))
