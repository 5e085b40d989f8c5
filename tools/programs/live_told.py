"""What a live session gives besides its answers: events, its commands, where it ended, and how to come to its state."""
import concurrent.futures
import csv
import json
import pathlib
import random
import re

from tools.programs.live_from_log import live_of
from tools.programs.live_kit import a_command, a_row, an_edit, difference, ran_on
from tools.programs.live_worked import PLANS, plan_of, text_of

ALL_OFF = "0000000000000000 00000000 0000"
# How often sessions are tried on each plan, and how many sessions are saved in all.
TIMES, SAVED = 12, 1000
FROM, DEVICE = "2026-11-22 07:00:00", "7"
TIME = re.compile(r"2026-11-22 ([0-9]{2}):([0-9]{2}):([0-9]{2})\.([0-9])")
DISPLAY = re.compile(rb"[0-9]{7} [-RYGF]{16} [-DCW]{16} [-RYGPF]{4} [0-8] [-0-9]{4}\n")


def lines_at_random(rng: random.Random, many: int, goes_back: bool) -> list[str]:
    """Rows, steps and commands; without going back, if so asked."""
    found: list[str] = []
    while len(found) < many:
        kind = rng.random()
        if kind < 0.4:
            found.append(a_row(rng))
        elif kind < 0.6:
            found.append(f"{rng.choice(['step', 'changes'])} {rng.choice([0, 1, 2, 5, 30, 90])}")
        elif kind < 0.65:
            found += an_edit(rng)
        else:
            command = a_command(rng)
            if goes_back or command.split(" ")[0] not in ("undo", "back", "seek"):
                found.append(command)
    return found


# --- Events ---

def told(answers: bytes) -> list[tuple[int, int, int]]:
    """The events in answers: tick, code and parameter."""
    found = (line.split(b" ") for line in answers.splitlines() if line.startswith(b"event "))
    return [(int(tick), int(code), int(parameter)) for _, tick, code, parameter in found]


def recorded(text: bytes) -> list[tuple[int, int, int]]:
    """The events of a record as CSV, whose first tick is at its first moment."""
    rows = list(csv.reader(text.decode().splitlines()))[1:]
    times = (TIME.fullmatch(row[1] if TIME.fullmatch(row[1]) else row[0]) for row in rows)
    ticks = (((int(it[1]) - 7) * 3600 + int(it[2]) * 60 + int(it[3])) * 10 + int(it[4]) + 1 for it in times if it)
    return [(tick, int(row[2]), int(row[3])) for tick, row in zip(ticks, rows, strict=True)]


def saved_of(live: pathlib.Path, plan: bytes, lines: list[str]) -> tuple[bytes, bytes]:
    """The log and the commands of a live session."""
    last = ran_on(live, [], [plan], text_of([*lines, "save"]))[1].splitlines()[-1]
    texts = json.loads(last)
    return texts["log"].encode(), texts["commands"].encode()


def events(live: pathlib.Path, field: pathlib.Path) -> list[str]:
    """Events as they come, beside a record of the same run; and all other answers, beside a run that gives none."""
    wrong = []
    for name in PLANS:
        for number in range(TIMES):
            rng = random.Random(f"events {name} {number}")
            plan, lines = plan_of(name), lines_at_random(rng, 60, goes_back=False)
            _, answers, _ = ran_on(live, [], [plan], text_of(["events on", *lines]))
            log, commands = saved_of(live, plan, lines)
            words = ["record", "--no-clock", f"--from={FROM}", f"--device={DEVICE}"]
            _, record, errors = ran_on(field, words, [plan, log], commands)
            # (in a record tick 0 has the time of tick 1)
            found = [(max(tick, 1), *more) for tick, *more in told(answers)]
            if found != recorded(record) or errors:
                wrong.append(f"events {name} {number}: {len(found)} events, not those of the record")
            others = b"".join(line for line in answers.splitlines(True) if not line.startswith(b"event "))
            alone = ran_on(live, [], [plan], text_of(lines))
            wrong += difference(f"events {name} {number}", alone, others.removeprefix(b"ok\n"))
    return wrong


# --- Saved runs ---

def after(rng: random.Random) -> list[str]:
    """What is asked of a run that was saved, and of the one that was made from it."""
    ways = [["undo"] * 30, ["back 5", "undo", "undo"], ["seek 3", "undo"], ["when stage", "when interval 2", "when call 4"]]
    return ["show", *rng.choice(ways), "show", "when trip", "when interval 6", "undo", "show"]


# More than a session has inputs: with so many `undo` all are taken back.
ALL = 3000
STATE = ["plan", "edits", "status", "save"]


def saved(live: pathlib.Path, tsb: pathlib.Path) -> list[str]:
    """A saved log with its commands leads `tsb run` to the same state, and as far back; and a live session with the same
    rows to the same plan, desk and status, and to the same saved texts."""
    with concurrent.futures.ThreadPoolExecutor() as pool:
        found = pool.map(lambda number: saved_once(live, tsb, number), range(SAVED))
        return [it for wrong in found for it in wrong]


def saved_once(live: pathlib.Path, tsb: pathlib.Path, number: int) -> list[str]:
    """What differs of one random session that is saved."""
    rng, name = random.Random(f"saved {number}"), f"saved {number}"
    plan = plan_of(PLANS[number % len(PLANS)])
    lines, more = lines_at_random(rng, rng.randint(1, 30), goes_back=True), after(rng) + ["undo"] * ALL
    log, commands = saved_of(live, plan, lines)
    _, answers, _ = ran_on(live, [], [plan], text_of([*lines, *more]))
    before = len(ran_on(live, [], [plan], text_of(lines))[1])
    ended = ran_on(tsb, ["run"], [plan, log], commands + text_of(more))
    alone = ran_on(tsb, ["run"], [plan, log], commands)[1]
    wrong = difference(name, (ended[0], ended[1][len(alone):], ended[2]), answers[before:])
    if b"refused" in alone or b"bad command" in alone or not answers.endswith(b"nothing\n"):
        wrong.append(f"{name}: a command of it is refused, or it has more than {ALL} inputs")
    again, said = live_of(rng, log, commands, alone)
    state = ran_on(live, [], [plan], again + text_of(STATE))
    wanted = said + ran_on(live, [], [plan], text_of([*lines, *STATE]))[1][before:]
    return wrong + difference(f"{name}, again", state, wanted)


# --- Commands repeated ---

def echoed(live: pathlib.Path) -> list[str]:
    """With `echo on` each answer that is no display line comes after its command, and else all is the same."""
    wrong = []
    for name in PLANS:
        for number in range(TIMES):
            rng = random.Random(f"echo {name} {number}")
            plan, lines = plan_of(name), lines_at_random(rng, 60, goes_back=True)
            lines += ["status", "plan", "edits", "when input 3", "what", "x" * 300]
            answers = ran_on(live, [], [plan], text_of(["echo on", *lines]))[1].splitlines(True)
            repeated = [place for place, line in enumerate(answers) if line.startswith(b"> ")]
            alone = b"".join(line for line in answers[1:] if not line.startswith(b"> "))
            wrong += difference(f"echo {name} {number}", ran_on(live, [], [plan], text_of(lines)), alone)
            for place in repeated:
                if DISPLAY.fullmatch(answers[place + 1]) or answers[place][2:-1].decode() not in {it[:200] for it in lines}:
                    wrong.append(f"echo {name} {number}: answer {place + 1} is {answers[place]!r}")
            others = [line for line in answers[1:] if not line.startswith(b"> ") and not DISPLAY.fullmatch(line)]
            if len(others) != len(repeated):
                wrong.append(f"echo {name} {number}: {len(repeated)} commands are repeated, for {len(others)} answers")
    return wrong


# --- Strict runs ---

def strict(live: pathlib.Path) -> list[str]:
    """A strict run ends at the first line that is refused or no command, and reports it."""
    wrong = []
    for name in PLANS:
        for number in range(TIMES):
            rng = random.Random(f"strict {name} {number}")
            plan, lines = plan_of(name), lines_at_random(rng, 40, goes_back=True)
            for place in range(len(lines) + 1):
                answers = ran_on(live, [], [plan], text_of(lines[:place]))[1]
                last = answers.splitlines()[-1:]
                if last and (last[0].startswith(b"refused ") or last[0] == b"bad command"):
                    line = lines[place - 1].encode()
                    wanted = (4, answers, b"line %d: %s: %s\n" % (place, line, last[0]))
                    break
            else:
                wanted = (0, answers, b"")
            found = ran_on(live, ["--strict"], [plan], text_of(lines))
            if found != wanted:
                wrong.append(f"strict {name} {number}: {found[0]}, {found[2]!r}, not {wanted[0]}, {wanted[2]!r}")
    return wrong


# --- The last change of an input ---

def last_change(rows: list[str], place: int) -> bytes:
    """The tick at which a byte of the rows changed last; all inputs are off before the first."""
    pairs = zip([ALL_OFF, *rows], rows)
    ticks = [tick for tick, (before, row) in enumerate(pairs, 1) if before[place] != row[place]]
    return b"tick %07d\n" % ticks[-1] if ticks else b"never\n"


def inputs(live: pathlib.Path) -> list[str]:
    """`when input`, `when button` and `when preempt`, of the rows that remain."""
    places = {**{f"input {d}": d - 1 for d in range(1, 17)}, **{f"button {d}": 16 + d for d in range(1, 9)},
              **{f"preempt {n}": 25 + n for n in range(1, 5)}}
    wrong = []
    for number in range(TIMES):
        rng = random.Random(f"inputs {number}")
        rows: list[str] = []
        lines, wanted = [], []
        for _ in range(40):
            kind = rng.random()
            if kind < 0.5 or not rows:
                rows.append(a_row(rng))
                lines.append(rows[-1])
            elif kind < 0.7:
                rows.append(rows[-1])
                lines.append("step 1")
                if lines[-2] not in (rows[-1], "step 1"):
                    lines[-1] = rows[-1]
            elif kind < 0.85:
                many = rng.randint(1, len(rows))
                rows = rows[:len(rows) - many]
                lines.append(f"back {many}")
            name = rng.choice(list(places))
            lines.append(f"when {name}")
            wanted.append(last_change(rows, places[name]))
        answers = ran_on(live, [], [plan_of("quad")], text_of(lines))[1].splitlines(True)
        found = [line for line in answers if line.startswith((b"tick ", b"never"))]
        if found != wanted:
            wrong.append(f"inputs {number}: {found}, not {wanted}")
    bad = ["when input 0", "when input 65", "when button 17", "when preempt 9", "when input", "when buttons 1", "when input 1 1"]
    wrong += difference("no inputs", ran_on(live, [], [plan_of("quad")], text_of(bad)), b"bad command\n" * len(bad))
    return wrong


# --- Cases worked by hand ---

def worked(live: pathlib.Path) -> list[str]:
    """A vehicle comes on detector 4 in tick 2: its input goes on (code 82) and calls phase 4 (43), with which the greens of
    2 and 6 conflict from then on (2). As these turn green in tick 1, their recalls give no call that goes (44); and a
    preempt is asked for (102) and no longer (104) by its switch."""
    plan = plan_of("quad")
    row = "0001000000000000 00000000 0000"
    line = b"0000001 RGRRRGRR-------- -D-------------- G--- 0 ----\n"
    cases = {
        "events": ([ALL_OFF, "events on", row, "events off", row],
                   line + b"ok\nevent 0000002 2 2\nevent 0000002 2 6\nevent 0000002 43 4\nevent 0000002 82 4\n"
                   + line.replace(b"0000001", b"0000002") + b"ok\n" + line.replace(b"0000001", b"0000003")),
        "events of recalls and switches": (
            ["events on", ALL_OFF, "preempt 1 on", "preempt 1 on", "preempt 1 off"],
            b"ok\n" + b"".join(b"event 0000001 %b\n" % it for it in [b"0 2", b"0 6", b"1 2", b"1 6", b"61 1"]) + line
            + b"event 0000001 102 1\nok\nok\nevent 0000001 104 1\nok\n"),
        "echo": (["echo on", row, "pattern 99", "when input 4", "echo off", "undo"],
                 b"ok\n" + line + b"> pattern 99\nrefused E9 NoSuchPattern\n> when input 4\ntick 0000001\n> echo off\nok\nundone tick\n"),
        "save": (["pattern 0", row, "step 2", "begin 1", "save"],
                 b"ok\n" + line + line.replace(b"0000001", b"0000002") + line.replace(b"0000001", b"0000003")
                 + b'ok\n{"log":"0000001 0001000000000000 00000000 0000\\n","commands":"pattern 0\\nstep 3\\nbegin 1\\n"}\n'),
    }
    wrong = []
    for name, (lines, wanted) in cases.items():
        wrong += difference(name, ran_on(live, [], [plan], text_of(lines)), wanted)
    found = ran_on(live, ["--strict"], [plan], text_of(["show", "# a comment", "pattern 99", "show"]))
    if (found[0], found[2]) != (4, b"line 3: pattern 99: refused E9 NoSuchPattern\n"):
        wrong.append(f"strict: {found}")
    return wrong
