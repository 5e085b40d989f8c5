"""What is asked of a live session alone, beside `tsb run`, `tsb check` and cases that were worked by hand."""
import json
import pathlib
import random
import re
from typing import Any

from tools.pages.manual_table import COMMANDS
from tools.programs.live_from_log import ALL_OFF
from tools.programs.live_kit import a_log, a_row, commands_of, difference, ran, ran_on

EXAMPLES = pathlib.Path("examples")
PLANS = ["two", "first_plan", "tee", "one_way_pair", "main_and_oak", "railroad", "quad"]
# What is done before some of the changes, each with one answer.
BEFORE = ["begin 1", "fault P2 R", "fault none", "reset", "preempt 1 on"]
# How often sessions are tried on each plan.
TIMES = 6


def text_of(lines: list[str]) -> bytes:
    """The text of lines."""
    return "".join(line + "\n" for line in lines).encode()


def plan_of(name: str) -> bytes:
    """The text of an example plan."""
    return (EXAMPLES / f"{name}.json").read_bytes()


# --- changes ---

def shown(line: bytes) -> list[bytes]:
    """The heads and the preempt of a display line."""
    return line.split(b" ")[1:5]


def changes_of(before: bytes, lines: list[bytes]) -> bytes:
    """Those display lines that show other heads or another preempt than the line before, and the last."""
    pairs = zip([before, *lines], lines)
    return b"".join(line for earlier, line in pairs if shown(line) != shown(earlier) or line is lines[-1])


def told_changes(answers: bytes, first: int, counts: list[int]) -> bytes:
    """The answers of `tsb run`; after the first few steps, only the lines that change."""
    lines = answers.splitlines(True)
    found, place = lines[:first], first
    for count in counts:
        found.append(changes_of(lines[place - 1], lines[place:place + count]))
        place += count
    return b"".join(found)


def changes(live: pathlib.Path, tsb: pathlib.Path) -> list[str]:
    """`changes N` with a row held, beside `step N` with a log of that row."""
    wrong = []
    for name in PLANS:
        for number in range(TIMES):
            rng = random.Random(f"changes {name} {number}")
            row, counts = a_row(rng), [rng.choice([0, 1, 2, 7, 60, 400]) for _ in range(8)]
            before = BEFORE if number % 2 else []
            asked = [*before, row, *(f"changes {count}" for count in counts)]
            steps = [*before, "step 1", *(f"step {count}" for count in counts)]
            log = f"0000001 {row}\n".encode()
            _, answers, _ = ran_on(tsb, ["run"], [plan_of(name), log], text_of(steps))
            wanted = told_changes(answers, len(before) + 1, counts)
            wrong += difference(f"changes {name} {number}", ran_on(live, [], [plan_of(name)], text_of(asked)), wanted)
    return wrong


# --- plan ---

COMMIT = ["begin 1", "set 1 phaseMaximum1 2 37", "set 1 unitRedRevert 1 20", "verify 1"]
ASKED = ["plan", *COMMIT, "plan", "commit 1", "plan", "undo", "plan"]
# What a plan of version 3 has besides, and the version of its line.
TURN = {"overlapIncludedPhases": {"1": 2}, "overlapModifierPhases": {"1": 1}}
VERSIONS: list[tuple[dict[str, dict[str, int]], int]] = [
    ({}, 2), ({**TURN, "overlapType": {"1": 1}}, 2), ({**TURN, "overlapType": {"1": 2}}, 3),
    ({"overlapArrowDelay": {"16": 0}}, 2), ({"overlapArrowDelay": {"1": 1}}, 3), ({"vehicleDetectorDelay": {"17": 1}}, 3),
]
COMMIT_BACK = ["commit 1", "begin 1", "set 1 unitRedRevert 1 0", "verify 1", "commit 1", "plan"]


def told_plans(live: pathlib.Path, plan: bytes) -> list[bytes]:
    """The plan in effect as `plan` prints it at first, before a commit, after it, after its undo and after two commits."""
    lines = [*ASKED, *COMMIT_BACK]
    _, answers, _ = ran_on(live, [], [plan], text_of(lines))
    return [answer for line, answer in zip(lines, answers.splitlines()) if line == "plan"]


def with_values(plan: bytes, maximum: int, revert: int | None) -> dict[str, Any]:
    """The plan of a line, with values that were set."""
    found: dict[str, Any] = json.loads(plan)
    found["phaseMaximum1"]["2"] = maximum
    found.pop("unitRedRevert", None)
    return found | ({} if revert is None else {"unitRedRevert": {"1": revert}})


def plans(live: pathlib.Path, tsb: pathlib.Path) -> list[str]:
    """The line of the plan is read as a plan, and a session on it answers as one on the first; values that were set
    stand in it after the commit alone, and what was set to 0 is gone."""
    wrong = []
    for name in PLANS:
        told = told_plans(live, plan_of(name))
        if len(told) != 5 or told[1] != told[0] or told[3] != told[0]:
            wrong.append(f"plan {name}: it is told as {told}")
            continue
        values = [json.loads(told[2]), json.loads(told[4])]
        if values != [with_values(told[0], 37, 20), with_values(told[0], 37, None)]:
            wrong.append(f"plan {name}: after commits it is {values}")
        wrong += difference(f"plan {name}, check", ran_on(tsb, ["check"], [told[0]], b""), b"plan ok\n")
        wrong += difference(f"plan {name}, told again", ran_on(live, [], [told[0]], b"plan\n"), told[0] + b"\n")
        for number in range(TIMES):
            rng = random.Random(f"plan {name} {number}")
            log, commands = a_log(rng, 150), commands_of(rng, 24)
            texts = [[plan, log] for plan in (plan_of(name), told[0])]
            first, second = (ran_on(tsb, ["run"], both, commands) for both in texts)
            wrong += difference(f"plan {name}, session {number}", second, first[1])
    return wrong + versions(live, tsb)


def versions(live: pathlib.Path, tsb: pathlib.Path) -> list[str]:
    """The line of a plan is of version 2 where that has all that the plan has, else of version 3."""
    wrong = []
    for more, version in VERSIONS:
        plan = json.dumps({**json.loads(plan_of("main_and_oak")), "version": 3, **more}).encode()
        _, answers, _ = ran_on(live, [], [plan], b"plan\n")
        if not answers.startswith(b'{"version":%d,' % version):
            wrong.append(f"plan with {more}: its line is {answers[:40]!r} .., and not of version {version}")
        wrong += difference(f"plan with {more}, check", ran_on(tsb, ["check"], [answers.strip()], b""), b"plan ok\n")
    return wrong


# --- edits ---

def desk(owner: int | None, state: str, rule: str | None, *edits: tuple[str, int, int]) -> dict[str, Any]:
    """What `edits` prints of the desk."""
    told = [{"object": name, "index": index, "value": value} for name, index, value in edits]
    return {"owner": owner, "state": state, "rule": rule, "edits": told}


CLOSED = desk(None, "normal", None)
SHORT = [("phaseMaximum1", 2, 31), ("phaseYellowChange", 4, 20)]
LONG = [("phaseMaximum1", 2, 31), ("phaseYellowChange", 4, 30)]
MANY = [("splitTime", index, index) for index in range(1, 65)]
# Lines on the plan of two phases, the answer to each, and what `edits` prints then.
WORKED: list[tuple[str, str, dict[str, Any]]] = [
    ("show", "0000000 -R-R------------ ---------------- ---- 0 ----", CLOSED),
    ("begin 3", "ok", desk(3, "transaction", None)),
    ("set 3 phaseMaximum1 2 30", "ok", desk(3, "transaction", None, ("phaseMaximum1", 2, 30))),
    ("set 3 phaseYellowChange 4 20", "ok", desk(3, "transaction", None, ("phaseMaximum1", 2, 30), SHORT[1])),
    ("set 3 phaseMaximum1 2 31", "ok", desk(3, "transaction", None, *SHORT)),
    ("set 1 phaseMaximum1 2 32", "refused E5 NotOwner", desk(3, "transaction", None, *SHORT)),
    ("begin 1", "refused E4 Busy 3", desk(3, "transaction", None, *SHORT)),
    ("verify 3", "rule K8", desk(3, "verify", "K8", *SHORT)),
    ("commit 3", "refused E7 NotVerified", desk(3, "verify", "K8", *SHORT)),
    ("set 3 phaseYellowChange 4 30", "ok", desk(3, "transaction", None, *LONG)),
    ("undo", "undone set", desk(3, "verify", "K8", *SHORT)),
    ("set 3 phaseYellowChange 4 30", "ok", desk(3, "transaction", None, *LONG)),
    ("verify 3", "ok", desk(3, "done", None, *LONG)),
    ("commit 3", "ok", CLOSED),
    ("undo", "undone commit", desk(3, "done", None, *LONG)),
    ("abort 3", "ok", CLOSED),
    ("begin 4", "ok", desk(4, "transaction", None)),
    *[(f"set 4 splitTime {many} {many}", "ok", desk(4, "transaction", None, *MANY[:many])) for many in range(1, 65)],
    ("set 4 splitTime 65 1", "refused E8 TooManyEdits", desk(4, "transaction", None, *MANY)),
    ("step 0", "", desk(4, "transaction", None, *MANY)),
    ("back 0", "0000000 -R-R------------ ---------------- ---- 0 ----", desk(4, "transaction", None, *MANY)),
    ("abort 4", "ok", CLOSED),
]


def edits(live: pathlib.Path) -> list[str]:
    """`edits` after each of these lines."""
    lines = "".join(f"{line}\nedits\n" for line, _, _ in WORKED)
    ended = ran([live, EXAMPLES / "two.json"], lines.encode())
    found = [json.loads(line) if line.startswith("{") else line for line in ended[1].decode().splitlines()]
    wanted = [it for _, answer, told in WORKED for it in [answer, told] if it != ""]
    if (ended[0], ended[2], found) == (0, b"", wanted):
        return []
    pairs = ((one, other) for one, other in zip([*found, None], [*wanted, None]) if one != other)
    return [f"edits: {ended[0]} {ended[2]!r}, {next(pairs, (found, wanted))}"]


# --- status ---

def first_status(live: pathlib.Path) -> list[str]:
    """The tick that a status has."""
    ended = ran([live, EXAMPLES / "two.json"], ALL_OFF + b"\nstatus\nstep 6\nstatus\nundo\nstatus\n")
    found = [json.loads(line)["tick"] for line in ended[1].splitlines() if line.startswith(b"{")]
    return [] if found == [1, 7, 6] else [f"status: its ticks are {found}"]


# --- goto and tick ---

BAD, NO_TICK = "bad command", "refused E11 TickLimit"
ANSWERS = ("bad ", "refused ", "tick ")
UNREAD = ["24:00:00", "7:00:00", "07:00", "07:60:00", "07:00:60", "07:00:00.", "07:00:00.11", "07:00:00 1", "2026-11-22", "",
          "2026-02-29 00:00:00", "1999-12-31 00:00:00", "2026-11-22 07:00:00 1"]
EVENING, MORNING = "clock 2026-11-22 23:59:59.8", "clock 2026-11-22 07:00:00"
# Lines, and the answer to each, or else another line that has the same answer where no times are read.
CLOCKED = [
    ("goto 07:00:00", BAD), ("tick 07:00:00", BAD), ("tick 2026-11-22 07:00:00", BAD),
    # (tick 0 is two tenths before midnight)
    (EVENING, EVENING), ("tick 23:59:59.8", "tick 0000000"), ("tick 23:59:59.9", "tick 0000001"),
    ("tick 23:00:00", "tick 0000000"), ("tick 00:00:00", "tick 0000000"), ("tick 2026-11-23 00:00:00", "tick 0000002"),
    ("goto 23:59:59.8", "show"), ("goto 2026-11-23 00:00:00.1", "step 3"),
    # (from here on a time alone is one of the next day)
    ("tick 23:59:59.9", "tick 0864001"), ("tick 00:00:10", "tick 0000102"), ("goto 00:00:10", "step 99"),
    ("goto 00:00:10", "show"), ("goto 00:00:00", "seek 2"), ("show", "show"), ("undo", "undo"), ("undo", "undo"),
    # (and from here on one of the first)
    ("tick 00:00:00", "tick 0000000"), ("goto 2026-11-20 00:00:00", "seek 0"),
    ("tick 2026-11-29 22:39:59.8", "tick 6000000"), ("tick 2026-11-29 22:39:59.9", NO_TICK),
    ("goto 2026-11-29 22:39:59.9", NO_TICK), ("goto 2099-12-31 23:59:59.9", NO_TICK),
    *[(f"{word} {it}", BAD) for word in ("goto", "tick") for it in UNREAD],
    ("undo", "undo"), ("goto 23:59:59.8", BAD), ("step 5", "step 5"), (MORNING, MORNING),
    ("tick 06:59:59.5", "tick 0000000"), ("step 2", "step 2"), ("tick 07:00:00", "tick 0000005"), ("goto 07:00:00", "seek 5"),
    # (the way back may lead to where no clock is set)
    ("goto 06:59:59.7", "seek 2"), ("tick 07:00:00", BAD),
]


def clocked(live: pathlib.Path) -> list[str]:
    """`goto` and `tick`, beside ticks that were worked by hand."""
    asked, plain = [line for line, _ in CLOCKED], [line for _, line in CLOCKED if not line.startswith(ANSWERS)]
    first, second = (ran([live, EXAMPLES / "main_and_oak.json"], text_of(lines)) for lines in (asked, plain))
    lines = iter(second[1].decode().splitlines())
    wanted: list[str] = []
    for _, line in CLOCKED:
        count = int(line.split(" ")[1]) if line.startswith("step") else 1
        wanted += [line] if line.startswith(ANSWERS) else [next(lines) for _ in range(count)]
    found = first[1].decode().splitlines()
    if (first[0], first[2], found) == (0, b"", wanted):
        return []
    pairs = ((one, other) for one, other in zip([*found, None], [*wanted, None]) if one != other)
    return [f"goto: {first[0]} {first[2]!r}, {next(pairs, (found, wanted))}"]


# --- help ---

# What each of its lines begins with: a row, the commands of docs/use/MANUAL.md, chapter 6, and those of docs/use/LIVE.md.
HELPED = ["ROW", "step", "changes", "back", "seek", "goto", "tick", "undo", "show", "status", "plan", "edits", "when", "when", "begin",
          "set", "verify", "commit", "abort", "pattern", "preempt", "omit", "fault", "reset", "clock", "events", "echo", "lines", "save", "help", "quit"]


def helped(live: pathlib.Path) -> list[str]:
    """`help`: a line for each command, behind its echo, as no display line; nothing has changed then."""
    ended = ran([live, "--strict", EXAMPLES / "two.json"], b"step 3\necho on\nhelp\nshow\nhelp me\n")
    first, ok, asked, *lines, last, bad, answer = ended[1].decode().splitlines()[2:]
    names = [line.split(" ")[0] for line in lines]
    told = [line for line in lines if not re.fullmatch(r"[A-Za-z][A-Za-z0-9 :-]{25}\S.*", line)]
    right = (ok, asked, last, bad, answer) == ("ok", "> help", first, "> help me", "bad command")
    if (ended[0], names, told) == (4, HELPED, []) and right and set(COMMANDS) < set(names):
        return []
    return [f"help: {ended}"]
