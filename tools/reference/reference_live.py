"""What a live session is answered, found in plain Python with an independent reference.

`answers_of` reads the lines of a live session one after another: a row of inputs takes a tick, `step` and `changes`
take ticks with the row last given, and all else is a command of `tsb run`, or one that is asked live alone. Nothing
here comes from the program. `reference` is that of make_sessions.py.
"""
import itertools
import json
import re
from collections.abc import Iterator
from typing import Any

from tools.reference.make_sessions import Reference
from tools.reference.reference_events import USUAL, Row, State, events_of
from tools.reference.reference_status import status_of
from tools.reference.reference_status_text import line_of

ROW = re.compile(rb"[01]{16} [01]{8} [01]{4}")
DISPLAY = re.compile(r"[0-9]{7} \S{16} \S{16} \S{4} [0-8] \S{4}")
LONGEST = 200  # bytes of a line
# Of each kind of input the field of a row that has it, and how many there are.
INPUTS = {"input": (0, 64), "button": (1, 16), "preempt": (2, 8)}
# How many of each a row of digits has.
DIGITS = (16, 8, 4)
# How many of each the plan texts of version 2 have.
BEFORE = {"vehicleDetector": 16, "pedestrianDetector": 8, "overlap": 4, "preempt": 4}
SWITCH = {"on": True, "off": False}


# --- what one line has ---

def plan_text(state: State) -> str:
    """The plan in effect: what is not 0, as a plan text of version 2, or of 3 where an index is beyond version 2."""
    told: dict[str, Any] = {"version": 2}
    for name in state.lim.objects:
        table = {str(index): value for index, value in enumerate(state.plan[name]) if index and value}
        if table:
            told[name] = table
            most = next((count for part, count in BEFORE.items() if name.startswith(part)), None)
            if most and max(map(int, table)) > most:
                told["version"] = 3
    return json.dumps(told, separators=(",", ":"))


def edits_text(state: State) -> str:
    """The desk, with its edits."""
    edits = [{"object": name, "index": index, "value": value} for (name, index), value in state.edits]
    rule = None if state.rule is None else f"K{state.rule}"
    told = {"owner": state.owner, "state": state.desk.lower(), "rule": rule, "edits": edits}
    return json.dumps(told, separators=(",", ":"))


def row_text(row: Row) -> str:
    """A row of digits as a log has it behind its tick."""
    return " ".join("".join("1" if is_on else "0" for is_on in field[:count]) for field, count in zip(row, DIGITS))


def command_text(given: tuple[Any, ...]) -> str:
    """The command that is an input, which is no tick."""
    kind, *more = given
    if kind == "switch":
        return f"preempt {more[0]} {'on' if more[1] else 'off'}"
    if kind == "fault":
        return "fault none" if more[0] is None else "fault {}{} {}".format(*more[0])
    return " ".join(map(str, given))


def saved_text(off: Row, inputs: list[tuple[Any, ...]]) -> str:
    """The log and the commands of inputs: rows that are other than the row before, and the ticks between commands."""
    rows: list[str] = []
    commands: list[str] = []
    before, tick, steps = off, 0, 0
    for given in inputs:
        if given[0] == "tick":
            tick, steps = tick + 1, steps + 1
            rows += [] if given[1] == before else [f"{tick:07} {row_text(given[1])}\n"]
            before = given[1]
        else:
            commands += [f"step {steps}\n"] * (steps > 0) + [command_text(given) + "\n"]
            steps = 0
    commands += [f"step {steps}\n"] * (steps > 0)
    return json.dumps({"log": "".join(rows), "commands": "".join(commands)}, separators=(",", ":"))


def shown(line: str) -> list[str]:
    """The heads and the preempt of a display line."""
    return line.split(" ")[1:5]


# --- the session ---

class LiveSession:
    """A session of the reference whose ticks have the row last given."""

    def __init__(self, reference: Reference, plan: Any) -> None:
        self.reference, self.bench = reference, reference.bench
        self.session = reference.bench.Session(plan, [], reference.bench.V2)
        self.tells = self.echoes = False

    def give(self, line: bytes) -> None:
        """Takes the inputs of a row for this tick and those behind it."""
        fields = zip(line.split(b" "), self.bench.OFF)
        self.session.rows = [(0, tuple(tuple(byte == 49 for byte in field.ljust(len(off), b"0")) for field, off in fields))]

    def rows(self) -> Iterator[Row]:
        """The rows of the ticks that remain, from the newest on, and after them one with all inputs off."""
        taken = (given[1] for given in reversed(self.session.inputs) if given[0] == "tick")
        return itertools.chain(taken, [self.bench.OFF])

    def asked(self, command: tuple[Any, ...]) -> tuple[list[str], list[str]]:
        """The events of a command of `tsb run` that takes one input at most, and its answers."""
        before, count, row = self.session.states[-1], len(self.session.inputs), next(self.rows())
        answers: list[str] = []
        self.session.answer(command, answers)
        if not self.tells or len(self.session.inputs) <= count:
            return [], answers
        given, after = self.session.inputs[-1], self.session.states[-1]
        (told,) = events_of(self.reference, before, given, after, row, [USUAL])
        return [f"event {tick:07} {code} {parameter}" for tick, code, parameter in told], answers

    def ticks(self, count: int) -> Iterator[tuple[list[str], list[str]]]:
        """So many ticks, up to one that is refused: the events and the answer of each."""
        for _ in range(count):
            told, answers = self.asked(("step", 1))
            yield told, answers
            if answers[0].startswith("refused"):
                return

    def changes(self, count: int) -> Iterator[str]:
        """So many ticks: the lines that show other heads or another preempt than the line before, and the last."""
        line, is_owed = self.bench.line(self.session.states[-1]), False
        for told, (answer,) in self.ticks(count):
            yield from told
            if answer.startswith("refused"):
                yield from [line] * is_owed + [answer]
                return
            is_owed = shown(answer) == shown(line)
            line = answer
            yield from [] if is_owed else [line]
        yield from [line] * is_owed

    def last_change(self, name: str, number: int) -> str:
        """The tick at which an input of the rows changed last."""
        field, ticks = INPUTS[name][0], self.session.states[-1].now
        values = [row[field][number - 1] for row in self.rows()]
        for place, (now, before) in enumerate(itertools.pairwise(values)):
            if now != before:
                return f"tick {ticks - place:07}"
        return "never"

    def own(self, words: list[str]) -> Iterator[str] | None:
        """The answers to what is asked live alone, and none of another line."""
        state = self.session.states[-1]
        match words:
            case ["status"]:
                return iter([line_of(status_of(self.reference, state))])
            case ["plan"]:
                return iter([plan_text(state)])
            case ["edits"]:
                return iter([edits_text(state)])
            case ["save"]:
                return iter([saved_text(self.bench.OFF, self.session.inputs)])
            case ["changes", word] if (ticks := self.bench.number(word.encode())) is not None:
                return self.changes(ticks)
            case ["when", name, word] if name in INPUTS:
                number = self.bench.number(word.encode())
                is_there = number is not None and 1 <= number <= INPUTS[name][1]
                return iter([self.last_change(name, number) if is_there else "bad command"])
            case ["events" | "echo" as name, word] if word in SWITCH:
                setattr(self, "tells" if name == "events" else "echoes", SWITCH[word])
                return iter(["ok"])
        return None

    def answers(self, line: bytes) -> Iterator[str] | None:
        """The answers to a line, and none where the session ends."""
        if len(line) > LONGEST:
            return iter(["bad command"])
        if self.bench.blank(line):
            return iter([])
        if ROW.fullmatch(line):
            self.give(line)
            return self.told(("step", 1))
        own = self.own([word.decode("latin-1") for word in line.split(b" ") if word])
        if own is not None:
            return own
        command = self.bench.read_command(line, self.bench.V2)
        if command is None:
            return iter(["bad command"])
        return None if command[0] == "quit" else self.told(command)

    def told(self, command: tuple[Any, ...]) -> Iterator[str]:
        """The answers to a command of `tsb run`, each after the events of its input."""
        for told, answers in self.ticks(command[1]) if command[0] == "step" else [self.asked(command)]:
            yield from told + answers

    def said(self, line: bytes) -> list[bytes] | None:
        """What is written to a line: with echo on, an answer that is no display line follows it."""
        echoes, answers = self.echoes, self.answers(line)
        if answers is None:
            return None
        found = list(answers)
        # (it comes after the ticks of a step that is refused, and before the events of an input that is none)
        ticks = max((place for place, it in enumerate(found, 1) if DISPLAY.fullmatch(it)), default=0)
        echo = [b"> " + line[:LONGEST]] if echoes and ticks < len(found) else []
        lines = [it.encode() for it in found]
        return lines[:ticks] + echo + lines[ticks:]


def answers_of(reference: Reference, plan: bytes, lines: bytes) -> bytes:
    """What a live session on a plan that is accepted is answered."""
    taken, fault = reference.bench.read_plan(plan, reference.bench.V2)
    assert fault is None, f"the plan is refused: {fault}"
    session, told = LiveSession(reference, taken), []
    for line in reference.bench.lines_of(lines):
        answers = session.said(line)
        if answers is None:
            break
        told += answers
    return b"".join(line + b"\n" for line in told)
