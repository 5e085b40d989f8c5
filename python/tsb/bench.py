"""A live bench: inputs as they come, and everything that can be taken back."""

import json
import re
import tempfile
from collections.abc import Iterable, Iterator
from contextlib import contextmanager, suppress
from datetime import datetime, time
from numbers import Integral
from os import PathLike, fspath
from pathlib import Path
from types import TracebackType
from typing import Literal, NamedTuple, Self

from tsb import files, programs
from tsb.clock import YEARS, Moment, words
from tsb.errors import (
    BadCommand,
    Error,
    NoSuchTick,
    OutOfRange,
    PlanFault,
    ProgramDied,
    Refused,
)
from tsb.hold import Hold, whole
from tsb.lines import OVERLAPS, Display, Event, Lines
from tsb.manual import NEWEST, OBJECTS
from tsb.plan import Plan
from tsb.progress import progress
from tsb.rows import ALL_OFF, COUNTS, Log, On, digits, fields, of_fields
from tsb.status import Edits, Status
from tsb.talk import Talk
from tsb.values import SECOND, TENTH, Index, Value, index_of, number_of, object_of

Watch = Literal[
    "interval", "ped", "call", "output", "alarm", "input", "button", "preempt",
    "stage", "trip",
]  # fmt: skip

# The kinds of inputs that a schedule gives.
SCHEDULED = "pattern", "omit"
# Ticks that are taken at a time, where there are more.
LONG = 100_000
# The first words of commands that are inputs and no ticks.
INPUTS = frozenset(
    "pattern preempt omit fault reset clock begin set verify commit abort".split()
)

# The object that has such overlaps as `omit` names.
OMITTED = "actionArrowOmit"
# The code of an event by which another pattern is selected, and its parameter for free
# operation, which a command calls pattern 0.
SELECTED, FREE = 131, 254

_EVENT = re.compile(rb"event (\d+) (\d+) (\d+)\n")


class Mark(NamedTuple):
    """An input that is no tick and was given here: its tick, how many events came
    before it, and the first word of its command."""

    tick: int
    events: int
    word: str


class Saved(NamedTuple):
    """What makes a state again: `tsb run PLAN LOG < COMMANDS`, as texts."""

    log: str
    commands: str


class Bench:
    """A controller that runs a plan, tick by tick: `tsb_live` behind pipes. A tick is a
    tenth of a second.

    `plan` is a plan or the path of one. With a `log`, its rows act in the ticks;
    without one, an input that is not named is off. With `events`, the bench keeps the
    events of the inputs that remain. A refused input raises `Refused` and leaves all
    as it was; a plan with a fault raises `PlanFault`; `ProgramDied` says how the
    program ended, if it did.
    """

    def __init__(
        self,
        plan: Plan | str | PathLike[str],
        log: Log | str | PathLike[str] | None = None,
        *,
        events: bool = True,
    ) -> None:
        self._log = log if log is None or isinstance(log, Log) else Log.read(log)
        self._told: list[Event] = []
        self._marks: list[Mark] = []
        self._missed = ""  # what a pattern of the schedule was last refused by
        self._talk, self._now = _started(plan), 0
        self._notes = _notes(plan)
        self._hold = Hold(self._talk.kill)
        self._tells = events
        if events:
            self._ask("events on")
        if has_many_overlaps(plan):
            self.wide()

    def __enter__(self) -> Self:
        return self

    def __exit__(
        self,
        kind: type[BaseException] | None,
        fault: BaseException | None,
        trace: TracebackType | None,
    ) -> None:
        self.close()

    def close(self) -> None:
        """Ends the program."""
        self._talk.close()

    def kill(self) -> None:
        """Ends the program in the middle of whatever it does, from any thread: who
        waits for an answer gets `ProgramDied`."""
        self._talk.kill()

    @property
    def process(self) -> int:
        """The number of the program's process."""
        return self._talk.process

    # What is asked and answered

    def _ask(self, command: str) -> str:
        """The answer to a line that has just one."""
        if not command.isascii() or "\n" in command:
            raise BadCommand(command)
        *told, answer = self._talk.ask(command).split("\n")
        # (what is refused comes alone, unless it is a pattern that follows what was taken)
        is_followed = bool(told) and answer.startswith("refused")
        self._missed, answer = (answer, told.pop()) if is_followed else ("", answer)
        self._told += [Event(*map(int, it.split(" ")[1:])) for it in told]
        if answer == "bad command":
            raise BadCommand(command)
        if answer.startswith("refused"):
            raise Refused(answer, command)
        return answer

    @whole
    def _do(self, command: str) -> str:
        """The answer to a command that is an input and no tick."""
        mark = Mark(self._now, len(self._told), command.partition(" ")[0])
        answer = self._ask(command)
        self._marks.append(mark)
        self._follow_up()
        return answer

    def _follow_up(self) -> None:
        """Raises what the pattern was refused by that the schedule would have given after
        the input last asked for, which was taken."""
        if self._missed:
            raise Refused(self._missed, "the schedule's pattern", "all before it remains")

    def _block(self, lines: str) -> Lines:
        """The display lines that answer many lines, sent ahead of them."""
        text = self._talk.block(lines.encode(), lambda: self._hold.is_asked)
        if self._tells:
            told = (map(int, it) for it in _EVENT.findall(text))
            self._told += map(Event._make, told)
            text = _EVENT.sub(b"", text)
        end = text.find(b"refused")
        shown = Lines(text if end < 0 else text[:end])
        if end >= 0:
            self._keep(shown)
            line = text[end:].partition(b"\n")[0]
            raise Refused(line.decode(), "a tick")
        if shown:
            self._now = shown[-1].tick
        return shown

    def _keep(self, shown: Lines) -> None:
        """Keeps the ticks before the first that was refused."""
        self.seek(shown[-1].tick if shown else self._now)

    # Ticks

    def follow(self, log: Log | None) -> None:
        """From the next tick on the rows of this log act; with None the row last
        given is held."""
        self._log = log

    @property
    def now(self) -> int:
        """The number of the present tick; 0 at power-up."""
        return self._now

    @whole
    def tick(
        self,
        vehicles: On | None = None,
        pedestrians: On | None = None,
        preempts: On | None = None,
    ) -> Display:
        """One tick in which these inputs are on: numbers, or a digit for each from
        the first on. What is not named is as the log has it, off without one."""
        row = ALL_OFF if self._log is None else self._log.at(self._now + 1)
        given = vehicles, pedestrians, preempts
        if any(on is not None for on in given):
            row = of_fields(
                was if on is None else digits(on, count)
                for was, on, count in zip(fields(row), given, COUNTS, strict=True)
            )
        shown = self._shown(self._ask(row))
        self._follow_up()
        return shown

    @whole
    def ticks(self, rows: Iterable[str]) -> Lines:
        """A tick for each row (`tsb.row`), all sent ahead: what the heads showed."""
        given = list(rows)
        for row in given:
            fields(row)
        # (a row of lists with nothing on would be a blank line)
        return self._block("".join(f"{row or ALL_OFF}\n" for row in given))

    @whole
    def step(self, count: int = 1) -> Lines:
        """So many ticks, with the rows of the log, or without one with the row last
        given: what the heads showed."""
        if _counted("step", count) <= LONG:
            return self._block(self._asked("step", count))
        pieces = [LONG] * (count // LONG) + [count % LONG]
        shown = []
        for it in progress(pieces, "ticks"):
            shown.append(self.step(it).text)
            if self._hold.is_asked:
                break
        return Lines(b"".join(shown))

    @whole
    def wide(self, on: bool = True) -> None:
        """Has display lines show overlaps 1 to 16 from now on, or again 1 to 4. A bench
        does so from the begin whose plan has an overlap above 4."""
        self._ask("lines wide" if on else "lines narrow")

    @whole
    def changes(self, count: int) -> Lines:
        """As `step`: the lines in which a head or the preempt changed, and the last."""
        before = self.show() if self._log is not None else None
        shown = self._block(self._asked("changes", count))
        return shown if before is None else Lines.of(_changed(before, shown))

    def _asked(self, word: str, count: int) -> str:
        """The lines that ask for so many ticks."""
        count = _counted(word, count)
        if self._log is None:
            return f"{word} {count}\n"
        rows = self._log.stretches(self._now + 1, self._now + count)
        return "".join(f"{row}\n{word} {ticks - 1}\n" for row, ticks in rows)

    def _shown(self, line: str) -> Display:
        """The display of a line, whose tick is the present one."""
        found = Display.of(line)
        self._now = found.tick
        return found

    # The way back

    @whole
    def back(self, count: int) -> Display:
        """Goes back so many ticks; `NoSuchTick` where there are fewer."""
        return self._gone_back("back", count)

    @whole
    def seek(self, tick: int | Moment) -> Display:
        """Goes back to a tick, or to that of a time of the clock; `NoSuchTick` where it
        lies ahead."""
        if isinstance(tick, datetime | time) or (isinstance(tick, str) and ":" in tick):
            tick = self.tick_at(tick)
        return self._gone_back("seek", tick)

    def _gone_back(self, word: str, count: object) -> Display:
        command = f"{word} {_counted(word, count)}"
        answer = self._ask(command)
        if answer == "nothing":
            raise NoSuchTick(f"{command}: the bench is at tick {self._now}")
        found = self._shown(answer)
        self._forget()
        return found

    def _forget(self) -> None:
        """Drops the events and marks of what was taken back with its ticks."""
        while self._told and self._told[-1].tick > self._now:
            self._told.pop()
        while self._marks and self._marks[-1].tick > self._now:
            self._marks.pop()

    @whole
    def undo(self) -> str | None:
        """Takes the newest input back: its kind, as `tick` or `commit`; None where
        there is none."""
        answer = self._ask("undo")
        if answer == "nothing":
            return None
        kind = answer.removeprefix("undone ")
        if kind == "tick":
            self._now -= 1
            self._forget()
        elif kind in SCHEDULED and not self._is_given(kind):
            # (that no arrow flashes has no event before the next tick)
            if kind == "pattern":
                self._forget_scheduled()
        else:
            del self._told[self._marks.pop().events :]
        return kind

    @property
    def given(self) -> int:
        """How many inputs remain that are no ticks and were given here: not those of a
        schedule."""
        return len(self._marks)

    def _is_given(self, kind: str) -> bool:
        """Whether the newest input of this kind was given here, and not by the schedule."""
        newest = self._marks[-1] if self._marks else None
        return newest is not None and newest[::2] == (self._now, kind)

    def _forget_scheduled(self) -> None:
        """Drops the events of a pattern that the schedule gave and that was taken back.
        No answer says how many it had: it is given again, and taken back again."""
        if not self._tells:
            return
        newest = (it.parameter for it in reversed(self._told) if it.code == SELECTED)
        before = len(self._told)
        self._ask(f"pattern {next(newest, FREE) % FREE}")
        self._ask("undo")
        del self._told[2 * before - len(self._told) :]

    # The clock

    def set_clock(self, moment: datetime | str) -> None:
        """Sets the clock, which has no zone: the next tick begins then."""
        self._do(f"clock {words(moment, dated=True)}")

    @property
    @whole
    def time(self) -> datetime | None:
        """What the clock shows when the next tick begins; None where none is set."""
        second = self.status.global_time
        if second is None or (second + SECOND).year not in YEARS:
            return second
        # (the status has no tenths; and no tick is before 0)
        known = second if self._now >= 10 else second + SECOND
        return known + (self._now - self.tick_at(known)) * TENTH

    @whole
    def tick_at(self, moment: Moment) -> int:
        """The first tick at or after a time of the clock, of the present day where no
        day is named: with it in force, the next tick begins then. `NoSuchTick` where no
        clock is set."""
        asked = words(moment)
        try:
            answer = self._ask(f"tick {asked}")
        except BadCommand:
            raise NoSuchTick(f"{asked}: no clock is set") from None
        return int(answer.removeprefix("tick "))

    @whole
    def at(self, moment: Moment) -> Display:
        """Goes to the tick at a time of the clock, back or on as `step` does: the
        display there."""
        tick = self.tick_at(moment)
        if tick > self._now:
            self.changes(tick - self._now)
            return self.show()
        return self.seek(tick)

    # The operator

    def set_pattern(self, number: int) -> None:
        """Selects a pattern, 0 for free operation; it acts from the next tick on."""
        self._do(f"pattern {number}")

    def preempt(self, number: int, on: bool = True) -> None:
        """Turns the switch of a preempt on or off."""
        self._do(f"preempt {number} {'on' if on else 'off'}")

    def omit(self, overlaps: Iterable[int] = ()) -> None:
        """Names the arrows that do not flash from now on, and no others: all may flash
        where none is named. What flashes ends with its yellow."""
        self._do(f"omit {number_of(OBJECTS[OMITTED], overlaps, NEWEST)}")

    def fault(self, head: str | None, lamp: str = "") -> None:
        """Lights a lamp in place of a head's own, as `fault("P4", "G")`; with None it
        is taken away."""
        self._do("fault none" if head is None else f"fault {head} {lamp}")

    def reset(self) -> None:
        """Ends a trip, if there is one."""
        self._do("reset")

    def give(self, command: str) -> str:
        """Gives an input that is no tick as a command of docs/use/MANUAL.md, chapter 6:
        its answer, `ok` or of a `verify` the rule that the plan would break."""
        if command.partition(" ")[0] not in INPUTS:
            raise BadCommand(command)
        return self._do(command)

    @contextmanager
    def transaction(self, station: int = 1) -> Iterator["Transaction"]:
        """A transaction of a station: what is set in the `with` block is verified and
        committed at its end, and aborted where something is raised. `PlanFault` names
        the rule that the plan would break."""
        edits = Transaction(self, station)
        try:
            yield edits
            edits.commit()
        finally:
            edits.abort()

    # What is asked

    @whole
    def show(self) -> Display:
        """What the heads show."""
        return self._shown(self._ask("show"))

    @whole
    def when(self, watch: Watch, number: int | None = None) -> int | None:
        """The tick at which something changed last, None for never: `when("call", 4)`
        for a phase, `when("output", 2)` for a detector, `when("stage")`."""
        words = ["when", watch, *([] if number is None else [str(number)])]
        answer = self._ask(" ".join(words))
        return None if answer == "never" else int(answer.removeprefix("tick "))

    @property
    @whole
    def status(self) -> Status:
        """The status of the controller."""
        return Status.of_line(self._ask("status"))

    @property
    @whole
    def plan(self) -> Plan:
        """The plan in effect, with the notes of the plan that it began with."""
        return Plan.of_text(self._ask("plan")).noted(self._notes)

    @property
    @whole
    def edits(self) -> Edits:
        """What is open at the desk."""
        return Edits.of_line(self._ask("edits"))

    @property
    def events(self) -> list[Event]:
        """The events of the inputs that remain, in their order."""
        if not self._tells:
            raise Error("this bench tells no events: open it with events=True")
        return list(self._told)

    @whole
    def save(self) -> Saved:
        """The log and the commands that make this state again by `tsb run`."""
        return Saved(**json.loads(self._ask("save")))


class Transaction:
    """What a station sets, until the commit: `edits["phaseMaximum1", 2] = 40`."""

    def __init__(self, bench: Bench, station: int) -> None:
        self._bench, self._station = bench, station
        self._say("begin")
        self.is_open = True

    def _say(self, word: str, *more: object) -> str:
        words = [word, self._station, *more]
        return self._bench._do(" ".join(map(str, words)))

    def __setitem__(self, place: tuple[str, Index], value: Value) -> None:
        name, index = place
        what = object_of(name, NEWEST)
        number = number_of(what, value, NEWEST)
        self._say("set", name, index_of(what, index, NEWEST), number)

    def verify(self) -> None:
        """Judges the plan with the edits; `PlanFault` names the rule it breaks."""
        answer = self._say("verify")
        if answer != "ok":
            raise PlanFault(f"plan: {answer}")

    def commit(self) -> None:
        """Verifies, and puts all edits into effect, unless the transaction ended."""
        if self.is_open:
            self.verify()
            self._say("commit")
            self.is_open = False

    def abort(self) -> None:
        """Drops all edits, unless the transaction ended."""
        if self.is_open:
            self.is_open = False
            # (the way back may have taken the begin back, and the program may be gone)
            with suppress(Refused, ProgramDied):
                self._say("abort")


def has_many_overlaps(plan: Plan | str | PathLike[str]) -> bool:
    """Whether a plan has overlaps beyond those of display lines that are not wide."""
    if not isinstance(plan, Plan):
        if not Path(plan).is_file():
            return False
        plan = Plan.read(plan)
    return max(plan["overlapIncludedPhases"], default=0) > OVERLAPS[0]


def _notes(plan: Plan | str | PathLike[str]) -> dict[str, str]:
    """The notes of a plan, which the program does not keep."""
    if isinstance(plan, Plan):
        return plan.notes
    return Plan.read(plan).notes if Path(plan).is_file() else {}


def _started(plan: Plan | str | PathLike[str]) -> Talk:
    """A live program on a plan; `PlanFault` where it refuses the plan."""
    if not isinstance(plan, Plan):
        Path(plan).stat()  # (a file that is not there is told as such)
        return _answering(fspath(plan))
    with tempfile.NamedTemporaryFile("w", suffix=".json") as file:
        file.write(plan.text)
        file.flush()
        return _answering(file.name)


def _answering(path: str) -> Talk:
    """A live program on a plan's file, once it has answered: the plan is read."""
    talk = Talk(programs.find("tsb_live"), [files.word(path)])
    try:
        talk.ask("show")
    except ProgramDied as died:
        talk.close()
        if died.status == 1 and died.stderr.startswith("plan: "):
            raise PlanFault(died.stderr.strip()) from None
        raise
    return talk


def _counted(what: str, count: object) -> int:
    """A number of ticks, or of one."""
    is_whole = isinstance(count, Integral) and not isinstance(count, bool)
    if isinstance(count, Integral) and is_whole and int(count) >= 0:
        return int(count)
    give = "a tick, counted from power-up" if what == "seek" else "a number of ticks"
    number = "as a whole number" if not is_whole else "0 or more"
    clock = ", or a time of the clock, as '7:42'" if what == "seek" else ""
    ten = f"a second has 10 ticks{clock}"
    raise OutOfRange(f"{what} {count!r}: give {give}, {number}; {ten}")


def _changed(before: Display, shown: Lines) -> Iterator[Display]:
    """Those lines in which a head or the preempt is another, and the last."""
    for place, line in enumerate(shown, 1):
        if line[1:5] != before[1:5] or place == len(shown):
            yield line
        before = line
