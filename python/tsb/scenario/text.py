"""The text of a scenario: its lines, one after another, and the first that is none."""

import re
from codecs import BOM_UTF8
from collections.abc import Callable, Iterator, Mapping
from dataclasses import dataclass, field
from pathlib import Path

from tsb.bench import INPUTS
from tsb.errors import Error, OutOfRange, shown
from tsb.files import read, regular
from tsb.manual import NEWEST
from tsb.options import nearest
from tsb.panel.requests import COUNTS, NUMBER_MOST, Kind
from tsb.panel.tape import place
from tsb.scenario.expect import Expectation, expectation_of
from tsb.scenario.faults import Place, Word
from tsb.scenario.times import NAME, Time, Value
from tsb.scenario.words import Words
from tsb.values import number_of, object_of

SUFFIX = ".scenario"
LONGEST = 1 << 20  # bytes of a file
LINE_LONGEST = 1000  # characters of a line
#: Inputs by their letter, as the tables of `tsb.frames` have them.
KINDS: Mapping[str, Kind] = {"V": "vehicle", "B": "pedestrian", "I": "preempt"}
IS_INPUT = "V1 to V64, B1 to B16 and I1 to I8 are inputs"
#: Every index of an object that a line sets.
ALL = "*"


@dataclass(frozen=True)
class Need:
    """A value that the plan has to have, or else the file is left out: this number, or
    any but 0."""

    value: Value
    number: int | None


@dataclass(frozen=True)
class Laid:
    """A value that is laid over the plan before power-up."""

    object: str
    indices: range
    value: int | Value
    place: Place


@dataclass(frozen=True)
class Turn:
    """Inputs that go on or off, from a tick on, by their places in a row."""

    tick: Time
    places: tuple[tuple[str, int], ...]
    on: bool


@dataclass(frozen=True)
class Command:
    """A command of a session that is given at a tick, before the next one."""

    tick: Time
    text: str
    place: Place


@dataclass
class Scenario:
    """What a file asks. Paths are those that it names, from its own folder on."""

    path: Path
    plan: Path | None = None
    log: Path | None = None
    until: Time | None = None
    needs: list[Need] = field(default_factory=list)
    laid: list[Laid] = field(default_factory=list)
    named: dict[str, Time] = field(default_factory=dict)
    turns: list[Turn] = field(default_factory=list)
    commands: list[Command] = field(default_factory=list)
    expectations: list[Expectation] = field(default_factory=list)

    @classmethod
    def read(cls, path: Path) -> "Scenario":
        """The scenario of a file; `ScenarioFault` has its first fault."""
        found = cls(path)
        try:
            for words in _lines(path):
                _take(found, words, LINES)
        except OSError as fault:
            raise Error(f"{path}: {fault.strerror}") from None
        if not found.expectations:
            raise Error(f"{path}: it expects nothing: give a line `expect ..`")
        return found


def _lines(path: Path) -> Iterator[Words]:
    """The words of each line that has some."""
    text = read(regular(path), LONGEST).removeprefix(BOM_UTF8)
    for number, line in enumerate(text.split(b"\n"), 1):
        place = Place(str(path), number)
        try:
            told = line.removesuffix(b"\r").decode()
        except UnicodeDecodeError:
            raise place.fault("no text in UTF-8") from None
        if len(told) > LINE_LONGEST:
            raise place.fault(f"over {LINE_LONGEST} characters")
        if told != shown(told, "\t"):
            raise place.fault("a sign that is not shown")
        words = Words.of(told, place)
        if words.left:
            yield words


Read = Callable[[Scenario, Words], None]


def _take(scenario: Scenario, words: Words, known: Mapping[str, Read]) -> None:
    """Takes a line."""
    first = words.take("a word")
    if first.text not in known:
        right = nearest(first.text, known)
        meant = "" if right is None else f"did you mean {right}? "
        raise first.fault(f"no line begins so: {meant}{', '.join(known)} do")
    known[first.text](scenario, words)
    words.end()


def _once(word: Word, was: object) -> None:
    if was is not None:
        raise word.fault("there is such a line before")


def _plan(scenario: Scenario, words: Words) -> None:
    file = words.rest("the file of a plan")
    _once(file, scenario.plan)
    scenario.plan = scenario.path.parent / file.text


def _log(scenario: Scenario, words: Words) -> None:
    file = words.rest("the file of an input log")
    _once(file, scenario.log)
    scenario.log = scenario.path.parent / file.text


def _include(scenario: Scenario, words: Words) -> None:
    """Takes the lines of another file, which names no plan, input or expectation."""
    file = words.rest("a file of settings")
    try:
        for it in _lines(scenario.path.parent / file.text):
            _take(scenario, it, SETTINGS)
    except OSError as fault:
        raise file.fault(f"{fault.strerror}") from None


def _need(scenario: Scenario, words: Words) -> None:
    value = Value.of(words.take("a value of the plan"))
    number = words.number("a number", 0, NUMBER_MOST) if words.left else None
    scenario.needs.append(Need(value, number))


def _set(scenario: Scenario, words: Words) -> None:
    word = words.take("a value of the plan, as phaseWalk.2")
    name, _, index = word.text.partition(".")
    first = Value.of(Word(f"{name}.1" if index == ALL else word.text, word.place))
    what = object_of(name, NEWEST)
    all_of = range(1, what.counts(NEWEST) + 1)
    indices = all_of if index == ALL else range(first.index, first.index + 1)
    given = words.take("its number")
    value: int | Value
    if re.fullmatch(r"\d{1,10}", given.text, re.ASCII):
        try:
            value = number_of(what, int(given.text), NEWEST)
        except OutOfRange as fault:
            raise given.fault(str(fault)) from None
    else:
        value = Value.of(given)
    scenario.laid.append(Laid(name, indices, value, word.place))


def _let(scenario: Scenario, words: Words) -> None:
    name = words.take("a name")
    if not NAME.fullmatch(name.text):
        raise name.fault("a name has small letters, digits and _")
    if name.text in scenario.named:
        raise name.fault("there is such a time before")
    scenario.named[name.text] = words.time(scenario.named)


def _until(scenario: Scenario, words: Words) -> None:
    time = words.time(scenario.named)
    _once(time.word, scenario.until)
    scenario.until = time


def _at(scenario: Scenario, words: Words) -> None:
    tick = words.time(scenario.named)
    if re.fullmatch(r"[A-Z]\d+", words.next):
        scenario.turns.append(_turn(tick, words))
        return
    text = words.rest("inputs with on or off, or a command")
    if text.text.partition(" ")[0] not in INPUTS:
        first = Word(text.text.partition(" ")[0], text.place)
        raise first.fault(f"no input and no command: {IS_INPUT}")
    scenario.commands.append(Command(tick, text.text, text.place))


def _turn(tick: Time, words: Words) -> Turn:
    """Inputs, and whether they go on or off."""
    inputs = []
    while words.next not in ("on", "off"):
        word = words.take("on or off")
        kind, number = KINDS.get(word.text[:1]), word.text[1:]
        if kind is None or number not in map(str, range(1, COUNTS[kind] + 1)):
            raise word.fault(f"no input: {IS_INPUT}")
        inputs.append((word.text, place(kind, int(number))))
    return Turn(tick, tuple(inputs), words.take("on or off").text == "on")


def _expect(scenario: Scenario, words: Words) -> None:
    scenario.expectations.append(expectation_of(words, scenario.named))


SETTINGS: Mapping[str, Read] = {"needs": _need, "set": _set, "let": _let}
LINES: Mapping[str, Read] = {
    "plan": _plan,
    "log": _log,
    "include": _include,
    **SETTINGS,
    "until": _until,
    "at": _at,
    "expect": _expect,
}
