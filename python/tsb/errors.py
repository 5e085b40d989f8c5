"""What can go wrong, each with what the manual says of it.

All are `tsb.Error`. An input that is refused has changed nothing, and the bench is
as it was before it.
"""

import re
import unicodedata
from typing import Any

from tsb.manual import REFUSALS, RULES, Refusal, Rule, plan_fault

#: The line of a text that is no plan, behind which a second one has the place.
NOT_JSON = "plan: not JSON"
TOO_LARGE = "plan: too large"


def shown(text: object, keeps: str = "") -> str:
    """A text as a terminal may have it: `?` for each sign that is not shown, but for
    those that it keeps."""
    return "".join(
        "?" if _is_hidden(it) and it not in keeps else it for it in str(text)
    )


def _is_hidden(sign: str) -> bool:
    return unicodedata.category(sign) in _HIDDEN


# Controls, signs that turn the text around, halves of signs, and ends of lines.
_HIDDEN = frozenset(("Cc", "Cf", "Cs", "Co", "Cn", "Zl", "Zp"))


class Error(Exception):
    """Whatever goes wrong with a plan, a log, a bench or its programs."""

    def __str__(self) -> str:
        """The message: names in it that come from files have no controls."""
        return shown(super().__str__(), "\n\t")

    def __reduce__(self) -> tuple[Any, ...]:
        """Pickles with all fields, as exceptions go from one process to another."""
        return _told_again, (type(self), self.args, self.__dict__)


def _told_again(
    kind: type[Error], words: tuple[object, ...], more: dict[str, Any]
) -> Error:
    """The error with what it has, whatever it was made from."""
    again = kind.__new__(kind, *words)
    again.__dict__.update(more)
    return again


class NoProgram(Error):
    """A program of the bench was not found. The message says how to build it."""


class ProgramDied(Error):
    """A program ended by itself: `status` is its exit status, less than 0 for a
    signal, and `stderr` what it said."""

    def __init__(self, program: str, status: int, stderr: str) -> None:
        how = f"by signal {-status}" if status < 0 else f"with status {status}"
        said = stderr.strip() or "it said nothing"
        super().__init__(f"{program} ended {how}: {said}")
        self.program, self.status, self.stderr = program, status, stderr


class Refused(Error):
    """A refusal E1 to E12, as docs/use/MANUAL.md has it in chapter 7.

    `number` is 1 to 12, `name` as `NoSuchPattern`; `meaning`, `cause` and `cure` are
    the manual's. `command` is what was asked, and `line` the answer. `station` is the
    station that has the desk, of a refusal E4. Nothing has changed. Where memory runs out
    for a pattern of the schedule, the input that it was to follow remains.
    """

    def __init__(self, line: str, command: str, more: str = "") -> None:
        said = re.fullmatch(r"refused E(\d+) (\w+)(?: (\d+))?", line)
        if said is None:
            raise ValueError(f"no refusal: {line}")
        self.line, self.command = line, command
        self.refusal: Refusal = REFUSALS[int(said[1])]
        self.station = None if said[3] is None else int(said[3])
        parts = [f"{command}: {line}: {self.meaning}", more, f"cure: {self.cure}"]
        super().__init__("; ".join(filter(None, parts)))

    @property
    def number(self) -> int:
        """1 to 12."""
        return self.refusal.number

    @property
    def name(self) -> str:
        """The name, as `NoSuchPattern`."""
        return self.refusal.name

    @property
    def meaning(self) -> str:
        """What the refusal means."""
        return self.refusal.meaning

    @property
    def cause(self) -> str:
        """Its usual cause."""
        return self.refusal.cause

    @property
    def cure(self) -> str:
        """What to do about it."""
        return self.refusal.cure


class PlanFault(Error):
    """The first fault of a plan, as docs/use/MANUAL.md has it in chapters 2 and 4.

    `line` is that of `tsb check`, as `plan: rule K8`. `rule` is the rule that the
    plan breaks, with its cure, and None where the text is no plan. `place` is where the
    text stops being JSON and why, as the programs print it in a second line, and else
    None.
    """

    def __init__(self, lines: str) -> None:
        # A name in a line may have a line feed, but these have no name.
        is_placed = lines.startswith((f"{NOT_JSON}\n", f"{TOO_LARGE}\n"))
        line, place = lines.split("\n", 1) if is_placed else (shown(lines), "")
        self.line = line
        self.place: str | None = place.removeprefix("plan ") or None
        self.rule: Rule | None = RULES.get(line.removeprefix("plan: rule "))
        if self.rule is not None:
            told = (
                f"{self.rule.holds} usual cause: {self.rule.cause}; cure: {self.cure}"
            )
        else:
            told = plan_fault(line) or ""
        told = "; ".join(filter(None, [told, self.place]))
        super().__init__(f"{line}: {told}" if told else line)

    @property
    def cure(self) -> str | None:
        """What to do about a broken rule."""
        return None if self.rule is None else self.rule.cure


class LogFault(Error):
    """The first fault of a log: `line` as `log line 3: tick order`."""

    def __init__(self, line: str) -> None:
        self.line = line
        super().__init__(line)


class BadCommand(Error):
    """The program knows no such command, or not with such a number. Nothing has
    changed."""

    def __init__(self, command: str) -> None:
        super().__init__(
            f"{command}: bad command: docs/use/MANUAL.md, chapter 6, has the commands"
            " with their ranges, and docs/use/LIVE.md those of a live run"
        )
        self.command = command


class NoSuchTick(Error):
    """There is no such tick to go back to: `back` and `seek` only go backwards."""


class NoSuchObject(Error, LookupError):
    """A plan text of this version has no object of the name, or not the index."""


class OutOfRange(Error, ValueError):
    """A value that an object does not take. The message has its range and unit."""
