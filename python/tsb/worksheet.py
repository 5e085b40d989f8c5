"""The worksheet of a plan: what `tsb_field worksheet` prints of it.

Nothing is worked out here. docs/use/FIELD.md says what the lines mean.
"""

import re
from collections.abc import Iterable, Mapping
from dataclasses import dataclass

_ENTRY = re.compile(r"preempt (\d+): delay (\S+) s, longest entry (\S+) s")
_SHARE = re.compile(
    r"pattern (\d+), phase (\d+): split (\S+) s, green (\S+) s"
    r"(?:, force-off at (\S+) s)?"
    r"(?:, walk and clearance (\S+) s, margin (\S+) s)?"
)


@dataclass(frozen=True)
class Entry:
    """A preempt, in tenths of a second: its delay, and how long after it enters
    service all phases of its first stage are green, at most. That is proved of every
    run in which no overlap trails, the plan stays and the controller does not trip."""

    delay: int
    longest: int


@dataclass(frozen=True)
class Crossing:
    """A phase with a walk, in tenths of a second: what walk and clearance take, and
    what the green of its split has over that, below 0 where it lacks it."""

    time: int
    margin: int


@dataclass(frozen=True)
class Share:
    """What a pattern gives a phase that it serves, in tenths of a second: its split,
    the green that yellow and red clearance leave of it, and its force-off on the local
    counter; and its crossing, where it has a walk."""

    split: int
    green: int
    force_off: int | None
    crossing: Crossing | None


@dataclass(frozen=True)
class Worksheet:
    """Entries by preempt, and shares by pattern and phase."""

    entries: Mapping[int, Entry]
    shares: Mapping[int, Mapping[int, Share]]


def worksheet_of(lines: Iterable[str]) -> Worksheet:
    """The worksheet of these lines; `ValueError` names a line that is none of it."""
    entries: dict[int, Entry] = {}
    shares: dict[int, dict[int, Share]] = {}
    for line in lines:
        if it := _ENTRY.fullmatch(line):
            entries[int(it[1])] = Entry(_tenths(it[2]), _tenths(it[3]))
        elif it := _SHARE.fullmatch(line):
            shares.setdefault(int(it[1]), {})[int(it[2])] = _share(*it.groups("")[2:])
        else:
            raise ValueError(f"no line of a worksheet: {line}")
    return Worksheet(entries, shares)


def _share(split: str, green: str, force_off: str, time: str, margin: str) -> Share:
    """A share of such times, where those that a line may lack are empty."""
    return Share(
        _tenths(split),
        _tenths(green),
        _tenths(force_off) if force_off else None,
        Crossing(_tenths(time), _tenths(margin)) if time else None,
    )


def _tenths(seconds: str) -> int:
    """Tenths of a second of seconds with their tenth, as `28.0`."""
    return int(seconds.replace(".", ""))
