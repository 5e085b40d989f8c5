"""Values of objects: numbers, times and lists of phases as an engineer gives them."""

from collections.abc import Iterable
from datetime import timedelta
from numbers import Integral, Real

from tsb.errors import NoSuchObject, OutOfRange, shown
from tsb.manual import OBJECTS, Object, meant

#: A number in the object's own unit, a time, the phases of a list, or the months,
#: weekdays or days of the month of an entry of the schedule.
Value = int | timedelta | Iterable[int]
#: An index; of a split (table, phase); of a sequence (sequence, ring, place); of an
#: event (day plan, event).
Index = int | tuple[int, int] | tuple[int, int, int]

RINGS, TABLES, SEQUENCES = 2, 8, 4
SPLITS, SEQUENCE = "16 (table", "32 (sequence"
EVENTS, DATES = "16 (day plan", "32 (half"
#: What a sum of powers of two is of, and which of them is the power 0.
SUMS: dict[str, list[tuple[range, int]]] = {
    "timeBaseScheduleMonth": [(range(1, 13), 0)],
    "timeBaseScheduleDay": [(range(1, 8), 0)],
    "timeBaseScheduleDate": [(range(1, 16), 0), (range(16, 32), 16)],
}
TENTH, SECOND = timedelta(milliseconds=100), timedelta(seconds=1)


def seconds(count: float) -> timedelta:
    """So many seconds, as the value of any object that is a time."""
    return timedelta(seconds=count)


def object_of(name: str, version: int = 2) -> Object:
    """An object by its name; `NoSuchObject` where a version has none."""
    found = OBJECTS.get(name)
    if found is None or not found.counts(version):
        told = f"version {version} has no object {shown(name)}"
        raise NoSuchObject(told + meant(name, version))
    return found


def parts_of(what: Object, version: int = 2) -> dict[str, tuple[int, int]]:
    """The parts of an index, each with its greatest number and its step, the last
    changing fastest: (table, phase) of a split, (sequence, ring, place)."""
    phases = 8 if version == 1 else 16
    if what.index.startswith(EVENTS):
        return {"day plan": (16, 16), "event": (16, 1)}
    if what.index.startswith(DATES):
        return {"half": (2, 32), "entry": (32, 1)}
    if what.index.startswith(SPLITS):
        return {"table": (TABLES, phases), "phase": (phases, 1)}
    if what.index.startswith(SEQUENCE):
        return {
            "sequence": (SEQUENCES, RINGS * phases),
            "ring": (RINGS, phases),
            "place": (phases, 1),
        }
    return {}


def index_of(what: Object, index: Index, version: int = 2) -> int:
    """An index as a plan text has it; `NoSuchObject` where the object has none."""
    if isinstance(index, int | Integral):
        number, count = int(index), what.counts(version)
        if not 1 <= number <= count:
            raise NoSuchObject(f"{what.name}.{number}: its indices are 1 to {count}")
        return number
    parts = parts_of(what, version)
    if len(index) != len(parts):
        form = f" or ({', '.join(parts)})" if parts else ""
        raise NoSuchObject(f"{what.name}: an index is a number{form}")
    found = 1
    for number, (name, (most, step)) in zip(index, parts.items(), strict=True):
        if not 1 <= number <= most:
            raise NoSuchObject(f"{what.name}: {name} {number}: it is 1 to {most}")
        found += step * (number - 1)
    return found


def wide_index(what: Object, index: int, version: int) -> int:
    """The index in version 2 of one in a version."""
    left, found = index - 1, 1
    narrow, wide = parts_of(what, version).values(), parts_of(what).values()
    for (_, step), (_, wide_step) in zip(narrow, wide, strict=True):
        number, left = divmod(left, step)
        found += wide_step * number
    return found + left


def number_of(what: Object, value: Value, version: int = 2) -> int:
    """A value as a plan text has it; `OutOfRange` names the range where it is none."""
    if isinstance(value, int | Integral):
        found = int(value)
    elif isinstance(value, float | Real):
        told = f"{what.name}: {value} is no whole number: {what.range(version)}"
        raise OutOfRange(told + f"; seconds are tsb.seconds({value})" * bool(what.time))
    elif isinstance(value, timedelta):
        found = _units(what, value)
    elif isinstance(value, str):
        raise OutOfRange(f"{what.name}: {value!r} is a text: {_said(what, version)}")
    else:
        found = _sum(what, value, version)
    if not 0 <= found <= what.most(version):
        raise OutOfRange(f"{what.name}: {found} is not in {what.range(version)}")
    return found


def _said(what: Object, version: int) -> str:
    """What a value of an object is, as Python has it."""
    form = f"; a {what.unit} is {{4, 7}}" if what.is_list else ""
    form = "; seconds are tsb.seconds(4.0)" if what.time else form
    return what.range(version) + form


def _units(what: Object, value: timedelta) -> int:
    """A time in the unit of an object."""
    if what.time is None:
        raise OutOfRange(f"{what.name} is no time: {what.range()}")
    count, rest = divmod(value, what.time)
    if rest:
        unit = what.unit.split(",")[0]
        raise OutOfRange(f"{what.name} takes whole {unit}: {value.total_seconds()} s")
    return count


def _sum(what: Object, phases: Iterable[int], version: int) -> int:
    """The number of a list of phases or overlaps."""
    if not what.is_list and what.name not in SUMS:
        raise OutOfRange(f"{what.name} is no list of phases: {what.range()}")
    try:
        members = set(map(int, phases))
    except (TypeError, ValueError):
        what_is = _said(what, version)
        raise OutOfRange(f"{what.name}: {phases!r} is no list: {what_is}") from None
    if what.name in SUMS:
        return _sum_of_days(what, members)
    if wrong := [it for it in members if not 1 <= it <= 16]:
        raise OutOfRange(f"{what.name}: there is no {what.member} {wrong[0]}")
    return sum(1 << (it - 1) for it in members)


def _sum_of_days(what: Object, members: set[int]) -> int:
    """The number of months, weekdays or days of the month."""
    for known, first in SUMS[what.name]:
        if members <= set(known):
            return sum(1 << (it - first) for it in members)
    forms = " or ".join(f"{it[0]} to {it[-1]}" for it, _ in SUMS[what.name])
    raise OutOfRange(f"{what.name}: {sorted(members)} are not of {forms}")


def time_of(what: Object, number: int) -> str:
    """A value that is a time, in seconds or minutes without their name: `2.5` of 25
    tenths."""
    tenths = what.time == TENTH
    return f"{number // 10}.{number % 10}" if tenths else str(number)


def unit_of(what: Object) -> str:
    """The unit in which `time_of` gives the values of an object: `s` or `min`, and
    nothing of one that is no time."""
    if what.time is None:
        return ""
    return "min" if what.time > SECOND else "s"


def phases_of(number: int) -> frozenset[int]:
    """The phases of a list that has this number."""
    return frozenset(phase for phase in range(1, 17) if number >> (phase - 1) & 1)
