"""How a value of NTCIP 1202 says what objects of a plan say, and the other way.

Each form has `written`, the value that it has for a plan, and `read`, the values of the
plan's objects that a value asks for. What a plan has no place for is in `lost`.
"""

from collections.abc import Mapping, Sequence
from dataclasses import dataclass
from typing import ClassVar, NamedTuple, Protocol

from tsb.plan import Plan
from tsb.values import Index

#: An object identifier: 1.3.6.1.
Oid = tuple[int, ...]
#: A value as SNMP has it: an INTEGER, octets, or an object identifier.
Value = int | bytes | Oid
#: What is said of the kinds of values, and which value of a kind is for nothing.
KINDS: Mapping[type, str] = {int: "a number", bytes: "octets", tuple: "an OID"}
NOTHING: Mapping[type, Value] = {int: 0, bytes: b"", tuple: (0, 0)}
#: The index of a row: (phase), or (table, phase).
Row = tuple[int, ...]
PHASES = range(1, 17)
PLACES = 16  # of a sequence, in each ring
HALF = 16  # bits in each half of the days of a month


class Unsigned(int):
    """A number as SNMP has it where it may have 32 bits without a sign: a Gauge32."""


class Set(NamedTuple):
    """A value of an object of a plan."""

    name: str
    at: Index
    number: int


class Read(NamedTuple):
    """What a value of NTCIP asks for: values of a plan, and what it has no place for."""

    sets: list[Set]
    lost: list[str]


class Form(Protocol):
    """A form of values."""

    #: What its values are: `int`, `bytes` or `tuple`.
    kind: ClassVar[type]

    @property
    def names(self) -> tuple[str, ...]:
        """The objects of a plan that they are of."""

    def written(self, plan: Plan, row: Row) -> Value:
        """The value of a row."""

    def read(self, value: Value, row: Row) -> Read:
        """What the value of a row asks for."""


def index_of(row: Row) -> Index:
    """The index that a row has in a plan."""
    match row:
        case (number,):
            return number
        case (table, number):
            return table, number
    raise ValueError(f"a plan has no index {row}")


@dataclass(frozen=True)
class _Object:
    """A form of one object of a plan."""

    name: str
    kind: ClassVar[type] = int

    @property
    def names(self) -> tuple[str, ...]:
        """The object."""
        return (self.name,)


@dataclass(frozen=True)
class _Octets(_Object):
    """A form of one object of a plan, in octets."""

    kind: ClassVar[type] = bytes


@dataclass(frozen=True)
class Number(_Object):
    """The same number on both sides."""

    def written(self, plan: Plan, row: Row) -> Value:
        """The number."""
        return plan[self.name][index_of(row)]

    def read(self, value: Value, row: Row) -> Read:
        """The number."""
        assert isinstance(value, int)
        return Read([Set(self.name, index_of(row), value)], [])


@dataclass(frozen=True)
class Choice(_Object):
    """A number for each number of the plan's object; of several that are the same over
    there, the first is read. Over there numbers have names, from 1 on."""

    numbers: Mapping[int, int]
    words: Sequence[str]

    def written(self, plan: Plan, row: Row) -> Value:
        """The number over there."""
        return self.numbers[plan[self.name][index_of(row)]]

    def read(self, value: Value, row: Row) -> Read:
        """The number of the plan's object."""
        for number, other in self.numbers.items():
            if other == value:
                return Read([Set(self.name, index_of(row), number)], [])
        return Read([], [f"{self.name} has nothing of this kind"])


@dataclass(frozen=True)
class Phases(_Octets):
    """A list of phases, an octet for each."""

    def written(self, plan: Plan, row: Row) -> Value:
        """The octets, in ascending order."""
        return bytes(sorted(plan[self.name].phases(index_of(row))))

    def read(self, value: Value, row: Row) -> Read:
        """The sum of the phases that there are here."""
        assert isinstance(value, bytes)
        here = {it for it in value if it in PHASES}
        other = sorted({it for it in value if it not in PHASES})
        number = sum(1 << (it - 1) for it in here)
        return Read(
            [Set(self.name, index_of(row), number)],
            [f"there is no phase {it} here: it is left out" for it in other],
        )


@dataclass(frozen=True)
class Order(_Octets):
    """The phases of a ring in the order of a sequence, an octet for each."""

    def written(self, plan: Plan, row: Row) -> Value:
        """The octets."""
        sequence, ring = row
        return bytes(plan.sequence(sequence, ring))

    def read(self, value: Value, row: Row) -> Read:
        """A place for each octet, and 0 in the places beyond."""
        assert isinstance(value, bytes)
        sequence, ring = row
        here = [it for it in value if it in PHASES][:PLACES]
        lost = [
            f"there is no phase {it} here: it is left out"
            for it in sorted({it for it in value if it not in PHASES})
        ]
        if len(value) > PLACES:
            lost.append(f"a ring has {PLACES} places, so those beyond are left out")
        order = here + [0] * (PLACES - len(here))
        return Read(
            [Set(self.name, (sequence, ring, at), it) for at, it in enumerate(order, 1)],
            lost,
        )


@dataclass(frozen=True)
class Dates(_Object):
    """Days of the month in one number over there: a plan has two halves of it, the bits
    of the days up to 15 and those from 16 on."""

    def written(self, plan: Plan, row: Row) -> Value:
        """Both halves."""
        values, (entry,) = plan[self.name], row
        return Unsigned(values[1, entry] | values[2, entry] << HALF)

    def read(self, value: Value, row: Row) -> Read:
        """A value for each half. What an INTEGER can't hold is below 0 in one."""
        assert isinstance(value, int)
        if not -(1 << 2 * HALF - 1) <= value < 1 << 2 * HALF:
            return Read([], [f"{self.name} has 32 bits"])
        (entry,) = row
        of = enumerate((value, value >> HALF), 1)
        lower = (1 << HALF) - 1
        return Read([Set(self.name, (half, entry), it & lower) for half, it in of], [])


@dataclass(frozen=True)
class RowOf(_Object):
    """A number that is the OID of a row over there: what is before its last number is
    `rows`, and for 0 it is the OID of nothing."""

    rows: Oid
    of: str
    kind: ClassVar[type] = tuple

    def written(self, plan: Plan, row: Row) -> Value:
        """The OID of the row."""
        number = plan[self.name][index_of(row)]
        return (*self.rows, number) if number else NOTHING[tuple]

    def read(self, value: Value, row: Row) -> Read:
        """The number of the row."""
        assert isinstance(value, tuple)
        if value != NOTHING[tuple] and value[:-1] != self.rows:
            return Read([], [f"it names no row of {self.of}"])
        return Read([Set(self.name, index_of(row), value[-1])], [])


@dataclass(frozen=True)
class Options:
    """Bits, each an object of the plan or a name of what there is no object for."""

    bits: Mapping[int, str]
    others: Mapping[int, str]
    kind: ClassVar[type] = int

    @property
    def names(self) -> tuple[str, ...]:
        """All of them."""
        return tuple(self.bits.values())

    def written(self, plan: Plan, row: Row) -> Value:
        """The sum of the bits that are set."""
        index = index_of(row)
        return sum(1 << bit for bit, name in self.bits.items() if plan[name][index])

    def read(self, value: Value, row: Row) -> Read:
        """Each bit's object."""
        assert isinstance(value, int)
        index = index_of(row)
        sets = [Set(name, index, value >> bit & 1) for bit, name in self.bits.items()]
        left = value & ~sum(1 << bit for bit in self.bits)
        lost = [
            f"bit {bit} ({self.others.get(bit, 'not known')}) has no object"
            for bit in range(left.bit_length())
            if left >> bit & 1
        ]
        return Read(sets, lost)
