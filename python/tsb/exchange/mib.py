"""A MIB file of the objects that an agent of the bench has, for programs that print names.

It is written anew from the tables here. The names and numbers are those of NTCIP 1202
v02 and NTCIP 1201; its text is not theirs, and it imports no other file.
"""

from collections.abc import Iterable, Iterator

from tsb.exchange import agent, live
from tsb.exchange.forms import Choice, Dates, Oid
from tsb.exchange.objects import ASC, GLOBAL, TABLES, TIME, Column, plan_leaves

NAME = "TSB-ASC-MIB"
NUMBER, OCTETS = "INTEGER (0..65535)", "OCTET STRING"
UNSIGNED, ROW = "Gauge", "OBJECT IDENTIFIER"
#: States that have names.
STATES = {
    "localFreeStatus": live.FREE_STATES,
    "unitFlashStatus": live.FLASH_STATES,
    "preemptState": live.PREEMPT_STATES,
}
#: Objects of a transaction, with their places below global.
DATABASE = {
    "dbCreateTransaction": agent.TRANSACTION,
    "dbVerifyStatus": agent.VERIFY_STATUS,
    "dbVerifyError": agent.VERIFY_ERROR,
}
#: What can be set beside a plan and a transaction.
CONTROLS = ("systemPatternControl", "preemptControlState", "globalTime")


def text() -> str:
    """The text of the file."""
    lines = [f"{NAME} DEFINITIONS ::= BEGIN", "", *_root("asc", ASC)]
    lines += _root("global", GLOBAL)
    lines += _root("globalTimeManagement", TIME)
    known = _columns()
    for table in TABLES:
        root = "asc" if table.under == ASC else "globalTimeManagement"
        for number, key in enumerate(table.keys, 1):
            if (*table.root, number) in known:
                lines += _object(key, NUMBER, False, root, (*table.place, number))
        for number, column in sorted(table.columns.items()):
            if (*table.root, number) in known:
                sets = column.form is not None or column.name in CONTROLS
                place = (*table.place, number)
                lines += _object(column.name, _syntax(column), sets, root, place)
    return "\n".join([*lines, *_database(), "END", ""])


def _columns() -> frozenset[Oid]:
    """The columns that an agent has, by their OIDs."""
    of_plan = {leaf.oid[: len(leaf.table.root) + 1] for leaf in plan_leaves().values()}
    others = {*live.getters(), agent.PATTERN_CONTROL, (*agent.PREEMPT_CONTROL, 1)}
    ends = {
        (*table.root, number)
        for table in TABLES
        for number in range(max(table.columns) + 1)
    }
    return frozenset(of_plan) | {
        it for it in ends if any(oid[: len(it)] == it for oid in others)
    }


def _root(name: str, oid: Oid) -> Iterator[str]:
    """A name for an OID."""
    numbers = " ".join(map(str, oid[1:]))
    yield f"{name} OBJECT IDENTIFIER ::= {{ iso {numbers} }}"
    yield ""


def _syntax(column: Column) -> str:
    """The type of an object."""
    form = column.form
    if isinstance(form, Dates) or column.name == "globalTime":
        return UNSIGNED
    if form is not None and form.kind is not int:
        return OCTETS if form.kind is bytes else ROW
    words = form.words if isinstance(form, Choice) else STATES.get(column.name, ())
    return _words(words) if words else NUMBER


def _words(words: Iterable[str]) -> str:
    """A type whose numbers, from 1 on, have names."""
    return _named({number: word for number, word in enumerate(words, 1)})


def _named(words: dict[int, str]) -> str:
    """A type whose numbers have names."""
    named = ", ".join(f"{word} ({number})" for number, word in words.items())
    return f"INTEGER {{ {named} }}"


def _object(
    name: str, syntax: str, sets: bool, root: str, place: Oid
) -> Iterator[str]:
    """The definition of an object."""
    yield f"{name} OBJECT-TYPE"
    yield f"    SYNTAX {syntax}"
    yield f"    ACCESS {'read-write' if sets else 'read-only'}"
    yield "    STATUS mandatory"
    yield f"    ::= {{ {root} {' '.join(map(str, place))} }}"
    yield ""


def _database() -> Iterator[str]:
    """The objects of a transaction, of NTCIP 1201."""
    types = {
        "dbCreateTransaction": _named({it.value: it.name.lower() for it in agent.State}),
        "dbVerifyStatus": _words(("notDone", "doneWithError", "doneWithNoError")),
        "dbVerifyError": OCTETS,
    }
    for name, oid in DATABASE.items():
        place = oid[len(GLOBAL) : -1]
        yield from _object(name, types[name], oid == agent.TRANSACTION, "global", place)
