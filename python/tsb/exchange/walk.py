"""The lines that `snmpwalk -On` prints: an OID, the type of its value and the value.

A value goes on over the next lines where it has more than 16 octets in hexadecimal
digits, or an end of a line between its quotes.
"""

import re
from collections.abc import Iterator
from typing import NamedTuple

from tsb.errors import Error
from tsb.exchange.forms import Oid, Unsigned, Value

DIGITS = 16  # octets in a line of hexadecimal digits
DEPTH = 128  # numbers of an OID, at most
LARGEST = (1 << 32) - 1  # of a number in an OID
# What snmpwalk prints last, by SNMPv1 and by SNMPv2c.
END = "End of MIB"
PAST = " = No more variables left in this MIB View (It is past the end of the MIB tree)"

# What an OID begins with: also as snmpwalk prints it without -On.
_ROOTS = {"0": 0, "1": 1, "2": 2, "iso": 1, "ccitt": 0}
_ENTERPRISES = "SNMPv2-SMI::enterprises"
_BEGUN = re.compile(
    rf"((?:\.?1|iso|{_ENTERPRISES})(?:\.[0-9]{{1,10}})+) = (.*)", re.S
)
_NUMBER = re.compile(
    r"(INTEGER|Gauge32|Counter32|Counter64|Unsigned32|UInteger32): "
    r"(?:[A-Za-z][\w-]*\()?(-?[0-9]{1,20})\)?(?: \D*)?"
)
_UNSIGNED = ("Gauge32", "Unsigned32")
# An OID that is a value, which may be of nothing: 0.0.
_NAMED = re.compile(rf"(?:\.?[0-2]|iso|ccitt|{_ENTERPRISES})(?:\.[0-9]{{1,10}})+")
_ZERO = "SNMPv2-SMI::zeroDotZero"
_DIGITS = re.compile(r"(?:[0-9A-Fa-f]{2}\s+)*[0-9A-Fa-f]{2}\s*")
_WHOLE = re.compile(r'STRING: "(?:[^"\\]|\\.)*"', re.S)


class Line(NamedTuple):
    """A value of a walk: the number of its line, its OID, the value where it is a number,
    octets or an OID, and else None, and how it was printed."""

    number: int
    oid: Oid
    value: Value | None
    text: str


def is_walk(text: str) -> bool:
    """Whether the first line that is not blank has the form of these."""
    first = next((it for it in text.splitlines() if it.strip()), "")
    return _BEGUN.match(first) is not None


def lines_of(text: str) -> Iterator[Line]:
    """The values of a walk; `Error` names the first line that has none."""
    number, begun, left = 0, 0, ""
    for number, line in enumerate(text.split("\n"), 1):
        line = line.removesuffix("\r")
        if left and _goes_on(left, line):
            left += f"\n{line}"
            continue
        if left:
            yield _line(begun, left)
            left = ""
        if line.strip() in ("", END) or line.endswith(PAST):
            continue
        if _BEGUN.match(line) is None:
            raise Error(f"walk line {number}: it is no line of snmpwalk -On")
        begun, left = number, line
    if left:
        yield _line(begun, left)


def _goes_on(left: str, line: str) -> bool:
    """Whether a line is more of the value before it."""
    value = left.partition(" = ")[2]
    if value.startswith('STRING: "'):
        return _WHOLE.fullmatch(value) is None
    return value.startswith("Hex-STRING: ") and _DIGITS.fullmatch(line) is not None


def _line(number: int, text: str) -> Line:
    found = _BEGUN.fullmatch(text)
    assert found is not None
    oid = _oid(found[1])
    if oid is None:
        raise Error(f"walk line {number}: it has no OID")
    return Line(number, oid, _value(found[2]), found[2].strip())


def _oid(text: str) -> Oid | None:
    """An OID; None where it is none."""
    begin: Oid
    if text.startswith(_ENTERPRISES):
        begin, more = (1, 3, 6, 1, 4, 1), text.removeprefix(_ENTERPRISES + ".")
    else:
        first, _, more = text.removeprefix(".").partition(".")
        begin = (_ROOTS[first],)
    oid = (*begin, *map(int, more.split(".")))
    return oid if len(oid) <= DEPTH and max(oid) <= LARGEST else None


def _value(text: str) -> Value | None:
    """The number, the octets or the OID that are printed so; None for anything else."""
    if text.strip() == '""':
        return b""
    if (found := _NUMBER.fullmatch(text.strip())) is not None:
        number = int(found[2])
        return Unsigned(number) if found[1] in _UNSIGNED else number
    if text.startswith("OID: "):
        name = text.removeprefix("OID: ").strip()
        name = ".0.0" if name == _ZERO else name
        return _oid(name) if _NAMED.fullmatch(name) else None
    if text.startswith("Hex-STRING: "):
        digits = text.removeprefix("Hex-STRING: ")
        return bytes.fromhex(digits) if _DIGITS.fullmatch(digits) else None
    if _WHOLE.fullmatch(text) is not None:
        inner = text.removeprefix('STRING: "')[:-1]
        plain = re.sub(r"\\(.)", r"\1", inner, flags=re.S)
        return plain.encode("latin-1", errors="replace")
    return None


def dotted(oid: Oid) -> str:
    """An OID as `.1.3.6`."""
    return "".join(f".{it}" for it in oid)


def printed(oid: Oid, value: Value) -> str:
    """The line, or the lines, of a value."""
    return f"{dotted(oid)} = {_printed(value)}"


def _printed(value: Value) -> str:
    if isinstance(value, int):
        kind = "Gauge32" if isinstance(value, Unsigned) else "INTEGER"
        return f"{kind}: {value}"
    if isinstance(value, tuple):
        return f"OID: {dotted(value)}"
    if not value:
        return '""'
    if all(32 <= it < 127 or 9 <= it <= 13 for it in value):
        text = value.decode("ascii")
        return 'STRING: "' + re.sub(r'([\\"])', r"\\\1", text) + '"'
    rows = [value[at : at + DIGITS] for at in range(0, len(value), DIGITS)]
    digits = "\n".join("".join(f"{it:02X} " for it in row) for row in rows)
    return f"Hex-STRING: {digits}"
