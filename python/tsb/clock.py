"""Times of a bench's clock: as commands have them, and as a person types them."""

import re
from datetime import date, datetime, time

from tsb.errors import OutOfRange
from tsb.values import TENTH

#: A time of a day, or of the day that the clock has; typed also as `7:42` or
#: `2026-11-22 7:42:10.5`.
Moment = datetime | time | str

YEARS = range(2000, 2100)
SECOND = "%Y-%m-%d %H:%M:%S"
_TYPED = re.compile(
    r"(?:(\d{4}-\d\d-\d\d)[ T])?(\d\d?):(\d\d)(?::(\d\d)(?:\.(\d))?)?", re.ASCII
)
_FORMS = "give a time as 7:42 or 7:42:10.5, with a day as 2026-11-22 7:42"


def words(moment: Moment, dated: bool = False) -> str:
    """A time in the words of a command, as `07:42:00`; with its day where it names one,
    which it has to if it is dated. `OutOfRange` where a clock has no such time."""
    found = _typed(moment) if isinstance(moment, str) else moment
    if not isinstance(found, datetime | time):
        raise OutOfRange(f"{moment!r} is no time of the clock: {_FORMS}")
    if found.tzinfo is not None:
        raise OutOfRange(f"{moment}: the clock has no zone: leave it out")
    tenths, rest = divmod(found.microsecond, TENTH.microseconds)
    if rest:
        raise OutOfRange(f"{moment}: the clock has tenths of a second, and no parts")
    text = f"{found:%H:%M:%S}" + (f".{tenths}" if tenths else "")
    if isinstance(found, time):
        if dated:
            raise OutOfRange(f"{moment}: a clock is set to a day too: {_FORMS}")
        return text
    if found.year not in YEARS:
        raise OutOfRange(f"{moment}: the clock has the years 2000 to 2099")
    return f"{found:%Y-%m-%d} {text}"


def _typed(text: str) -> datetime | time:
    """The time that a person typed."""
    said = _TYPED.fullmatch(text.strip())
    if said is None:
        raise OutOfRange(f"{text!r} is no time of the clock: {_FORMS}")
    day, hour, minute, second, tenth = said.groups()
    try:
        found = time(
            int(hour),
            int(minute),
            int(second or 0),
            int(tenth or 0) * TENTH.microseconds,
        )
        if day is None:
            return found
        return datetime.combine(date.fromisoformat(day), found)
    except ValueError as fault:
        raise OutOfRange(f"{text!r}: {fault}: {_FORMS}") from None
