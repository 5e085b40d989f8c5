"""What `tsb_field` prints of bad words: a second reading of docs/use/FIELD.md, "Faults", that looks at no crate.

`line(words)` gives the line for words after the program's name that are near no right one, or None where the usage is
printed. tools/programs/field_cases.py asks it, beside lines that were written by hand.
"""
import re
from collections.abc import Callable, Iterator, Sequence

from tools.programs.field_rules import moment, number

Word = str | bytes

# What options take: what is right, and what is said of all else.
FORMS = [b"year-first", b"month-first", b"day-first", b"seconds", b"milliseconds"]
ZONE = re.compile(rb"(?i:z|utc)|[+-](\d{1,2}):?(\d\d)|[+-](\d{1,2})")


class Taken:
    """What an option takes: which values it can have, and what is said of others."""

    def __init__(self, said: str, is_right: Callable[[bytes], bool], is_once: bool = True) -> None:
        self.said, self.is_right, self.is_once = said.encode(), is_right, is_once


def is_zone(value: bytes) -> bool:
    """Whether a value is Z or UTC, or an offset of less than a day."""
    found = ZONE.fullmatch(value)
    return found is not None and int(found[1] or found[3] or 0) < 24 and int(found[2] or 0) < 60


def seconds(most: int) -> Taken:
    """A number of seconds from 1 on."""
    return Taken(f"a number of seconds is 1 to {most}", lambda it: 1 <= (number(it) or 0) <= most)


def wire(said: str, most: int) -> Taken:
    """A channel, `=` and an input."""
    def is_right(value: bytes) -> bool:
        channel, mark, which = value.partition(b"=")
        return bool(mark) and number(channel) is not None and 1 <= (number(which) or 0) <= most
    return Taken(f"{said} from 1 to {most}", is_right, is_once=False)


FLAG = Taken("it takes no value", lambda it: False)
TEXT = Taken("a name or a text has to follow", lambda it: True)
TIME = Taken('a time is YYYY-MM-DD HH:MM:SS, such as "2026-11-22 07:00:00"', lambda it: moment(it) is not None)
DEVICE = Taken("a device has no double quote, no end of a line and at most 900 bytes",
               lambda it: not re.search(rb'["\r\n]', it) and len(it) <= 900)
DATE = Taken("a date is YYYY-MM-DD, such as 2026-11-22, of the years 2000 to 2099",
             lambda it: moment(it + b" 00:00:00") is not None and b"2000" <= it < b"2100")
DETECTOR = "CHANNEL=DETECTOR, with a detector"
OPTIONS: dict[str, dict[str, Taken]] = {
    "log": {
        "--from": TIME, "--device": TEXT, "--as-outputs": TEXT, "--zone": Taken("a zone is an offset such as -07:00, or Z", is_zone),
        "--time-form": Taken("a form is year-first, month-first, day-first, seconds or milliseconds", lambda it: it in FORMS),
        "--count": FLAG, "--allow-empty": FLAG, "--sort": FLAG, "--sort-within": seconds(3600), "--vehicle": wire(DETECTOR, 64),
        "--pedestrian": wire(DETECTOR, 16), "--preempt": wire("CHANNEL=INPUT, with an input", 8),
    },
    "record": {"--from": TIME, "--device": DEVICE, "--go-on": FLAG, "--recalls": FLAG, "--outputs": FLAG, "--no-clock": FLAG},
    "events": {"--from": TIME, "--device": DEVICE, "--log": TEXT, "--wide": FLAG},
    "diagram": {"--from": TIME, "--log": TEXT, "--wide": FLAG, "--title": TEXT, "--seconds-per-line": seconds(86400), "--events": TEXT},
    "review": {},
    "schedule": {"--week": DATE, "--svg": FLAG},
    "worksheet": {},
    "card": {"--against": TEXT},
}
NEEDED: dict[str, list[str]] = {"log": ["--from"], "record": ["--from", "--device"], "events": ["--from", "--device"],
          "diagram": [], "review": [],
          "schedule": ["--week"], "worksheet": [], "card": []}
ANSWERS = b"this command names files by options alone: it reads what `tsb run` answers from standard input"
FILES = {"log": b"log names no file: it reads an event log from standard input", "record": b"record names two files, PLAN and LOG",
         "review": b"review names one file, PLAN", "events": ANSWERS, "diagram": ANSWERS,
         "schedule": b"schedule names one file, PLAN", "worksheet": b"worksheet names one file, PLAN",
         "card": b"card names one file, PLAN"}


def shown(word: bytes) -> bytes:
    """A word as it is printed: its first 40 bytes, with `?` as in a field."""
    return re.sub(rb'[^ !#-~]', b"?", word[:40])


def is_option(word: bytes) -> bool:
    """Whether a word is an option: it has something after a first hyphen."""
    return word[:1] == b"-" and len(word) > 1


def faults(command: str, words: Sequence[bytes]) -> Iterator[bytes]:
    """What is wrong with the words of a command before `--`, from the left."""
    options = OPTIONS[command]
    names = [word.partition(b"=")[0] for word in words]
    for at, word in enumerate(words):
        name, mark, joined = word.partition(b"=")
        if not is_option(name):
            continue
        if name.decode() not in options:
            yield shown(name) + b": the command has no such option; --help after it lists all"
            continue
        takes = options[name.decode()]
        if takes.is_once and name in names[at + 1:]:
            yield shown(name) + b" comes twice"
        behind = words[at + 1:at + 2]
        value = joined if mark else behind[0] if behind and not is_option(behind[0]) and takes is not FLAG else None
        if value is None and takes is not FLAG:
            yield shown(name) + b" has no value (one that begins with a hyphen comes after =): " + takes.said
        if value is not None and not takes.is_right(value):
            yield shown(name) + b' "' + shown(value) + b'": ' + takes.said
    for needed in NEEDED[command] + (["--from"] if command == "diagram" and b"--events" in names else []):
        if needed.encode() not in names:
            yield needed.encode() + b" has to be given: " + options[needed].said
    yield FILES[command]


def line(given: Sequence[Word]) -> bytes | None:
    """What is printed of words that are bad and near no right one; None for the usage."""
    words = [word if isinstance(word, bytes) else word.encode() for word in given]
    if not words or any(not is_text(word) for word in words):
        return None
    command = words[0].decode()
    if command not in OPTIONS:
        return b'there is no command "' + shown(words[0]) + b'": log, record, events, diagram, review, schedule, worksheet or card\n'
    front = words[1:words.index(b"--", 1)] if b"--" in words[1:] else words[1:]
    if any(word.partition(b"=")[0] == b"--help" for word in front):
        return None
    return next(faults(command, front)) + b"\n"


def is_text(word: bytes) -> bool:
    """Whether a word is UTF-8."""
    try:
        word.decode()
    except UnicodeDecodeError:
        return False
    return True
