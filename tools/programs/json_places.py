"""Where texts stop being JSON: what tsb_live prints of plan texts at random, beside a second reading of RFC 8259.

The reading knows tokens by regular expressions, and what may follow them by a stack. It is written from the standard
and from docs/use/MANUAL.md, not from the definitions of the crate tsb_plan_notes.
"""
import concurrent.futures
import json
import pathlib
import random
import re
import tempfile

from tools.programs.live_kit import ran

EXAMPLES = pathlib.Path("examples")
# How many texts are tried, and how many bytes of each are changed at most.
TEXTS, CHANGES = 2000, 3
DEPTH = 127

BLANKS = re.compile(rb"[ \t\n\r]*")
NUMBER = re.compile(rb"-?(0|[1-9][0-9]*)(\.[0-9]+)?([eE][+-]?[0-9]+)?")
EXPONENT = rb"[eE]([+-]?[0-9]*)?"
BEGUN_NUMBER = re.compile(rb"-?((0|[1-9][0-9]*)(\.([0-9]+(" + EXPONENT + rb")?)?|" + EXPONENT + rb")?)?")
ESCAPE = re.compile(rb'\\(["\\/bfnrt]|u[0-9a-fA-F]{4})')
BEGUN_ESCAPE = re.compile(rb"\\(u[0-9a-fA-F]{0,3})?")
WORDS = [b"true", b"false", b"null"]
A_VALUE, A_NAME, A_DIGIT = "a value", "a name in double quotes", "a digit"

# What texts are changed by: marks of JSON, and bytes that are none.
PIECES = [*(bytes([byte]) for byte in b'{}[]:,"\\ \n\r\t0123456789-+.eEtfnul/#\x00\x1f\x7f\xc3\xa9\xed\xff'),
          b"true", b"fals", b"nul", b"1.5e3", b"-0", b'"a"', b"\\u00e9", b"\\u00g", b"\xc3\xa9", b"\xf0\x9f\x9a\xa6", b"\xe2\x82"]


class Stopped(Exception):
    """A text stops behind so many bytes, where this is expected."""

    def __init__(self, at: int, expected: str) -> None:
        super().__init__(at, expected)
        self.at, self.expected = at, expected


def begins_character(begun: bytes) -> bool:
    """Whether bytes are a character of UTF-8, or begin one."""
    for tail in (b"\x80", b"\xbf"):
        for count in range(4):
            try:
                return len((begun + tail * count).decode()) == 1
            except UnicodeDecodeError:
                pass
    return False


def behind_character(text: bytes, at: int) -> int:
    """The place after a character of UTF-8 that has several bytes."""
    for end in range(at + 1, at + 5):
        if end > len(text) or not begins_character(text[at:end]):
            raise Stopped(end - 1, "a character or a double quote" if end == at + 1 else "UTF-8")
        try:
            text[at:end].decode()
            return end
        except UnicodeDecodeError:
            pass
    raise AssertionError("no character has more than 4 bytes")


def behind_escape(text: bytes, at: int) -> int:
    """The place after an escape."""
    if found := ESCAPE.match(text, at):
        return found.end()
    begun = BEGUN_ESCAPE.match(text, at)
    assert begun
    raise Stopped(begun.end(), "a hexadecimal digit" if begun[1] else "an escape of JSON")


def behind_string(text: bytes, at: int) -> int:
    """The place after a text in double quotes, behind the first of which this is."""
    while at < len(text):
        byte = text[at]
        if byte == ord('"'):
            return at + 1
        if byte == ord("\\"):
            at = behind_escape(text, at)
        elif byte >= 0x80:
            at = behind_character(text, at)
        elif byte < 0x20:
            break
        else:
            at += 1
    raise Stopped(at, "a character or a double quote")


def behind_word(text: bytes, at: int) -> int:
    """The place after true, false or null."""
    word = next(it for it in WORDS if it[:1] == text[at:at + 1])
    same = next((k for k, byte in enumerate(word) if text[at + k:at + k + 1] != bytes([byte])), len(word))
    if same < len(word):
        raise Stopped(at + same, "`true`, `false` or `null`")
    return at + same


def behind_number(text: bytes, at: int) -> int:
    """The place after a number."""
    begun = BEGUN_NUMBER.match(text, at)
    assert begun
    if NUMBER.fullmatch(begun[0]):
        return begun.end()
    raise Stopped(begun.end(), "a digit or a sign" if begun[0][-1:] in (b"e", b"E") else A_DIGIT)


def behind_value(text: bytes, at: int, expected: str) -> int:
    """The place after a value that is no object and no array."""
    first = text[at:at + 1]
    if first == b'"':
        return behind_string(text, at + 1)
    if first and first in b"tfn":
        return behind_word(text, at)
    if first and first in b"-0123456789":
        return behind_number(text, at)
    raise Stopped(at, expected)


def skipped(text: bytes, at: int) -> int:
    """The place after blanks."""
    found = BLANKS.match(text, at)
    assert found
    return found.end()


def behind_name(text: bytes, at: int, expected: str) -> int:
    """The place of the value that follows a name and its colon."""
    if text[at:at + 1] != b'"':
        raise Stopped(at, expected)
    at = skipped(text, behind_string(text, at + 1))
    if text[at:at + 1] != b":":
        raise Stopped(at, "`:`")
    return at + 1


def go_through(text: bytes) -> None:
    """Goes through a text up to its end, or to where it stops."""
    closing: list[bytes] = []
    at, expected = 0, A_VALUE
    while True:
        at = skipped(text, at)
        first = text[at:at + 1]
        if first and first in b"{[" and len(closing) < DEPTH:
            closing.append(b"}" if first == b"{" else b"]")
            at = skipped(text, at + 1)
            if text[at:at + 1] != closing[-1]:
                expected = f"{A_NAME} or `}}`" if first == b"{" else f"{A_VALUE} or `]`"
                if first == b"{":
                    at, expected = behind_name(text, at, expected), A_VALUE
                continue
        else:
            at = behind_value(text, at, expected)
        at, is_over = behind_ends(text, at, closing)
        if is_over:
            return
        expected = A_VALUE


def behind_ends(text: bytes, at: int, closing: list[bytes]) -> tuple[int, bool]:
    """The place at which the next value may begin, behind the ends of objects and arrays and a comma; and whether the
    text is over."""
    while closing:
        at = skipped(text, at)
        if text[at:at + 1] == closing[-1]:
            closing.pop()
            at += 1
        elif text[at:at + 1] == b",":
            if closing[-1] == b"]":
                return at + 1, False
            return behind_name(text, skipped(text, at + 1), A_NAME), False
        else:
            raise Stopped(at, f"`,` or `{closing[-1].decode()}`")
    at = skipped(text, at)
    if at < len(text):
        raise Stopped(at, "nothing more")
    return at, True


# How an input log begins: by a comment, or by a tick of seven digits and a space.
INPUT_LOG = re.compile(rb"#|\d.{6} ", re.DOTALL)


def second_line(text: bytes) -> bytes | None:
    """The line that says where a text that is no JSON stops, or what it looks like, if it does stop."""
    if text.startswith(b"\xef\xbb\xbf"):
        return b"plan line 1, column 1: a byte order mark: save the text without it\n"
    if INPUT_LOG.match(text):
        return b"plan line 1, column 1: it looks like an input log\n"
    try:
        go_through(text)
    except Stopped as stopped:
        lines = text[:stopped.at].split(b"\n")
        ends = ", where the text ends" if stopped.at == len(text) else ""
        return f"plan line {len(lines)}, column {len(lines[-1]) + 1}{ends}: expected {stopped.expected}\n".encode()
    return None


def is_refused_otherwise(text: bytes) -> bool:
    """Whether a text that stops nowhere may be no JSON for the reader of plans: a number past all range, or half of a
    pair of escapes."""
    try:
        found = json.loads(text, parse_float=float, parse_int=float)
        return "Infinity" in json.dumps(found) or re.search(r"\\ud[89a-f]", json.dumps(found)) is not None
    except (ValueError, OverflowError, RecursionError):
        return True


def a_text(rng: random.Random) -> bytes:
    """A plan text in which some bytes were changed."""
    plans = ["two", "first_plan", "tee", "quad", "main_and_oak"]
    text = (EXAMPLES / f"{rng.choice(plans)}.json").read_bytes()
    if rng.random() < 0.3:
        begin = rng.randrange(len(text))
        text = text[begin:begin + rng.randrange(60)]
    for _ in range(rng.randrange(CHANGES + 1)):
        at, gone = rng.randrange(len(text) + 1), rng.choice([0, 0, 1, 1, 2, 5])
        text = text[:at] + rng.choice([b"", *PIECES]) + text[at + gone:]
    return text


def worked() -> list[bytes]:
    """Texts that were chosen by hand."""
    deep = [b"[" * count + b"]" * count for count in (DEPTH, DEPTH + 1)]
    return [b"", b" ", b"{", b"{}x", b"[1,]", b'{"a":1,}', b'{"a" 1}', b"{'a':1}", b'{"a":01}', b'{"a":1.}', b'{"a":-}', b'{"a":1e}',
            b'{"a":1e+}', b'["\\x"]', b'["\\u12', b'["\n"]', b"[tru]", b"[nulll]", b"// a\n{}", b"\xef\xbb\xbf{}", b"\xef\xbb{}", b"# a\n{}", b"0000001 1", b"12345678 1", b"0.00000 x", b'["\xed\xa0\x80"]',
            b'["\xf4\x90\x80\x80"]', b'["\xc0\x80"]', b'{"a":[1\r\n 2]}', b"1e999", b'["\\ud800"]', *deep]


def compare_one(live: pathlib.Path, folder: str, place: int, text: bytes) -> list[str]:
    """What tsb_live prints of a text otherwise."""
    path = pathlib.Path(folder, f"{place}.json")
    path.write_bytes(text)
    status, output, errors = ran([live, path], b"")
    wanted = second_line(text)
    said = errors.removeprefix(b"plan: not JSON\n") if errors.startswith(b"plan: not JSON\n") else None
    if wanted is not None:
        good = said == wanted and (status, output) == (1, b"")
    else:
        good = said is None or (said == b"" and is_refused_otherwise(text))
    return [] if good else [f"plan text {text[:60]!r}: {status} {errors[:200]!r}, not {wanted!r}"]


def compare(live: pathlib.Path) -> list[str]:
    """What tsb_live prints of texts otherwise than the second reading."""
    rng = random.Random("places")
    texts = worked() + [a_text(rng) for _ in range(TEXTS)]
    with tempfile.TemporaryDirectory() as folder, concurrent.futures.ThreadPoolExecutor(4) as pool:
        found = pool.map(lambda it: compare_one(live, folder, *it), enumerate(texts))
        return [line for lines in found for line in lines]
