"""Laws as the source has them: each is a public function that computes nothing and whose contract is the law.

The comment above it begins with the law's title, one sentence, and then says more. Lines that begin with a label
follow:

    /// A start waits for what it crosses. A phase starts only when ...
    ///
    /// Not said: that it ever starts.
    /// Mistake: one ring crosses as soon as it has cleared, `starting_once_cleared` (`still_serves_6`).
    /// Witness: `starts_4` of TimeRuns.

A law of several clauses may have a paragraph for each, which begins with the clause's name, as in "`safe`: No two
phases ...". The lines with labels after it are of that clause.
"""
import dataclasses
import functools
import pathlib
import re

LABELS = ["Needs", "Not said", "Mistake", "Mistakes", "Witness"]

# A public function with its comment and its contract, up to the line after which its body begins.
FUNCTION = re.compile(r"((?:^///.*\n)*)^pub fn (\w+)(.*\n(?:^ .*\n)*)^\{(.*\n(?:^ .*\n)*)", re.M)
LABEL = re.compile(rf"({'|'.join(LABELS)}): ")
CLAUSE = re.compile(r"`(\w+)`: ")
TITLE = re.compile(r"(.+?)\.(?: +|$)(?=[A-Z`]|$)")


class BrokenComment(Exception):
    """A comment that does not have the form of a law's."""


@dataclasses.dataclass(frozen=True)
class Law:
    """What the comment above a law says of it, or of one of its clauses."""

    crate: str
    function: str
    clause: str
    title: str
    sentences: str
    notes: tuple[tuple[str, str], ...]

    def place(self) -> str:
        """The crate, the function and the clause."""
        return f"{self.crate} {self.function}" + (f" {self.clause}" if self.clause else "")

    def text(self) -> tuple[str, str, tuple[tuple[str, str], ...]]:
        """All that is said, by which laws of several crates may be one entry."""
        return self.title, self.sentences, self.notes

    def has(self, label: str) -> bool:
        """Whether it has a note of a label, in the singular or the plural."""
        return any(it.startswith(label) for it, _ in self.notes)


def parts_of(lines: list[str]) -> list[list[str]]:
    """The parts of a comment: each begins after an empty line or with a label, and is one text with its label."""
    parts: list[list[str]] = []
    is_new = True
    for line in lines:
        if not line:
            is_new = True
        elif is_new or LABEL.match(line):
            parts.append([line])
            is_new = False
        else:
            parts[-1].append(line)
    return parts


def title_of(text: str, place: str) -> tuple[str, str]:
    """The first sentence, without its full stop, and the rest."""
    found = TITLE.match(text)
    if not found:
        raise BrokenComment(f"{place}: the comment has no first sentence")
    return found[1], text[found.end():]


def laws_of(crate: str, function: str, lines: list[str], clauses: list[str]) -> list[Law]:
    """What the comment above a function says of it, or of each of its clauses."""
    if not lines:
        raise BrokenComment(f"{crate} {function}: has no comment")
    found: list[Law] = []
    for text in map(" ".join, parts_of(lines)):
        label = LABEL.match(text)
        if label and found:
            note = (label[1], text[label.end():])
            found[-1] = dataclasses.replace(found[-1], notes=(*found[-1].notes, note))
            continue
        clause = CLAUSE.match(text)
        if clause and clause[1] not in clauses or found and not clause:
            raise BrokenComment(f"{crate} {function}: no clause's name before: {text}")
        title, sentences = title_of(text[clause.end():] if clause else text, f"{crate} {function}")
        found.append(Law(crate, function, clause[1] if clause else "", title, sentences, ()))
    return found


def is_law(path: pathlib.Path, contract: str, body: str) -> bool:
    """Whether a function is a law: one without a body, or of a file of laws, that has a contract."""
    return " ensures " in contract and (body.startswith("}") or path.stem.endswith("laws"))


@functools.cache
def laws() -> dict[tuple[str, str], list[Law]]:
    """The laws of all crates, by crate and function."""
    found: dict[tuple[str, str], list[Law]] = {}
    for path in sorted(pathlib.Path("crates").glob("*/src/**/*.rt")):
        for comment, function, contract, body in FUNCTION.findall(path.read_text()):
            if is_law(path, contract, body):
                crate = path.parts[1]
                lines = [line[3:].strip() for line in comment.splitlines()]
                clauses = re.findall(r"^ +ensures (\w+) \{", contract, re.M)
                found[crate, function] = laws_of(crate, function, lines, clauses)
    return found
