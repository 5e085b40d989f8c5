"""Counts turns of phrase that make a reader stop, and lines of pages; run it at the top, or by tools/ready.py.

It reads documents, and the comments of `.rt`, `.antt` and `.py`. `tools/pages/prose_counts.txt` has how many each file
may have: a file with more is a fault, and so is one that is not listed and has any. With `--write` the table is written
anew, unless a listed file or all together have more than it says. With a name of a file it prints the places there.

A hand-written line is one of a page that git keeps, outside of the parts that a script writes.
"""
import ast
import collections
import pathlib
import re
import subprocess
import sys
from collections.abc import Iterator

from tools.pages import written

PATTERNS = {
    "that which": r"\bthat which\b",
    "of which": r"\bof (which|whom)\b",
    "whose .. so": r"\bwhose\b[^.]{0,40}\bso\b",
    "so it is, is so": r"\b(so it is|so is it|it is so|is so)\b",
    "it is there": r"\bit is there\b",
    "behind, in time": r"\bbehind (it|them|this|that|each|a|the) (tick|one|other|input|run|line|record|row|commit)?",
    "told, tells": r"\b(tells?|told|telling)\b",
    "stands, for is": r"\bstands?\b",
    "Of .., first": r"(^|\. )Of [a-z0-9 ]{3,40},? ",
    "but for": r"\bbut for\b",
    "likewise": r"\b(likewise|as well as that|and so (has|have|is|does|do))\b",
}
FOUND = {what: re.compile(it, re.M) for what, it in PATTERNS.items()}
KINDS = (".md", ".rt", ".antt", ".py")
COMMENT = {".rt": re.compile(r"^\s*//[/!]? ?(.*)"), ".antt": re.compile(r"^\s*--+ ?(.*)")}
SENTENCE = re.compile(r"(?<=[.:;!?])\s|\n\s*\n|\n\s*(?:[-*]|\d+\.) ")
# Words that a sentence has at most.
WORDS = 30
COUNTS = pathlib.Path("tools/pages/prose_counts.txt")
HEAD = "# How many turns of phrase a file may have. tools/pages/prose.py counts them and writes this table.\n"
# The pages whose lines are counted, and how many hand-written ones they have at most.
PAGES = ["README.md", "CONTRIBUTING.md", "docs/*/*.md"]
LINES = 6000
MADE = re.compile(r"^<!-- (\w+): written by .*?^<!-- end of \1 -->$", re.M | re.S)


def docstrings(text: str) -> Iterator[str]:
    """The texts of Python that are statements of their own."""
    for it in ast.walk(ast.parse(text)):
        if isinstance(it, ast.Expr) and isinstance(it.value, ast.Constant) and isinstance(it.value.value, str):
            yield it.value.value


def prose(path: pathlib.Path) -> str:
    """The sentences of a document, or of the comments of a source."""
    text = path.read_text(errors="replace")
    if path.suffix == ".md":
        text = re.sub(r"```.*?```", "\n\n", text, flags=re.S)
        return re.sub(r"^(\||#|<!--).*$", "\n", text, flags=re.M)
    if path.suffix == ".py":
        return "\n\n".join([*docstrings(text), *re.findall(r"^\s*# (.*)", text, flags=re.M)])
    return "\n".join(it[1] if (it := COMMENT[path.suffix].match(line)) else "" for line in text.splitlines())


def places(path: pathlib.Path) -> Iterator[str]:
    """The turns of phrase of a file, each with what it is."""
    said = prose(path)
    for what, pattern in FOUND.items():
        yield from (f"{what}: {it[0]!r} in {said[max(it.start() - 40, 0):it.end() + 40]!r}" for it in pattern.finditer(said))
    yield from (f"{len(it.split())} words: {it.strip()!r}" for it in SENTENCE.split(said) if len(it.split()) > WORDS)


def counts() -> dict[str, int]:
    """How many each file has that git keeps, of those that have any."""
    listed = subprocess.run(["git", "ls-files", "-z"], capture_output=True, text=True, check=True).stdout.split("\0")
    paths = [pathlib.Path(it) for it in listed if it.endswith(KINDS)]
    found = {str(it): sum(1 for _ in places(it)) for it in paths if it.is_file()}
    return {name: count for name, count in found.items() if count}


def allowed() -> dict[str, int]:
    """How many each file may have."""
    rows = [it.split(" ", 1) for it in COUNTS.read_text().splitlines() if not it.startswith("#")]
    return {name: int(count) for count, name in rows}


def risen(found: dict[str, int], most: dict[str, int]) -> Iterator[str]:
    """The files that have more than they may."""
    for name, count in found.items():
        if count > most.get(name, 0):
            yield f"{name}: {count} turns of phrase, {most.get(name, 0)} before: python3 -m tools.pages.prose {name}"


def page_lines() -> dict[str, int]:
    """How many hand-written lines each page has."""
    paths = [path for it in PAGES for path in sorted(pathlib.Path().glob(it)) if path not in written.PAGES]
    return {str(it): MADE.sub("", it.read_text()).count("\n") for it in paths}


def missing() -> Iterator[str]:
    """What tools/ready.py reports."""
    yield from risen(counts(), allowed())
    if (count := sum(page_lines().values())) > LINES:
        yield f"the pages have {count} hand-written lines, over {LINES}: python3 -m tools.pages.prose"


def rewritten() -> list[str]:
    """Writes the table, and gives what keeps it from being written."""
    found, most = counts(), allowed() if COUNTS.is_file() else collections.Counter()
    wrong = [it for it in risen(found, most) if it.partition(":")[0] in most]
    if most and sum(found.values()) > sum(most.values()):
        wrong.append(f"{sum(found.values())} turns of phrase in all, {sum(most.values())} before")
    if not wrong:
        COUNTS.write_text(HEAD + "".join(f"{count} {name}\n" for name, count in sorted(found.items())))
    return wrong


def main(words: list[str]) -> int:
    """Counts, writes the table, or prints the places of a file; the status to end with."""
    if words == ["--write"]:
        wrong = rewritten()
        print("\n".join(wrong) or f"{sum(allowed().values())} turns of phrase")
        return 1 if wrong else 0
    if words:
        print("\n".join(it for name in words for it in places(pathlib.Path(name))))
        return 0
    lines, found = page_lines(), collections.Counter[str]()
    for name, count in counts().items():
        found[pathlib.PurePath(name).suffix] += count
    for name, count in sorted(lines.items(), key=lambda it: -it[1]):
        print(f"{count:6} lines {name}")
    print(f"{sum(lines.values()):6} hand-written lines of pages, of {LINES} at most")
    for kind, count in found.most_common():
        print(f"{count:6} turns of phrase in {kind}")
    return 0


if __name__ == "__main__":
    sys.exit(main(sys.argv[1:]))
