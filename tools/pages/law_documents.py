"""Writes docs/trust/LAWS.md from the comments above the laws; run it at the top. The page is not kept in git.

`tools/pages/laws_by_subject.txt` says which laws come under which heading. With `--check` nothing is written. Either
way the script fails where a law is not listed just once, or where a comment does not have the form of a law's. With
`--lacking` it lists the laws whose comments name no mistake or no witness.
"""
import dataclasses
import itertools
import pathlib
import re
import sys
import textwrap
from collections.abc import Iterator

from tools.pages.laws import BrokenComment, Law, laws

PAGE, SUBJECTS = pathlib.Path("docs/trust/LAWS.md"), pathlib.Path("tools/pages/laws_by_subject.txt")
HEAD = """# Laws

What holds of every run of the controller, of its records, of plans and of texts: each law by its name in the trade's
words, with its function, its crate, and the clause where it has several. `tools/pages/law_documents.py` writes this
page from the comments above the functions. docs/trust/PROVED.md, "Laws", says how a law is to be read, and what
*Needs*, *Not said*, *Mistake* and *Witness* mean.
"""
LISTED = re.compile(r"(tsb_\w+): ")


@dataclasses.dataclass
class Entry:
    """A law with the crates that have it in the same words."""

    law: Law
    crates: list[str]

    def contract(self) -> str:
        """The function, the crates, and the clause where it is of one."""
        clause = f", clause `{self.law.clause}`" if self.law.clause else ""
        return f"`{self.law.function}` of {', '.join(self.crates)}{clause}"


def blocks() -> list[str]:
    """The headings, texts and lists of the subjects, without the comment at the head."""
    lines = [it for it in SUBJECTS.read_text().splitlines() if not it.startswith("# ")]
    return [it.strip("\n") for it in re.split(r"\n{2,}", "\n".join(lines)) if it.strip()]


def listed(block: str) -> Iterator[tuple[str, str]]:
    """The crates and functions that a list names."""
    _, *parts = LISTED.split(block)
    for crate, functions in zip(parts[::2], parts[1::2]):
        yield from ((crate, it) for it in functions.split())


def entries(block: str) -> list[Entry]:
    """The laws of a list, in its order, those in the same words as one."""
    found: list[Entry] = []
    for crate, function in listed(block):
        if (crate, function) not in laws():
            raise BrokenComment(f"{SUBJECTS}: {crate} has no law {function}")
        for law in laws()[crate, function]:
            same = [it for it in found if it.law.function == function and it.law.text() == law.text()]
            if same:
                same[0].crates.append(crate)
            else:
                found.append(Entry(law, [crate]))
    return found


def wrapped(text: str, indent: str = "") -> str:
    """A text in lines of at most 120 characters."""
    return textwrap.fill(text, 120, subsequent_indent=indent, break_long_words=False, break_on_hyphens=False)


def spelled(entry: Entry) -> str:
    """An entry of the page."""
    first = wrapped(f"**{entry.law.title}** ({entry.contract()}). {placed(entry.law.sentences)}".strip())
    notes = (wrapped(f"- *{label}:* {placed(text)}", "  ") for label, text in entry.law.notes)
    return "\n".join([first, *notes]) + "\n"


def placed(text: str) -> str:
    """A text in which documents that it names without their folder have it."""
    found = {it.name: it.as_posix() for it in pathlib.Path("docs").glob("*/*.md")}
    return re.sub(r"\bdocs/(\w+\.md)", lambda it: found.get(it[1], it[0]), text)


def page() -> str:
    """The whole page."""
    parts = [HEAD]
    for block in blocks():
        parts += map(spelled, entries(block)) if LISTED.match(block) else [f"{block}\n"]
    return "\n".join(parts)


def misplaced() -> list[str]:
    """The laws that are not listed just once."""
    places = [place for block in blocks() if LISTED.match(block) for place in listed(block)]
    return [f"{SUBJECTS}: lists {places.count(law)} times: {' '.join(law)}" for law in laws() if places.count(law) != 1]


def lacking() -> None:
    """Prints the laws without a mistake or a witness."""
    for law in itertools.chain.from_iterable(laws().values()):
        missing = [it for it in ("Mistake", "Witness") if not law.has(it)]
        if missing:
            print(f"{law.place()}: no {' and no '.join(it.lower() for it in missing)}")


def main(words: list[str]) -> int:
    """Writes the page, or only looks; the status to end with."""
    if words not in ([], ["--check"], ["--lacking"]):
        sys.exit("usage: python3 -m tools.pages.law_documents [--check | --lacking]")
    try:
        if words == ["--lacking"]:
            lacking()
            return 0
        wrong, text = misplaced(), page()
        if not words:
            PAGE.write_text(text)
    except BrokenComment as error:
        wrong = [str(error)]
    print("\n".join(wrong) if wrong else f"{len(laws())} laws, as in the source")
    return 1 if wrong else 0


if __name__ == "__main__":
    sys.exit(main(sys.argv[1:]))
