"""Finds words in documents that could mean two things; run it at the top, or by tools/ready.py.

A log is an input log or an event log, and a crossing is a barrier crossing or a crosswalk: a document says which. Code,
words in code, headings and tables' heads are left alone.
"""
import pathlib
import re
import sys
from collections.abc import Iterator

from tools.pages import written
from tools.pages.tree_facts import DOCUMENTS, paragraphs

CODE = re.compile(r"`[^`]*`|\b[\w-]+\.log\b|\blog_\w+|\w+_log\w*")
ALONE = {
    "input log or event log": re.compile(r"(?<![Ii]nput )(?<![Ee]vent )\b[Ll]ogs?\b"),
    "barrier crossing or crosswalk": re.compile(r"(?<![Bb]arrier )\b[Cc]rossings?\b(?! (of )?the barrier)"),
}
# SUMO calls its crosswalks so.
NAMES = re.compile(r"SUMO's crossings")


def alone(text: str) -> Iterator[tuple[str, str]]:
    """The words of a paragraph that do not say which they mean: what they could mean, and the words around them."""
    said = NAMES.sub("", CODE.sub("", text))
    for meant, pattern in ALONE.items():
        yield from ((meant, said[max(it.start() - 30, 0):it.end() + 30].strip()) for it in pattern.finditer(said))


def missing() -> Iterator[str]:
    """What tools/ready.py reports."""
    for path in (path for it in DOCUMENTS for path in sorted(pathlib.Path().glob(it))):
        if path not in written.PAGES:
            for number, text in paragraphs(path.read_text()):
                yield from (f"{path}:{number}: {meant}? {around}" for meant, around in alone(text))


if __name__ == "__main__":
    found = list(missing())
    print("\n".join(found))
    sys.exit(1 if found else 0)
