"""Makes the manual pages of the three programs of their documents: tools/pages/manual_pages.py FOLDER;
`man -l FOLDER/tsb.1`.

It knows as much of Markdown as these documents use: headings, paragraphs, lists, tables, blocks of code, words that are
strong or code. A row of a table is an entry whose first cell is its head.
"""
import dataclasses
import itertools
import pathlib
import re
import sys
from collections.abc import Iterator

from tools import TOP


@dataclasses.dataclass(frozen=True)
class Page:
    """A manual page: what the program is, how it is called, and which chapters of which documents it has."""

    what: str
    calls: list[str]
    chapters: list[tuple[str, str]]


PAGES = {
    "tsb": Page("a bench for traffic signal timing plans", ["check PLAN", "run PLAN LOG", ""], [
        ("docs/use/MANUAL.md", it) for it in ("2 ", "3 ", "4 ", "5 ", "6 ", "7 ", "9 ")]),
    "tsb_live": Page("live runs of the bench: inputs as they come", ["PLAN"], [("docs/use/LIVE.md", "")]),
    "tsb_field": Page("event logs, phase diagrams and reviews of plans for the bench",
                      ["log WORD ..", "record WORD .. PLAN LOG", "events WORD ..", "diagram WORD ..", "review PLAN",
                       "schedule WORD .. PLAN"],
                      [("docs/use/FIELD.md", "`"), ("docs/use/FIELD.md", "Faults"), ("docs/use/REVIEW.md", "")]),
}
ITEM = re.compile(r" *(-|\d+\.) (.*)")
BULLET = "\\(bu"
MARKS = re.compile(r"\*\*(.+?)\*\*|``?([^`]+)``?|!?\[([^\]]*)\]\([^)]*\)")


def escaped(text: str) -> str:
    """Plain text, as roff takes it."""
    plain = text.replace("\\", "\\e").replace("-", "\\-").replace("'", "\\(aq")
    return "".join(it if it.isascii() else f"\\[u{ord(it):04X}]" for it in plain)


def inline(text: str) -> str:
    """The text of a line: strong words and code are bold, and of a link its words are left."""
    found, at = "", 0
    for mark in MARKS.finditer(text):
        strong = mark[1] or mark[2]
        found += escaped(text[at:mark.start()])
        found += f"\\fB{escaped(strong)}\\fR" if strong else escaped(mark[3])
        at = mark.end()
    return safe(found + escaped(text[at:]))


def safe(line: str) -> str:
    """A line that roff takes for no request."""
    return f"\\&{line}" if line.startswith((".", "'")) else line


def chapters(document: str, name: str) -> Iterator[str]:
    """The lines of the chapters whose headings begin so; of all of them where the name is empty."""
    is_in, is_code = False, False
    for line in (TOP / document).read_text().splitlines():
        is_code ^= line.startswith("```")
        if line.startswith("## ") and not is_code:
            is_in = line.removeprefix("## ").startswith(name)
        if is_in:
            yield line


def cells(row: str) -> list[str]:
    """The cells of a row of a table."""
    return [it.strip().replace("\\|", "|") for it in re.split(r"(?<!\\)\|", row.strip().strip("|"))]


def table(rows: list[str]) -> Iterator[str]:
    """The rows of a table below its head: the first cell of each, and then the others by what the head says of them."""
    _, *heads = cells(rows[0])
    for first, *others in map(cells, rows[2:]):
        told = [f"{head}: {it}" if head and len(heads) > 1 else it for head, it in zip(heads, others) if it]
        yield from (".TP", inline(first) or "\\&")
        yield "\n.br\n".join(map(inline, told)) or "\\&"


def block(lines: list[str]) -> Iterator[str]:
    """A block of code."""
    yield from (".PP", ".RS 4", ".nf", *(safe(escaped(it)) for it in lines), ".fi", ".RE")


def roff(lines: Iterator[str]) -> Iterator[str]:
    """What roff has for lines of Markdown."""
    for kind, group in itertools.groupby(parts(lines), key=lambda it: it[0]):
        texts = [text for _, text in group]
        if kind == "table":
            yield from table(texts)
        else:
            yield from itertools.chain.from_iterable(one(kind, it) for it in texts)


def one(kind: str, text: str) -> Iterator[str]:
    """What roff has for a part that is no table."""
    if kind == "code":
        yield from block(text.splitlines())
    elif kind == "heading":
        yield f'.{"SH" if text.startswith("## ") else "SS"} "{heading(text)}"'
    elif item := ITEM.match(text):
        mark = BULLET if item[1] == "-" else item[1]
        yield from (f'.IP "{mark}" 4', inline(item[2]))
    elif text:
        yield from (".PP", inline(text))


def parts(lines: Iterator[str]) -> Iterator[tuple[str, str]]:
    """The parts of a text: headings, rows of tables, blocks of code, and paragraphs and items each as one line."""
    text = ""
    for line in lines:
        kind = "code" if line.startswith("```") else "heading" if line.startswith("#") else ""
        kind = kind or ("table" if line.startswith("|") else "")
        if text and (kind or not line.strip() or ITEM.match(line) or line.startswith(("![", "<!--"))):
            yield "text", text
            text = ""
        if kind == "code":
            yield kind, "\n".join(iter(lambda: next(lines), "```"))
        elif kind:
            yield kind, line
        elif not line.startswith(("![", "<!--")):
            text = f"{text} {line.strip()}".strip()
    yield "text", text


def heading(line: str) -> str:
    """A heading without its number and its marks."""
    return escaped(re.sub(r"^#+ (\d+ )?", "", line).replace("`", "").replace('"', "\\(dq"))


def page(name: str, version: str) -> str:
    """A manual page."""
    it = PAGES[name]
    head = [f'.TH {name.upper()} 1 "" "tsb {version}"', ".SH NAME", f"{name} \\- {it.what}", ".SH SYNOPSIS"]
    for call in it.calls:
        head += [f"\\fB{name}\\fR {escaped(call)}".strip(), ".br"]
    body = [line for document, chapter in it.chapters for line in roff(chapters(document, chapter))]
    others = ", ".join(f"\\fB{other}\\fR(1)" for other in PAGES if other != name)
    return "\n".join([*head, *body, '.SH "SEE ALSO"', f"{others}; the documents of tsb", ""])


def main(words: list[str]) -> int:
    """Writes the pages into a folder; the status to end with."""
    if len(words) != 1:
        sys.exit("usage: python3 -m tools.pages.manual_pages FOLDER")
    for name in PAGES:
        pathlib.Path(words[0], f"{name}.1").write_text(page(name, version(TOP)))
    return 0


def version(top: pathlib.Path) -> str:
    """The version, from the one file that has it."""
    return (top / "VERSION").read_text().strip()


if __name__ == "__main__":
    sys.exit(main(sys.argv[1:]))
