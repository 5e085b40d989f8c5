"""The pages of the site, made of the repository's documents: tools/site.

A document is a page, and of the manual each chapter is one. What a document cites, as docs/use/FIELD.md or chapter 8,
leads there; blocks of the manual's sessions and files lead to the files of `examples/`.
"""
import dataclasses
import pathlib
import re
from collections.abc import Iterator

from tools import TOP

MANUAL = "MANUAL"
# The question of each part of the site, and its pages by their documents. A number is a chapter of the manual.
PARTS: dict[str, list[str]] = {
    "Use it": ["MANUAL 1", "MANUAL 2", "MANUAL 3", "MANUAL 4", "MANUAL 5", "MANUAL 6", "MANUAL 7", "MANUAL 8",
               "MANUAL 9", "ARROWS", "TUTORIAL", "REVIEW", "FIELD", "LIVE", "PYTHON", "SCENARIOS", "EXCHANGE", "PANEL",
               "SUMO", "EXAMPLES", "GLOSSARY"],
    "Trust it": ["PROVED", "SAFETY", "EVIDENCE", "PEERS", "SPEED", "READING", "WRONG_BODIES", "LAWS"],
    "Work on it": ["CONTRIBUTING", "CONTRACTS", "DECISIONS", "DEFINITIONS", "CHANGELOG", "SECURITY"],
}
HOME = "index"
# What such a page is called in the navigation, where its heading is too long.
SHORT = {"FIELD": "Event logs and diagrams", "PYTHON": "Python, reports, sweeps", "READING": "From a question to its rule",
         "SCENARIOS": "Tests of a plan", "ARROWS": "Arrows, an example"}
# Documents that are not in the folders of docs/.
ELSEWHERE = {HOME: "README.md", "CONTRIBUTING": "CONTRIBUTING.md", "CHANGELOG": "CHANGELOG.md",
             "SECURITY": "SECURITY.md", "EXAMPLES": "examples/README.md",
             "ARROWS": "examples/ARROWS.md"}
FENCE = "```"
LANGUAGES = {"sh", "python"}
# What stays as it is: code, and links.
KEPT = re.compile(r"(`+[^`]+`+|!?\[[^\]]*\]\([^)]*\))")
# A document, and after it a chapter or a heading; a chapter alone, within the manual.
CITED = re.compile(r'\b(?P<path>(?:docs/\w+/|examples/)?(?P<page>[A-Z_]+)\.md|examples/README\.md)'
                   r'(?:, (?:chapter (?P<chapter>\d+)|"(?P<heading>[^"]+)"))?')
CHAPTER = re.compile(r"\b[Cc]hapter (\d+)\b")
PICTURE = re.compile(r"(!\[[^\]]*\]\()(?:(?:\.\./)+|docs/use/)")
# A picture that lies beside its document.
BESIDE = re.compile(r"(!\[[^\]]*\]\()(?=[\w.]+\))")
ITEM = re.compile(r"(- |\d+\. )")


# The marks of headings by the names of their pages.
Marks = dict[str, set[str]]


class Astray(Exception):
    """A document cites what is on no page."""


@dataclasses.dataclass(frozen=True)
class Page:
    """A page: its name in the site, its heading, and its text as Markdown."""

    name: str
    title: str
    text: str


def slug(heading: str) -> str:
    """The mark of a heading, as Python's Markdown makes it."""
    plain = re.sub(r"[^\w\s-]", "", heading).strip().lower()
    return re.sub(r"[-\s]+", "-", plain)


def path_of(name: str) -> pathlib.Path:
    """The document of a page."""
    kept = {it.stem: it for it in kept_documents()}
    return kept[name] if name in kept else TOP / ELSEWHERE[name]


def kept_documents() -> list[pathlib.Path]:
    """The documents in the folders of docs/."""
    return sorted((TOP / "docs").glob("*/*.md"))


def chapters() -> dict[str, str]:
    """The chapters of the manual by their pages, and under its own name what comes before them."""
    found, at = {MANUAL: ""}, MANUAL
    for line, is_code in lines_of((TOP / "docs/use/MANUAL.md").read_text()):
        if (begun := re.match(r"## (\d+) ", line)) and not is_code:
            at = f"{MANUAL}_{begun[1]}"
            found[at] = ""
            line = line.removeprefix("#")
        elif at != MANUAL and line.startswith("##") and not is_code:
            line = line.removeprefix("#")
        found[at] += f"{line}\n"
    return found


def lines_of(text: str) -> Iterator[tuple[str, bool]]:
    """The lines of a text, each with whether it is of a block of code."""
    is_code = False
    for line in text.splitlines():
        is_fence = line.startswith(FENCE)
        yield line, is_code or is_fence
        is_code ^= is_fence


def documents() -> dict[str, str]:
    """The texts of all pages by their names, as the documents have them."""
    named = [it.replace(" ", "_") for part in PARTS.values() for it in part]
    manual = chapters()
    others = [it for it in [HOME, *named] if it not in manual]
    found = {it: path_of(it).read_text() for it in others} | manual
    kept = {it.stem for it in kept_documents()}
    if missing := (found.keys() | kept) - {HOME, MANUAL, *named}:
        raise Astray(f"the site has no place for {', '.join(sorted(missing))}")
    return found


def pages() -> list[Page]:
    """All pages of the site."""
    found = documents()
    marks = marks_of(found)
    return [Page(name, title(name, text), "\n".join(site_lines(name, text, marks)) + "\n")
            for name, text in found.items()]


def marks_of(texts: dict[str, str]) -> Marks:
    """The marks of the headings of all pages."""
    return {name: {slug(it) for it in headings(text)} for name, text in texts.items()}


def headings(text: str) -> list[str]:
    """The headings of a text, without the marks of code."""
    return [line.lstrip("#").strip().replace("`", "")
            for line, is_code in lines_of(text) if line.startswith("#") and not is_code]


def title(name: str, text: str) -> str:
    """What a page is called in the navigation."""
    return SHORT.get(name, headings(text)[0])


def site_lines(name: str, text: str, marks: Marks) -> Iterator[str]:
    """The lines of a page, of the lines of its document."""
    is_open, below, was = False, "", ""
    for line, is_code in lines_of(text):
        if is_code and line.startswith(FENCE):
            is_open = not is_open
            if is_open:
                kind, _, shown = line.removeprefix(FENCE).partition(" ")
                below = files_of(kind, shown)
                yield f"{FENCE}{kind if kind in LANGUAGES else ''}"
            else:
                yield from (line, "", below)
        elif is_code:
            yield line
        else:
            if ITEM.match(line) and was and not was.startswith(("- ", "  ")) and not ITEM.match(was):
                yield ""
            placed = PICTURE.sub(r"\1", line)
            if ELSEWHERE.get(name, "").startswith("examples/"):
                placed = BESIDE.sub(r"\1examples/", placed)
            yield cited(name, placed, marks)
        was = line


def files_of(kind: str, name: str) -> str:
    """The line below a block that shows a session, or a file, of `examples/`: where its files are."""
    if kind == "session":
        return f"[commands](examples/{name}.commands), [answers](examples/{name}.expected)"
    return f"[{name}](examples/{name})" if kind in ("file", "review", "breaches") else ""


def cited(name: str, line: str, marks: Marks) -> str:
    """A line in which what it cites leads there; code and links stay as they are."""
    if line.startswith("#"):
        return line
    return "".join(it if it.startswith(("`", "[", "![")) else linked(name, it, marks) for it in KEPT.split(line))


def linked(name: str, text: str, marks: Marks) -> str:
    """A text without code in which what it cites leads there."""
    def document(it: re.Match[str]) -> str:
        page = it["page"] or "EXAMPLES"
        target = "index" if page == "README" else page
        if page == MANUAL and it["chapter"]:
            target = f"{MANUAL}_{it['chapter']}"
        if target not in marks:
            return it[0] if target == page and (TOP / it["path"]).is_file() else astray(name, it[0])
        found = [at for at, known in marks.items()
                 if it["heading"] and slug(it["heading"]) in known and (at == target or at.startswith(f"{target}_"))]
        mark = f"#{slug(it['heading'])}" if found else ""
        return f"[{it[0]}]({found[0] if found else target}.md{mark})"

    def chapter(it: re.Match[str]) -> str:
        target = f"{MANUAL}_{it[1]}"
        return f"[{it[0]}]({target}.md)" if target in marks else astray(name, it[0])

    if not name.startswith(MANUAL):
        return CITED.sub(document, text)
    # (a chapter after the name of a document is a link already)
    parts = KEPT.split(CITED.sub(document, text))
    return "".join(it if it.startswith("[") else CHAPTER.sub(chapter, it) for it in parts)


def astray(name: str, words: str) -> str:
    """Tells what is cited and nowhere."""
    raise Astray(f"{path_of(name.partition('_')[0])}: {words}")


def navigation(found: list[Page]) -> list[dict[str, object]]:
    """The navigation, as mkdocs takes it."""
    titles = {it.name: it.title for it in found}
    parts = [{question: [{titles[it.replace(" ", "_")]: f"{it.replace(' ', '_')}.md"} for it in names]}
             for question, names in PARTS.items()]
    parts[0]["Use it"].insert(0, {titles[MANUAL]: f"{MANUAL}.md"})
    return [{"What it is": f"{HOME}.md"}, *parts]
