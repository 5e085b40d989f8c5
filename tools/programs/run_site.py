"""Makes the site (tools/site) in a folder of its own, and looks at it: run_site.py.

Warnings of mkdocs are faults. The last line is `N passed, M failed`.
"""
import dataclasses
import html.parser
import json
import pathlib
import re
import subprocess
import sys
import tempfile
import urllib.parse
from collections.abc import Callable

from tools import TOP
from tools.pages import site_pages

SECONDS = 600
# What tools/site says first on a machine that does not have mkdocs yet.
INSTALLING = "installing: mkdocs\n"
# The attributes by which a browser asks for a file as it shows a page.
ASKED = {"src", "srcset", "poster", "data", "background"}


class Wrong(Exception):
    """What is not as it should be."""


def check(is_so: object, what: str) -> None:
    """Raises `Wrong` where something is not so."""
    if not is_so:
        raise Wrong(what)


class Read(html.parser.HTMLParser):
    """A page: where its links lead, what it asks for, its marks, its blocks of code and all text outside of these."""

    def __init__(self, text: str) -> None:
        super().__init__()
        self.links: list[str] = []
        self.asked: list[str] = []
        self.marks: set[str] = set()
        self.blocks, self.plain, self._code = 0, "", 0
        self.feed(text)

    def handle_starttag(self, tag: str, attrs: list[tuple[str, str | None]]) -> None:
        """Notes what a tag has."""
        said = {name: value or "" for name, value in attrs}
        self.marks |= {said[it] for it in ("id", "name") if it in said}
        if tag == "a" and "href" in said:
            self.links.append(said["href"])
        elif "href" in said and said.get("rel") != "canonical":
            self.asked.append(said["href"])
        self.asked += [value for name, value in said.items() if name in ASKED]
        self.blocks += tag == "pre"
        self._code += tag in ("pre", "code", "script")

    def handle_endtag(self, tag: str) -> None:
        """Notes the end of code."""
        self._code -= tag in ("pre", "code", "script")

    def handle_data(self, data: str) -> None:
        """Notes what is read as text."""
        self.plain += "" if self._code else data


@dataclasses.dataclass(frozen=True)
class Site:
    """A site that was made: its folder, its pages as they are read, and what they were made of."""

    folder: pathlib.Path
    pages: dict[str, Read]
    documents: dict[str, str]


def made(room: pathlib.Path) -> Site:
    """Makes the site, and reads it."""
    done = subprocess.run([TOP / "tools/site", room / "site"], capture_output=True, text=True, timeout=SECONDS)
    said = done.stderr.removeprefix(INSTALLING)
    check(done.returncode == 0 and not said, f"tools/site: {done.returncode} {said}")
    pages = {it.name: Read(it.read_text()) for it in sorted((room / "site").glob("*.html"))}
    return Site(room / "site", pages, site_pages.documents())


def each_page_is_there(site: Site) -> None:
    """By the name of its document, and the navigation of each page leads to all of them."""
    wanted = {f"{it}.html" for it in site.documents}
    check(wanted <= site.pages.keys(), f"missing: {wanted - site.pages.keys()}")
    led = {urllib.parse.urldefrag(it).url or "index.html" for it in site.pages["index.html"].links}
    check(wanted - led <= {"index.html"}, f"not in the navigation: {wanted - led}")


def links_lead_somewhere(site: Site) -> None:
    """To a file that is there, and a mark that it has."""
    for name, page in site.pages.items():
        for link in [*page.links, *page.asked]:
            where = urllib.parse.urlsplit(link)
            if where.scheme or where.netloc or name == "404.html":
                continue
            target = urllib.parse.unquote(where.path) or name
            check((site.folder / target).exists(), f"{name}: {link}")
            mark = urllib.parse.unquote(where.fragment)
            check(not mark or mark in site.pages[target].marks, f"{name}: {link} has no such mark")


def nothing_comes_from_elsewhere(site: Site) -> None:
    """No page, style or script asks another host for anything as it is shown."""
    for name, page in site.pages.items():
        for it in page.asked:
            check(not urllib.parse.urlsplit(it).netloc and not it.startswith("//"), f"{name} asks for {it}")
    for path in site.folder.rglob("*.css"):
        asked = re.findall(r"url\(\s*['\"]?((?:https?:)?//[^)]*)|@import[^;]*//", path.read_text())
        check(not asked, f"{path.name} asks for {asked}")


def all_code_is_a_block(site: Site) -> None:
    """As many blocks as the documents have, and no mark of one is left; tables and lists are none of text."""
    for name, text in site.documents.items():
        page = site.pages[f"{name}.html"]
        fences = sum(line.startswith("```") for line in text.splitlines())
        check(page.blocks == fences // 2, f"{name}: {page.blocks} blocks of {fences // 2}")
        left = re.search(r"```|^\|.*\|$|^- |\*\*", page.plain, re.M)
        check(left is None, f"{name}: {left and page.plain[left.start():left.start() + 80]!r}")


def sessions_have_their_files(site: Site) -> None:
    """Below each session of the manual are its commands and its answers, and its pictures are there."""
    for name, text in site.documents.items():
        links = set(site.pages[f"{name}.html"].links)
        for it in re.findall(r"^```session (\S+)$", text, re.M):
            wanted = {f"examples/{it}.commands", f"examples/{it}.expected"}
            check(wanted <= links, f"{name}: session {it}")
        shown = len(re.findall(r"^!\[", text, re.M))
        pictures = [it for it in site.pages[f"{name}.html"].asked if it.endswith((".svg", ".png"))]
        check(len(pictures) == shown, f"{name}: {len(pictures)} pictures of {shown}")


def all_can_be_found(site: Site) -> None:
    """The index of the search has each page, and each of its headings."""
    index = json.loads((site.folder / "search/search_index.json").read_text())["docs"]
    found = {it["location"].partition("#")[0] or "index.html" for it in index}
    check(found >= {f"{it}.html" for it in site.documents}, f"not in the search: {found}")
    titles = {it["title"] for it in index}
    missing = [it for text in site.documents.values() for it in site_pages.headings(text) if it not in titles]
    check(not missing, f"headings that no search finds: {missing[:3]}")


def what_is_cited_and_nowhere_is_told(site: Site) -> None:
    """A document or a chapter that there is not stops the site."""
    marks = site_pages.marks_of(site.documents)
    for name, words in (("FIELD", "as docs/use/NOWHERE.md has it"), ("MANUAL_8", "see chapter 99"),
                        ("LIVE", "docs/use/MANUAL.md, chapter 77")):
        try:
            said = site_pages.linked(name, words, marks)
        except site_pages.Astray:
            continue
        raise Wrong(f"{words}: {said}")


def citations_lead(site: Site) -> None:
    """Worked by hand: a document, one of its headings, a chapter, and what stays as it is."""
    marks = site_pages.marks_of(site.documents)
    for name, words, wanted in (
        ("LIVE", "as docs/use/FIELD.md has it", "as [docs/use/FIELD.md](FIELD.md) has it"),
        ("LIVE", "(docs/use/MANUAL.md, chapter 6)", "([docs/use/MANUAL.md, chapter 6](MANUAL_6.md))"),
        ("MANUAL_9", "as in chapter 8.", "as in [chapter 8](MANUAL_8.md)."),
        ("LIVE", "as in chapter 8.", "as in chapter 8."),
        ("MANUAL_8", 'docs/use/FIELD.md, "The worst moment for a preempt"',
         '[docs/use/FIELD.md, "The worst moment for a preempt"](FIELD.md#the-worst-moment-for-a-preempt)'),
        ("LIVE", 'docs/use/MANUAL.md, "Coming into step"',
         '[docs/use/MANUAL.md, "Coming into step"](MANUAL_8.md#coming-into-step)'),
        ("FIELD", "`docs/use/FIELD.md` and [docs/use/LIVE.md](x)", "`docs/use/FIELD.md` and [docs/use/LIVE.md](x)"),
    ):
        said = site_pages.cited(name, words, marks)
        check(said == wanted, f"{words}: {said}")


CHECKS: list[Callable[[Site], None]] = [
    each_page_is_there, links_lead_somewhere, nothing_comes_from_elsewhere, all_code_is_a_block,
    sessions_have_their_files, all_can_be_found, what_is_cited_and_nowhere_is_told, citations_lead,
]


def main() -> int:
    """Makes the site and looks at it; the status to end with."""
    failed = 0
    with tempfile.TemporaryDirectory(prefix="tsb-site-") as room:
        try:
            site = made(pathlib.Path(room))
        except Wrong as fault:
            print(f"FAILED: {fault}\n0 passed, 1 failed")
            return 1
        for it in CHECKS:
            try:
                it(site)
            except Wrong as fault:
                failed += 1
                print(f"FAILED: {it.__name__}: {fault}")
    print(f"{1 + len(CHECKS) - failed} passed, {failed} failed")
    return 1 if failed else 0


if __name__ == "__main__":
    sys.exit(main())
