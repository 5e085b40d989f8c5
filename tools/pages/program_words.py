"""Finds places where the words of programs differ; run it at the top, or by tools/ready.py.

VERSION has the version. The package in Python, the pages of tsb_words and their definitions have to have the same one,
as `tools/pages/manual_pages.py` and `tools/release` take it from there. The words that tsb_words asks for in place of
wrong ones have to be those of its commands, and each page of help has to name those of its command.
"""
import pathlib
import re
import sys
from collections.abc import Iterator

VERSION = pathlib.Path("VERSION")
CRATE = pathlib.Path("crates/tsb_words")
# Where else the version is: a pattern for each place, with all that is before it.
PLACES = [
    (pathlib.Path("python/tsb/__init__.py"), r'^__version__ = "([^"]+)"$'),
    (CRATE / "src/pages/texts.rt", r'b"tsb_live ([^"]+)\\n"'),
    (CRATE / "src/pages/texts.rt", r'b"tsb_field ([^"]+)\\n"'),
    (CRATE / "specs/Pages.antt", r'codes "tsb_live ([^"]+)\\n"'),
    (CRATE / "specs/Pages.antt", r'codes "tsb_field ([^"]+)\\n"'),
]
TABLES = CRATE / "src/field_files/commands.rt"
OPTION = r'Argument::(?:Optional|Required|Flag|Repeated)\("([^"]+)"\)'


def other_versions() -> Iterator[str]:
    """Places that have another version, or none."""
    version = VERSION.read_text().strip()
    if not re.fullmatch(r"\d+\.\d+\.\d+", version):
        yield f"{VERSION}: {version} is no version"
    for path, pattern in PLACES:
        found = re.findall(pattern, path.read_text(), re.M)
        if found != [version]:
            yield f"{path}: the version is {', '.join(found) or 'not there'}, in {VERSION} it is {version}"


def tables() -> dict[str, list[str]]:
    """The options of each command, by the name of its constant, as they are read."""
    text = TABLES.read_text()
    found = {name: re.findall(OPTION, table) for name, table in
             re.findall(r"^const (\w+): \[Argument; \d+\] = \[(.*?)\];$", text, re.M | re.S)}
    live = (CRATE / "src/live.rt").read_text()
    return {**found, "LIVE": re.findall(OPTION, live)}


def lists() -> dict[str, list[str]]:
    """The words that are asked for in place of wrong ones, by the same names."""
    text = (CRATE / "src/near.rt").read_text()
    return {name: re.findall(r'"([^"]+)"', words) for name, words in
            re.findall(r"^const (\w+): \[&str; \d+\] = \[(.*?)\];$", text, re.M | re.S)}


def other_words() -> Iterator[str]:
    """Lists that have other words than their commands, and pages of help that lack one."""
    near = lists()
    wanted = {name: {f"--{it}" for it in options} | {"--help"} for name, options in tables().items()}
    wanted["LIVE"] |= {"--version"}
    wanted["COMMANDS"] = {it.lower() for it in wanted if it != "LIVE"} | {"--version", "--help"}
    for name, words in wanted.items():
        if set(near.get(name, [])) != words:
            yield f"{CRATE}/src/near.rt: {name} is not {' '.join(sorted(words))}"
    pages = (CRATE / "src/pages/texts.rt").read_text()
    for name, words in wanted.items():
        page = re.search(rf'const {"FIELD" if name == "COMMANDS" else name}_HELP: .*?b"(.*?)";$', pages, re.M | re.S)
        shown = set() if page is None else set(re.findall(r"^(?:--)?\w[\w-]*", page[1], re.M))
        # (of a command `--help` shows the page itself)
        missing = words - shown - (set() if name in ("COMMANDS", "LIVE") else {"--help"})
        if missing:
            yield f"{CRATE}/src/pages/texts.rt: the page of {name} lacks {' '.join(sorted(missing))}"


def missing() -> Iterator[str]:
    """All that is not alike."""
    yield from other_versions()
    yield from other_words()


def main() -> int:
    """Prints it, and gives the status to end with."""
    found = list(missing())
    print("\n".join(found) if found else "words and versions are told alike")
    return 1 if found else 0


if __name__ == "__main__":
    sys.exit(main())
