"""Finds what the documents cite and the repository does not have; run it at the top, or by tools/ready.py.

A path below `crates`, `docs`, `examples`, `python` or `tools` has to be there. Each name between backticks has to
stand in the sources, or as the name of a file. Names that are said to stand in a file, as in "`is_ready` and `may_end`
in `crates/tsb_phase/specs/Ready.antt`", or in "`Wants.antt` there", have to stand in that file. Code blocks are left
out, and so is what is no name, such as a line of a display; of the glossary the names of the standards.
Pages that tools/pages/written.py makes of the source may be missing and are not looked at.

The comment above a law names mistakes and witnesses: each has to be in `specs/` or `proofs/` of the law's crate, or of
one that is named there. A name that only comments of programs have counts as missing.
"""
import functools
import itertools
import pathlib
import re
import sys
from collections.abc import Iterator

from tools.pages import written
from tools.pages.laws import Law, laws

DOCUMENTS = ["README.md", "CONTRIBUTING.md", "docs/*/*.md", "examples/README.md", "cases/README.md",
             "crates/*/README.md", "python/README.md", "tools/*/README.md"]
SOURCES = ["crates/*/src/**/*.rt", "crates/*/specs/**/*.antt", "crates/*/proofs/**/*.antt", "tools/**/*.py",
           "python/tsb/**/*.py", "python/tests/**/*.py", "python/pyproject.toml"]

PATH = re.compile(r"\b(?:cases|crates|docs|examples|python|tools)/[\w./-]*[\w/]")
QUOTED = re.compile(r"`([^`]+)`")
NAME = re.compile(r"(?:[A-Za-z]\w*::)*[A-Za-z]\w*(?:-\w+)*$")

# Names that are followed by the name of their file.
PLACED = re.compile(r"((?:`[\w:-]+`(?: \(\w+\))?(?:, clause|, | and )?)+) in (?:`(crates/[\w./]+)`|`([\w.]+)` there)")

# The standards' own names are beside ours here.
GLOSSARY = pathlib.Path("docs/work/GLOSSARY.md")

# Words of the documents that are no names of the sources, and paths that only the build makes, or that are no paths.
OTHER = {"rattle", "kit", "13b", "uniq", "xargs", "vehicleDetectorStatusGroupActive", "P02"}
MADE = {"crates/tsb/out/tsb", "crates/tsb_field/out/tsb_field", "crates/tsb_ring/must-fail/name.edit",
        "python/.venv", "python/.venv/bin/python", *map(str, written.PAGES)}


def words_of(path: pathlib.Path) -> set[str]:
    """The words of a source, without those of a program's comments."""
    text = path.read_text()
    if path.suffix == ".rt":
        text = "\n".join(line for line in text.splitlines() if not line.lstrip().startswith("//"))
    return set(re.findall(r"\w+", text))


def names() -> set[str]:
    """All words of the sources, of the names of files, and of what the gate runs."""
    found = set(OTHER)
    for path in itertools.chain.from_iterable(pathlib.Path().glob(it) for it in SOURCES):
        found |= words_of(path)
    for path in pathlib.Path().glob("*/**/*"):
        if "out" not in path.parts and ".git" not in path.parts:
            found.update(re.findall(r"\w+", path.stem))
    return found


def prose(path: pathlib.Path) -> Iterator[tuple[int, str]]:
    """The lines of a document outside its code blocks, each with its number."""
    is_code = False
    for number, line in enumerate(path.read_text().splitlines(), 1):
        is_code ^= line.startswith("```")
        if not is_code:
            yield number, line


def absent(path: pathlib.Path, known: set[str]) -> Iterator[str]:
    """What a document cites and is not there, with its line."""
    for number, line in prose(path):
        for cited in PATH.findall(line):
            if not pathlib.Path(cited).exists() and cited not in MADE:
                yield f"{path}:{number}: there is no {cited}"
        for cited in filter(NAME.match, QUOTED.findall(line)):
            if path != GLOSSARY and not set(re.findall(r"\w+", cited)) <= known:
                yield f"{path}:{number}: no source has {cited}"


def misplaced(path: pathlib.Path) -> Iterator[str]:
    """The names that are not in the file that a document names, which may be one beside the last."""
    folder = pathlib.Path()
    text = " ".join(line.strip() for _, line in prose(path))
    for cited, whole, beside in PLACED.findall(text):
        file = pathlib.Path(whole) if whole else folder / beside
        if file.suffix not in (".rt", ".antt"):
            continue
        folder = file.parent
        if not file.is_file():
            yield f"{path}: there is no {file}"
            continue
        words = set(re.findall(r"\w+", file.read_text()))
        yield from (f"{path}: {file} has no {it}" for it in QUOTED.findall(cited)
                    if it.split("::")[-1] not in words)


@functools.cache
def stated_in(crate: str) -> set[str]:
    """The words of a crate's definitions and proofs, and of the names of their files."""
    files = [path for folder in ("specs", "proofs") for path in pathlib.Path("crates", crate, folder).glob("**/*.antt")]
    return set().union(*map(words_of, files), (path.stem for path in files))


def unfounded(law: Law) -> Iterator[str]:
    """The names of mistakes and witnesses of a law that its crate does not have, nor one that is named with them."""
    for label, text in law.notes:
        if label in ("Mistake", "Mistakes", "Witness"):
            known = set().union(*map(stated_in, [law.crate, *re.findall(r"\btsb_\w+", text)]))
            cited = [*QUOTED.findall(text), *re.findall(r"\b(?:[A-Z][a-z]+){2,}\b", text)]
            yield from (f"{law.place()}: {label}: no proof has {it}" for it in cited
                        if NAME.match(it) and it not in known)


def missing() -> Iterator[str]:
    """All of it, document after document, and law after law."""
    known = names()
    for path in itertools.chain.from_iterable(sorted(pathlib.Path().glob(it)) for it in DOCUMENTS):
        if path not in written.PAGES:
            yield from absent(path, known)
            yield from misplaced(path)
    for law in itertools.chain.from_iterable(laws().values()):
        yield from unfounded(law)


def main() -> int:
    found = list(missing())
    print("\n".join(found) if found else "each name and path that is cited is there")
    return 1 if found else 0


if __name__ == "__main__":
    sys.exit(main())
