"""Finds what documents and comments say of the repository and is not so; run it at the top, or by tools/ready.py.

It finds a type whose name another crate's type has, where other modules use both, and a crate without a README. It
finds a file that a comment in `specs/` names and that is not there, from the top, from the crate or from the folder of
the comment. And it finds numbers of crates, edits, laws, objects and cells in documents that are not those of the tree.

Numbers that are of something else are in `OTHERS`, each with what it is of. A new one is found all the same.
"""
import collections
import itertools
import math
import pathlib
import re
import sys
from collections.abc import Iterator

from tools.pages import written
from tools.pages.laws import laws

TYPE = re.compile(r"^(?:pub(?:\([^)]*\))? )?(?:struct|enum|trait) (\w+)", re.M)
FILE = re.compile(r"(?<![\w./])((?:[\w-]+/)*[\w-]+\.(?:rt|antt|md|py|json|log|edit))\b")
NUMBER = re.compile(r"\b([\d,]*\d|[a-z]+) (crates|edits|laws|objects|cells)\b")
CELLS = re.compile(r"^pub const CELLS: usize = ([^;]+);", re.M)
LIMIT = re.compile(r"^pub const (\w+): \w+ = (\d+);", re.M)
MONITOR = re.compile(r"^pub const MONITOR_CELLS: usize = (\d+);", re.M)
OBJECT = re.compile(r'^ +\w+ +"\w+" +(\d+) \[(\d+) \d+\]', re.M)
ROW = re.compile(r"^\| (\w+)[^|]* \| (\d+) \| (\d+) \|$", re.M)

DOCUMENTS = ["README.md", "CONTRIBUTING.md", "docs/*/*.md", "examples/README.md", "cases/README.md",
             "crates/*/README.md", "python/README.md", "tools/*/README.md"]
# It has the table of objects, each with its first cell and how many indices it has.
OBJECTS = pathlib.Path("crates/tsb_plan/src/object.rt")
# It has how many there are of detectors, overlaps and preempts.
LIMITS = pathlib.Path("crates/tsb_types/src/limits.rt")
# It has the table of cells, layer after layer.
CONTRACTS = pathlib.Path("docs/work/CONTRACTS.md")
WORDS = {it: k for k, it in enumerate("one two three four five six seven eight nine ten eleven twelve".split(), 1)}
# The layers whose cells are numbered, in the order of CONTRACTS, with their crates; the plan's are in tsb_plan.
LAYERS = {"desk": "tsb_transact", "detectors": "tsb_detect", "calls": "tsb_calls", "phases": "tsb_phase",
          "rings": "tsb_ring", "coordination": "tsb_coord", "preempts": "tsb_preempt", "overlaps": "tsb_overlap"}

# Types of tests, comparisons and times are not looked at.
UNPROVED = {"tsb_tests", "tsb_field_tests", "tsb_layer_runs", "tsb_runs"}

# Numbers that are of something else.
OTHERS = {
    "64 edits": "as many has a transaction",
    "3 objects": "a chapter of docs/use/MANUAL.md",
    "16 cells": "columns of tsb_cells",
    "63 cells": "layers of at most as many have a block for each cell",
}


def types_in_two_crates() -> Iterator[str]:
    """Names of types in more than one crate."""
    crates: dict[str, set[str]] = collections.defaultdict(set)
    for path in pathlib.Path("crates").glob("*/src/**/*.rt"):
        if path.parts[1] not in UNPROVED:
            for name in TYPE.findall(path.read_text()):
                crates[name].add(path.parts[1])
    for name, found in sorted(crates.items()):
        if len(found) > 1:
            yield f"a type {name} is in each of {', '.join(sorted(found))}"


def crates_without_readme() -> Iterator[str]:
    """Crates that nothing is said of."""
    for crate in sorted(pathlib.Path("crates").iterdir()):
        if crate.is_dir() and not (crate / "README.md").is_file():
            yield f"{crate} has no README.md"


def is_there(path: pathlib.Path, cited: str) -> bool:
    """Whether a file that a comment of a crate names is there: by its place, or by its name somewhere in the crate."""
    crate = pathlib.Path(*path.parts[:2])
    places = [pathlib.Path(), crate, path.parent, pathlib.Path("crates"), pathlib.Path("examples")]
    return any((it / cited).exists() for it in places) or "/" not in cited and any(crate.rglob(cited))


def files_not_there() -> Iterator[str]:
    """Files that comments of definitions name and that are not there."""
    for path in sorted(pathlib.Path("crates").glob("*/specs/**/*.antt")):
        for number, line in enumerate(path.read_text().splitlines(), 1):
            for cited in FILE.findall(line.partition("--")[2]):
                if not is_there(path, cited):
                    yield f"{path}:{number}: there is no {cited}"


def count_of(text: str) -> int:
    """The value of a sum of products of numbers and limits, as `12 + 3 * VEHICLE_DETECTORS as usize`."""
    limits = dict(LIMIT.findall(LIMITS.read_text()))
    terms = text.replace(" as usize", "").split("+")
    return sum(math.prod(int(limits.get(it.strip(), it)) for it in term.split("*")) for term in terms)


def layer_cells() -> dict[str, int]:
    """How many cells each layer has, in their order."""
    first, count = max((int(it[0]), int(it[1])) for it in OBJECT.findall(OBJECTS.read_text()))
    sources = {name: pathlib.Path("crates", crate, "src/lib.rt") for name, crate in LAYERS.items()}
    monitor = MONITOR.search(pathlib.Path("crates/tsb_step/src/lib.rt").read_text())
    assert monitor is not None
    found = {"plan": first + count}
    for name, source in sources.items():
        cells = CELLS.search(source.read_text())
        assert cells is not None, source
        found[name] = count_of(cells[1])
    return {**found, "monitor": int(monitor[1])}


def wrong_cells(layers: dict[str, int]) -> Iterator[str]:
    """Rows of the table of cells that are not those of the layers."""
    firsts = itertools.accumulate(layers.values(), initial=0)
    wanted = [(name, str(count), str(first)) for (name, count), first in zip(layers.items(), firsts)]
    for row in wanted:
        if row not in ROW.findall(CONTRACTS.read_text()):
            yield f"{CONTRACTS}: no row has {' '.join(row)}"


def numbers_of_tree(layers: dict[str, int]) -> dict[str, set[int]]:
    """How many there are of each kind: all of the repository; of cells also those of a layer."""
    listed = [it for it in pathlib.Path("crates.txt").read_text().splitlines() if it and not it.startswith("#")]
    return {
        "crates": {len(listed)},
        "edits": {len(list(pathlib.Path("crates").glob("*/must-fail/*.edit")))},
        "laws": {sum(map(len, laws().values()))},
        "objects": {len(OBJECT.findall(OBJECTS.read_text()))},
        "cells": {sum(layers.values()), *layers.values()},
    }


def numbers_of_crate(crate: pathlib.Path, tree: dict[str, set[int]], layers: dict[str, int]) -> dict[str, set[int]]:
    """How many of each kind the README of a crate may name: all, or its own; of a layer's cells its own alone."""
    own = {LAYERS[it]: {count} for it, count in layers.items() if it in LAYERS}
    edits = len(list(crate.glob("must-fail/*.edit")))
    stated = sum(len(said) for (name, _), said in laws().items() if name == crate.name)
    return {**tree, "edits": tree["edits"] | {edits}, "laws": tree["laws"] | {stated},
            "cells": own.get(crate.name, tree["cells"])}


def paragraphs(text: str) -> Iterator[tuple[int, str]]:
    """The paragraphs of a document outside its code blocks, each as one line, with the number of its first."""
    number = 1
    for part in re.split(r"(^```.*?^```$|\n\n)", text, flags=re.M | re.S):
        if not part.startswith("```"):
            yield number, " ".join(part.split())
        number += part.count("\n")


def wrong_numbers(path: pathlib.Path, known: dict[str, set[int]]) -> Iterator[str]:
    """Numbers of a document that are not those of the tree. A README of a crate may spell that of its cells."""
    is_readme = path.parts[0] == "crates"
    for number, text in paragraphs(path.read_text()):
        for said, kind in NUMBER.findall(text):
            if said.isalpha() and not (is_readme and kind == "cells" and said in WORDS) or f"{said} {kind}" in OTHERS:
                continue
            count = WORDS[said] if said.isalpha() else int(said.replace(",", ""))
            if count not in known[kind]:
                yield f"{path}:{number}: {said} {kind}, and there are {', '.join(map(str, sorted(known[kind])))}"


def missing() -> Iterator[str]:
    """All of it."""
    yield from types_in_two_crates()
    yield from crates_without_readme()
    yield from files_not_there()
    layers = layer_cells()
    yield from wrong_cells(layers)
    tree = numbers_of_tree(layers)
    for path in itertools.chain.from_iterable(sorted(pathlib.Path().glob(it)) for it in DOCUMENTS):
        if path not in written.PAGES:
            is_readme = path.parts[0] == "crates"
            yield from wrong_numbers(path, numbers_of_crate(path.parent, tree, layers) if is_readme else tree)


def main() -> int:
    """Says what is found; the status to end with."""
    found = list(missing())
    print("\n".join(found) if found else "what is said of the repository is so")
    return 1 if found else 0


if __name__ == "__main__":
    sys.exit(main())
