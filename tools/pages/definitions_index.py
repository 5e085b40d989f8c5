"""Writes docs/work/DEFINITIONS.md, the index of the public definitions in crates/*/specs; run it at the top.

A row has a definition, the first sentence of the comment above it, and the functions and types of `src/`, of whatever
crate, whose clauses name it. Each module is introduced by the first sentence at its head. Crates come in the order of
crates.txt. The document is not kept in git. Where a public definition has no comment the script names it and fails.
"""
import itertools
import pathlib
import re
import sys
import textwrap
from collections.abc import Iterable, Iterator

INDEX = pathlib.Path("docs/work/DEFINITIONS.md")
HEAD = """# Definitions

Each public definition in `specs/`, crate by crate from the cells up to the program, with the first sentence of the
comment above it; `tools/pages/definitions_index.py` writes this document. The last column has the public functions and
types whose clauses name the definition, or else the private ones, in parentheses, six at most; where it is empty, the
definition is a part of others. docs/trust/PROVED.md, "Laws", says how definitions are to be read; docs/work/READING.md
goes from a question to the definition.
"""

# How many functions and types a row has.
MOST = 6

DEFINITION = re.compile(r"\s*(?:abbrev|unfoldable) pub (\S+)|pub (?:record|data) (\S+)|pub (\S+) :")
# (a crate's definitions may be named by way of one above it, which passes them on under the crate's name)
GHOST_USE = re.compile(r"ghost use Rattle\.(?:\w+\.specs\.(?=tsb_))?(\w+)(?:\.specs)?\.((?:\w+\.)*\w+)\.\{([^}]*)\}")
OWNER = re.compile(r"\s*(pub )?(?:pub\(\w+\) )?(?:const )?(?:fn|struct|trait|enum) (\w+)")
IMPL = re.compile(r"(?:impl(?:<.*?>)?|pub trait) ([\w:<>, ]+ for )?(\w+)")

# A definition by its crate, its module and its name.
Place = tuple[str, str, str]


def sentence(lines: list[str]) -> str:
    """The first sentence of a comment, as one line that a table can hold."""
    said = " ".join(itertools.takewhile(bool, lines))
    return re.split(r"(?<=\.)\s+(?=[A-Z`])", said)[0].rstrip(".:").replace("|", "\\|")


def module(path: pathlib.Path) -> tuple[str, list[tuple[str, str]]]:
    """What a module says of itself, and each public definition in it with what is said of that."""
    said: list[str] = []
    head: str | None = None
    found = []
    for line in path.read_text().splitlines():
        if line.lstrip().startswith("--"):
            said.append(line.lstrip()[2:].strip())
            continue
        head = sentence(said) if head is None else head
        definition = DEFINITION.match(line)
        if definition:
            found.append((next(filter(None, definition.groups())), sentence(said)))
        said = []
    return head or "", found


def owner_of(line: str, inside: str | None, is_trait: bool) -> str | None:
    """How the index names the function or type that a line begins, if it begins one; those of traits are public."""
    began = OWNER.match(line)
    if not began:
        return None
    is_method = inside and line.startswith(" ")
    name = f"{inside}::{began[2]}" if is_method else began[2]
    return f"`{name}`" if began[1] or is_method and is_trait else f"(`{name}`)"


def clauses(path: pathlib.Path) -> Iterator[tuple[str, str]]:
    """Each function and type of a source file with the lines of its head, up to its body."""
    inside: str | None = None
    owner: str | None = None
    is_trait = False
    for line in path.read_text().splitlines():
        impl = IMPL.match(line)
        if impl:
            inside, is_trait, owner = impl[2], bool(impl[1]) or line.startswith("pub trait"), None
        began = owner_of(line, inside, is_trait)
        if began:
            owner = None if re.search(r"[{;]$", line) and "fn " in line else began
        elif owner and line.strip() in ("{", "}") or line.startswith(")") and line.endswith("{"):
            owner = None
        elif owner and not line.lstrip().startswith("//"):
            yield owner, line


def contracts() -> dict[Place, dict[str, None]]:
    """For each crate, module and definition the functions and types whose clauses name it, in order."""
    named: dict[Place, dict[str, None]] = {}
    for path in sorted(pathlib.Path("crates").glob("*/src/**/*.rt")):
        places: dict[str, list[Place]] = {}
        for crate, where, words in GHOST_USE.findall(path.read_text()):
            for word in words.split(","):
                places.setdefault(word.strip(), []).append((crate, where, word.strip()))
        for owner, line in clauses(path):
            for word in re.findall(r"[\w-]+", line):
                for place in places.get(word, []):
                    crate = path.parts[1]
                    by = owner if crate == place[0] else f"{owner} of {crate}"
                    named.setdefault(place, {})[by] = None
    return named


def told(owners: Iterable[str]) -> str:
    """The last column: the public functions and types of those that name a definition, or else the private ones."""
    every = list(owners)
    best = [it for it in every if not it.startswith("(")] or every
    shown = best if len(best) <= MOST else [*best[:MOST - 1], f"and {len(best) - MOST + 1} others"]
    return ", ".join(shown)


def crates() -> list[str]:
    """The crates from the bottom up."""
    lines = pathlib.Path("crates.txt").read_text().splitlines()
    return [line.split(":")[0] for line in lines if not line.startswith("#")]


def module_name(crate: str, path: pathlib.Path) -> str:
    """The name of a module within its crate, with that of its folder if it is in one."""
    return ".".join(path.relative_to(pathlib.Path("crates", crate, "specs")).with_suffix("").parts)


def table(crate: str, path: pathlib.Path, named: dict[Place, dict[str, None]]) -> list[str]:
    """The part of a module, which is empty where it has no public definition."""
    head, definitions = module(path)
    if not definitions:
        return []
    named_so = module_name(crate, path)
    lines = [f"### `{named_so}`", "", *textwrap.wrap(f"{head}.", 120)] if head else [f"### `{named_so}`"]
    lines += ["", "| Definition | What it is | Contract of |", "|---|---|---|"]
    for name, said in definitions:
        cells = [f"`{name}`", said, told(named.get((crate, named_so, name), {}))]
        lines.append(re.sub(" +", " ", f"| {' | '.join(cells)} |"))
    return [*lines, ""]


def spelled() -> str:
    """The whole document."""
    named = contracts()
    lines = [HEAD]
    for crate in crates():
        parts = [table(crate, path, named) for path in sorted(pathlib.Path("crates", crate, "specs").glob("**/*.antt"))]
        if any(parts):
            lines += [f"## {crate}", "", *itertools.chain.from_iterable(parts)]
    return "\n".join(lines)


def uncommented() -> list[str]:
    """The public definitions that have no comment."""
    paths = sorted(pathlib.Path("crates").glob("*/specs/**/*.antt"))
    return [f"{path}: {name} has no comment" for path in paths for name, said in module(path)[1] if not said]


def main() -> int:
    wrong = uncommented()
    text = spelled()
    INDEX.write_text(text)
    print("\n".join(wrong) if wrong else f"{text.count(chr(10) + '| `')} definitions in {INDEX}")
    return 1 if wrong else 0


if __name__ == "__main__":
    sys.exit(main())
