"""The functions of a crate's files, as the prover names them, and where their proofs are."""
import dataclasses
import functools
import pathlib
import re
from collections.abc import Iterator

HEAD = re.compile(r"([ \t]*)(?:pub(?:\([^)]*\))? )?(?:const )?fn (\w+)")
CONSTANT = re.compile(r"(?:pub(?:\([^)]*\))? )?const (\w+):")
MACRO = re.compile(r"macro_rules! (\w+)")
TYPE = re.compile(r"^(?:pub(?:\([^)]*\))? )?(?:struct|enum) (\w+)", re.M)
IMPL = re.compile(r"impl(?:<[^>]*>)? (?:(\S+?)(?:<(.*)>)? for )?&?(\w+)")

# The path of a file in a crate.
Path = str


@dataclasses.dataclass(frozen=True)
class Function:
    """A function: its file, the end of the prover's name of it, and the lines on which it begins and ends."""

    path: Path
    name: str
    first: int
    last: int


def owner(rows: list[str], first: int) -> str:
    """The name that the prover gives the block of a method: of its type, its trait and the trait's words."""
    head = next((row for row in reversed(rows[:first]) if row.startswith(("impl", "pub trait", "trait"))), "")
    found = IMPL.match(head)
    if not found:
        return head.removeprefix("pub ").removeprefix("trait ").partition("<")[0].partition(" ")[0].partition(":")[0]
    generics = re.findall(r"\w+", head.partition(">")[0]) if head.startswith("impl<") else []
    words = [it for it in re.split(r",\s*", found[2] or "") if it and it not in generics]
    named = "".join(part[:1].upper() + part[1:] for it in words for part in re.findall(r"\w+", it))
    return found[3] + (found[1] or "").rpartition("::")[2] + named


def function_at(path: Path, text: str, at: int) -> Function | None:
    """The function around a place of a file, if there is one."""
    rows = text.split("\n")
    row = text.count("\n", 0, at)
    for first in range(row, -1, -1):
        found = HEAD.match(rows[first])
        if found:
            break
    else:
        return None
    last = next((k for k in range(first, len(rows)) if rows[k] == found[1] + "}"), len(rows) - 1)
    if row > last:
        return None
    module = path.rpartition("/")[2].removesuffix(".rt")
    above = owner(rows, first) if found[1] else "" if module in ("lib", "main") else module
    # (the prover names the attribute above a function as its place)
    while first and rows[first - 1].lstrip().startswith("#["):
        first -= 1
    return Function(path, f"{above}::{found[2]}" if above else found[2], first + 1, last + 1)


def constant_at(text: str, at: int) -> str | None:
    """The constant around a place of a file; in a macro, the first constant that the macro makes."""
    for row in reversed(text[:at].split("\n")):
        constant, macro = CONSTANT.match(row), MACRO.match(row)
        if constant or HEAD.match(row):
            return constant[1] if constant else None
        if macro:
            made = re.search(rf"^{CONSTANT.pattern}.*\b{macro[1]}!", text[at:], re.M)
            return made[1] if made else None
    return None


def readers(path: Path, texts: dict[Path, str], at: int) -> list[Function]:
    """The functions that name the constant that a place of a file stands in, if it stands in one, and those of the types
    whose fields name it."""
    name = constant_at(texts[path], at)
    if not name:
        return []
    found = []
    for file, text in texts.items():
        for place in re.finditer(rf"\b{name}\b", text):
            of_type = f"{type_at(text, place.start())}::"
            function = function_at(file, text, place.start())
            found += [function] if function else [it for it in functions_of(texts) if it.name.startswith(of_type)]
    return found


def type_at(text: str, at: int) -> str | None:
    """The struct whose fields hold a place of a file, if there is one."""
    found = [it for it in TYPE.finditer(text, 0, at) if "\n}" not in text[it.end():at]]
    return found[-1][1] if found else None


def functions_at(path: Path, texts: dict[Path, str], at: int) -> list[Function]:
    """The function around a place of a file, or those that name the constant around it."""
    found = function_at(path, texts[path], at)
    return [found] if found else readers(path, texts, at)


def sources(folder: str) -> dict[Path, str]:
    """The files of src/."""
    return {f"src/{it.relative_to(f'{folder}/src')}": it.read_text() for it in pathlib.Path(folder, "src").rglob("*.rt")}


def head_row(rows: list[str], function: Function) -> int:
    """The row of a function's head, below the attributes above it."""
    return next(k for k in range(function.first - 1, function.last) if HEAD.match(rows[k]))


def opening_row(rows: list[str], function: Function) -> int | None:
    """The row below the contract that opens the body of a function. A body on one row has none."""
    head = head_row(rows, function)
    indent = rows[head][: len(rows[head]) - len(rows[head].lstrip())]
    alone = (k for k in range(head, function.last) if rows[k] == indent + "{")
    ending = (k for k in range(head, function.last) if rows[k].endswith(" {"))
    return next(alone, next(ending, None))


def is_in_cycle(text: str, function: Function) -> bool:
    """Whether a function is said to be one of a cycle of calls."""
    rows = text.split("\n")
    return any(it.lstrip().startswith("#[cycle(") for it in rows[function.first - 1 : head_row(rows, function)])


def is_of_trait(text: str, function: Function) -> bool:
    """Whether a function is one of a trait, or of an `impl` of one."""
    rows = text.split("\n")
    above = reversed(rows[: head_row(rows, function) + 1])
    head = next((it for it in above if re.match(r"(pub(\([^)]*\))? )?(impl|trait|(const )?fn)\b", it)), "")
    return "trait " in head or head.startswith("impl") and " for " in head


def span(text: str, function: Function) -> tuple[int, int]:
    """Where a function begins and ends in the text of its file, with the attributes above it."""
    rows = text.split("\n")
    return len("\n".join(rows[: function.first - 1])) + (function.first > 1), len("\n".join(rows[: function.last]))


def modules(texts: dict[Path, str]) -> dict[str, list[str]]:
    """The path of the module of each file, and of each type by its name."""
    paths = {path: path.removeprefix("src/").removesuffix(".rt").split("/") for path in texts}
    of_files = {path: [] if parts in (["lib"], ["main"]) else parts for path, parts in paths.items()}
    return of_files | {name: of_files[path] for path, text in texts.items() for name in types_in(text)}


@functools.lru_cache(maxsize=None)
def types_in(text: str) -> tuple[str, ...]:
    """The names of the types of a file."""
    return tuple(found[1] for found in TYPE.finditer(text))


def proof_of(texts: dict[Path, str], function: Function) -> Path | None:
    """The folder of the proof of a function: those of a type are in the module of that type. It is none where that is of
    another crate."""
    rows = texts[function.path].split("\n")
    first = head_row(rows, function)
    found = HEAD.match(rows[first])
    assert found is not None
    kind = IMPL.match(next((it for it in reversed(rows[:first]) if it.startswith("impl")), "")) if found[1] else None
    home = modules(texts).get(kind[3] if kind else function.path)
    above = [owner(rows, first)] if found[1] else []
    return None if home is None else "/".join(["proofs", *home, *above, found[2]])


def functions_of(texts: dict[Path, str]) -> Iterator[Function]:
    """The functions that have a body."""
    for path, text in texts.items():
        at = 0
        for row in text.split("\n"):
            at += len(row) + 1
            found = function_at(path, text, at - 1) if HEAD.match(row) else None
            if found:
                yield found
