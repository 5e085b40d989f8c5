"""Has the prover refuse the edits of must-fail/, several in one run: refused_edits.py [CRATE ..], at the top.

It needs the libraries that `rt ci` left in `crates/*/out/rlib`. The edits of a crate are put into one copy of it, and the
prover is asked for the functions that they change, and for these alone. Of two edits of one function the second is made
in a copy of the function. Where another proof names the function's modules, or another edit changes more than a body, one
copy more has no change. Crates that do not stand on one another share a run: what the prover reads before its first
function, of its logic and of all libraries, it then reads once for them all.

An edit is refused if the prover names a goal of the very function that it edits, or of one that names the constant that
it edits, itself or in the fields of its type: a goal that no search proved, or that the answer written for it does not
fit. A function that is not proved only because of what it calls, or because a proof names what the edit took away, shows
nothing. Such an edit is tried by itself, and in the end over the whole crate, as `rt ci` tries it. Where a run of several
crates shows nothing at all, as one that cannot be read, each of them is tried by itself first. The last line is
`N passed, M failed`.

Functions that are not asked for are not proved, and their bodies are left out, with all that is called there alone:
their contracts stand all the same for those that call them, and what is told of a function for its callees alone shows
nothing. A program is tried without its `main`, where that is not asked for.
"""
import dataclasses
import pathlib
import re
import shutil
import subprocess
import sys
import tempfile
import time
from collections.abc import Iterator
from typing import Any

from tools.prover import kit
from tools.prover.crate_functions import (Function, Path, function_at, functions_at, functions_of, head_row,
                                          is_in_cycle, is_of_trait)
from tools.prover.crate_functions import opening_row, proof_of, sources, span

# How the prover begins what it says of a goal that is left open, and of an answer that does not fit.
OPEN_GOAL = re.compile(r"note: (?:\./)?(\S+?):(\d+):\d+: (?:it is not proved that |`search` found no proof \()")
BAD_ANSWER = re.compile(r"(?:\./)?(\w+)/proofs/(\S+)/[^/\s]+:\d+:\d+: error: ")
# What an answer says that only names what the edit, or another one, took away.
TAKEN_AWAY = re.compile(r"has no field|is not in scope|has no `|was not admitted|is no name")
# What the kit says of an edit that shows little. It was tried over the whole crate, which takes minutes, so its line is
# printed again at the end.
WEAK = "(only because a proof file names what the edit took away"
# How many edits of several crates share a run at most, so that there are runs for all processors to the end.
MOST = 70
# The crate that is checked. It is empty, and those with edits are beside it as sources of libraries.
EMPTY = "edits"


@dataclasses.dataclass(frozen=True)
class Change:
    """A text that a file has once, and what an edit puts in its place."""

    path: Path
    old: str
    new: str


@dataclasses.dataclass(frozen=True)
class Edit:
    """An edit: its crate and its file, what it changes, and the functions that it changes it in; and whether it can as well
    be made in a copy of its function."""

    crate: Any
    file: pathlib.Path
    changes: tuple[Change, ...]
    functions: frozenset[tuple[Path, str]]
    may_be_copied: bool


def changes_of(file: pathlib.Path) -> Iterator[Change]:
    """What an edit changes; the kit has seen that it can be applied."""
    path, old = "", ""
    for line in file.read_text().split("\n"):
        if line.startswith("file: "):
            path = line.removeprefix("file: ").strip()
        elif line.startswith("old: "):
            old = line.removeprefix("old: ")
        elif line.startswith("new:"):
            yield Change(path, old, line.removeprefix("new:").removeprefix(" "))


def edit_of(crate: Any, file: pathlib.Path) -> Edit:
    """An edit, with the functions that hold the ends of what it changes."""
    changes = tuple(changes_of(file))
    texts = sources(crate.folder)
    found = (functions_at(it.path, texts, texts[it.path].find(it.old) + len(it.old)) for it in changes if it.path in texts)
    functions = {it for functions in found for it in functions}
    may_be_copied = len(functions) == 1 and is_plain(texts, changes, *functions)
    return Edit(crate, file, changes, frozenset((it.path, it.name) for it in functions), may_be_copied)


def is_plain(texts: dict[Path, str], changes: tuple[Change, ...], function: Function) -> bool:
    """Whether a function can be copied under another name: it is none of a trait nor of a cycle of calls, and all of these
    changes are in it."""
    text = texts[function.path]
    start, end = span(text, function)
    inside = all(it.path == function.path and start <= text.find(it.old) <= end - len(it.old) for it in changes)
    is_free = not is_of_trait(text, function) and not is_in_cycle(text, function)
    return inside and is_free and proof_of(texts, function) is not None


def grouped(edits: list[Edit]) -> list[list[Edit]]:
    """Edits of a crate in groups, in each of which no two change one function in one place; those outside functions stand alone."""
    groups: list[list[Edit]] = []
    for edit in edits:
        for group in groups:
            taken = {name for it in group for name in it.functions}
            if edit.functions and all(it.functions for it in group) and (edit.may_be_copied or not taken & edit.functions):
                group.append(edit)
                break
        else:
            groups.append([edit])
    return groups


def joined(groups: list[list[Edit]]) -> list[list[Edit]]:
    """Groups of crates put together, so that no crate of a group uses another one of it. Crates over the most libraries
    come first: they share runs then, and each run reads all libraries of its crates."""
    made: list[list[Edit]] = []
    for group in sorted(groups, key=lambda it: len(it[0].crate.below()), reverse=True):
        for it in made:
            if len(it) + len(group) <= MOST and all(are_apart(group[0].crate, other.crate) for other in it):
                it += group
                break
        else:
            made.append([*group])
    return made


def are_apart(crate: Any, other: Any) -> bool:
    """Whether two crates are different, and neither uses the other."""
    return crate.name not in {it.name for it in [other, *other.below()]} and other.name not in {it.name for it in crate.below()}


def parts(group: list[Edit]) -> list[list[Edit]]:
    """The edits of a group, those of each crate by themselves."""
    names = dict.fromkeys(it.crate.name for it in group)
    return [[it for it in group if it.crate.name == name] for name in names]


@dataclasses.dataclass(frozen=True)
class Write:
    """A text that is written into a file in place of another, and what it is written for."""

    path: Path
    start: int
    end: int
    new: str
    reason: pathlib.Path


def unedited(crate: Any, function: Function) -> pathlib.Path:
    """What names the copy of a function of a crate in which nothing is changed."""
    return pathlib.Path("unedited", crate.name, function.path, function.name)


def copied(folder: str, texts: dict[Path, str], function: Function, changes: tuple[Change, ...], word: str) -> Iterator[tuple[Path, str]]:
    """A copy of a function behind it, under its name with this word, after these changes; and its proof, if one is written."""
    start, end = span(texts[function.path], function)
    made = texts[function.path][start:end]
    for it in changes:
        made = made.replace(it.old, it.new, 1)
    name = function.name.rpartition(":")[2]
    yield function.path, "\n\n" + re.sub(rf"\bfn {name}\b", f"fn {name}{word}", made, count=1)
    proof = proof_of(texts, function) or ""
    named = re.compile(rf"\b{re.escape(proof.replace('/', '.'))}(?=\.)")
    for file in sorted(pathlib.Path(folder, proof).glob("*.antt")):
        yield f"{proof}{word}/{file.name}", named.sub(proof.replace("/", ".") + word, file.read_text())


def function_of(texts: dict[Path, str], edit: Edit) -> Function:
    """The one function that an edit changes."""
    change = edit.changes[0]
    found = function_at(change.path, texts[change.path], texts[change.path].find(change.old) + len(change.old))
    assert found is not None
    return found


def is_in_body(texts: dict[Path, str], change: Change) -> bool:
    """Whether a change is in the body of one function, and in nothing that others read, as a contract or a constant."""
    text = texts.get(change.path, "")
    if change.old not in text:
        return False
    start = text.find(change.old)
    function = function_at(change.path, text, start + len(change.old))
    opened = opening_row(text.split("\n"), function) if function else None
    return opened is not None and text.count("\n", 0, start) > opened


def is_named(folder: str, texts: dict[Path, str], function: Function) -> bool:
    """Whether another proof of the crate names the modules of a function's proof: a copy has modules of its own."""
    proof = proof_of(texts, function) or ""
    named = re.compile(rf"\b{re.escape(proof.replace('/', '.'))}\.")
    others = (it for it in pathlib.Path(folder, "proofs").rglob("*.antt") if not it.is_relative_to(pathlib.Path(folder, proof)))
    return any(named.search(it.read_text()) for it in others)


def placed(folder: str, edits: list[Edit]) -> Iterator[Write]:
    """What is written for these edits. The first of a function is made in it, and each further one in a copy behind it. Where
    a copy can fail for another reason than its change, one copy more has none: what the prover cannot show of that one
    shows nothing of the others."""
    texts, taken, seen = sources(folder), set(), set()
    is_shared = any(not is_in_body(texts, change) for edit in edits for change in edit.changes)
    for number, edit in enumerate(edits):
        if not edit.functions & taken:
            taken |= edit.functions
            for it in edit.changes:
                at = pathlib.Path(folder, it.path).read_text().find(it.old)
                yield Write(it.path, at, at + len(it.old), it.new, edit.file)
            continue
        function = function_of(texts, edit)
        made = [(edit.file, edit.changes, f"_again_{number}")]
        if function not in seen and (is_shared or is_named(folder, texts, function)):
            made.append((unedited(edit.crate, function), (), "_again"))
        seen.add(function)
        for reason, changes, word in made:
            for path, new in copied(folder, texts, function, changes, word):
                at = span(texts[path], function)[1] if path == function.path else 0
                yield Write(path, at, at, new, reason)


def applied(folder: str, edits: list[Edit]) -> tuple[dict[Path, str], dict[pathlib.Path, list[tuple[Path, int]]]]:
    """The files with all these edits made, and where what each edit wrote ends in them."""
    texts: dict[Path, str] = {}
    ends: dict[pathlib.Path, list[tuple[Path, int]]] = {}
    writes = list(placed(folder, edits))
    for path in sorted({it.path for it in writes}):
        text = pathlib.Path(folder, path).read_text() if pathlib.Path(folder, path).is_file() else ""
        made, end = "", 0
        for it in sorted((it for it in writes if it.path == path), key=lambda it: it.start):
            if it.start < end:
                raise ValueError(f"{it.reason.name} changes what another edit of its group changes")
            made += text[end:it.start] + it.new
            end = it.end
            if path.startswith("src/"):
                ends.setdefault(it.reason, []).append((path, len(made)))
        texts[path] = made + text[end:]
    return texts, ends


def leave_out(room: str, texts: dict[Path, str], functions: set[str]) -> None:
    """Has the prover prove none but these functions in a copy of the crate, and those of traits: in place of the proof of
    each other one is an empty file, and in place of its body one that calls nothing. Its contract is there all the same
    for those that call it."""
    others = [it for it in functions_of(texts) if it.name not in functions and not is_of_trait(texts[it.path], it)]
    for folder in filter(None, (proof_of(texts, it) for it in others)):
        place = pathlib.Path(room, folder)
        place.mkdir(parents=True, exist_ok=True)
        for name in ("Answers.antt", "Invariants.antt"):
            (place / name).unlink(missing_ok=True)
        (place / "Proof.antt").write_text("")
    for path, text in texts.items():
        rows = text.split("\n")
        for function in others:
            if function.path == path:
                empty(rows, function)
        pathlib.Path(room, path).write_text("\n".join(rows))


def empty(rows: list[str], function: Function) -> None:
    """Puts a body that never ends in place of that of a function, and leaves all others on their lines. What may be
    computed in a constant, or names the cycle of calls that it is in, stays as it is."""
    head, opened = head_row(rows, function), opening_row(rows, function)
    indent = rows[head][: len(rows[head]) - len(rows[head].lstrip())]
    stays = "const fn" in rows[head] or any("#[cycle" in it for it in rows[function.first - 1 : head])
    if stays or opened is None or opened + 2 >= function.last:
        return
    rows[opened + 1 : function.last - 1] = [f"{indent}    loop {{}}", *[""] * (function.last - opened - 3)]


def without_main(room: str, functions: set[str]) -> None:
    """Makes a program a library, in a copy of it, where its `main` is not asked for: the prover then does not read the code
    of all libraries below it. What stands behind `main` stays on its lines."""
    root = pathlib.Path(room, "src", "main.rt")
    if "main" in functions or not root.is_file():
        return
    text = root.read_text()
    main = next(it for it in functions_of({"src/main.rt": text}) if it.name == "main")
    start, end = span(text, main)
    root.write_text(text[:start] + "\n" * text.count("\n", start, end) + text[end:])


@dataclasses.dataclass(frozen=True)
class Part:
    """What a run has of a crate: the files that the edits make of its own, and for each edit, and each copy without a
    change, the functions by which it is told."""

    crate: Any
    texts: dict[Path, str]
    functions: dict[pathlib.Path, list[Function]]


def part_of(edits: list[Edit]) -> Part:
    """The part of a run that these edits of one crate are."""
    folder = edits[0].crate.folder
    texts, ends = applied(folder, edits)
    whole = sources(folder) | {path: text for path, text in texts.items() if path.startswith("src/")}
    functions = {file: [it for path, at in places if path in whole for it in functions_at(path, whole, at)]
                 for file, places in ends.items()}
    return Part(edits[0].crate, texts, functions)


def copy_out(part: Part, room: str) -> set[str]:
    """Makes a copy of a crate with its edits, in a folder of its name, and gives the prover's names of the functions that
    are asked for in it."""
    place = pathlib.Path(room, part.crate.name)
    for it in kit.kit().rtlib.PARTS:
        if pathlib.Path(part.crate.folder, it).is_dir():
            shutil.copytree(pathlib.Path(part.crate.folder, it), place / it)
    for path, text in part.texts.items():
        (place / path).parent.mkdir(parents=True, exist_ok=True)
        (place / path).write_text(text)
    asked = [it for found in part.functions.values() for it in found]
    names = {it.name for it in asked}
    without_main(str(place), names)
    texts = sources(str(place))
    leave_out(str(place), texts, names)
    return {whole_name(part.crate.name, texts, it) for it in asked}


def whole_name(crate: str, texts: dict[Path, str], function: Function) -> str:
    """The prover's name of a function of a crate, from the crate on; of one of a foreign type its end."""
    proof = proof_of(texts, function)
    return function.name if proof is None else "::".join([crate, *proof.split("/")[1:]])


def words_of(crates: list[Any]) -> list[str]:
    """The words by which these crates, in folders of their names, are read beside an empty one, over the libraries that
    they use."""
    rtlib = kit.kit().rtlib
    names = dict.fromkeys(["core", *(name for it in crates for name in it.of_kit)])
    used = {it.name: it for crate in crates for it in crate.deps}
    below = {it.name: it for crate in crates for it in crate.below()}
    words = ["--crate-name", EMPTY, "src/lib.rt", "-L", f"dependency={rtlib.KIT}/rlibs"]
    words += [word for name in names for word in ("--extern", f"{name}={rtlib.KIT}/rlibs/{name}.rlib")]
    words += [word for it in used.values() for word in ("--extern", f"{it.name}={it.rlib}")]
    words += [word for it in below.values() for word in ("-L", f"dependency={pathlib.Path(it.rlib).parent}")]
    for it in crates:
        uses = dict.fromkeys(["core", *it.of_kit, *(dep.name for dep in it.deps)])
        words += ["--lib", f"{it.name}:{','.join(uses)}={it.name}/src/{'main' if it.is_program else 'lib'}.rt"]
    words += ["--antt-project", f"{rtlib.KIT}/rattle/logic/antt-project.json", "--logic-built", f"{rtlib.KIT}/logic_built"]
    return [*words, "--links", f"{EMPTY}=", "--jobs", "1"]


def prove(group: list[Part]) -> list[str]:
    """What the prover says of the functions that are asked for in these crates. Of a library that is read as source it does
    not prove all once more, to show what to write in place of what failed."""
    with tempfile.TemporaryDirectory(prefix="edits-") as room:
        asked = sorted(name for part in group for name in copy_out(part, room))
        pathlib.Path(room, "src").mkdir()
        pathlib.Path(room, "src", "lib.rt").write_text("//! Nothing.\n#![tactic(auto)]\n")
        words = [kit.kit().rtlib.RATTLE, "check", *words_of([it.crate for it in group])]
        words += [word for name in asked for word in ("--only", name)]
        done = subprocess.run(words, cwd=room, stdin=subprocess.DEVNULL, stdout=subprocess.PIPE, stderr=subprocess.STDOUT,
                              text=True, errors="replace")
        return done.stdout.split("\n")


def own_goal(lines: list[str], crate: str, function: Function) -> str | None:
    """What the prover says of a goal of this function that is not met, if it says so of one."""
    proofs = re.compile(rf"(\S+/)?{function.name.replace('::', '/')}(/\S+)?")
    if not any(re.match(rf"fn {crate}::\S*\b{function.name}\S*: (not proved|no proof)", it) for it in lines):
        return None
    for line in lines:
        goal, answer = OPEN_GOAL.match(line), BAD_ANSWER.match(line)
        if goal and goal[1] == f"{crate}/{function.path}" and function.first <= int(goal[2]) <= function.last:
            return line
        if answer and answer[1] == crate and proofs.fullmatch(answer[2]) and not TAKEN_AWAY.search(line):
            return line
    return None


def refused(group: list[Edit]) -> dict[pathlib.Path, str]:
    """The edits of a group that are refused, tried together, each with the goal that its own function does not meet."""
    run = [part_of(it) for it in parts(group)]
    lines = prove(run) if any(it.functions for it in run) else []
    goals = {file: goal for part in run for file, found in part.functions.items()
             if (goal := next(filter(None, (own_goal(lines, part.crate.name, it) for it in found)), None))}
    # (where a copy without a change is not proved either, those with one show nothing)
    lost = {it.file for it in group
            if it.may_be_copied and unedited(it.crate, function_of(sources(it.crate.folder), it)) in goals}
    return {it.file: goals[it.file] for it in group if it.file in goals and it.file not in lost}


@dataclasses.dataclass(frozen=True)
class Verdict:
    """Whether an edit is refused, and the line that says so."""

    is_refused: bool
    line: str


def tried_alone(edit: Edit) -> Verdict:
    """An edit by itself: its own functions, and where that shows nothing the whole crate, as `rt ci` tries it."""
    goal = refused([edit]).get(edit.file)
    if goal:
        return Verdict(True, f"must-fail {edit.crate.name}/{edit.file.name}: refused, as it must be, alone: {goal[:160]}")
    said, line = kit.kit().must_fail(edit.crate, str(edit.file), ["--jobs", "1"])
    return Verdict(kit.is_refusal(said), line)


def tried(group: list[Edit]) -> list[Verdict]:
    """The edits of a group, those alone that were not refused together. It says how long that took."""
    start = time.monotonic()
    goals = refused(group) if len(group) > 1 else {}
    if not goals and len(parts(group)) > 1:
        return [verdict for it in parts(group) for verdict in tried(it)]
    verdicts = []
    for edit in group:
        goal = goals.get(edit.file)
        line = f"must-fail {edit.crate.name}/{edit.file.name}: refused, as it must be: {(goal or '')[:160]}"
        verdicts.append(Verdict(True, line) if goal else tried_alone(edit))
        print(verdicts[-1].line, flush=True)
    names = " ".join(it[0].crate.name for it in parts(group))
    print(f"edits of {names}: {len(group)}, {time.monotonic() - start:.0f} s", flush=True)
    return verdicts


def unfit(crate: Any) -> tuple[list[Edit], list[Verdict]]:
    """The edits of a crate that fit it, and what is said of the others."""
    good, misplaced = kit.kit().edits_of(crate)
    verdicts = [Verdict(False, f"must-fail {crate.name}/{pathlib.Path(it).name}: BAD EDIT: no edit's place or name") for it in misplaced]
    edits = []
    for file in good:
        _, why = kit.kit().read_edit(file, crate.folder)
        if why:
            verdicts.append(Verdict(False, f"must-fail {crate.name}/{pathlib.Path(file).name}: BAD EDIT: {why}"))
        else:
            edits.append(edit_of(crate, pathlib.Path(file)))
    return edits, verdicts


def main(names: list[str]) -> int:
    crates = kit.crates(pathlib.Path.cwd())
    unknown = [it for it in names if it not in crates]
    if unknown:
        sys.exit(f"crates.txt has no {unknown[0]}")
    verdicts, groups, tasks = [], [], {}
    for name in names or crates:
        edits, bad = unfit(crates[name])
        verdicts += bad
        groups += grouped(edits)
    for number, group in enumerate(joined(groups)):
        members = [it[0].crate for it in parts(group)]
        # what a task of the kit is: what it waits for, its work in lines, its memory, and its call
        work = sum(it.count(rb"\n") for it in members)
        tasks[number, "edits"] = [], work, max(map(kit.kit().need, members)), lambda *_, it=group: tried(it)
    for found in kit.kit().in_lanes(tasks).values():
        verdicts += found
    failed = [it.line for it in verdicts if not it.is_refused]
    weak = [it.line for it in verdicts if it.is_refused and WEAK in it.line]
    print("\n".join([*weak, *failed, f"{len(verdicts) - len(failed)} passed, {len(failed)} failed"]))
    return 1 if failed else 0


if __name__ == "__main__":
    sys.exit(main(sys.argv[1:]))
