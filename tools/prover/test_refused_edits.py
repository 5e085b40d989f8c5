"""Tries refused_edits.py on a small repository: test_refused_edits.py, alone or by pytest. It takes some two minutes.

Four edits make a clause false, one of them in a copy of its function, and one in a program. Four show nothing, and each
has to be told: one that does not fit; a harmless one, which is made in a copy as well; and two that are harmless and call
a function which is not proved in that run, so that the prover refuses them there for their callee alone. Another edit
turns the one callee, and the other is left out of the proof.

The library and the program share a run. What is left out of a copy of a crate leaves all else on its lines, and no crate
shares a run with one that it uses. Where a copy can fail without its change, there is one more that has none.
"""
import dataclasses
import os
import pathlib
import subprocess
import sys
import tempfile

from tools import TOP
from tools.prover import kit, refused_edits

SOURCE = """//! Small sums.
#![tactic(auto)]

ghost use Rattle.std.specs.Prelude.{◌≡◌, ◌+◌, ◌<◌};

/// The number after this one.
pub fn next(n: u8) -> u8
    requires { n < 255 }
    ensures { result ≡ n + 1 }
{
    n + 1
}

/// The number two after this one.
pub fn second(n: u8) -> u8
    requires { n < 254 }
    ensures { result ≡ n + 2 }
{
    next(next(n))
}

/// Twice this number.
pub fn double(n: u8) -> u8
    requires { n < 128 }
    ensures { result ≡ n + n }
{
    n + n
}

/// The number before this one.
pub fn before(n: u8) -> u8
    requires { 0 < n }
    ensures { result + 1 ≡ n }
{
    n - 1
}

/// The number two before this one.
pub fn second_before(n: u8) -> u8
    requires { 1 < n }
    ensures { result + 2 ≡ n }
{
    before(before(n))
}
"""

PROGRAM = """//! Ends with a status.
#![tactic(auto)]

ghost use Rattle.std.specs.Prelude.{◌≡◌, ◌+◌, ◌<◌};

use std::process::ExitCode;

fn main() -> ExitCode {
    ExitCode::from(status(1))
}

/// The status after so many steps.
fn status(steps: u8) -> u8
    requires { steps < 255 }
    ensures { result ≡ steps + 1 }
{
    steps + 1
}
"""

# The root of each crate, and the edits of it.
ROOTS = {"small": ("lib.rt", SOURCE), "ends": ("main.rt", PROGRAM)}
EDITS = {
    "stays": ("    n + 1", "    n"),
    "only_its_callee_is_turned": ("    next(next(n))", "    next(n) + 1"),
    "doubles_the_next": ("    n + n", "    n + n + 1"),
    "harmless": ("    n + n", "    2 * n"),
    "its_callee_is_left_out": ("    before(before(n))", "    before(n) - 1"),
    "does_not_fit": ("    n - 2", "    n"),
    "yields_too_little": ("    n + n", "    n"),
}
EDITS_OF = {"small": EDITS, "ends": {"a_step_is_lost": ("    steps + 1", "    steps")}}

# How the line of each edit goes on after its name.
SAID = {
    "stays": "refused, as it must be: ",
    "only_its_callee_is_turned": "NOT REFUSED: ",
    "doubles_the_next": "refused, as it must be: ",
    "harmless": "NOT REFUSED: ",
    "its_callee_is_left_out": "NOT REFUSED: ",
    "does_not_fit": "BAD EDIT: ",
    "yields_too_little": "refused, as it must be: ",
    "a_step_is_lost": "refused, as it must be: ",
}


def fill(top: pathlib.Path) -> None:
    """Puts the small repository into a folder."""
    (top / "crates.txt").write_text("small:\nends:\n")
    (top / "HANDLES").write_text("Handles allowed: none.\n")
    for name, (root, source) in ROOTS.items():
        crate = top / "crates" / name
        for folder in ("src", "must-fail"):
            (crate / folder).mkdir(parents=True)
        (crate / "src" / root).write_text(source)
        for edit, (old, new) in EDITS_OF[name].items():
            (crate / "must-fail" / f"{edit}.edit").write_text(f"file: src/{root}\nold: {old}\nnew: {new}\n")


def left(room: str, source: str, root: str, functions: set[str]) -> list[str]:
    """The lines that are left of a root file where these functions are asked for."""
    path = pathlib.Path(room, "src", root)
    path.parent.mkdir(exist_ok=True)
    path.write_text(source)
    refused_edits.without_main(room, functions)
    refused_edits.leave_out(room, refused_edits.sources(room), functions)
    return path.read_text().split("\n")


def test_what_is_left_out_moves_no_line() -> None:
    with tempfile.TemporaryDirectory() as room:
        lines, was = left(room, SOURCE, "lib.rt", {"second"}), SOURCE.split("\n")
        assert [it for it in lines if it.endswith(" {}")] == ["    loop {}"] * 4
        assert [k for k, it in enumerate(lines) if it != was[k]] == [k for k, it in enumerate(lines) if "loop" in it]
        assert len(lines) == len(was) and "    next(next(n))" in lines
    with tempfile.TemporaryDirectory() as room:
        lines, was = left(room, PROGRAM, "main.rt", {"status"}), PROGRAM.split("\n")
        assert len(lines) == len(was) and "fn main() -> ExitCode {" not in lines and "    steps + 1" in lines
        pathlib.Path(room, "src", "main.rt").unlink()
        assert "fn main() -> ExitCode {" in left(room, PROGRAM, "main.rt", {"main"})


@dataclasses.dataclass(frozen=True)
class Crate:
    """A crate, and those below it."""

    name: str
    under: tuple["Crate", ...] = ()

    def below(self) -> tuple["Crate", ...]:
        return self.under


def test_crates_that_stand_on_one_another_have_runs_of_their_own() -> None:
    types, lines = Crate("types"), Crate("lines")
    plan = Crate("plan", (types,))
    groups = [[refused_edits.Edit(it, pathlib.Path(it.name), (), frozenset(), False)] for it in (types, lines, plan)]
    runs = [[edit.crate for edit in group] for group in refused_edits.joined(groups)]
    assert runs == [[plan, lines], [types]]


def copies_without_a_change(folder: str, edits: list[refused_edits.Edit]) -> int:
    """How many copies in which nothing is changed are made beside these edits."""
    return len({it.reason for it in refused_edits.placed(folder, edits) if it.reason.parts[0] == "unedited"})


def test_a_copy_that_is_in_doubt_has_one_without_a_change() -> None:
    with tempfile.TemporaryDirectory() as room:
        fill(pathlib.Path(room))
        crate = kit.crates(pathlib.Path(room))["small"]
        edits = [refused_edits.edit_of(crate, pathlib.Path(crate.folder, "must-fail", f"{it}.edit"))
                 for it in ("doubles_the_next", "yields_too_little")]
        assert copies_without_a_change(crate.folder, edits) == 0
        proof = pathlib.Path(crate.folder, "proofs", "Lemmas.antt")
        proof.parent.mkdir()
        proof.write_text("use Rattle.small.proofs.double.Goals.{returns}\n")
        assert copies_without_a_change(crate.folder, edits) == 1
        proof.write_text("use Rattle.small.proofs.doubles.Goals.{returns}\n")
        assert copies_without_a_change(crate.folder, edits) == 0
        for old, new, copies in (("    n + 1", "    n", 0), ("ensures { result ≡ n + 1 }", "", 1), ("//! Small", "//!", 1)):
            change = refused_edits.Change("src/lib.rt", old, new)
            other = dataclasses.replace(edits[0], changes=(change,), functions=frozenset([("src/lib.rt", "next")]))
            assert copies_without_a_change(crate.folder, [*edits, other]) == copies, old


def test_what_shows_nothing_is_told() -> None:
    with tempfile.TemporaryDirectory() as room:
        fill(pathlib.Path(room))
        words = [sys.executable, "-m", "tools.prover.refused_edits"]
        environment = {**os.environ, "PYTHONPATH": str(TOP)}
        done = subprocess.run(words, cwd=room, env=environment, capture_output=True, text=True)
    said = done.stdout
    for name, wanted in SAID.items():
        crate = next(it for it, edits in EDITS_OF.items() if name in edits)
        assert f"must-fail {crate}/{name}.edit: {wanted}" in said, said + done.stderr
    assert "edits of ends small: " in said, said + done.stderr
    assert said.endswith("4 passed, 4 failed\n"), said + done.stderr
    assert done.returncode == 1


if __name__ == "__main__":
    kit.kit()
    test_what_is_left_out_moves_no_line()
    test_crates_that_stand_on_one_another_have_runs_of_their_own()
    test_a_copy_that_is_in_doubt_has_one_without_a_change()
    test_what_shows_nothing_is_told()
    print("refused_edits.py tells what shows nothing")
