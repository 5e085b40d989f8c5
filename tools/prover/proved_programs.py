"""Which programs the gate proved, and of which commit: written by tools/gate, asked by tools/release.

The note is `out/proved.json` at the top, which git ignores. It is written where all parts passed on a tree that was,
from the beginning to the end, that of a commit.
"""
import dataclasses
import hashlib
import json
import pathlib
import subprocess

# What a release has.
RELEASED = ["tsb", "tsb_field", "tsb_live"]


@dataclasses.dataclass(frozen=True)
class Proof:
    """What was proved: the commit, the kit, the table of the gate, and the sums of the programs by their names."""

    commit: str
    kit: str
    table: str
    sums: dict[str, str]


def sum_of(path: pathlib.Path) -> str:
    """The SHA-256 of a file."""
    return hashlib.sha256(path.read_bytes()).hexdigest()


def commit_of(top: pathlib.Path) -> str | None:
    """The commit whose files these are; none where a file is changed, missing or new."""
    changed = subprocess.run(["git", "status", "--porcelain"], cwd=top, capture_output=True, text=True, check=True)
    head = subprocess.run(["git", "rev-parse", "HEAD"], cwd=top, capture_output=True, text=True, check=True)
    return None if changed.stdout else head.stdout.strip()


def place(top: pathlib.Path, name: str) -> pathlib.Path:
    """Where a built program lies."""
    return top / "crates" / name / "out" / name


def note(top: pathlib.Path) -> pathlib.Path:
    """Where the note lies."""
    return top / "out" / "proved.json"


def forget(top: pathlib.Path) -> None:
    """Takes the note away, so that one is there only after a gate that passed."""
    note(top).unlink(missing_ok=True)


def keep(top: pathlib.Path, commit: str | None, kit: str, table: str) -> None:
    """Writes the note, if the files are still those of the commit with which the gate began."""
    if commit is None or commit_of(top) != commit:
        return
    proof = Proof(commit, kit, table, {it: sum_of(place(top, it)) for it in RELEASED})
    note(top).parent.mkdir(exist_ok=True)
    note(top).write_text(json.dumps(dataclasses.asdict(proof), indent=1))


def proof_of(top: pathlib.Path) -> Proof | str:
    """What was proved of the programs that lie here, or why they are not the proved ones of this commit."""
    commit = commit_of(top)
    if commit is None:
        return "a file differs from the commit, or is new: git status lists it"
    if not note(top).is_file():
        return "no gate that passed has left its note: run tools/gate"
    proof = Proof(**json.loads(note(top).read_text()))
    if proof.commit != commit:
        return f"the gate passed on {proof.commit}, and this is {commit}: run tools/gate"
    for name in RELEASED:
        if not place(top, name).is_file() or sum_of(place(top, name)) != proof.sums.get(name):
            return f"crates/{name}/out/{name} is not the program that the gate proved: run tools/gate"
    return proof
