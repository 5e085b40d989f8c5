"""What the tools that run a live program share: its runs, how texts are compared, and rows and sessions at random."""
import pathlib
import random
import subprocess
import tempfile
from collections.abc import Callable

# The seconds that a run has at most; one takes some hundredths.
SECONDS = 600
# How many differences are named.
NAMED = 20

Ended = tuple[int, bytes, bytes]  # a run's status, output and errors
Check = Callable[[], list[str]]  # what differs


def ran(words: list[str | pathlib.Path], text: bytes) -> Ended:
    """A run of a program that reads this text."""
    done = subprocess.run(words, input=text, capture_output=True, check=False, timeout=SECONDS)
    return done.returncode, done.stdout, done.stderr


def ran_on(program: pathlib.Path, words: list[str], texts: list[bytes], lines: bytes) -> Ended:
    """A run of a program with words, then a file for each of these texts."""
    with tempfile.TemporaryDirectory() as folder:
        paths = [pathlib.Path(folder, f"{place}") for place in range(len(texts))]
        for path, text in zip(paths, texts):
            path.write_bytes(text)
        return ran([program, *words, *paths], lines)


def first_difference(found: bytes, wanted: bytes) -> str:
    """The first line that two texts have otherwise."""
    pairs = zip([*found.split(b"\n"), None], [*wanted.split(b"\n"), None])
    place, one, other = next((place, *pair) for place, pair in enumerate(pairs, 1) if pair[0] != pair[1])
    return f"answer {place} is {one!r}, not {other!r}"


def difference(name: str, ended: Ended, wanted: bytes) -> list[str]:
    """What a run that should end well, with an empty standard error, has written otherwise."""
    if (ended[0], ended[2]) != (0, b""):
        return [f"{name}: it ends with {ended[0]} and {ended[2][:200]!r}"]
    return [] if ended[1] == wanted else [f"{name}: {first_difference(ended[1], wanted)}"]


def a_row(rng: random.Random) -> str:
    """A row in which some inputs are on."""
    busy, rare = rng.choice([0.0, 0.05, 0.2, 0.5]), rng.choice([0.0, 0.0, 0.0, 0.05, 0.3])
    return " ".join("".join("1" if rng.random() < part else "0" for _ in range(count))
                    for count, part in [(16, busy), (8, busy / 2), (4, rare)])


def a_log(rng: random.Random, ticks: int) -> bytes:
    """A log of so many ticks, in which rows change at random."""
    often = rng.choice([0.02, 0.1, 0.4, 1.0])
    found = [f"{tick:07} {a_row(rng)}\n" for tick in range(1, ticks + 1) if rng.random() < often]
    return "".join(found).encode()


def an_edit(rng: random.Random) -> list[str]:
    """Commands of a station's transaction, which are mostly carried out."""
    station = rng.choice([1, 1, 1, 2, 4])
    names = ["phaseMinimumGreen", "phaseMaximum1", "phasePassage", "phaseYellowChange", "phaseRing"]
    sets = [f"set {station} {name} {rng.choice([1, 2, 2, 4, 6, 8])} {rng.choice([2, 3, 5, 9, 12, 30, 256])}"
            for name in rng.choices(names, k=rng.randint(0, 4))]
    return [f"begin {station}", *sets, f"verify {station}", rng.choice(["commit", "commit", "abort"]) + f" {station}"]


def a_command(rng: random.Random) -> str:
    """A command of `tsb run`, beside those of a transaction."""
    one, head = rng.randint(1, 4), rng.choice(["P2", "P4", "W2", "O1", "P6"])
    return rng.choice([
        "show", "undo", "undo", f"back {rng.randint(0, 30)}", f"back {rng.randint(0, 3)}", f"seek {rng.randint(0, 60)}",
        f"pattern {rng.randint(0, 3)}", f"preempt {one} {rng.choice(['on', 'off'])}", f"preempt {one} on",
        f"fault {head} {rng.choice(['G', 'Y', 'R'])}", "fault none", "reset", f"when interval {2 * one}",
        f"when ped {one}", f"when call {one}", f"when output {one}", f"when alarm {one}", "when stage", "when trip",
    ])


def commands_of(rng: random.Random, many: int) -> bytes:
    """So many commands, about: every second one takes ticks."""
    found: list[str] = []
    while len(found) < many:
        found.append(f"step {rng.choice([0, 1, 1, 2, 5, 20, 40])}")
        found += an_edit(rng) if rng.random() < 0.1 else [a_command(rng)]
    return "".join(line + "\n" for line in found).encode()
