"""Two timing sheets as they are written in practice, and what they do, worked by hand.

`depot.json` is an arterial of 40 mph along a railroad, which crosses its north leg:
phases 4 and 7 come over the tracks, and preempt 1 is the train's. Preempts 2 to 4 are
fire engines'. `pine.json` is a downtown signal: a street of two ways, 2 and 6, and one
of one way, 8, whose other crosswalk is 4. All is recalled, in cycles of 70, 80, 90 s.
"""

import itertools
from pathlib import Path

import pytest
from tsb import programs

DATA = Path(__file__).parent / "data"
DEPOT, PINE = DATA / "depot.json", DATA / "pine.json"
NOTHING = f"{16 * '0'} {8 * '0'} 0000"


def changes(plan: Path, log: Path, commands: str) -> dict[int, tuple[str, str, str]]:
    """The ticks at which vehicle heads 1 to 8 or pedestrian heads 1 to 8 change, with
    what they then show, and the preempt in service."""
    words: list[str | Path] = ["run", plan, log]
    done = programs.run("tsb", words, commands.encode())
    shown = [it.split() for it in done.stdout.decode().splitlines()]
    each = [(int(it[0]), (it[1][:8], it[2][:8], it[4])) for it in shown if len(it) > 5]
    by = itertools.groupby(each, key=lambda it: it[1])
    return {next(of)[0]: heads for heads, of in by}


@pytest.fixture
def no_cars(examples: Path) -> Path:
    """A log without rows."""
    return examples / "empty.log"


@pytest.fixture
def main_street_walks(tmp_path: Path) -> Path:
    """A car on detector 8 at tick 200, and someone at button 2: the main street is green
    again at 394, with a walk of phase 2."""
    path = tmp_path / "walks.log"
    rows = [
        f"0000200 {'1'.rjust(8, '0').ljust(16, '0')} 01000000 0000",
        f"0000204 {NOTHING}",
    ]
    path.write_text("".join(f"{it}\n" for it in rows))
    return path


@pytest.mark.parametrize("plan", [DEPOT, PINE])
def test_the_sheets_are_consistent(plan: Path) -> None:
    assert programs.run("tsb", ["check", plan]).stdout == b"plan ok\n"


def test_a_train_while_the_main_street_rests(no_cars: Path) -> None:
    """4.3 s and 1.5 s until the track green, its 16 s and a tick, then 3.6 s and 2.0 s
    until the dwell."""
    found = changes(DEPOT, no_cars, "step 600\npreempt 1 on\nstep 300\n")
    assert [(at, *it) for at, it in found.items() if at > 600] == [
        (601, "RYRRRYRR", "-D-D-D-D", "1"),
        (644, "RRRRRRRR", "-D-D-D-D", "1"),
        (659, "RRRGRRGR", "-D-D-D-D", "1"),
        (820, "RRRYRRYR", "-D-D-D-D", "1"),
        (850, "RRRYRRRR", "-D-D-D-D", "1"),
        (856, "RRRRRRRR", "-D-D-D-D", "1"),
        (876, "RGRRRGRR", "-D-D-D-D", "1"),
    ]


def test_a_train_as_a_walk_has_begun(main_street_walks: Path) -> None:
    """The walk ends at once, its clearance has 12 of its 16 s: 17.8 s to the green."""
    found = changes(DEPOT, main_street_walks, "step 400\npreempt 1 on\nstep 200\n")
    assert [(at, *it) for at, it in found.items() if at > 390] == [
        (394, "RGRRRGRR", "-W-D-D-D", "0"),
        (401, "RGRRRGRR", "-C-D-D-D", "1"),
        (521, "RYRRRYRR", "-D-D-D-D", "1"),
        (564, "RRRRRRRR", "-D-D-D-D", "1"),
        (579, "RRRGRRGR", "-D-D-D-D", "1"),
    ]


def test_a_train_takes_over_from_a_fire_engine(no_cars: Path) -> None:
    """The engine from the west has phases 2 and 5, and 6 ends for it. The train asks at
    671. Both rings have to cross, so phase 2 ends with phase 5, whose 2 s of minimum
    green end at 679: then 4.3 s and 1.5 s."""
    commands = "step 600\npreempt 2 on\nstep 70\npreempt 1 on\nstep 100\n"
    found = changes(DEPOT, no_cars, commands)
    assert [(at, *it) for at, it in found.items() if at > 600] == [
        (601, "RGRRRYRR", "-D-D-D-D", "2"),
        (644, "RGRRRRRR", "-D-D-D-D", "2"),
        (659, "RGRRGRRR", "-D-D-D-D", "2"),
        (671, "RGRRGRRR", "-D-D-D-D", "1"),
        (679, "RYRRYRRR", "-D-D-D-D", "1"),
        (709, "RYRRRRRR", "-D-D-D-D", "1"),
        (722, "RRRRRRRR", "-D-D-D-D", "1"),
        (737, "RRRGRRGR", "-D-D-D-D", "1"),
    ]


@pytest.mark.parametrize(
    ("pattern", "cycle", "zero", "cross"),
    [(1, 70, 920, 34), (2, 80, 510, 36), (3, 90, 980, 40)],
)
def test_a_downtown_cycle(
    no_cars: Path, pattern: int, cycle: int, zero: int, cross: int
) -> None:
    """From local zero on: the one-way street's split, then Pine's, whose walk has 7 s
    and its clearance 11 s. As all is recalled, no walk rests."""
    found = changes(PINE, no_cars, f"pattern {pattern}\nstep {zero + 10 * cycle}\n")
    begun, end = zero + 10 * cross, zero + 10 * cycle
    assert [(at, *it) for at, it in found.items() if at >= zero] == [
        (zero, "-R-G-R-G", "-D-W-D-W", "0"),
        (zero + 70, "-R-G-R-G", "-D-C-D-C", "0"),
        (zero + 210, "-R-G-R-G", "-D-D-D-D", "0"),
        (begun - 50, "-R-Y-R-Y", "-D-D-D-D", "0"),
        (begun - 20, "-R-R-R-R", "-D-D-D-D", "0"),
        (begun, "-G-R-G-R", "-W-D-W-D", "0"),
        (begun + 70, "-G-R-G-R", "-C-D-C-D", "0"),
        (begun + 180, "-G-R-G-R", "-D-D-D-D", "0"),
        (end - 45, "-Y-R-Y-R", "-D-D-D-D", "0"),
        (end - 15, "-R-R-R-R", "-D-D-D-D", "0"),
        (end, "-R-G-R-G", "-D-W-D-W", "0"),
    ]


def test_what_a_review_says() -> None:
    """Of the downtown sheet that its times are fixed, as is meant; of the other sheet
    that 6 s of permissive time leave 4 s of a left turn's 10 s, which needs 5, and that
    its right turn has a green arrow beside the walk of the same approach."""
    said = programs.run("tsb_field", ["review", PINE]).stdout.decode().splitlines()
    assert said == [
        f"A5 ring {it}: all its phases have maximum recall, so its times are fixed"
        for it in (1, 2)
    ]
    said = programs.run("tsb_field", ["review", DEPOT]).stdout.decode().splitlines()
    assert [it for it in said if it.startswith("A43 ")] == [
        f"A43 phase {it}: its permissive time of 6 s is over the 5 s that leave"
        " phase 3 its minimum green before its force-off in pattern 2"
        for it in (2, 6)
    ]
    assert [it for it in said if it.startswith("A56 ")] == [
        "A56 overlap 1: if phases stand as usual, it turns right beside phase 2 over its"
        " crossing, and is green with its walk"
    ]
    assert {it.partition(" ")[0] for it in said} == {"A34", "A36", "A43", "A56"}
