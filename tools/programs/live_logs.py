"""Live sessions beside `tsb run`: what is answered where the rows are those of a log, by both programs."""
import concurrent.futures
import pathlib
import random
from collections.abc import Iterator

from tools.programs import json_places, stored_cases
from tools.programs.live_from_log import live_of
from tools.programs.live_kit import NAMED, a_log, commands_of, difference, ran_on

# How many sessions there are of each file, and on each of the example plans.
STORED = {"even": 200, "late": 200, "aimed": 150, "tripped": 100, "mangled": 120}
PLANS = ["two", "first_plan", "tee", "one_way_pair", "main_and_oak", "railroad", "quad"]
ON_PLANS = 50
# The ticks and commands of a session on an example plan, about.
TICKS, COMMANDS = 150, 24

Session = tuple[str, bytes, bytes, bytes]  # a name, a plan text, a log and commands


def stored_sessions() -> Iterator[Session]:
    """Sessions that are stored, from all parts of their files."""
    for name, count in STORED.items():
        cases = list(stored_cases.read(stored_cases.CASES / f"{name}.cases"))
        for case in random.Random(name).sample(cases, count):
            yield case.name, case.plan, case.log, case.commands


def sessions_on_plans() -> Iterator[Session]:
    """Sessions at random on the plans of the examples."""
    for name in PLANS:
        plan = pathlib.Path("examples", f"{name}.json").read_bytes()
        for number in range(ON_PLANS):
            rng = random.Random(f"{name} {number}")
            yield f"{name} {number}", plan, a_log(rng, TICKS), commands_of(rng, COMMANDS)


def place_of(line: bytes, plan: bytes) -> bytes:
    """The line after that of a fault: where the text of a plan stops being JSON."""
    return (json_places.second_line(plan) or b"") if line == b"plan: not JSON\n" else b""


def compared(live: pathlib.Path, tsb: pathlib.Path, session: Session) -> tuple[int, list[str]]:
    """How many answers a live session has, and what differs from those of `tsb run`; a refused plan is refused by both, by
    tsb_live with its place, and where a log has a fault there is no session."""
    name, plan, log, commands = session
    ended = ran_on(tsb, ["run"], [plan, log], commands)
    if ended[0] != 0:
        if ended[2].startswith(b"log "):
            return 0, []
        refused, wanted = ran_on(live, [], [plan], commands), (*ended[:2], ended[2] + place_of(ended[2], plan))
        return 0, [] if refused == wanted else [f"{name}: it ends with {refused}, not {wanted}"]
    lines, answers = live_of(random.Random(name), log, commands, ended[1])
    return answers.count(b"\n"), difference(name, ran_on(live, [], [plan], lines), answers)


def compare(live: pathlib.Path, tsb: pathlib.Path) -> tuple[list[str], str]:
    """What differs in all these sessions, and the line to print where nothing does."""
    sessions = [*stored_sessions(), *sessions_on_plans()]
    with concurrent.futures.ThreadPoolExecutor() as pool:
        found = list(pool.map(lambda session: compared(live, tsb, session), sessions))
    wrong = [it for _, differs in found for it in differs][:NAMED]
    answered = [count for count, _ in found if count]
    wrong += [] if len(answered) >= 1000 else [f"only {len(answered)} sessions have answers"]
    return wrong, f"{len(answered)} live sessions have the {sum(answered)} answers of tsb run"
