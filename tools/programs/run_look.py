"""Runs tools/look as a newcomer does: run_look.py TSB TSB_FIELD TSB_LIVE.

It has tsb built without a proof, in a minute or two. For the other two the programs that are given stand in. The last
line is `N passed, M failed`.
"""
import os
import pathlib
import re
import shutil
import signal
import subprocess
import sys
import tempfile
import time
import urllib.request
from collections.abc import Callable

from tools import TOP
from tools.prover import unproved

LOOK = str(TOP / "tools/look")
# The seconds that a build and a session have at most, and all else.
BUILD, SECONDS = 1800, 300
MARK = re.compile(r"unproved: [a-z_, ]+, built without a proof for a look; `tools/build` makes the proved programs\n")


# What tools/look was given.
RAN: set[tuple[str, ...]] = set()


def look(room: pathlib.Path, *words: str, text: str = "", seconds: int = SECONDS,
         folder: pathlib.Path | None = None) -> subprocess.CompletedProcess[str]:
    """Runs tools/look in a folder of its own, or in this one."""
    RAN.add(words)
    return subprocess.run([LOOK, *words], cwd=folder or room, env={**os.environ, "TSB_UNPROVED": str(room)}, input=text,
                          capture_output=True, text=True, timeout=seconds)


def session_of_readme() -> list[str]:
    """The display lines of the session in the README."""
    block = re.search(r"^```session preempt_and_undo\n(.*?)^```$", (TOP / "README.md").read_text(), re.M | re.S)
    assert block is not None
    return re.findall(r"\d{7} \S{16} .*$", block[1], re.M)


def a_missing_file_builds_nothing(room: pathlib.Path) -> bool:
    """The fault is printed, with no line of the build."""
    done = look(room, "none.json", str(TOP / "examples/empty.log"))
    return done.returncode == 3 and done.stderr == "none.json: no such file, or it cannot be read\n"


def other_words_are_refused(room: pathlib.Path) -> bool:
    """With what there is."""
    done = look(room, "walk")
    return done.returncode == 2 and "tools/look panel" in done.stderr and not done.stdout


def the_session_is_the_readmes(room: pathlib.Path) -> bool:
    """Built anew: it says so, and no line of the kit's own reaches the user."""
    done = look(room, seconds=BUILD)
    first, *more = done.stderr.splitlines(keepends=True)
    shown = re.findall(r"^\d{7} .*$", done.stdout, re.M)
    return (done.returncode == 0 and MARK.fullmatch(first) is not None and len(more) == 1
            and more[0].startswith("building tsb, ") and shown == session_of_readme())


def it_is_kept(room: pathlib.Path) -> bool:
    """The second time nothing is built."""
    done = look(room)
    return done.returncode == 0 and MARK.fullmatch(done.stderr) is not None and "0000091 RRRGRRRG" in done.stdout


def other_sources_are_built_anew(_room: pathlib.Path) -> bool:
    """What is kept counts for the sources alone that it was made of."""
    of = unproved.program("tsb").with_suffix(".of")
    was = of.read_text()
    of.write_text("another")
    missing = unproved.missing(["tsb"])
    of.write_text(was)
    return missing == ["tsb"] and unproved.missing(["tsb"]) == []


def a_live_run_answers(room: pathlib.Path) -> bool:
    """On the plan of the README."""
    done = look(room, "live", text="0001000000000000 00000000 0000\nchanges 100\n")
    return done.returncode == 0 and MARK.fullmatch(done.stderr) is not None and done.stdout.count("\n") == 5


def files_are_those_of_the_user(room: pathlib.Path) -> bool:
    """A plan is named as it lies in the user's folder."""
    shutil.copy(TOP / "examples/quad.json", room / "own.json")
    done = look(room, "field", "review", "own.json")
    return done.returncode == 0 and MARK.fullmatch(done.stderr) is not None


def a_report_says_that_it_is_unproved(room: pathlib.Path) -> bool:
    """In its title, and so in its heading."""
    done = look(room, "report", seconds=BUILD)
    page = (room / "report.html").read_text()
    return done.returncode == 0 and "<title>UNPROVED: " in page and "<h1>UNPROVED: " in page


def an_example_is_reviewed(room: pathlib.Path) -> bool:
    """From the top of the repository."""
    done = look(room, "field", "review", "examples/tee.json", folder=TOP)
    return done.returncode == 0 and MARK.fullmatch(done.stderr) is not None


def a_session_and_a_check_of_ones_own(room: pathlib.Path) -> bool:
    """The lines in which a head changed, and all of the others."""
    shutil.copy(TOP / "examples/preempt_and_undo.log", room / "own.log")
    played = look(room, "own.json", "own.log", text="step 60\nwhen stage\n")
    checked = look(room, "check", "own.json")
    return (played.returncode, checked.returncode, checked.stdout) == (0, 0, "plan ok\n") and played.stdout == (
        "0000001 RGRRRGRR-------- -D-------------- G--- 0 ----\n"
        "0000051 RYRRRYRR-------- -D-------------- Y--- 0 ----\nnever\n")


def each_command_of_the_readme_was_run(_room: pathlib.Path) -> bool:
    """By a case above."""
    said = re.findall(r"^tools/look( [a-z/._ ]+?)?(?: +#.*)?$", (TOP / "README.md").read_text(), re.M)
    return len(said) >= 4 and {tuple(it.split()) for it in said} <= RAN


def panel(room: pathlib.Path) -> tuple[bool, str]:
    """Whether a panel says beside its address that it is unproved, serves its page, and ends by Ctrl-C; and what was said
    on standard error. Ctrl-C goes to all processes of a terminal."""
    RAN.add(("panel",))
    with subprocess.Popen([LOOK, "panel"], cwd=room, env={**os.environ, "TSB_UNPROVED": str(room)},
                          stdout=subprocess.PIPE, stderr=subprocess.PIPE, text=True, start_new_session=True) as running:
        assert running.stdout is not None and running.stderr is not None
        address = re.search(r"^UNPROVED: .*(http://127\.0\.0\.1:\d+/\S+)$", running.stdout.readline())
        is_served = False
        if address:
            with urllib.request.urlopen(address[1], timeout=SECONDS) as page:
                is_served = b"tsb panel" in page.read()
        os.killpg(running.pid, signal.SIGINT)
        return running.wait(SECONDS) == 0 and is_served, running.stderr.read()


def the_panel_says_that_it_is_unproved(room: pathlib.Path) -> bool:
    """Beside its address; nothing is built."""
    is_well, said = panel(room)
    return is_well and MARK.fullmatch(said) is not None


def a_panel_waits_for_its_bench_alone(room: pathlib.Path) -> bool:
    """What its page exports by is built meanwhile, and that ends with the panel."""
    of = unproved.program("tsb_field").with_suffix(".of")
    was = of.read_text()
    of.write_text("another")
    is_well, said = panel(room)
    until = time.monotonic() + SECONDS
    while list(room.glob("tsb-look-*")) and time.monotonic() < until:
        time.sleep(0.1)
    of.write_text(was)
    return is_well and "building tsb_field meanwhile" in said and not list(room.glob("tsb-look-*"))


CASES: list[Callable[[pathlib.Path], bool]] = [
    a_missing_file_builds_nothing, other_words_are_refused, the_session_is_the_readmes, it_is_kept,
    other_sources_are_built_anew, a_live_run_answers, files_are_those_of_the_user, a_report_says_that_it_is_unproved,
    the_panel_says_that_it_is_unproved, a_panel_waits_for_its_bench_alone,
    an_example_is_reviewed, a_session_and_a_check_of_ones_own, each_command_of_the_readme_was_run,
]


def main(programs: list[str]) -> int:
    """Runs all, and gives the status to end with."""
    if len(programs) != 3:
        sys.exit("usage: python3 -m tools.programs.run_look TSB TSB_FIELD TSB_LIVE")
    failed = 0
    with tempfile.TemporaryDirectory(prefix="tsb-run-look-") as folder:
        os.environ["TSB_UNPROVED"] = folder
        for path in map(pathlib.Path, programs[1:]):
            shutil.copy2(path, unproved.program(path.name.removeprefix("unproved_")))
        for name in ("tsb_field", "tsb_live"):
            unproved.program(name).with_suffix(".of").write_text(unproved.sum_of(name))
        for case in CASES:
            is_well = case(pathlib.Path(folder))
            failed += not is_well
            if not is_well:
                print(f"tools/look: {case.__name__.replace('_', ' ')}: it is not so", flush=True)
    print(f"{len(CASES) - failed} passed, {failed} failed")
    return 1 if failed else 0


if __name__ == "__main__":
    sys.exit(main(sys.argv[1:]))
