"""Every command of the documents, run by a shell as a reader types it."""

import os
import re
import shlex
import subprocess
import sys
from collections.abc import Iterator
from pathlib import Path

import pytest

from tsb import programs
from tsb.sumo import Intersection, crossroads
from tsb.sumo.nema import nema_of

TOP = Path(__file__).resolve().parents[2]
PAGES = sorted(
    str(it.relative_to(TOP))
    for pattern in [
        "*.md", "docs/*/*.md", "examples/*.md", "cases/*.md", "tools/*/*.md",
        "crates/*/README.md",
    ]
    for it in TOP.glob(pattern)
)  # fmt: skip
# (git does not keep the first; it has no commands)
PAGES = [it for it in PAGES if it != "docs/work/DEFINITIONS.md"]

#: A block of a page: what comes after its fence, its text, and of a block of
#: commands what the page says that it writes.
BLOCK = re.compile(
    r"^```([^\n]*)\n(.*?)^```\n"
    r"(?:\nIt (?:writes|prints)[^\n]*\n\n```\n(.*?)^```\n)?",
    re.M | re.S,
)
#: What a first line of a block of commands looks like.
COMMAND = re.compile(
    r"(tsb|tsb_live|tsb_field|tsb-py|rt|pip|python3?|tools/\w+|python/\S+) \S"
    r"|tools/\w+$"
)
#: Commands that no test runs as they are, and why.
LEFT_OUT = {
    r"tools/build\b": "it proves for half an hour; the gate does",
    r"tools/gate\b": "it is what runs this test",
    r"tools/release\b": "it asks for a gate that passed; tools/programs/run_release.py",
    r"tools/look\b": "it builds by the kit; tools/programs/run_look.py runs it",
    r"tools/site\b": "tools/programs/run_site.py runs it",
    r"python/setup\.sh\b": "tools/programs/run_python.py runs it, before this test",
    r"rt \w": "it proves",
    r"pip install\b": "tools/programs/run_release.py does, without an index",
    r"apt install\b": "it needs the rights of an administrator",
    r"TSB_BIN=\S+ \S+ -m tools\.peers\b": "it runs for an hour or two",
    r"\S*python3? -m tools\.speed\b": "it runs for a quarter of an hour",
    r"\S*python3? -m tools\.reference\.": "the reference is not in the repository",
    r"\S*python3? -m tools\.programs\.run_cases\b": "the gate runs it, as it is long",
    r"\S*\$?python -m distributed\.cli\.": "it needs several machines",
    r"python3 -m tsb snmp\b": "test_snmp.py serves it, at a port that is free",
    r"snmp(get|set) \S": "test_snmp.py asks an agent by them",
    r"\S*\$?python -m tsb sweep .*--scheduler\b": "it needs several machines",
    r"cd crates/tsb_layer_runs\b": "the gate proves and runs that program",
    r"\.\./out/tsb_layer_runs\b": "the gate proves and runs that program",
}
#: Files that pages name and that their commands do not make.
FILES = {
    "README.md": {
        "plan.json": "examples/main_and_oak.json",
        "new.json": "examples/quad.json",
        "day.log": "examples/main_and_oak.log",
        "plans/one.json": "examples/main_and_oak.json",
        "plans/two.json": "examples/quad.json",
    },
    "docs/use/FIELD.md": {"plan.json": "examples/main_and_oak.json"},
    "docs/use/LIVE.md": {
        "plan.json": "examples/main_and_oak.json",
        "quad.json": "examples/quad.json",
    },
}
#: A day for the questions of the README: an hour of traffic from midnight on, the walk
#: of a controller, and the first 100 s of traffic of SUMO.
DAY = """
mkdir -p days
echo "step 36000" | tsb_field record --from "2026-11-22 00:00:00" --device 7 \\
    examples/quad.json examples/hour_of_traffic.log > day.csv
cp day.csv days/2026-11-22.csv
python3 -m tsb oids examples/main_and_oak.json > walk.txt
python3 -m tsb sumo example crossroads
cp crossroads/* .
grep -Ev 'depart="[0-9]{3,}' crossroads/routes.xml > routes.xml
"""
#: An hour of a controller's event log, as docs/use/PYTHON.md makes it in Python.
EXPORT = """
echo "step 36000" | tsb_field record --from "2026-11-22 07:00:00" --device 1001 \\
    examples/quad.json examples/hour_of_traffic.log > export.csv
"""
#: The files that the examples of help name.
MORNING = f"""
cp examples/quad.json plan.json
cp examples/hour_of_traffic.log day.log
tsb_field card plan.json > cabinet.txt
{EXPORT}
"""
#: A server, and how it is run: until it is stopped, as by Ctrl-C. (One that is still
#: beginning then ends with 130.)
SERVER = re.compile(r"((?:\S+ -m tsb|tsb-py) panel\b.*)")
SERVED = r"{ timeout --preserve-status --signal=INT 8 \1 || [ $? = 130 ]; }"
#: A comparison of plans, whose status is 1 where they differ: that is no fault.
DIFF = re.compile(r"((?:\S+ -m tsb|tsb-py) diff \S+ \S+)")
DIFFERS = r"{ \1 || [ $? = 1 ]; }"
#: An answer of tsb_live, as docs/use/LIVE.md shows it: all other lines are given.
ANSWER = re.compile(r"\d{7} .*|event \d{7} .*|ok")


def blocks(page: str) -> Iterator[tuple[str, str, str]]:
    """The blocks of a page: what comes after the fence, the text, and what a block
    of commands writes."""
    for kind, text, written in BLOCK.findall((TOP / page).read_text()):
        yield kind, text, written


def with_out(script: str) -> str:
    """A script with `:` in place of each command that is left out."""
    for pattern in LEFT_OUT:
        place = rf"(?m)^((?:.*?&& )?){pattern}[^&\n]*?(?= &&|  +#|$)"
        while re.search(place, script):
            script = re.sub(place, r"\1:", script)
    return script


def is_nothing(script: str) -> bool:
    """Whether all of its commands are left out."""
    return all(re.fullmatch(r"(: && )*:?( *#.*)?", it) for it in script.splitlines())


@pytest.fixture
def room(tmp_path: Path) -> Path:
    """A folder like the top of the repository, with the programs where they are
    built, and with `tsb-py` and the environment's `python3` on the path."""
    for name in ["examples", "tools", "python", "docs", "cases"]:
        (tmp_path / name).symlink_to(TOP / name)
    tools = tmp_path / "bin"
    tools.mkdir()
    for name in programs.PROGRAMS:
        built = tmp_path / "crates" / name / "out" / name
        built.parent.mkdir(parents=True)
        built.symlink_to(programs.find(name))
        (tools / name).symlink_to(programs.find(name))
    for name, words in {"tsb-py": " -m tsb", "python3": ""}.items():
        text = f'#!/bin/sh\nexec {shlex.quote(sys.executable)}{words} "$@"\n'
        (tools / name).write_text(text)
        (tools / name).chmod(0o755)
    return tmp_path


def typed(room: Path, script: str) -> str:
    """What a shell writes that is given a script; each command has to end well."""
    path = f"{room / 'bin'}{os.pathsep}{os.environ['PATH']}"
    done = subprocess.run(
        ["bash", "-eu", "-o", "pipefail", "-c", script], cwd=room, text=True,
        env={**os.environ, "PATH": path}, stdin=subprocess.DEVNULL, timeout=600,
        stdout=subprocess.PIPE, stderr=subprocess.PIPE,
    )  # fmt: skip
    assert done.returncode == 0, f"{script}\n{done.returncode} {done.stderr}"
    return done.stdout


def fill(room: Path, page: str) -> None:
    """Puts the files into a room that the commands of a page name and do not make."""
    for name, source in FILES.get(page, {}).items():
        (room / name).parent.mkdir(parents=True, exist_ok=True)
        (room / name).write_bytes((TOP / source).read_bytes())
    if page == "docs/use/PYTHON.md":
        typed(room, EXPORT)
    if page == "docs/use/SUMO.md":
        typed(room, "python3 -m tsb sumo example given && cp given/net.xml net.xml")
        at = Intersection.of(room / "net.xml", "C", room / "given/mapping.json")
        program = nema_of(crossroads.plan(pattern=True), at, pattern=1)
        (room / "program.add.xml").write_text(program)


@pytest.mark.parametrize("page", PAGES)
def test_commands_are_told_from_other_blocks(page: str) -> None:
    """A block that begins with a command says so after its fence."""
    for kind, text, _ in blocks(page):
        assert kind == "sh" or not COMMAND.match(text), f"{page}: {text}"


@pytest.mark.parametrize(
    "page", [it for it in PAGES if any(kind == "sh" for kind, _, _ in blocks(it))]
)
def test_commands_of_a_page(page: str, room: Path) -> None:
    """All of a page, one block after another in one folder, with what it says that they
    write."""
    fill(room, page)
    for kind, text, written in blocks(page):
        script = with_out(text)
        if kind == "sh" and not is_nothing(script):
            told = served(room, script)
            assert not written or told == written, script


def served(room: Path, script: str) -> str:
    """What a script writes; a server in it is stopped after some seconds, and has to
    print its address before."""
    told = typed(room, DIFF.sub(DIFFERS, SERVER.sub(SERVED, script)))
    assert not SERVER.search(script) or "http://127.0.0.1:" in told, script
    return told


def test_the_questions_of_the_readme(room: Path) -> None:
    """Each has a command that can be typed, on a day of the names that it has there."""
    fill(room, "README.md")
    typed(room, DAY)
    rows = re.findall(r"^\| [^|]*\? \| (.*) \|$", (TOP / "README.md").read_text(), re.M)
    typed_ones = [it for row in rows for it in re.findall(r"`(tsb\S* .*?)`", row)]
    assert len(rows) == 17 and len(typed_ones) == 16
    for command in typed_ones:
        served(room, command)


def test_live_sessions() -> None:
    """Those of docs/use/LIVE.md: each line that is no answer is given, and all answers
    come after it."""
    sessions = [
        text.splitlines()
        for _, text, _ in blocks("docs/use/LIVE.md")
        if text.startswith("$ tsb_live ")
    ]
    assert len(sessions) >= 2
    for first, *lines in sessions:
        plan = TOP / "examples" / first.split()[-1]
        given = [it for it in lines if not ANSWER.fullmatch(it)]
        done = subprocess.run(
            [programs.find("tsb_live"), str(plan)], input="\n".join([*given, ""]),
            capture_output=True, text=True, timeout=60, check=True,
        )  # fmt: skip
        answers = [it for it in lines if ANSWER.fullmatch(it)]
        assert done.stdout.splitlines() == answers, first


def test_versions(room: Path) -> None:
    """All programs that print theirs print that of the repository."""
    version = (TOP / "VERSION").read_text()
    for name, told in [("tsb-py", "tsb"), ("tsb_field", "tsb_field"), ("tsb_live", "tsb_live")]:
        assert typed(room, f"{name} --version") == f"{told} {version}"


#: Commands that have help, with the section of docs/use/FIELD.md that has their words.
HELPED = {name: f"## `tsb_field {name}`" for name in ["record", "log", "events", "diagram"]}


@pytest.mark.parametrize("name", HELPED)
def test_help_names_what_the_page_does(name: str, room: Path) -> None:
    """Each word of the page's table, after the usage."""
    section = (TOP / "docs/use/FIELD.md").read_text().split(HELPED[name])[1]
    table = section.split("\n|---|---|\n")[1].split("\n\n")[0]
    words = re.findall(r"--[a-z][a-z-]*", re.sub(r"(?m)^(\| [^|]*\|).*$", r"\1", table))
    told = typed(room, f"tsb_field {name} --help")
    assert told.startswith(f"usage: tsb_field {name} ") and len(words) >= 3
    assert [it for it in words if not re.search(rf"(?m)^{it}\b", told)] == []


@pytest.mark.parametrize(
    "words",
    ["tsb_live", *(f"tsb_field {it}" for it in [*HELPED, "review", "worksheet", "card"])],
)
def test_examples_of_help(words: str, room: Path) -> None:
    """Each page of help ends with an example that can be typed."""
    typed(room, MORNING)
    told = typed(room, f"{words} --help")
    example = re.search(r"(?m)^(.*\b)?Example\b.*\n\n((?:    .*\n)+)", told)
    assert example is not None, told
    typed(room, example[2])


def test_slips(room: Path) -> None:
    """A word that is nearly right is refused, and the line has the right one."""
    done = subprocess.run(
        [room / "bin/tsb_field", "log", "--devise", "7"], capture_output=True, text=True,
        timeout=60, check=False,
    )  # fmt: skip
    told = "did you mean --device? --help lists the words\n"
    assert (done.returncode, done.stdout, done.stderr) == (2, "", told)


def test_each_command_that_is_left_out_is_in_a_page() -> None:
    """None is named for nothing."""
    text = "\n".join(
        script for page in PAGES for kind, script, _ in blocks(page) if kind == "sh"
    ) + (TOP / "README.md").read_text()  # fmt: skip
    assert [it for it in LEFT_OUT if not re.search(it, text)] == []
