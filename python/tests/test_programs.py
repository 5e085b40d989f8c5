"""How programs are found, and what is raised where they are not there or have died."""

import os
import re
import signal
import subprocess
import sys
from pathlib import Path

import pytest
import tsb
from tsb import programs
from tsb.panel.keep import Source
from tsb.panel.run import Run
from tsb.panel.state import state_of


def a_program(folder: Path, name: str = "tsb") -> Path:
    """A file that can be run."""
    folder.mkdir(parents=True)
    path = folder / name
    path.write_text("#!/bin/sh\nexit 0\n")
    path.chmod(0o755)
    return path


def test_the_first_folder_that_has_it(
    tmp_path: Path, monkeypatch: pytest.MonkeyPatch
) -> None:
    """TSB_BIN comes before what the repository built, and that before PATH."""
    named = a_program(tmp_path / "named")
    built = a_program(tmp_path / "crates/tsb/out")
    on_path = a_program(tmp_path / "path")
    monkeypatch.setattr(programs, "REPOSITORY", tmp_path)
    monkeypatch.setenv("PATH", str(on_path.parent))
    monkeypatch.setenv("TSB_BIN", f"{tmp_path / 'none'}{os.pathsep}{named.parent}")
    with pytest.warns(UserWarning, match=f"TSB_BIN: there is no folder {tmp_path}/none"):
        assert programs.find("tsb") == named
    monkeypatch.delenv("TSB_BIN")
    assert programs.find("tsb") == built
    built.unlink()
    assert programs.find("tsb") == on_path
    on_path.unlink()
    with pytest.raises(tsb.NoProgram, match="`tools/build tsb`") as told:
        programs.find("tsb")
    assert "\n" not in str(told.value)


def test_programs_without_a_proof(
    tmp_path: Path, monkeypatch: pytest.MonkeyPatch
) -> None:
    """Only where they are asked for by name; then no other is taken, and all that
    they make is marked."""
    proved = a_program(tmp_path / "named")
    unproved = a_program(tmp_path / "unproved", "unproved_tsb")
    monkeypatch.setenv("TSB_BIN", f"{unproved.parent}{os.pathsep}{proved.parent}")
    monkeypatch.delenv("TSB_UNPROVED", raising=False)
    assert programs.find("tsb") == proved and programs.marked("a") == "a"
    monkeypatch.setenv("TSB_UNPROVED", str(unproved.parent))
    assert programs.find("tsb") == unproved
    assert programs.marked("a") == "UNPROVED: a"
    unproved.unlink()
    with pytest.raises(tsb.NoProgram, match="tools/look builds it"):
        programs.find("tsb")


def test_what_the_panel_says_of_unproved_programs(
    examples: Path, tmp_path: Path, monkeypatch: pytest.MonkeyPatch
) -> None:
    """The heading of its page says so."""
    for it in programs.PROGRAMS:
        (tmp_path / f"unproved_{it}").symlink_to(programs.find(it))
    monkeypatch.setenv("TSB_UNPROVED", str(tmp_path))
    plan, log = examples / "quad.json", examples / "preempt_and_undo.log"
    run = Run(Source.read(plan, log))
    try:
        assert state_of(run)["source"].startswith("UNPROVED: quad.json")
    finally:
        run.close()


def test_the_version() -> None:
    """It is printed, and it is that of the change log, once it has one."""
    words = [sys.executable, "-m", "tsb", "--version"]
    done = subprocess.run(words, capture_output=True, text=True, check=True)
    assert done.stdout == f"tsb {tsb.__version__}\n"
    assert all(it.isdecimal() for it in tsb.__version__.split("."))


def test_a_folder_that_is_not_there_is_told(tmp_path: Path) -> None:
    """In a line, whatever is found elsewhere."""
    words = [sys.executable, "-m", "tsb"]
    folder = f"{tmp_path / 'none'}{os.pathsep}{os.environ.get('TSB_BIN', '')}"
    done = subprocess.run(
        words, capture_output=True, text=True, env={**os.environ, "TSB_BIN": folder}
    )
    assert done.stderr == f"tsb: TSB_BIN: there is no folder {tmp_path}/none\n"


@pytest.mark.parametrize("words", [[], ["--version"], ["new", "--help"]])
def test_nobody_reads_on(words: list[str]) -> None:
    """As behind `head`: it ends without a word."""
    ends = os.pipe()
    os.close(ends[0])
    done = subprocess.run(
        [sys.executable, "-m", "tsb", *words], stdout=ends[1], stderr=subprocess.PIPE
    )
    os.close(ends[1])
    assert (done.returncode, done.stderr) == (141, b"")


def test_a_program_that_ends_badly() -> None:
    """The error has its status and what it said."""
    with pytest.raises(tsb.ProgramDied) as told:
        programs.run("tsb", ["walk"])
    assert told.value.status == 2 and "usage: tsb check PLAN" in told.value.stderr
    assert str(told.value).startswith("tsb ended with status 2: usage")


def test_a_program_that_is_killed(examples: Path) -> None:
    """The next question says so, and the bench can still be closed."""
    with tsb.Bench(examples / "quad.json") as bench:
        bench.step(3)
        os.kill(bench.process, signal.SIGKILL)
        with pytest.raises(tsb.ProgramDied, match="tsb_live ended by signal 9"):
            bench.tick()
        with pytest.raises(tsb.ProgramDied):
            bench.step(100)


def test_the_list_of_what_there_is(tmp_path: Path) -> None:
    """`python3 -m tsb` names each program and where it is, or how it is built."""
    words = [sys.executable, "-m", "tsb"]
    done = subprocess.run(words, capture_output=True, text=True, check=True)
    assert all(str(programs.find(it)) in done.stdout for it in programs.PROGRAMS)
    assert all(f"  {it} " in done.stdout for it in ("panel", "sumo", "sweep", "plan"))
    bad = subprocess.run([*words, "walk"], capture_output=True, text=True, check=False)
    assert bad.returncode == 2 and "no command walk" in bad.stderr


# The packages of Debian that not all commands need, each with its module.
MODULES = {
    "python3-aiohttp": "aiohttp", "python3-jinja2": "jinja2",
    "python3-matplotlib": "matplotlib", "python3-dask": "dask",
    "python3-distributed": "distributed", "python3-selenium": "selenium",
    "python3-pytest": "pytest", "python3-hypothesis": "hypothesis",
    "python3-pysnmp4": "pysnmp",
    "sumo-tools": "sumolib",
}  # fmt: skip
ALL_OF = """import importlib, pkgutil, sys
sys.modules.update(dict.fromkeys(sys.argv[2:]))
from tsb.__main__ import module
found = importlib.import_module(module(sys.argv[1]))
for it in pkgutil.iter_modules(getattr(found, "__path__", [])):
    importlib.import_module(f"{found.__name__}.{it.name}")
"""


#: Commands that go without any of these.
BARE = ["sweep", "new", "test", "preempt", "oids", "plan", "utdf"]


@pytest.mark.parametrize("command", ["panel", "report", "snmp", "pull", *BARE])
def test_a_command_needs_what_is_installed_for_it(command: str) -> None:
    """`python/setup.sh COMMAND` installs it, and no other package is imported."""
    text = (programs.REPOSITORY / "python/setup.sh").read_text()
    said = re.search(rf'\[{command}\]="([^"]*)"|\[{command}\]=(\S+)', text)
    assert said is not None
    installed = (said[1] or said[2] or "").split()
    others = [it for name, it in MODULES.items() if name not in installed]
    assert len(others) < len(MODULES) or command in BARE
    words = [sys.executable, "-c", ALL_OF, command, *others]
    done = subprocess.run(words, capture_output=True, text=True)
    assert (done.returncode, done.stderr) == (0, "")


def test_what_is_no_command_installs_nothing() -> None:
    words = [str(programs.REPOSITORY / "python/setup.sh"), "panel", "walk"]
    done = subprocess.run(words, capture_output=True, text=True)
    assert done.returncode == 2 and not done.stdout
    assert done.stderr.startswith("python/setup.sh: there is no command walk: ")
