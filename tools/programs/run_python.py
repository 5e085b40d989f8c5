"""Runs the tests of the package in python/ with these programs: run_python.py PROGRAM ..; mypy; and a sample of mutants.

python/setup.sh first makes the environment that they run in. The last line is `N passed, M failed`.
"""
import os
import pathlib
import re
import signal
import subprocess
import sys
import tempfile
import xml.etree.ElementTree

from tools import TOP

PYTHON = TOP / "python"
# The seconds that all tests have at most; they take some 150 on four processors that do nothing else.
SECONDS = 1200
# The mutants of the sample (mutants.py), how they are drawn, and how many of them the tests have to notice.
SAMPLE, SEED, LEAST = 40, 1, 36


def counted(report: pathlib.Path) -> tuple[int, int]:
    """How many tests passed, and how many did not: one that is left out did not."""
    suites = list(xml.etree.ElementTree.parse(report).getroot().iter("testsuite"))
    tests, bad = (sum(int(it.get(name, 0)) for it in suites for name in names)
                  for names in (["tests"], ["failures", "errors", "skipped"]))
    return tests - bad, bad


def heed_interrupts() -> None:
    """Lets Ctrl-C act again. A shell that starts this in the background has it ignored, and tests send it."""
    signal.signal(signal.SIGINT, signal.SIG_DFL)


def environment(programs: list[str]) -> dict[str, str]:
    """The environment in which the package finds these programs."""
    folders = dict.fromkeys(str(pathlib.Path(it).resolve().parent) for it in programs)
    return {**os.environ, "TSB_BIN": os.pathsep.join(folders), "PYTHONDONTWRITEBYTECODE": "1"}


def tested(programs: list[str]) -> tuple[int, int]:
    """How many tests passed with these programs, and how many did not."""
    with tempfile.TemporaryDirectory(prefix="tsb-python-") as room:
        report = pathlib.Path(room, "report.xml")
        words = [".venv/bin/python", "-m", "pytest", "-q", "-p", "no:cacheprovider", f"--junitxml={report}",
                 f"--basetemp={room}/tests"]
        done = subprocess.run(words, cwd=PYTHON, env=environment(programs), stdin=subprocess.DEVNULL, timeout=SECONDS,
                              preexec_fn=heed_interrupts)
        passed, failed = counted(report) if report.is_file() else (0, 1)
    return passed, failed if failed or done.returncode == 0 else 1


def typed() -> tuple[int, int]:
    """Whether types are right by mypy."""
    words = [".venv/bin/python", "-m", "mypy", "--config-file", "pyproject.toml", "--cache-dir", os.devnull,
             "tsb", "tests"]
    done = subprocess.run(words, cwd=PYTHON, stdin=subprocess.DEVNULL)
    return (0, 1) if done.returncode else (1, 0)


def noticed(programs: list[str]) -> tuple[int, int]:
    """How many mutants of the sample the tests notice, and whether those are too few."""
    words = [PYTHON / ".venv/bin/python", "-m", "tools.programs.mutants", "--sample", str(SAMPLE), "--seed", str(SEED),
             "--least", str(LEAST), "quick"]
    done = subprocess.run(words, cwd=TOP, env=environment(programs), stdin=subprocess.DEVNULL, stdout=subprocess.PIPE,
                          text=True, timeout=SECONDS)
    print(done.stdout, end="", flush=True)
    said = re.search(r"(\d+) passed, \d+ failed\n\Z", done.stdout)
    return (int(said[1]), 0) if said and done.returncode == 0 else (0, 1)


def main(programs: list[str]) -> int:
    """Runs all, and gives the status to end with."""
    if not programs:
        sys.exit("usage: python3 -m tools.programs.run_python PROGRAM ..")
    subprocess.run([PYTHON / "setup.sh"], check=True)
    passed, failed = (sum(counts) for counts in zip(tested(programs), typed(), noticed(programs)))
    print(f"{passed} passed, {failed} failed")
    return 1 if failed else 0


if __name__ == "__main__":
    sys.exit(main(sys.argv[1:]))
