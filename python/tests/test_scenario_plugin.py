"""Scenario files as tests of pytest, by the plugin as an installed package has it."""

import xml.etree.ElementTree
from pathlib import Path

import pytest

pytest_plugins = ["pytester"]

GOOD = "plan quad.json\nat 10 V4 on\nexpect P4 G by 91\n"
BAD = "plan quad.json\nat 10 V4 on\nexpect P4 G by 91\nexpect P2 G at 51\n"
WALK = "plan quad.json\nneeds phaseWalk.4\nexpect P2 G at 1\n"
FAILED = """\
bad.scenario:4: not met: expect P2 G at 51
  expected: P2 G in each tick at 51
  came: P2 Y at 51
  tick 51: 0000051 RYRRRYRR-------- -D-------------- Y--- 0 ----
  phase 2 waits for phase 4, to which its ring is committed
  phase 4 waits for phase 2 to clear: 4.0 s left
  phase 6 waits for phase 8, to which its ring is committed
  panel: python3 -m tsb test bad.scenario --panel=51
"""


@pytest.fixture
def plans(pytester: pytest.Pytester, examples: Path) -> pytest.Pytester:
    """A folder with plans and scenario files."""
    for name in ("quad", "main_and_oak"):
        text = (examples / f"{name}.json").read_text()
        (pytester.path / f"{name}.json").write_text(text)
    for name, text in {"bad": BAD, "good": GOOD, "walk": WALK}.items():
        (pytester.path / f"{name}.scenario").write_text(text)
    return pytester


def test_each_file_is_a_test(plans: pytest.Pytester) -> None:
    """Met, not met with its text, and left out with the reason."""
    done = plans.runpytest_inprocess("-v", "-rs", "-p", "no:cacheprovider")
    done.assert_outcomes(passed=1, failed=1, skipped=1)
    done.stdout.fnmatch_lines([
        "bad.scenario::quad FAILED *", "good.scenario::quad PASSED *",
        "walk.scenario::quad SKIPPED *", "SKIPPED * quad.json: phaseWalk.4 is 0",
    ])  # fmt: skip
    assert f"\n{FAILED}" in done.stdout.str() and "Traceback" not in done.stdout.str()


def test_a_test_for_each_plan(plans: pytest.Pytester) -> None:
    """That are named; the command of a failure has the plan. In main_and_oak phase 4 is
    green later than 91."""
    words = ["--tsb-plan=quad.json", "--tsb-plan=main_and_oak.json", "good.scenario"]
    done = plans.runpytest_inprocess(*words, "-p", "no:cacheprovider")
    done.assert_outcomes(passed=1, failed=1)
    told = (
        "  panel: python3 -m tsb test good.scenario --panel=91 --plan=main_and_oak.json"
    )
    done.stdout.fnmatch_lines([told])


def test_selection_and_results(plans: pytest.Pytester) -> None:
    """By name, and as JUnit."""
    words = ["-k", "good or bad", "--junitxml=out.xml", "-p", "no:cacheprovider"]
    plans.runpytest_inprocess(*words).assert_outcomes(passed=1, failed=1, deselected=1)
    root = xml.etree.ElementTree.parse(plans.path / "out.xml").getroot()
    cases = {it.get("classname"): it for it in root.iter("testcase")}
    assert sorted(map(str, cases)) == ["bad.scenario", "good.scenario"]
    (failure,) = cases["bad.scenario"].iter("failure")
    assert failure.text == FAILED.rstrip()


def test_faults(plans: pytest.Pytester) -> None:
    """A file that can't be read is an error of collection, a plan that is refused a
    failure: one line each."""
    (plans.path / "worse.scenario").write_text("plan quad.json\nat 1 V65 on\n")
    (plans.path / "none.scenario").write_text("plan none.json\nexpect P2 G at 1\n")
    words = ["--continue-on-collection-errors", "worse.scenario", "none.scenario"]
    done = plans.runpytest_inprocess(*words, "-p", "no:cacheprovider")
    done.assert_outcomes(failed=1, errors=1)
    done.stdout.fnmatch_lines([
        "worse.scenario:2: V65: no input: V1 to V64, B1 to B16 and I1 to I8 are inputs",
        "none.json: No such file or directory",
    ])  # fmt: skip


def test_parallel_runs(plans: pytest.Pytester) -> None:
    """Two processes have the same tests."""
    done = plans.runpytest_subprocess("-n", "2", "-p", "no:cacheprovider")
    done.assert_outcomes(passed=1, failed=1, skipped=1)
