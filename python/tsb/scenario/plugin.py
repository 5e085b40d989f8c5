"""The plugin of pytest that collects scenario files: each is a test, or one for each
plan that `--tsb-plan` names."""

from collections.abc import Iterator
from pathlib import Path
from typing import Any

import pytest

from tsb.errors import Error
from tsb.scenario.play import Result, play
from tsb.scenario.text import SUFFIX, Scenario

OPTION = "--tsb-plan"


class NotMet(Exception):
    """A scenario with lines that are not met."""

    def __init__(self, result: Result) -> None:
        super().__init__(result.text)


def pytest_addoption(parser: pytest.Parser) -> None:
    """Adds the option that names plans."""
    parser.getgroup("tsb").addoption(
        OPTION,
        action="append",
        default=[],
        metavar="PLAN",
        help="run scenario files on this plan in place of their own; may come again",
    )


def pytest_collect_file(
    file_path: Path, parent: pytest.Collector
) -> "ScenarioFile | None":
    """Collects a scenario file."""
    if file_path.suffix != SUFFIX:
        return None
    found: ScenarioFile = ScenarioFile.from_parent(parent, path=file_path)
    return found


class ScenarioFile(pytest.File):
    """A scenario file."""

    def collect(self) -> Iterator["ScenarioItem"]:
        """Its test, or one for each plan that is named."""
        start = self.config.invocation_params.dir
        path = shorter(self.path, start)
        try:
            scenario = Scenario.read(path)
        except Error as fault:
            raise self.CollectError(str(fault)) from None
        plans: list[Path | None] = [*map(Path, self.config.getoption(OPTION))]
        for plan in plans or [None]:
            name = (plan or scenario.plan or path).stem
            yield ScenarioItem.from_parent(
                self, name=name, scenario=scenario, plan=plan
            )


class ScenarioItem(pytest.Item):
    """A scenario on a plan."""

    def __init__(self, *, scenario: Scenario, plan: Path | None, **more: Any) -> None:
        super().__init__(**more)
        self._scenario, self._plan = scenario, plan

    def runtest(self) -> None:
        """Runs it."""
        result = play(self._scenario, self._plan)
        if result.left_out is not None:
            pytest.skip(f"{result.plan}: {result.left_out}")
        if result.misses:
            raise NotMet(result)

    def repr_failure(
        self, excinfo: pytest.ExceptionInfo[BaseException], *_: Any
    ) -> Any:
        """What is not met, or the fault."""
        if isinstance(excinfo.value, NotMet | Error):
            return str(excinfo.value)
        return super().repr_failure(excinfo)

    def reportinfo(self) -> tuple[Path, int, str]:
        """Where it is, and its name."""
        return self.path, 0, f"{self.path.name} on {self.name}"


def shorter(path: Path, start: Path) -> Path:
    """A path from a folder on, where it lies in that."""
    return path.relative_to(start) if path.is_relative_to(start) else path
