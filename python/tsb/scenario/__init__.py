"""Scenario files: tests of a plan that an engineer writes, and what comes of them.

A file (`.scenario`) names a plan, inputs and commands by tick, and what is expected of
heads, events and waits. docs/use/SCENARIOS.md has its lines. `python3 -m tsb test` runs
files, and pytest by the plugin that this package has for it.
"""

from tsb.scenario.faults import ScenarioFault
from tsb.scenario.play import Miss, Result, play, source_of
from tsb.scenario.text import SUFFIX, Scenario

__all__ = [
    "SUFFIX",
    "Miss",
    "Result",
    "Scenario",
    "ScenarioFault",
    "play",
    "source_of",
]
