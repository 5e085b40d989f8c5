"""A proved bench for signal timing plans that can be wound back.

`Bench` runs a plan tick by tick, `Plan` is a plan by the names of its objects, and
`tsb.frames` and `tsb.measures` make tables of what came of it. docs/use/PYTHON.md shows
how they go together.
"""

from tsb.bench import Bench, Saved, Transaction
from tsb.errors import (
    BadCommand,
    Error,
    LogFault,
    NoProgram,
    NoSuchObject,
    NoSuchTick,
    OutOfRange,
    PlanFault,
    ProgramDied,
    Refused,
)
from tsb.lines import Display, Event, Lines
from tsb.plan import Plan
from tsb.rows import Log, row
from tsb.status import Status
from tsb.values import seconds

__version__ = "1.0.0"

__all__ = [
    "BadCommand",
    "Bench",
    "Display",
    "Error",
    "Event",
    "Lines",
    "Log",
    "LogFault",
    "NoProgram",
    "NoSuchObject",
    "NoSuchTick",
    "OutOfRange",
    "Plan",
    "PlanFault",
    "ProgramDied",
    "Refused",
    "Saved",
    "Status",
    "Transaction",
    "row",
    "seconds",
]
