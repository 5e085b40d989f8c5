"""What went wrong, as a page shows it: what, why, and what to do about it."""

from typing import Any

from tsb.errors import (
    BadCommand,
    Error,
    LogFault,
    NoSuchTick,
    PlanFault,
    ProgramDied,
    Refused,
)
from tsb.panel.keep import NotKept
from tsb.panel.requests import BadRequest
from tsb.panel.session import BenchDied

RELOAD = "reload the page"
DIED = (
    "press “Start it again”: a new bench takes the run again, up to this tick; runs"
    " that were saved are as they were"
)


def told(title: str, text: str, cure: str = "", cause: str = "") -> dict[str, Any]:
    """A message with its parts, without the marks of the manual's code."""
    parts = {"title": title, "text": text, "cause": cause, "cure": cure}
    return {name: it.replace("`", "") for name, it in parts.items()}


def told_of(fault: Error) -> dict[str, Any]:
    """What a page gets of a fault."""
    match fault:
        case Refused():
            station = "" if fault.station is None else f" (station {fault.station})"
            text = fault.meaning + station
            return told(f"{fault.command}: {fault.line}", text, fault.cure, fault.cause)
        case PlanFault():
            rule = fault.rule
            if rule is not None:
                return told(fault.line, rule.holds, rule.cure, rule.cause)
            return told("the plan was refused", str(fault))
        case LogFault():
            return told("the log was refused", str(fault))
        case NoSuchTick():
            return told("there is no such tick", str(fault))
        case BadRequest() | BadCommand():
            return told("this was not done", str(fault))
        case NotKept():
            saved = "what was saved before is as it was, and so is this run"
            return told("not saved, or not read", str(fault), saved)
        case BenchDied() | ProgramDied():
            return told("the bench has ended", str(fault), DIED)
    return told("this was not done", str(fault))
