"""A plan and a mapping that were begun, with what has to be looked at."""

from dataclasses import dataclass, field

from tsb.plan import Plan
from tsb.sumo.mapping import Mapping


@dataclass
class Draft:
    """A plan and a mapping that were worked out, and notes of what was guessed, what
    was rounded, and what could not be found."""

    plan: Plan
    mapping: Mapping
    notes: list[str] = field(default_factory=list)
