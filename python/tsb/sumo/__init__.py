"""Plans in a closed loop with SUMO: cars that react to what the bench shows.

`Intersection.of` joins a net, a traffic light and a mapping; `Loop` steps SUMO and the
benches together, and takes both back. docs/use/SUMO.md shows how.
"""

from collections.abc import Sequence

from tsb.sumo.draft import Draft
from tsb.sumo.intersection import Intersection
from tsb.sumo.loop import Diverged, Loop
from tsb.sumo.mapping import Mapping, MappingFault, Preempt
from tsb.sumo.nema import read_nema
from tsb.sumo.net import NetFault
from tsb.sumo.propose import propose
from tsb.sumo.simulation import SumoFailed
from tsb.sumo.trips import read_trips, summary

__all__ = [
    "Diverged",
    "Draft",
    "Intersection",
    "Loop",
    "Mapping",
    "MappingFault",
    "NetFault",
    "Preempt",
    "SumoFailed",
    "propose",
    "read_nema",
    "read_trips",
    "summary",
]


def main(words: Sequence[str]) -> int:
    """Carries out a command `python3 -m tsb sumo ..`; its status."""
    from tsb.sumo.command import main as carry_out

    return carry_out(words)
