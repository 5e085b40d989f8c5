"""What the bench says of the patterns of a plan: splits with the green that each leaves,
force-off instants and yields, and what crossings leave.

Nothing is worked out here: `tsb_field worksheet` prints it.
"""

from collections.abc import Mapping
from dataclasses import dataclass, field

from tsb.manual import NEWEST
from tsb.plan import Plan


@dataclass(frozen=True)
class Timing:
    """The times of a pattern, by phase and in tenths of a second.

    `force_offs` and `yields` are places of the local counter: the force-off instant of
    each phase that the pattern serves, and those of its coordinated phases, at which
    they yield. `greens` is what yellow and red clearance leave of a split, and
    `margins` what such a green has over walk and clearance.
    """

    splits: Mapping[int, int]
    greens: Mapping[int, int]
    force_offs: Mapping[int, int]
    yields: Mapping[int, int]
    margins: Mapping[int, int] = field(default_factory=dict)


def timings_of(plan: Plan) -> dict[int, Timing]:
    """The times of each used pattern of a plan that `tsb check` takes."""
    wide = plan.wide(NEWEST)
    if not wide["patternCycleTime"]:
        return {}
    shares = plan.worksheet().shares
    found = {}
    for pattern in wide["patternCycleTime"]:
        table, of = wide["patternSplitNumber"][pattern], shares[pattern]
        force_offs = {it: at for it in of if (at := of[it].force_off) is not None}
        coordinated = {it for it in of if wide["splitCoordPhase"][table, it]}
        found[pattern] = Timing(
            {it: 10 * wide["splitTime"][table, it] for it in wide.phases},
            {it: share.green for it, share in of.items()},
            force_offs,
            {it: at for it, at in force_offs.items() if it in coordinated},
            {
                it: crossing.margin
                for it, share in of.items()
                if (crossing := share.crossing) is not None
            },
        )
    return found
