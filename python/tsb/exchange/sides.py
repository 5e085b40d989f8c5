"""Sides of the barriers, which NTCIP 1202 leaves to the lists of concurrent phases and
to the sequences.

Phases that are concurrent are on one side, and so are those of two groups that come in
turns. A side comes before another where a ring serves it before.
"""

from collections.abc import Collection, Mapping, Sequence

from tsb.exchange.forms import PHASES

SIDES = 4

Group = frozenset[int]


def sides_of(
    rings: Mapping[int, int],
    concurrent: Mapping[int, Collection[int]],
    orders: Sequence[Sequence[int]],
) -> dict[int, int]:
    """The side of each phase of `rings`, numbered in the order of service; 0 for one
    that would be on a fifth side."""
    groups = _groups(rings, concurrent)
    before = _before(groups, orders)
    groups = _in_order(_joined(groups, before), before)
    while len(groups) > SIDES and (at := _of_one_ring(groups, rings)) is not None:
        groups[at : at + 2] = [groups[at] | groups[at + 1]]
    numbered = enumerate(groups, 1)
    return {it: side if side <= SIDES else 0 for side, group in numbered for it in group}


def _groups(
    rings: Mapping[int, int], concurrent: Mapping[int, Collection[int]]
) -> list[Group]:
    """Phases with those that are concurrent with them, and so on."""
    left, found = sorted(rings), []
    while left:
        group, more = set[int](), {left[0]}
        while more:
            group |= more
            more = {
                other for it in left for other in left
                if (it in group) != (other in group)
                and (it in concurrent[other] or other in concurrent[it])
            } - group  # fmt: skip
        found.append(frozenset(group))
        left = [it for it in left if it not in group]
    return found


def _before(
    groups: Sequence[Group], orders: Sequence[Sequence[int]]
) -> set[tuple[int, int]]:
    """Pairs of phases, where the first one's group is served before the second's in
    some order, with all that follows from it."""
    of = {it: group for group in groups for it in group}
    pairs = {
        (first, second)
        for order in orders
        for a, b in zip(order, order[1:], strict=False)
        if a in of and b in of and of[a] != of[b]
        for first in of[a]
        for second in of[b]
    }
    for middle in PHASES:
        pairs |= {
            (a, d) for a, b in pairs if b == middle for c, d in pairs if c == middle
        }
    return pairs


def _joined(groups: Sequence[Group], before: Collection[tuple[int, int]]) -> list[Group]:
    """The groups, where those that come before one another are made one."""
    found: list[Group] = []
    for group in groups:
        same = [
            it for it in found
            if any((a, b) in before and (b, a) in before for a in it for b in group)
        ]  # fmt: skip
        found = [it for it in found if it not in same]
        found.append(group.union(*same))
    return found


def _in_order(groups: list[Group], before: Collection[tuple[int, int]]) -> list[Group]:
    """The groups as they are served: of several that may be next the one with the
    lowest phase."""
    left, found = sorted(groups, key=min), []
    while left:
        free = [
            it for it in left
            if not any(
                (b, a) in before for a in it for other in left if other != it
                for b in other
            )
        ]  # fmt: skip
        found.append(free[0])
        left.remove(free[0])
    return found


def _of_one_ring(groups: Sequence[Group], rings: Mapping[int, int]) -> int | None:
    """The first group that has one ring's phases alone, as the next one has."""
    of = [{rings[it] for it in group} for group in groups]
    for at, (one, other) in enumerate(zip(of, of[1:], strict=False)):
        if len(one) == 1 and one == other:
            return at
    return None
