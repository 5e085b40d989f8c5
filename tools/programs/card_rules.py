"""What `tsb_field card` writes, read a second time: from docs/use/FIELD.md and examples/ARROWS.md, and the plan's JSON,
and from nothing of the crates.
"""
import itertools

from tools.programs.review_rules import Plan, Table

CHANNELS = range(1, 17)
VEHICLES, PEDESTRIANS, OVERLAP, ARROW = 2, 3, 4, 2
# What channels show in a plan that names none: type and source.
USUAL = {c: (VEHICLES, c) for c in range(1, 9)} | {c: (OVERLAP, c - 8) for c in range(9, 13)} | {
    c: (PEDESTRIANS, 2 * (c - 12)) for c in range(13, 17)}

Pair = tuple[int, int]


class Card(Plan):
    """A plan, as the program card of a monitor sees it."""

    def listed(self, name: str, index: int) -> set[int]:
        """The phases of a list."""
        number = self.value(name, index)
        return {p for p in range(1, 17) if number >> (p - 1) & 1}

    def shown(self) -> dict[int, Pair]:
        """The type and the source of each channel."""
        named = {c: (self.value("channelControlType", c), self.value("channelControlSource", c)) for c in CHANNELS}
        return named if any(it != (0, 0) for it in named.values()) else USUAL

    def lit_by(self, kind: int, source: int) -> set[int]:
        """The phases that light a channel, each by itself."""
        if kind == OVERLAP and source:
            included = self.listed("overlapIncludedPhases", source)
            is_arrow = self.value("overlapType", source) == ARROW and bool(included)
            return included | (self.listed("overlapModifierPhases", source) if is_arrow else set())
        is_there = kind == VEHICLES or kind == PEDESTRIANS and self.phase("Walk", source) > 0
        return {source} if is_there and source in self.enabled else set()

    def pairs(self) -> list[Pair]:
        """The pairs of channels that may be lit at once."""
        lit = {c: self.lit_by(*it) for c, it in self.shown().items()}
        return [(a, b) for a, b in itertools.combinations(CHANNELS, 2)
                if any(p == q or self.together(p, q) for p in lit[a] for q in lit[b])]


def text_of(pairs: list[Pair]) -> str:
    """A card: a pair a line."""
    return "".join(f"{a}-{b}\n" for a, b in pairs)


def card(text: Table) -> list[Pair]:
    """The pairs of a plan's card."""
    return Card(text).pairs()


def differences(wanted: list[Pair], found: list[Pair]) -> str:
    """What a card has otherwise than the one that is wanted, in the order of pairs."""
    return "".join(f"{'missing' if it in wanted else 'too many'} {it[0]}-{it[1]}\n" for it in sorted({*wanted} ^ {*found}))
