"""The program card of a conflict monitor: which pairs of its 16 channels are permissive.

`tsb_field card` says what the card of a plan has, and nothing is worked out here.
docs/use/FIELD.md says which channels show what.
"""

import re
from collections.abc import Iterable
from dataclasses import dataclass

#: Two channels, the lower one first.
Pair = tuple[int, int]

_PAIR = re.compile(r"(\d+)-(\d+)")


@dataclass(frozen=True)
class Differences:
    """What a card has otherwise than that of a plan: jumpers that it has too many,
    which a monitor of this plan must not have, and those that are missing, without
    which it trips on displays that are right."""

    too_many: tuple[Pair, ...] = ()
    missing: tuple[Pair, ...] = ()

    def __bool__(self) -> bool:
        """Whether there are any."""
        return bool(self.too_many or self.missing)


def text_of(pairs: Iterable[Pair]) -> str:
    """The text of a card: a pair a line, its lower channel first."""
    return "".join(f"{min(it)}-{max(it)}\n" for it in pairs)


def pairs_of(lines: Iterable[str]) -> tuple[Pair, ...]:
    """The pairs of a card's lines; `ValueError` names a line that is none of it."""
    return tuple(map(_pair, lines))


def differences_of(lines: Iterable[str]) -> Differences:
    """What lines of `tsb_field card --against` say; `ValueError` names one that is none
    of them."""
    found: dict[str, list[Pair]] = {"too many": [], "missing": []}
    for line in lines:
        what, _, pair = line.rpartition(" ")
        if what not in found:
            raise ValueError(f"no line of a card: {line}")
        found[what].append(_pair(pair))
    return Differences(*(tuple(it) for it in found.values()))


def _pair(line: str) -> Pair:
    """The pair of a line."""
    found = _PAIR.fullmatch(line)
    if found is None:
        raise ValueError(f"no line of a card: {line}")
    return int(found[1]), int(found[2])
