"""Rings and barriers as a picture: a row for each ring, a line at each barrier."""

from collections.abc import Mapping, Sequence
from html import escape

from markupsafe import Markup

from tsb.plan import Plan
from tsb.values import RINGS

BOX, HIGH, GAP, LEFT, RIGHT = 62, 34, 10, 58, 8  # px of a phase's box, and around it
TOP = 6


def drawing(plan: Plan, number: int) -> Markup:
    """The phases of a sequence in their order, as SVG."""
    rings = [_by_side(plan, number, ring + 1) for ring in range(RINGS)]
    sides = sorted({side for ring in rings for side in ring})
    widths = [max(len(ring.get(it, ())) for ring in rings) for it in sides]
    width = LEFT + sum(BOX * it + GAP for it in widths) + RIGHT
    height = 2 * TOP + RINGS * HIGH
    parts = [
        f'<svg xmlns="http://www.w3.org/2000/svg" viewBox="0 0 {width} {height}"'
        f' width="{width}" height="{height}" role="img"'
        f' aria-label="{escape(_told(rings, sides))}">'
    ]
    for row, ring in enumerate(rings):
        parts.append(_text(0, TOP + HIGH * row + 22, f"ring {row + 1}", "start"))
        at = LEFT
        for side, most in zip(sides, widths, strict=True):
            parts += _boxes(ring.get(side, ()), at, TOP + HIGH * row, BOX * most)
            at += BOX * most + GAP
    at = LEFT
    for most in widths[:-1]:
        at += BOX * most + GAP
        parts.append(_barrier(at - GAP // 2, height))
    return Markup("".join([*parts, "</svg>"]))


def _by_side(plan: Plan, number: int, ring: int) -> dict[int, list[int]]:
    """The phases of a ring in the order of a sequence, by their sides."""
    found: dict[int, list[int]] = {}
    for phase in plan.sequence(number, ring):
        found.setdefault(plan["phaseSide"][phase], []).append(phase)
    return found


def _told(rings: Sequence[Mapping[int, Sequence[int]]], sides: Sequence[int]) -> str:
    """The picture in words."""
    said = []
    for number, ring in enumerate(rings, 1):
        groups = (" ".join(map(str, ring.get(it, ()))) or "none" for it in sides)
        said.append(f"ring {number}: {' | '.join(groups)}")
    return "; ".join(said)


def _boxes(phases: Sequence[int], left: int, top: int, width: int) -> list[str]:
    """The boxes of phases, which share a width."""
    found = []
    for place, phase in enumerate(phases):
        each = width / len(phases)
        x = left + each * place
        found.append(
            f'<rect x="{x:.1f}" y="{top}" width="{each:.1f}" height="{HIGH}"'
            ' fill="#fff" stroke="#22282d"/>'
        )
        found.append(_text(x + each / 2, top + 22, str(phase), "middle"))
    return found


def _barrier(x: int, height: int) -> str:
    """A barrier."""
    return (
        f'<line x1="{x}" y1="0" x2="{x}" y2="{height}" stroke="#22282d"'
        ' stroke-width="4"/>'
    )


def _text(x: float, y: int, text: str, anchor: str) -> str:
    return (
        f'<text x="{x:.1f}" y="{y}" font-size="15" text-anchor="{anchor}">{text}</text>'
    )
