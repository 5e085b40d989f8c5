"""A front panel in the browser: the intersection, the controller, time and the desk.

Each page has a live bench of its own. docs/use/PANEL.md shows what is on it.
"""

from collections.abc import Sequence


def main(words: Sequence[str]) -> int:
    """Carries out `python3 -m tsb panel PLAN [LOG]`; its status."""
    from tsb.panel.command import main as carry_out

    return carry_out(words)
