"""A page of charts and tables of one run or two, to look at and to hand on.

docs/use/PYTHON.md, "A page to hand on", has its words, and says what each number means.
"""

from collections.abc import Sequence

from tsb.errors import Error


def main(words: Sequence[str]) -> int:
    """Carries out `python3 -m tsb report ..`; its status."""
    try:
        from tsb.report.command import main as carry_out
    except ModuleNotFoundError as missing:
        raise Error(f"a report needs {missing.name}: python/setup.sh has it") from None
    return carry_out(words)
