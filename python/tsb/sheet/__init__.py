"""A timing sheet of a plan: a page to print, and tables that a spreadsheet edits.

docs/use/PYTHON.md, "A timing sheet", says what is on it.
"""

from collections.abc import Sequence

from tsb.errors import Error


def main(words: Sequence[str]) -> int:
    """Carries out `python3 -m tsb sheet ..`; its status."""
    try:
        from tsb.sheet.command import main as carry_out
    except ModuleNotFoundError as missing:
        raise Error(f"a sheet needs {missing.name}: python/setup.sh has it") from None
    return carry_out(words)
