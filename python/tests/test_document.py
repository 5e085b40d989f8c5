"""The code of docs/use/PYTHON.md, run as an engineer would."""

import contextlib
import io
import re
from pathlib import Path
from typing import Any

import pytest

BLOCK = re.compile(
    r"^```python\n(.*?)^```\n(?:\nIt prints\n\n```\n(.*?)^```\n)?", re.M | re.S
)


def test_the_document_prints_what_it_says(
    top: Path, tmp_path: Path, monkeypatch: pytest.MonkeyPatch
) -> None:
    """Block after block, in one session."""
    (tmp_path / "examples").symlink_to(top / "examples")
    monkeypatch.chdir(tmp_path)
    blocks = BLOCK.findall((top / "docs/use/PYTHON.md").read_text())
    assert len(blocks) >= 7
    names: dict[str, Any] = {}
    for code, wanted in blocks:
        told = io.StringIO()
        with contextlib.redirect_stdout(told):
            exec(code, names)
        assert told.getvalue() == wanted, code
    assert (tmp_path / "terminations.png").stat().st_size > 5000
    assert (tmp_path / "longer.json").is_file()


def test_the_example_is_short(top: Path) -> None:
    """Thirty lines from the export to the picture."""
    blocks = BLOCK.findall((top / "docs/use/PYTHON.md").read_text())
    example = next(code for code, _ in blocks if "read_export" in code)
    assert len([it for it in example.splitlines() if it.strip()]) <= 30
