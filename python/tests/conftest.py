"""What the tests share: they run the real programs on the repository's examples."""

from pathlib import Path

import pytest

TOP = Path(__file__).resolve().parents[2]


@pytest.fixture
def top() -> Path:
    """The top of the repository."""
    return TOP


@pytest.fixture
def examples() -> Path:
    """The folder of examples."""
    return TOP / "examples"
