"""How far long work is: a bar where a terminal is, and nothing elsewhere."""

import sys
from collections.abc import Iterable, Iterator
from typing import TypeVar

T = TypeVar("T")


def progress(items: Iterable[T], what: str, total: int | None = None) -> Iterator[T]:
    """The items one after another, with a bar on standard error for work that is
    called so, where that is a terminal and tqdm is there."""
    if sys.stderr.isatty():
        try:
            from tqdm import tqdm
        except ImportError:
            pass
        else:
            yield from tqdm(items, desc=what, total=total, leave=False)
            return
    yield from items
