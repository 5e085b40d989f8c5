"""The words of a command, where a wrong one is answered with the nearest right one, and
how the command is called."""

import argparse
import difflib
import sys
from collections.abc import Iterable, Iterator, Sequence
from pathlib import Path
from typing import Any, NoReturn

#: How commands are called: by that of an installed package, or by its module.
INSTALLED, MODULE = "tsb-py", "python3 -m tsb"

#: How alike two words are that are near one another: 1 where they are the same.
NEAR = 0.65


def called(command: str = "") -> str:
    """A command as who runs this program calls it: `tsb-py report` by the command of an
    installed package, and else `python3 -m tsb report`."""
    is_installed = Path(*sys.argv[:1]).name == INSTALLED
    return f"{INSTALLED if is_installed else MODULE} {command}".rstrip()


def nearest(word: str, known: Iterable[str]) -> str | None:
    """The right word that a wrong one is nearest to, if it is near one at all."""
    found = difflib.get_close_matches(word.lower(), list(known), n=1, cutoff=NEAR)
    return found[0] if found else None


class Words(argparse.ArgumentParser):
    """The words of a command. `others` are commands that may take their place."""

    def __init__(self, *words: Any, others: Sequence[str] = (), **more: Any) -> None:
        super().__init__(*words, **more)
        self._others = others
        self._given: list[str] = []

    def parse_known_args(self, args: Any = None, namespace: Any = None) -> Any:
        """As argparse does, which reports a bad word by `error`."""
        self._given = list(sys.argv[1:] if args is None else args)
        return super().parse_known_args(args, namespace)

    def error(self, message: str) -> NoReturn:
        """Ends the program with status 2, after the usage and what is wrong."""
        super().error(self.with_nearest(message))

    def with_nearest(self, message: str) -> str:
        """What is wrong, and which right words were perhaps meant."""
        meant = [f"{wrong}: did you mean {right}?" for wrong, right in self._meant()]
        return "; ".join([message, *meant])

    def _meant(self) -> Iterator[tuple[str, str]]:
        """The wrong words that are near right ones, each with that."""
        first = self._given[0] if self._given else ""
        if (right := nearest(first, self._others)) is not None:
            yield first, right
        known = [it[2:] for it in self._option_string_actions if it.startswith("--")]
        for word in self._given:
            name = word.partition("=")[0]
            if not name.startswith("--") or self._is_known(name[2:], known):
                continue
            if (right := nearest(name[2:], known)) is not None:
                yield name, f"--{right}"

    def _is_known(self, name: str, known: Iterable[str]) -> bool:
        """Whether a name is one of those, or short for some, where it may be."""
        return any(
            it == name or self.allow_abbrev and it.startswith(name) for it in known
        )
