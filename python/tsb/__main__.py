"""`python3 -m tsb` lists what there is; `python3 -m tsb WORD ..` does it.

`python3 -m tsb --version` prints the version, and `--help` lists as well.
"""

import ast
import importlib
import importlib.util
import os
import sys
import warnings
from collections.abc import Iterator
from contextlib import suppress
from pathlib import Path
from typing import TextIO

from tsb import __version__, programs
from tsb.errors import Error, NoProgram, shown
from tsb.options import called, nearest

# Modules with a function `main(words)`, which gives the status to end with.
COMMANDS = (
    "new", "sumo", "sweep", "panel", "report", "test",
    "diff", "sheet", "preempt", "oids", "utdf", "plan", "snmp", "pull",
)  # fmt: skip
# Those whose modules have other names.
MODULES = {
    "oids": "exchange.oids",
    "utdf": "exchange.utdf",
    "plan": "exchange.plans",
    "snmp": "exchange.snmp",
    "pull": "exchange.pull",
}
CLOSED = 141  # the status where nobody reads any more: 128 and SIGPIPE


def module(name: str) -> str:
    """The module of a command."""
    return f"tsb.{MODULES.get(name, name)}"


def commands() -> Iterator[tuple[str, str]]:
    """The commands that there are, each with the first line of what it says of
    itself."""
    for name in COMMANDS:
        found = importlib.util.find_spec(module(name))
        if found is not None and found.origin is not None:
            text = Path(found.origin).read_text(encoding="utf-8")
            said = ast.get_docstring(ast.parse(text)) or ""
            yield name, said.partition("\n")[0]


def listed() -> Iterator[str]:
    """What there is."""
    yield programs.marked("programs:")
    for name in programs.PROGRAMS:
        try:
            yield f"  {name:9} {programs.find(name)}"
        except NoProgram as missing:
            yield f"  {name:9} {missing}"
    yield f"commands: {called('COMMAND')} .."
    yield from (f"  {name:9} {said}" for name, said in commands())


def unknown(name: str) -> str:
    """What is said of a word that is no command."""
    right = nearest(name, COMMANDS)
    meant = "" if right is None else f", did you mean {right}?"
    return f"there is no command {shown(name)}{meant}; {called()} lists them"


def forget_folder() -> None:
    """Nothing more is imported from the folder in which the command is given: Python
    looks there first, and its files may be anybody's."""
    with suppress(FileNotFoundError):
        here = os.getcwd()
        if sys.path[:1] == [here] and str(Path(__file__).resolve().parents[1]) != here:
            del sys.path[0]


def tell(
    message: Warning | str,
    category: type[Warning],
    filename: str,
    lineno: int,
    file: TextIO | None = None,
    line: str | None = None,
) -> None:
    """Tells a warning in its own words, as a person needs no line of a program."""
    print(f"tsb: {message}", file=sys.stderr)


def main(words: list[str]) -> int:
    """Runs a command, and gives the status to end with."""
    warnings.showwarning = tell
    if words in ([], ["-h"], ["--help"]):
        print("\n".join(listed()))
        return 0
    name, *more = words
    if words == ["--version"]:
        print(f"tsb {__version__}")
        return 0
    if name not in dict(commands()):
        print(unknown(name), file=sys.stderr)
        return 2
    try:
        status: int = importlib.import_module(module(name)).main(more)
    except Error as fault:
        print(fault, file=sys.stderr)
        return 1
    except BrokenPipeError:
        raise
    except OSError as fault:
        where = fault.filename or name
        print(f"{shown(where)}: {fault.strerror or fault}", file=sys.stderr)
        return 1
    except KeyboardInterrupt:
        print("stopped", file=sys.stderr)
        return 130
    return status


def console() -> int:
    """The command `tsb-py` of an installed package. Where nobody reads on, as behind
    `head`, it ends without a word, with the status that a shell has for that."""
    try:
        status = main(sys.argv[1:])
        sys.stdout.flush()
    except BrokenPipeError:
        os.dup2(os.open(os.devnull, os.O_WRONLY), sys.stdout.fileno())
        return CLOSED
    return status


if __name__ == "__main__":
    forget_folder()
    sys.exit(console())
