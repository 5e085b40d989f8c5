"""Where the instructions of a session go, for tools/speed: its functions, as callgrind counts them."""

import re
import subprocess

from tools.speed.kit import Setup, Table, rounded
from tools.speed.sessions import COUNTED, PLAN, random_log_path, session

# A line of callgrind_annotate: instructions, and the function, with its path of modules and without its types.
LINE = re.compile(r"^ *([\d,]+) \( *[\d.]+%\)  \S*:((?:\w+::)+\w+|__mem\w+)")

# Which part of all instructions a function has at least, with what it calls, to have a row.
LEAST = 0.02


def annotated(profile: str, is_inclusive: bool) -> dict[str, int]:
    """The instructions of functions, with or without those of what they call."""
    words = ["callgrind_annotate", f"--inclusive={'yes' if is_inclusive else 'no'}", "--threshold=100", profile]
    text = subprocess.run(words, capture_output=True, text=True, check=True).stdout
    found: dict[str, int] = {}
    for line in text.splitlines():
        if part := LINE.match(line):
            found.setdefault(part.group(2), int(part.group(1).replace(",", "")))
    return found


def short(function: str) -> str:
    """The name of a function with the type or the module before it; of one of the C library, in words."""
    if function.startswith("__mem"):
        return "memory that is cleared" if "set" in function else "memory that is copied"
    return "`" + "::".join(function.split("::")[-2:]) + "`"


def profile(setup: Setup) -> Table:
    """The table of functions: for each tick that a session takes and then takes back."""
    ticks = setup.ticks(COUNTED)
    log = random_log_path(setup.files, ticks)
    path = str(setup.files.folder / "profile")
    run = session(setup.programs[0], PLAN, log, f"step {ticks}\nseek 0\n")
    run.carried_out(["valgrind", "--tool=callgrind", f"--callgrind-out-file={path}", "--log-file=/dev/null"])
    whole, own = annotated(path, True), annotated(path, False)
    least = LEAST * max(whole.values())
    rows = [[short(it), rounded(count / ticks), rounded(own.get(it, 0) / ticks)] for it, count in whole.items()
            if count >= least]
    return Table("profile", ["Function", "With what it calls", "Itself"], rows)
