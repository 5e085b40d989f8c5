"""Writes of stored sessions how many lines of status they have, and a sum of these, as a reference finds them.

    python3 -m tools.reference.make_status --reference FOLDER --out FILE [--processes N] CASES..

FOLDER holds the reference (make_sessions.py says what that is), and CASES are files of stored sessions
(stored_cases.py). reference_status.py finds the status of a state, and reference_status_text.py its line. Each session
has a line, in the order of the files; the head of the file that is written says how it reads.
"""
from collections.abc import Iterator
from typing import Any

from tools.programs import stored_cases
from tools.programs.run_status import sum_of
from tools.reference import make_sums
from tools.reference.make_sessions import Reference
from tools.reference.reference_events import State, commands_of, opened
from tools.reference.reference_status import status_of
from tools.reference.reference_status_text import line_of

HEAD = """\
# The status lines of stored sessions.
#
# A line is
#   NAME LINES SUM: of a session, how many lines of status it has, and the first 16 hexadecimal digits of the SHA-256 of
#     their bytes, each line with a line feed
#   NAME fault: its plan or its log has a fault
#
# There is a line of status after each tick, and one after each other command, whether it was carried out, refused or
# had nothing to do. There is none of a tick that was refused, of `quit` and of a line that is no command, and none
# after `quit`. The lines are those of an independent implementation.
#
# Written by tools/reference/make_status.py of {files}.

"""


def states_of(bench: Any, session: Any, commands: bytes) -> Iterator[State]:
    """The states whose status lines a session has: after each tick, and after each other command."""
    for command in commands_of(bench, commands):
        known = len(session.states)
        session.answer(command, [])
        yield from session.states[known if command[0] == "step" else -1:]


def statuses_of(reference: Reference, case: stored_cases.Case) -> list[bytes] | None:
    """The lines of status of a session: none where its plan or its log has a fault."""
    session = opened(reference.bench, case.plan, case.log)
    if session is None:
        return None
    states = states_of(reference.bench, session, case.commands)
    return [b"".join(line_of(status_of(reference, state)).encode() + b"\n" for state in states)]


if __name__ == "__main__":
    make_sums.make(__doc__.split("\n", 1)[0], HEAD, statuses_of, sum_of)
