"""Writes of stored sessions how long the records of their events are, and checksums, as a reference finds them.

    python3 -m tools.reference.make_events --reference FOLDER --out FILE [--processes N] CASES..

FOLDER holds the reference (make_sessions.py says what that is), and CASES are files of stored sessions
(stored_cases.py). reference_events.py says what the events of a session are, in each form of a record. Each session has
a line, in the order of the files; the head of the file that is written says how it reads.
"""
from tools.programs import stored_cases
from tools.programs.run_record import DEVICE, FORMS, FROM
from tools.reference import make_sums
from tools.reference.make_sessions import Reference
from tools.reference.reference_events import Form, records

HEAD = f"""\
# The records of the events of stored sessions.
#
# A line is
#   NAME LINES SUM LINES SUM LINES SUM: of each record of a session, how many lines it has, the header among them, and
#     the 32-bit FNV-1a of its bytes: from 2166136261 on, for each byte, the exclusive or with the byte, times 16777619,
#     modulo 4294967296
#   NAME fault: its plan or its log has a fault
#
# A record has the events of the inputs that remain when the commands of the session end, with
#   --from "{FROM}" --device {DEVICE}
# The first is made with these options alone, the second with --recalls too, and the third with --outputs. The events
# are those of an independent implementation.
#
# Written by tools/reference/make_events.py of {{files}}.

"""


def records_of(reference: Reference, case: stored_cases.Case) -> list[bytes] | None:
    """The records of a session, one in each form."""
    forms = [Form("--recalls" in options, "--outputs" in options) for options in FORMS]
    return records(reference, case.plan, case.log, case.commands, FROM, DEVICE, forms)


if __name__ == "__main__":
    make_sums.make(__doc__.split("\n", 1)[0], HEAD, records_of, stored_cases.checksum)
