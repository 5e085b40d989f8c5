"""Runs `tsb_field record` on stored sessions and compares what it writes with the sums of an independent reference.

    python3 -m tools.programs.run_record PROGRAM [SUMS CASES..]

PROGRAM is that of tsb_field. Without SUMS they are cases/records.sums, of the sessions that lie beside it;
tools/reference/make_events.py writes such a file, which has sums of three records of each session: without options, with
`--recalls`, and with `--outputs`. Of a session whose plan or log has a fault, a record has nothing, and the status is 1.
The sums are of records that go on: each line on standard error is of a command that was refused or is none, and prints
its number and its text. Each record of a session prints the same lines. A strict record is the same where there is no
such line, so that the others of the session are strict; else it prints the first alone, has nothing, and the status is 4.
In place of this strict record the session has one less in the other forms, where a form has the sum of the first.
"""
import datetime
import pathlib
import re
import subprocess
import sys

from tools.programs import stored_cases, stored_sums

# When tick 1 begins, and which controller it is.
FROM, DEVICE = datetime.datetime(2026, 11, 22, 7), "1001"
# The options of the records of a session that have sums, in their order.
FORMS: list[list[str]] = [[], ["--recalls"], ["--outputs"]]
USAGE = "python3 -m tools.programs.run_record PROGRAM [SUMS CASES..]"
FILES = ["records.sums", "even.cases", "late.cases", "aimed.cases", "tripped.cases", "options.cases", "worked.cases",
         "mangled.cases"]
# The line of a command that was not carried out.
TOLD = re.compile(rb"command ([1-9][0-9]*): (.*): (?:bad command|refused E[0-9]+ [A-Za-z]+(?: [1-4])?)")
# How many bytes of a line are shown.
SHOWN = 200


def shown(line: bytes) -> bytes:
    """A line as it is printed: its first bytes, with `?` for each that is no printable ASCII."""
    return bytes(byte if 32 <= byte <= 126 else ord("?") for byte in line[:SHOWN])


def is_told(errors: bytes, commands: bytes) -> bool:
    """Whether each line that is printed has the number and the text of a line of the commands, in their order."""
    *ended, last = commands.split(b"\n")
    lines = [*(line.removesuffix(b"\r") for line in ended), last]
    before = 0
    for told in errors.splitlines():
        found = TOLD.fullmatch(told)
        if not found or not before < int(found[1]) <= len(lines) or found[2] != shown(lines[int(found[1]) - 1]):
            return False
        before = int(found[1])
    return not errors or errors.endswith(b"\n")


def ran(program: pathlib.Path, case: stored_cases.Case, *more: str) -> subprocess.CompletedProcess[bytes]:
    """A record of a session, which sets a clock only by its commands."""
    return stored_sums.ran([program, "record", "--no-clock", "--from", f"{FROM}", "--device", DEVICE, *more], case)


def wanted_of(wanted: str) -> list[str]:
    """What is wanted of each record of a session."""
    if wanted == "fault":
        return [wanted, wanted]  # (one that goes on, and a strict one)
    numbers = wanted.split()
    return [" ".join(pair) for pair in zip(numbers[::2], numbers[1::2], strict=True)]


def strict_difference(strict: subprocess.CompletedProcess[bytes], case: stored_cases.Case, first: bytes) -> str | None:
    """What a strict record has otherwise than it should, where this is the first line that it reports."""
    if (strict.returncode, strict.stdout, strict.stderr) == (4, b"", first):
        return None
    return f"{case.name}: strict {strict.returncode}, {strict.stdout[:80]!r}, {strict.stderr[:200]!r}"


def difference(program: pathlib.Path, case: stored_cases.Case, wanted: str) -> str | None:
    """What the records of a session have otherwise than they should."""
    told, stops, all_wanted = b"", False, wanted_of(wanted)
    for options, wanted_here in zip(FORMS, all_wanted):
        if options and stops and wanted_here == all_wanted[0]:
            continue
        goes_on = not options or stops
        done = ran(program, case, *options, *["--go-on"] * goes_on)
        found = stored_sums.difference(done, case, wanted_here, stored_cases.checksum)
        if found is not None:
            return " ".join([found, *options])
        if not options:
            told, stops = done.stderr, wanted != "fault" and done.stderr != b""
        if wanted != "fault" and not is_told(done.stderr, case.commands) or done.stderr != told:
            return " ".join([f"{case.name}: told {done.stderr[:200]!r}", *options])
    return strict_difference(ran(program, case), case, told.splitlines(True)[0]) if stops else None


if __name__ == "__main__":
    WELL = "records: {count} sessions have the events of the reference, in three forms"
    sys.exit(stored_sums.compare(sys.argv[1:], USAGE, FILES, difference, WELL))
