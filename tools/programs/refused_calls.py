"""Refuses the calls of the built programs, one in each run, and compares what they then write; run it at the top.

    python3 -m tools.programs.refused_calls PROGRAM PLAYER

PROGRAM is that of crate tsb, PLAYER that of tsb_runs. A library that is loaded before that of C (refused_call.c,
built by the kit's compiler) refuses the k-th request for memory, read or write, for k from 1 on until a run makes
fewer. Each run has to end as docs/use/MANUAL.md says. Where an input was refused for want of memory, the answers behind
it have to be those of a run in which it was not given.
"""
import collections
import errno
import itertools
import os
import pathlib
import shutil
import subprocess
import sys
import tempfile

HERE = pathlib.Path(__file__).resolve().parent
PLAN, LOG = "examples/quad.json", "examples/one_row.log"
REFUSED_PLAN = "examples/two_short_yellow.json"
RUN = ["run", PLAN, LOG]
MEMORY, READ, WRITE = b"memory\n", b"read fault\n", b"write fault\n"
USAGE = b"usage: tsb check PLAN or tsb run PLAN LOG\n"
REFUSED = "refused E1 Memory"

# Words of each kind, and those of them that are bad.
GOOD = [["check", PLAN], ["check", REFUSED_PLAN], RUN, ["run", PLAN, "examples/same_tick.log"], [],
        ["check", "none.json"]]
BAD = [["what"], ["run", PLAN], ["check", PLAN, "--what"]]

# Inputs of each kind, none of them refused after any of the others.
INPUTS = [
    "pattern 1", "preempt 1 on", "step 3", "fault P2 G", "fault P2 R", "reset", "fault none", "begin 1",
    "set 1 phaseMaximum1 2 30", "verify 1", "commit 1", "begin 2", "abort 2", "preempt 1 off", "pattern 0",
    "clock 2026-11-22 07:00:00", "omit 3", "step 2",
]
KINDS = ["step", "pattern", "preempt", "fault", "reset", "begin", "set", "verify", "commit", "abort", "clock",
         "omit"]
WAY_BACK = ["show", "undo", "undo", "when interval 2", "back 3", "seek 1", "show", "undo", "undo", "show"]

# The first input asks for memory. It gets 2,048 bytes more than a record of 407 cells takes, and each input up to a commit
# asks for no more. So another one asks where these bytes are used up: behind `NEARLY`, the third input does, and each kind
# is the third there.
NEARLY = [*["begin 1", "abort 1"] * 67, *["reset"] * 5]
FIRST = [[*NEARLY, "begin 1", "abort 1", *INPUTS[k:], *INPUTS] for k in range(len(INPUTS))]
BEHIND = [[*NEARLY, "begin 1", "set 1 phaseMaximum1 2 30", "verify 1"],
          [*NEARLY, "begin 1", "set 1 phaseMaximum1 2 30", "abort 1"],
          [*NEARLY, "begin 1", "verify 1", "set 1 phaseMaximum1 2 30"]]
LATE = [[f"step {count}", *INPUTS * 3] for count in (1, 10, 100, 1000, 10000)]

# Two worked examples. On the built-in plan of two phases: a long run, wound back and run again.
LONG = ["step 1000", "when interval 2", "back 400", "when interval 2", "step 400"]
# On that of eight, at tick 0: a transaction with what is refused in it, where the room of the history is used up. It
# ends with a commit, or with one too late.
DESK = [
    "begin 1", "begin 2", "set 2 phaseMaximum1 2 30", "set 1 phaseMaximum1 17 30", "set 1 phaseMaximum1 2 256",
    "set 1 phaseMaximum1 2 30", "set 1 phaseMaximum1 2 40", "undo", "undo", "commit 1", "set 1 phaseConcurrency 1 32",
    "verify 1", "set 1 phaseConcurrency 5 2", "verify 1",
]
QUAD = ["run", PLAN, "examples/empty.log"]
WORKED = [([], LONG), (QUAD, [*NEARLY, *DESK, "commit 1", "abort 1"]), (QUAD, [*NEARLY, *DESK, "step 1", "commit 1"])]

# Bytes that a read or a write moves at most, so that there are many of them.
PIECE = 16

# A run's status, output and errors, and whether a call of it was refused.
Ended = collections.namedtuple("Ended", "status output errors is_refused")


def built(folder):
    """The library that refuses calls."""
    library = str(pathlib.Path(folder, "refused_call.so"))
    kit = pathlib.Path(shutil.which("rt") or "rt").resolve().parent.parent / "toolchain" / "bin"
    compiler = [str(kit / "clang"), "-fuse-ld=lld"] if (kit / "clang").is_file() else ["cc"]
    options = ["-O1", "-fPIC", "-shared", "-nostdlib", "-o", library]
    subprocess.run(compiler + options + [str(HERE / "refused_call.c")], check=True)
    return library


class Program:
    """A program, the library that refuses its calls, and how many runs there were."""

    def __init__(self, path, library):
        self.path, self.library = path, library
        self.runs, self.refused = 0, collections.Counter()

    def run(self, words, text=b"", kind="", number=0, error=0, piece=0):
        """A run on this text of commands, in which the call of this number is refused."""
        self.runs += 1
        told, teller = os.pipe()
        settings = {"LD_PRELOAD": self.library, "REFUSED_KIND": kind, "REFUSED_NUMBER": str(number),
                    "REFUSED_ERROR": str(error), "REFUSED_PIECE": str(piece), "REFUSED_TOLD": str(teller)}
        with os.fdopen(told, "rb") as reader:
            with os.fdopen(teller, "wb"):
                done = subprocess.run([self.path, *words], input=text, capture_output=True, env=settings,
                                      pass_fds=[teller], timeout=120)
            return Ended(done.returncode, done.stdout, done.stderr, bool(reader.read()))

    def sweep(self, words, text=b"", kind="memory", first=1, **how):
        """The runs in which a call was refused, each with the number of that call."""
        for number in itertools.count(first):
            ended = self.run(words, text, kind, number, **how)
            if not ended.is_refused:
                return
            self.refused[kind] += 1
            yield number, ended

    def calls(self, words, text=b"", **how):
        """How many calls of a kind a run makes: runs that are compared with nothing, and not counted."""
        counts = self.runs, self.refused.copy()
        number = sum(1 for _ in self.sweep(words, text, **how))
        self.runs, self.refused = counts
        return number


class Differences(list):
    """What runs ended with that they should not."""

    def compare(self, what, ended, *wanted):
        """Notes a run that ended with none of these: status, output and errors."""
        if ended[:3] not in wanted:
            self.append(f"{what}: {shown(ended[:3])}, not {' or '.join(shown(it) for it in wanted)}")


def shown(value):
    """A value, of a long one its end."""
    return repr(value)[-300:]


def text_of(commands):
    """The text of commands."""
    return "".join(command + "\n" for command in commands).encode()


# --- memory ---

def before_answers(program, wrong, good=GOOD, bad=BAD, usage=USAGE):
    """Where memory is refused before the first answer, the program says so and ends with 3, or reports bad words. One
    request, behind those for the words given, is for what it can do without: refused, it changes nothing."""
    for words in good + bad:
        whole, unneeded = program.run(words)[:3], 0
        allowed = [(3, b"", MEMORY)] + [(2, b"", usage)] * (words in bad)
        for number, ended in program.sweep(words):
            if words in good and ended[:3] == whole and not unneeded:
                unneeded = number
            else:
                wrong.compare(f"{words}, request {number}", ended, *allowed)


def answers_of(command):
    """How many lines answer a command of these sessions."""
    word, _, count = command.partition(" ")
    return int(count) if word == "step" else 1


def without(commands, place):
    """The commands without the input that the line at a place answers, but with its steps before it; and its kind."""
    for k, command in enumerate(commands):
        if place < answers_of(command):
            made = [f"step {place}"] if place else []
            return commands[:k] + made + commands[k + 1:], command.split(" ")[0]
        place -= answers_of(command)
    raise AssertionError("there are more lines than the commands have")


def within_a_session(program, wrong, commands, first, found, words=RUN):
    """Where memory is refused in a session, one input is, and all goes on as if that had not been given."""
    for number, ended in program.sweep(words, text_of(commands), first=first):
        what = f"{commands[:3]} .., request {number}"
        lines = ended.output.decode().splitlines()
        if lines.count(REFUSED) != 1:
            wrong.append(f"{what}: {lines.count(REFUSED)} inputs are refused, not one")
            continue
        place = lines.index(REFUSED)
        others, kind = without(commands, place)
        wanted = program.run(words, text_of(others)).output.decode().splitlines()
        wanted.insert(place, REFUSED)
        found[kind] += 1
        wrong.compare(what, ended, (0, text_of(wanted), b""))


def memory(program, wrong):
    """Refuses each request for memory, and counts the inputs of each kind to which it was refused."""
    found = collections.Counter()
    before_answers(program, wrong)
    first = program.calls(RUN) + 1
    for commands in FIRST + BEHIND + LATE:
        within_a_session(program, wrong, commands + WAY_BACK, first, found)
    for words, commands in WORKED:
        before = sum(found.values())
        within_a_session(program, wrong, commands, program.calls(words) + 1, found, words)
        wrong += [f"memory was refused to none of {commands[:3]} .."] * (sum(found.values()) == before)
    wrong += [f"memory was refused to no {kind}" for kind in KINDS if not found[kind]]
    return ", ".join(f"{kind} {found[kind]}" for kind in KINDS)


# --- reads and writes ---

def reads(program, wrong, words=RUN, lines=INPUTS + WAY_BACK, files=RUN[1:], told_input=READ):
    """Fails each read. One of a file that is interrupted is tried again; one of commands is not. A file that is not read
    is named, and one for which the machine has no memory is reported as such."""
    text = text_of(lines)
    not_read = [(3, b"", READ + b'file "%s"\n' % path.encode()) for path in files]
    of_file = {errno.EIO: not_read, errno.ENOMEM: [(3, b"", MEMORY)], errno.EINTR: [program.run(words, text)[:3]]}
    of_files = program.calls(words, kind="read", piece=PIECE) - 1
    for error in [*of_file, 0]:
        for number, ended in program.sweep(words, text, kind="read", error=error, piece=PIECE):
            what, given = f"read {number}, error {error}", text[:PIECE * (number - of_files - 1)]
            if number > of_files:
                told = given if error == 0 else given[:given.rfind(b"\n") + 1]
                answers = program.run(words, told).output
                wrong.compare(what, ended, (3, answers, told_input) if error else (0, answers, b""))
            elif error:
                wrong.compare(what, ended, *of_file[error])


def writes(program, wrong, runs=(RUN, ["check", PLAN], ["check", REFUSED_PLAN], ["what"]), lines=INPUTS + WAY_BACK):
    """Fails each write; one that is interrupted is not tried again. A line of the errors that is not written changes
    nothing."""
    text = text_of(lines)
    for words in runs:
        whole = program.run(words, text)
        for error in [errno.EIO, errno.EINTR, 0]:
            for number, ended in program.sweep(words, text, kind="write", error=error, piece=PIECE):
                what = f"{words}, write {number}, error {error}"
                cut = [(whole.status, whole.output, whole.errors[:k]) for k in range(len(whole.errors))]
                wrong.compare(what, ended, *cut, *((3, whole.output[:k], WRITE) for k in range(len(whole.output))))


def pieces(program, wrong, runs=GOOD + BAD, lines=INPUTS + WAY_BACK):
    """Reads and writes move a byte at a time."""
    text = text_of(lines)
    for words in runs:
        wrong.compare(f"{words}, a byte at a time", program.run(words, text, piece=1), program.run(words, text)[:3])


# --- commands that are played ---

MEMORY_FOR_NONE = ["words: memory"], ["commands: memory"], ["play: memory"]


def played(program, number=0):
    """The answers that the player writes where it leaves the command of this number out."""
    return program.run([], str(number).encode()).output.decode().splitlines()


def plays(program, wrong):
    """Where memory is refused to the player, it ends, the copy is not made, or one input is not taken."""
    whole, found = played(program), collections.Counter()
    not_copied = ["copy: Memory"] + [it for it in whole if it.startswith("bench: ")]
    answers = [it for it in whole if not it.startswith(("copy: ", "bench: "))]
    for number, ended in program.sweep([], b"0"):
        lines = ended.output.decode().splitlines()
        wanted, kind = answers + not_copied, "copy"
        if lines in MEMORY_FOR_NONE:
            wanted, kind = lines, lines[0].split(":")[0]
        elif "Refused(Memory)" in lines:
            place, kind = lines.index("Refused(Memory)"), "input"
            wanted = played(program, place + 1)
            wanted.insert(place, "Refused(Memory)")
        found[kind] += 1
        wrong.compare(f"the player, request {number}", ended, (0, text_of(wanted), b""))
    wrong += [f"memory was refused to no {kind}" for kind in ("words", "commands", "play", "copy", "input") if not found[kind]]


def main(words):
    if len(words) != 2:
        sys.exit("usage: python3 -m tools.programs.refused_calls PROGRAM PLAYER")
    paths = [pathlib.Path(word).resolve() for word in words]
    for path in paths:
        if not path.is_file():
            sys.exit(f"there is no {path}")
    wrong = Differences()
    with tempfile.TemporaryDirectory() as folder:
        program, player = (Program(path, built(folder)) for path in paths)
        found = memory(program, wrong)
        for sweep in (reads, writes, pieces):
            sweep(program, wrong)
        plays(player, wrong)
    counts = program.refused + player.refused
    wrong += [f"no call was refused: {kind}" for kind in ("memory", "read", "write") if not counts[kind]]
    told = ", ".join(f"{count} of {kind}" for kind, count in sorted(counts.items()))
    runs = program.runs + player.runs
    print("\n".join(wrong) if wrong else f"refused calls: {runs} runs as expected, {told}; inputs: {found}")
    return 1 if wrong else 0


if __name__ == "__main__":
    sys.exit(main(sys.argv[1:]))
