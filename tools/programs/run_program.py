"""Runs the built programs tsb and tsb_live on files of the disk and compares what they write; run it at the top.

    python3 -m tools.programs.run_program PROGRAM PLAYER LIVE

Each run has its words, its input, and the exact bytes that it must write on standard output and on standard error, with
the status that it must end with. Plans, logs and sessions, with what they are answered, are those of `examples/`; lines
of faults are those of docs/use/MANUAL.md. The programs run in a folder that holds a copy of the examples and some files
more, and that is taken away afterwards. The last session goes through all 6,000,000 ticks that there are. PLAYER is the program
tsb_runs: it plays through all ticks too and copies the bench, and it counts what passes on a random log.
"""
import itertools
import os
import pathlib
import shutil
import subprocess
import sys
import tempfile
import threading

from tools.speed import kit

EXAMPLES = pathlib.Path("examples")
# What the player counts where it times the bench on a random log.
TIMED = pathlib.Path("crates/tsb_runs/data/timed.txt")
USAGE = b"usage: tsb check PLAN or tsb run PLAN LOG\n"
LIVE_USAGE = b"usage: tsb_live [--strict] PLAN\n"
# What a program answers of its version, and what it says of a word that is nearly right.
VERSION = b"%s " + pathlib.Path("VERSION").read_bytes()
HINT = b"did you mean %s? --help lists the words\n"
READ, WRITE = b"read fault\n", b"write fault\n"
# What tsb_live and tsb_field tell of standard input, and why programs don't read some paths; of others nothing is known.
INPUT = READ + b"standard input\n"
CAUSES = {"folder": b": a folder"} | dict.fromkeys(["", "help", "none.json", "none.log"], b": no such file")
OK, RULE, NOT_JSON = b"plan ok\n", b"plan: rule K8\n", b"plan: not JSON\n"
REVIEW = b"all faults, each with its place: tsb_field review PLAN\n"
# Second lines of texts that are refused.
EMPTY = b"plan line 1, column 1, where the text ends: expected a value\n"
IS_LOG, IS_PLAN = b"plan line 1, column 1: it looks like an input log\n", b"log line 1: it looks like a plan\n"
A_MARK = b"a byte order mark: save the text without it\n"
MARK = b"\xef\xbb\xbf"
ROW = b"0000010 0100000000000000 00000000 0000\n"
LONGEST_PLAN, LONGEST_COMMANDS, LONGEST_LOG = 1 << 20, 16 << 20, 64 << 20
MEMORY = b"memory\n"

# What reading a plan may take of memory, in MiB, and texts that make large trees: the first is read, the others aren't.
MOST_MEMORY = 64
SMALL_PARTS = {
    "small_arrays": (b"[0],", 250_000), "deep_arrays": (b"[" * 120 + b"0" + b"]" * 120 + b",", 4_300),
    "small_objects": (b'{"":0},', 140_000), "deep_objects": (b'{"":' * 120 + b"0" + b"}" * 120 + b",", 1_700),
}

# A name beyond ASCII.
TWELVE = "zw\u00f6lf.json"

# Each read of this one fails, also for root.
TORN = "/proc/self/mem"
ENDLESS, FULL = "/dev/zero", "/dev/full"

TICKS = 6_000_000
# How many of them are played at once, and how many rows a long log has.
MANY = 1_100_000

# What phases 2 and 4 of the built-in plan show from tick 1 on, again and again, and for how many ticks: 10 and 8 s of
# green, 3 of yellow, 1 of red clearance.
SHOWN = [("G", "R", 100), ("Y", "R", 30), ("R", "R", 10), ("R", "G", 80), ("R", "Y", 30), ("R", "R", 10)]
CYCLE = [f"-{second}-{fourth}" for second, fourth, ticks in SHOWN for _ in range(ticks)]


def not_read(path):
    """What programs tell of a file that they don't read."""
    return READ + b'file "%s"%s\n' % (path.encode(), CAUSES.get(path, b""))


class Run:
    """A run: its words, what it reads, and what it must write and end with."""

    def __init__(self, words, status, output=b"", errors=b"", commands=b"", **places):
        self.words, self.status, self.output, self.errors = words, status, output, errors
        self.commands, self.places = commands, places

    def streams(self, opened):
        """The standard streams: what stands in a place of the disk is opened, all else is a pipe."""
        streams = {"stdout": subprocess.PIPE, "stderr": subprocess.PIPE}
        for name, path in self.places.items():
            opened.append(open(path, "rb" if name == "stdin" else "wb"))
            streams[name] = opened[-1]
        if "stdin" not in streams:
            streams["input"] = self.commands
        return streams

    def differences(self, program, folder):
        """What the program does otherwise."""
        opened = []
        try:
            done = subprocess.run([program] + self.words, cwd=folder, timeout=120, **self.streams(opened))
        except subprocess.TimeoutExpired:
            return ["it did not end in 120 seconds"]
        finally:
            for file in opened:
                file.close()
        compared = [
            ("status", done.returncode, self.status),
            ("standard output", done.stdout or b"", self.output),
            ("standard error", done.stderr or b"", self.errors),
        ]
        return [f"{what} is {shown(it)}, not {shown(wanted)}" for what, it, wanted in compared if it != wanted]


def shown(value):
    """A status, or bytes, of which the first are enough."""
    return repr(value if isinstance(value, int) or len(value) < 200 else value[:200] + b" ..")


def refused(path, line):
    """A check of a plan that is refused: of the errors a line says what lists all of them."""
    return Run(["check", path], 1, line, REVIEW)


def example_runs():
    """The checks and sessions of the examples, and those on the built-in plan also without words."""
    for line in (EXAMPLES / "list.txt").read_text().splitlines():
        name, *files = line.split()
        if name.startswith("#"):
            continue
        expected = (EXAMPLES / f"{name}.expected").read_bytes()
        if len(files) == 1:
            yield Run(["check", *files], 0, OK) if expected == OK else refused(files[0], expected)
            continue
        commands = (EXAMPLES / f"{name}.commands").read_bytes()
        if expected.startswith(b"log "):
            yield Run(["run", *files], 1, b"", expected, commands)
        else:
            yield Run(["run", *files], 0, expected, b"", commands)
        if files == ["two.json", "empty.log"]:
            yield Run([], 0, expected, b"", commands)


def word_runs():
    """Words that are none of the program's, and paths that look like none."""
    for words in [
        ["check"], ["run"], ["run", "two.json"], ["what"], ["two.json"], [""], ["check", "two.json", "two.json"],
        ["run", "two.json", "empty.log", "empty.log"], ["--help"], ["-h"], ["help"], ["help", "check"], ["--version"],
        ["--what"],
        ["check", "--help"], ["check", "two.json", "--what"], ["check", "--what"], ["Check", "two.json"],
        ["-"], ["check", "-x"], ["check", "-1"], ["--", "two.json"], ["--", "check", "two.json"], ["check", "--"],
        ["check", "--", "two.json", "--"], ["run", "--", "two.json"],
        [b"\xff"], ["check", b"\xff.json"], ["run", "two.json", b"\xc3"], [b"\xff", "two.json"],
    ]:
        yield Run(words, 2, b"", USAGE, b"step 1\n")
    for path in ["./two.json", ".two.json", "folder/../two.json", "with spaces/two.json", TWELVE, "check", "run"]:
        yield Run(["check", path], 0, OK)
    for words in [["check", "--", "two.json"], ["check", "two.json", "--"], ["check", "--", "--help"]]:
        yield Run(words, 0, OK)
    session = (EXAMPLES / "step_and_back.expected").read_bytes()
    for words in [
        ["--"], ["run", "--", "two.json", "empty.log"], ["run", "two.json", "--", "empty.log"],
        ["run", "--", "--help", "empty.log"],
    ]:
        yield Run(words, 0, session, b"", b"step 1\nback 1\n")
    yield refused("two.json ", RULE)
    yield refused(" two.json", RULE)


def file_runs():
    """Files that are missing, that cannot be read, or that are too long."""
    for path in ["none.json", "folder", "two.json/none", TORN]:
        yield Run(["check", path], 3, b"", not_read(path))
        yield Run(["run", path, "empty.log"], 3, b"", not_read(path))
        yield Run(["run", "two.json", path], 3, b"", not_read(path), b"step 1\n")
    yield Run(["run", "none.json", "none.log"], 3, b"", not_read("none.json"), b"step 1\n")
    yield Run(["check", "longest.json"], 0, OK)
    for path in ["too_long.json", ENDLESS]:
        yield refused(path, b"plan: too large\n")
        yield Run(["run", path, "empty.log"], 1, b"", b"plan: too large\n")
    yield Run(["run", "two.json", ENDLESS], 1, b"", b"log: too large\n", b"step 1\n")
    # Each refused text has a second line, where there is something to say of it.
    yield Run(["run", "two.json", "two.json"], 1, b"", b"log line 1: malformed\n" + IS_PLAN, b"step 1\n")
    yield Run(["run", "two.json", "too_long.log"], 1, b"", b"log: too large\n" + IS_PLAN, b"step 1\n")
    yield Run(["run", "two.json", "marked.log"], 1, b"", b"log line 1: malformed\nlog line 1: " + A_MARK, b"step 1\n")
    yield Run(["run", "marked.json", "none.log"], 1, b"", NOT_JSON + b"plan line 1, column 1: " + A_MARK, b"step 1\n")
    yield Run(["run", "same_tick.log", "two.json"], 1, b"", NOT_JSON + IS_LOG, b"step 1\n")
    yield Run(["run", "long.log", "two.json"], 1, b"", b"plan: too large\n" + IS_LOG, b"step 1\n")
    yield Run(["run", "blank.json", "none.log"], 1, b"", NOT_JSON + EMPTY, b"step 1\n")
    for path in ["marked.json", "same_tick.log", "blank.json"]:
        yield refused(path, NOT_JSON)
    for path in ["many_versions.json", "many_indices.json"]:
        yield Run(["check", path], 0, OK)
    yield refused("many_members.json", b"plan: a: no such object\n")
    yield refused("many_values.json", b"plan: phaseWalk: not a table\n")
    first, *others = SMALL_PARTS
    yield refused(f"{first}.json", b"plan: a: no such object\n")
    for name in others:
        yield Run(["check", f"{name}.json"], 3, b"", MEMORY)
        yield Run(["run", f"{name}.json", "empty.log"], 3, b"", MEMORY, b"step 1\n")
    yield Run(["run", "two.json", "many.log"], 0, line("0000001", "-G-R").encode(), b"", b"step 1\n")
    yield Run(["run", "two.json", "many_and_first.log"], 1, b"", f"log line {MANY + 1}: tick order\n".encode(), b"step 1\n")
    yield Run(["run", "two.json", "many_and_bad.log"], 1, b"", f"log line {MANY + 1}: malformed\n".encode(), b"step 1\n")
    for log in ["empty.log", "same_tick.log", "none.log"]:
        yield Run(["run", "two_short_yellow.json", log], 1, b"", RULE, b"step 1\n")
    yield Run(["run", "none.json", "same_tick.log"], 3, b"", not_read("none.json"), b"step 1\n")


def stream_runs():
    """Standard streams that fail, commands that are as long as they may be or longer, and an input that ends in a line."""
    session = (EXAMPLES / "step_and_back.expected").read_bytes()
    longest = b"step 1\nback 1\n".ljust(LONGEST_COMMANDS, b"\n")
    too_long = b"step 1\nback 1\n".ljust(LONGEST_COMMANDS + 1, b"\n")
    undos = LONGEST_COMMANDS // len(b"undo\n")
    yield Run([], 0, b"nothing\n" * undos, b"", b"undo\n" * undos)
    for words in [[], ["run", "two.json", "empty.log"]]:
        yield Run(words, 0)
        yield Run(words, 0, session, b"", b"step 1\nback 1")
        yield Run(words, 3, b"", READ, stdin=TORN)
        yield Run(words, 3, b"", WRITE, b"show\n", stdout=FULL)
        yield Run(words, 0, session, b"", longest)
        yield Run(words, 3, session, b"commands: too large\n", too_long)
        yield Run(words, 3, b"", b"commands: too large\n", stdin=ENDLESS)
    yield Run(["check", "two.json"], 3, b"", WRITE, stdout=FULL)
    yield Run(["check", "two_short_yellow.json"], 3, b"", WRITE, stdout=FULL)
    yield Run(["check", "two_short_yellow.json"], 1, RULE, stderr=FULL)
    yield Run(["what"], 2, stderr=FULL)
    yield Run(["check", "none.json"], 3, stderr=FULL)
    yield Run(["run", "two_short_yellow.json", "empty.log"], 1, stderr=FULL)
    yield Run(["run", "two.json", "same_tick.log"], 1, stderr=FULL)


def live_runs():
    """The program tsb_live: its words, plans that it refuses or cannot read, and streams that fail."""
    session, commands = (EXAMPLES / "step_and_back.expected").read_bytes(), b"step 1\nback 1\n"
    for words in [
        [], [""], ["--strict"], ["--what", "two.json"], ["two.json", "--what"], ["two.json", "two.json"],
        ["two.json", "empty.log"], ["-h"], ["two.json", "--help"], ["--version", "two.json"], ["-s", "two.json"],
        ["--strict=true", "two.json"], ["--", "--strct", "two.json"], ["--strict", "two.json", "--strict"],
        ["--strict", "--strict", "two.json"], ["--"], ["--", "two.json", "--"], ["--", "two.json", "--strict"],
        ["--strict", "--"], [b"\xff"], ["two.json", b"\xc3"],
    ]:
        yield Run(words, 3 if words == [""] else 2, b"", not_read("") if words == [""] else LIVE_USAGE, commands)
    for words, right in [
        (["--stric", "two.json"], b"--strict"), (["two.json", "--srtict"], b"--strict"), (["--hepl"], b"--help"),
        (["--strictt=1"], b"--strict"), (["two.json", "--vresion", "--"], b"--version"),
    ]:
        yield Run(words, 2, b"", HINT % right, commands)
    yield Run(["--version"], 0, VERSION % b"tsb_live", b"", commands)
    yield Run(["--version"], 3, b"", WRITE, commands, stdout=FULL)
    for words in [
        ["two.json"], ["--", "two.json"], ["two.json", "--"], ["--", "--help"], ["./two.json"],
        ["with spaces/two.json"], [TWELVE], ["check"], ["--strict", "two.json"], ["two.json", "--strict"],
        ["--strict", "--", "two.json"], ["two.json", "--strict", "--"], ["--strict", "--", "--help"],
    ]:
        yield Run(words, 0, session, b"", commands)
    for path in ["none.json", "folder", "two.json/none", TORN, "help"]:
        yield Run([path], 3, b"", not_read(path), commands)
    for path in ["too_long.json", ENDLESS]:
        yield Run([path], 1, b"", b"plan: too large\n", commands)
    yield Run(["two_short_yellow.json"], 1, b"", RULE, commands)
    long = "n" * 180 + ".json"
    yield Run([long + "/" + long], 3, b"", READ + b'file "' + f"{long}/{long}"[:200].encode() + b'": no such file\n', commands)
    yield Run(['"two".json'], 3, b"", READ + b'file "?two?.json": no such file\n', commands)
    yield Run(["blank.json"], 1, b"", NOT_JSON + EMPTY, commands)
    yield Run(["same_tick.log"], 1, b"", NOT_JSON + IS_LOG, commands)
    yield Run(["long.log"], 1, b"", b"plan: too large\n" + IS_LOG, commands)
    yield Run(["marked.json"], 1, b"", NOT_JSON + b"plan line 1, column 1: " + A_MARK, commands)
    yield Run(["longest.json"], 0, session, b"", commands)
    yield Run(["two.json"], 0)
    yield Run(["two.json"], 0, session, b"", commands[:-1])
    yield Run(["two.json"], 3, b"", INPUT, stdin=TORN)
    yield Run(["two.json"], 3, b"", WRITE, b"show\n", stdout=FULL)
    yield Run(["--what"], 2, stderr=FULL)
    yield Run(["none.json"], 3, stderr=FULL)
    yield Run(["two_short_yellow.json"], 1, stderr=FULL)


def line(tick, heads):
    """The display line of the built-in plan, with a line feed."""
    return f"{tick} {heads}------------ {'-' * 16} ---- 0 ----\n"


def all_lines():
    """The answers of a session that steps through all ticks, and to what it asks behind them, in pieces."""
    lines = "".join(line("%07d", heads) for heads in CYCLE)
    for first in range(1, TICKS - len(CYCLE), len(CYCLE)):
        yield (lines % tuple(range(first, first + len(CYCLE)))).encode()
    rest = TICKS % len(CYCLE)
    yield "".join(line(TICKS - rest + k + 1, CYCLE[k]) for k in range(rest)).encode()
    last, change = line(TICKS, CYCLE[rest - 1]), TICKS - rest + CYCLE.index("-R-G") + 1
    yield f"refused E11 TickLimit\n{last}tick {change}\nnever\n{line('0000000', '-R-R')}nothing\n".encode()


def longest_session(program):
    """What a session through all ticks answers otherwise: its answers are compared as they come."""
    steps = b"step 1000000\n" * (TICKS // 1_000_000)
    with subprocess.Popen([program], stdin=subprocess.PIPE, stdout=subprocess.PIPE) as session:
        limit = threading.Timer(120, session.kill)
        limit.start()
        session.stdin.write(steps + b"step 1\nshow\nwhen interval 2\nwhen trip\nseek 0\nundo\n")
        session.stdin.close()
        for wanted in itertools.chain(all_lines(), [b""]):
            answers = session.stdout.read(len(wanted) or 1)
            if answers != wanted:
                session.kill()
                break
        status = session.wait()
        limit.cancel()
    if answers != wanted:
        return [f"all ticks: answers are {shown(answers)}, not {shown(wanted)}"]
    return [f"all ticks: status is {status}, not 0"] if status else []


def played_ticks(player):
    """What a run of the player through all ticks writes otherwise."""
    shown = [line(TICKS, CYCLE[(TICKS - 1) % len(CYCLE)]), line("0000000", "-R-R")]
    ended = ["Err(TickLimit)\n", "Ok(())\n", shown[1], "Err(Nothing)\n"]
    wanted = f"{MANY} of {MANY} taken: {line(MANY, CYCLE[(MANY - 1) % len(CYCLE)])}"
    wanted += "".join(f"{name}: {it}" for name in ["copy", "bench"] for it in [shown[0], *ended])
    return [f"ticks that are played: {it}" for it in Run([], 0, wanted.encode(), b"", b"all ticks").differences(player, ".")]


def timed_runs(player):
    """What a run of the player over a random log counts otherwise."""
    run = Run([str(EXAMPLES.resolve() / "quad.json"), "0", "2000", "all"], 0, TIMED.read_bytes())
    return [f"a random log: {it}" for it in run.differences(player, ".")]


def read_too_far(program):
    """Whether a session reads on after the byte that makes its commands too long: of a file, what is left stays there."""
    with tempfile.TemporaryFile() as commands:
        commands.write(b"\n" * (LONGEST_COMMANDS + (1 << 20)))
        commands.seek(0)
        done = subprocess.run([program], stdin=commands, capture_output=True, timeout=120)
        count = os.lseek(commands.fileno(), 0, os.SEEK_CUR)
    ended = done.returncode, done.stdout, done.stderr
    is_well = count == LONGEST_COMMANDS + 1 and ended == (3, b"", b"commands: too large\n")
    return [] if is_well else [f"a file of commands that is too long: {count} bytes are read, and it ends with {ended}"]


def long_texts(folder):
    """Puts texts of a great many parts into a folder: plans of over 65,536 members, and logs of over a million rows."""
    rest = (folder / "two.json").read_bytes().lstrip()[1:]
    for name, start, piece, times, end in [
        ("many_versions", b"{", b'"version":2,', 87_000, b""), ("many_members", b"{", b'"a":[],', 140_000, b""),
        ("many_indices", b'{"phaseWalk":{', b'"2":1,', 170_000, b'"2":0},'),
        ("many_values", b'{"phaseWalk":[', b"0,", 500_000, b"0],"),
        *((name, b'{"a":[', piece, times, b"0],") for name, (piece, times) in SMALL_PARTS.items()),
    ]:
        (folder / f"{name}.json").write_bytes(start + piece * times + end + rest)
    rows = "".join(f"{tick:07} {tick % 2}000000000000000 00000000 0000\n" for tick in range(1, MANY + 1)).encode()
    for name, end in [("many", b""), ("many_and_first", b"0000001 0000000000000000 00000000 0000\n"), ("many_and_bad", b"what\n")]:
        (folder / f"{name}.log").write_bytes(rows + end)


def too_much_memory(program, folder):
    """What reads plan texts of small parts in over MOST_MEMORY."""
    runs = {name: kit.Run((str(program), "check", str(folder / f"{name}.json"))) for name in SMALL_PARTS}
    taken = {name: kit.memory_of(run, (1, 3)) for name, run in runs.items()}
    return [f"{name}: {least:.1f} MiB are taken" for name, least in taken.items() if least > MOST_MEMORY]


def fill(folder):
    """Puts the files of the runs into a folder."""
    shutil.copytree(EXAMPLES, folder, dirs_exist_ok=True)
    for name in ["folder", "with spaces"]:
        (folder / name).mkdir()
    plan = (folder / "two.json").read_bytes()
    for name in [".two.json", "with spaces/two.json", TWELVE, "check", "run", "--help"]:
        (folder / name).write_bytes(plan)
    (folder / "longest.json").write_bytes(plan.ljust(LONGEST_PLAN))
    (folder / "too_long.json").write_bytes(plan.ljust(LONGEST_PLAN + 1))
    (folder / "too_long.log").write_bytes(plan.ljust(LONGEST_LOG + 1))
    (folder / "long.log").write_bytes(ROW.ljust(LONGEST_PLAN + 1, b"\n"))
    (folder / "marked.json").write_bytes(MARK + plan)
    (folder / "marked.log").write_bytes(MARK + ROW)
    for name in ["two.json ", " two.json"]:
        shutil.copy(folder / "two_short_yellow.json", folder / name)
    long_texts(folder)


def main(words):
    if len(words) != 3:
        sys.exit("usage: python3 -m tools.programs.run_program PROGRAM PLAYER LIVE")
    program, player, live = (pathlib.Path(it).resolve() for it in words)
    for path in [program, player, live]:
        if not path.is_file():
            sys.exit(f"there is no {path}")
    runs = [(program, it) for it in [*example_runs(), *word_runs(), *file_runs(), *stream_runs()]]
    runs += [(live, it) for it in live_runs()]
    wrong = []
    with tempfile.TemporaryDirectory() as name:
        folder = pathlib.Path(name)
        fill(folder)
        for path, run in runs:
            wrong += [f"{path.name} {run.words} {run.places or ''}: {it}" for it in run.differences(path, folder)]
        wrong += too_much_memory(program, folder)
    wrong += longest_session(program) + read_too_far(program) + played_ticks(player) + timed_runs(player)
    print("\n".join(wrong) if wrong else f"program: {len(runs) + 4 + len(SMALL_PARTS)} runs as expected")
    return 1 if wrong else 0


if __name__ == "__main__":
    sys.exit(main(sys.argv[1:]))
