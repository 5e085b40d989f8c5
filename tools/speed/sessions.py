"""Sessions and plan texts, for tools/speed: what tsb takes for them, and what a program beside it does."""

import dataclasses
from collections.abc import Callable, Sequence

from tools.speed.kit import Counted, Files, Run, Setup, Table, Talk, Times, count_ahead, counts, in_turn, ratio
from tools.speed.texts import changing_log, longest_log, plan_of, plan_texts, random_lists, random_log, restless_log

PLAN = "examples/quad.json"

# How many ticks are timed, how many of a log with a row for each, how many are counted, and how many where the plan or
# the log grows.
TIMED, RESTLESS, COUNTED, GROWN = 6_000_000, 1_000_000, 200_000, 100_000
SHOWS = 100_000

NANO, MILLI, MILLION = 1e-9, 1e-3, 1e6

PHASES, CHANGES, DETECTORS = (2, 4, 8, 16), (0, 1, 4, 16), (8, 16, 32, 64)
TICKS, EDITS = (10_000, 100_000, 1_000_000, 6_000_000), (1, 4, 16, 64)

# Cells that a commit may change at any time: enough for a transaction.
CELLS = [
    *((name, index) for name in ("phaseAddedInitial", "phaseMaximumInitial", "phaseTimeBeforeReduction",
                                 "phaseTimeToReduce", "phaseCarsBeforeReduction", "phaseRedRevert")
      for index in range(1, 9)),
    *(("vehicleDetectorDelay", index) for index in range(1, 17)),
]


@dataclasses.dataclass(frozen=True)
class Row:
    """A row of a table: its name, what gives the seconds of a program, and what is counted of it."""

    name: str
    seconds: Callable[[str], float]
    counted: Callable[[str], Counted]


def session(program: str, plan: str, log: str, commands: str) -> Run:
    """A session on a plan and a log."""
    return Run((program, "run", plan, log), commands.encode())


def random_log_path(files: Files, ticks: int, detectors: int = 8) -> str:
    """The file of random log 0."""
    return files.path(f"random-{ticks}-{detectors}.log", lambda: random_log(0, ticks, detectors))


def restless_log_path(files: Files, ticks: int) -> str:
    """The file of random log 0 with other inputs in each tick."""
    return files.path(f"restless-{ticks}.log", lambda: restless_log(0, ticks))


def worked_out(program: str, log: str, ticks: int) -> float:
    """The seconds of a tick with its line, without what it takes to read the log."""
    whole, start = (session(program, PLAN, log, it).carried_out() for it in (f"step {ticks}\n", ""))
    return (whole - start) / ticks


def asked(program: str, log: str, ticks: int, command: bytes) -> float:
    """The seconds that a command with one line of answer takes behind so many ticks, for each of these."""
    talk = Talk([program, "run", PLAN, log])
    talk.ask(b"step %d\n" % ticks, ticks)
    seconds = talk.ask(command)
    talk.end()
    return seconds / ticks


def behind_ticks(program: str, plan: str, log: str, ticks: int, command: str) -> Counted:
    """The instructions of a command behind so many ticks, for each of these."""
    steps = f"step {ticks}\n"
    return Counted(session(program, plan, log, steps + command), session(program, plan, log, steps), ticks)


def stepped(program: str, plan: str, log: str, ticks: int) -> Counted:
    """The instructions of a tick with its line."""
    return Counted(session(program, plan, log, f"step {ticks}\n"), session(program, plan, log, ""), ticks)


def session_rows(setup: Setup) -> list[Row]:
    """What is measured of sessions."""
    timed, counted, restless = setup.ticks(TIMED), setup.ticks(COUNTED), setup.ticks(RESTLESS)
    log, short = (random_log_path(setup.files, it) for it in (timed, counted))
    long_restless, short_restless = (restless_log_path(setup.files, it) for it in (restless, counted))
    shows = "show\n" * setup.ticks(SHOWS)

    def of_all(program: str, commands: str, units: int) -> float:
        return session(program, PLAN, log, commands).carried_out() / units

    return [
        Row("`step`: a tick with its line", lambda it: of_all(it, f"step {timed}\n", timed),
            lambda it: stepped(it, PLAN, short, counted)),
        Row("`step` with other inputs in each tick", lambda it: worked_out(it, long_restless, restless),
            lambda it: stepped(it, PLAN, short_restless, counted)),
        Row("`seek`: a tick taken back", lambda it: asked(it, log, timed, b"seek 0\n"),
            lambda it: behind_ticks(it, PLAN, short, counted, "seek 0\n")),
        Row("`when trip`, which never changed: a record", lambda it: asked(it, log, timed, b"when trip\n"),
            lambda it: behind_ticks(it, PLAN, short, counted, "when trip\n")),
        Row("`show`: a line of commands with its answer",
            lambda it: session(it, PLAN, short, shows).carried_out() / setup.ticks(SHOWS),
            lambda it: Counted(session(it, PLAN, short, shows), session(it, PLAN, short, ""), setup.ticks(SHOWS))),
    ]


def text_rows(setup: Setup) -> list[Row]:
    """What is measured of texts that are read."""
    rows = []
    for place, (name, text) in enumerate(plan_texts().items()):
        path = setup.files.path(f"text-{place}.json", lambda it=text: it)
        rows.append(Row(f"`check` of {name}", lambda it, path=path: Run((it, "check", path)).carried_out(),
                        lambda it, path=path: Counted(Run((it, "check", path)))))
    log = setup.files.path("longest.log", longest_log)
    rows.append(Row("`run` with a log of 64 MiB, 1,720,740 rows", lambda it: session(it, PLAN, log, "").carried_out(),
                    lambda it: Counted(session(it, PLAN, log, ""))))
    return rows


def measured(setup: Setup, name: str, rows: Sequence[Row], units: tuple[str, float, float]) -> Table:
    """The table of rows: times, and instructions."""
    count_ahead((row.counted(it) for row in rows for it in setup.programs), setup.processes)
    what, second, counted = units
    found = []
    for row in rows:
        times = in_turn([lambda it=it, row=row: row.seconds(it) for it in setup.programs], setup.runs)
        cells = counts([row.counted(it) for it in setup.programs], counted)
        found.append([row.name, *time_cells(times, second), *cells])
    instructions = "Instructions" if counted == 1 else "Million instructions"
    return Table(name, ["What", *setup.head([what, instructions], True)], found)


def time_cells(times: Sequence[Times], unit: float) -> list[str]:
    """The cells of a row with the times of each program, and of two the ratio of the medians."""
    cells = [it.text(unit) for it in times]
    return cells + [ratio(*(it.median() for it in times))] if len(times) == 2 else cells


def sessions(setup: Setup) -> list[Table]:
    """The table of sessions."""
    return [measured(setup, "sessions", session_rows(setup), ("ns", NANO, 1))]


def texts(setup: Setup) -> list[Table]:
    """The table of texts that are read."""
    return [measured(setup, "texts", text_rows(setup), ("ms", MILLI, MILLION))]


@dataclasses.dataclass(frozen=True)
class Size:
    """How much a session has: its words in the table, its plan, its log and its ticks."""

    label: str
    plan: str
    log: str
    ticks: int

    def counted(self, program: str) -> list[Counted]:
        """What is counted: a tick with its line, one taken back, and a record that `when` reads."""
        back, last = (behind_ticks(program, self.plan, self.log, self.ticks, it) for it in ("seek 0\n", "when trip\n"))
        return [stepped(program, self.plan, self.log, self.ticks), back, last]

    def bytes_a_tick(self, program: str) -> float:
        """How many bytes the resident memory grows with each tick."""
        talk = Talk([program, "run", self.plan, self.log])
        talk.ask(b"show\n")
        before = talk.memory()
        talk.ask(b"step %d\n" % self.ticks, self.ticks)
        after = talk.memory()
        talk.end()
        return (after - before) / self.ticks


def grown_cells(setup: Setup, counted: Callable[[str], Sequence[Counted]]) -> list[str]:
    """The cells of a row: what is counted of each program, one thing after another."""
    pairs = zip(*(counted(program) for program in setup.programs), strict=True)
    return [it for pair in pairs for it in counts(pair)[:len(setup.programs)]]


def growth(setup: Setup, name: str, what: str, sizes: Sequence[Size], has_memory: bool = False) -> Table:
    """The table of sessions of some sizes."""
    count_ahead((it for size in sizes for program in setup.programs for it in size.counted(program)), setup.processes)
    rows = []
    for size in sizes:
        memory = [f"{size.bytes_a_tick(program):.2f}" for program in setup.programs if has_memory]
        rows.append([size.label, *grown_cells(setup, size.counted), *memory])
    columns = ["A tick with its line", "Taken back", "A record of `when`", *(["Bytes a tick"] if has_memory else [])]
    return Table(name, [what, *setup.head(columns, False)], rows)


def phase_growth(setup: Setup) -> Table:
    """What a tick takes as a plan has more phases: the same log of 16 detectors, which call the phases in turn."""
    ticks = setup.ticks(GROWN)
    log = random_log_path(setup.files, ticks, 16)
    plans = {count: setup.files.path(f"phases-{count}.json", lambda it=count: plan_of(it)) for count in PHASES}
    return growth(setup, "phases", "Phases", [Size(str(it), path, log, ticks) for it, path in plans.items()])


def detector_growth(setup: Setup) -> Table:
    """What a tick takes as more detectors change every 3 to 10 seconds, in a plan of 64. The program beside has 16."""
    alone, ticks = dataclasses.replace(setup, programs=setup.programs[:1]), setup.ticks(GROWN)
    plan = setup.files.path("detectors-64.json", lambda: plan_of(8, 64))
    logs = {it: setup.files.path(f"lists-{it}.log", lambda it=it: random_lists(0, ticks, it)) for it in DETECTORS}
    return growth(alone, "detectors", "Detectors", [Size(str(it), plan, log, ticks) for it, log in logs.items()])


def change_growth(setup: Setup) -> Table:
    """What a tick takes as more detectors change in each."""
    ticks = setup.ticks(GROWN)
    plan = setup.files.path("phases-8.json", lambda: plan_of(8))
    logs = {it: setup.files.path(f"changes-{it}.log", lambda it=it: changing_log(ticks, it)) for it in CHANGES}
    return growth(setup, "changes", "Detectors", [Size(str(it), plan, log, ticks) for it, log in logs.items()])


def tick_growth(setup: Setup) -> Table:
    """What a tick takes as a session has more of them, and a record as the history is longer."""
    sizes = [Size(f"{it:,}", PLAN, random_log_path(setup.files, setup.ticks(it)), setup.ticks(it)) for it in TICKS]
    return growth(setup, "ticks", "Ticks", sizes, has_memory=True)


def edit_growth(setup: Setup) -> Table:
    """What the parts of a transaction take as it has more edits."""
    count_ahead((it for edits in EDITS for program in setup.programs for it in transaction(program, edits)),
                setup.processes)
    rows = [[str(edits), *grown_cells(setup, lambda it, edits=edits: transaction(it, edits))] for edits in EDITS]
    columns = ["A `set`", "`verify`", "`commit`", "`undo` of the commit"]
    return Table("edits", ["Edits", *setup.head(columns, False)], rows)


def transaction(program: str, edits: int) -> list[Counted]:
    """What is counted of a transaction: an edit, the check, the commit, and the undo of that."""
    parts = ["begin 1\n", "".join(f"set 1 {name} {index} 9\n" for name, index in CELLS[:edits]), "verify 1\n",
             "commit 1\n", "undo\n"]
    runs = [session(program, PLAN, "/dev/null", "".join(parts[:it])) for it in range(1, len(parts) + 1)]
    return [Counted(runs[it], runs[it - 1], edits if it == 1 else 1) for it in range(1, len(runs))]
