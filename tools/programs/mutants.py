"""Small mistakes in modules of the package, and whether its tests notice them.

    python3 -m tools.programs.mutants [--sample N] [--seed S] [--name TEXT ..] [--seconds S] [--least N] [MODULE ..]

Each mutant is one change of a module's syntax tree: a comparison turned or moved by its
boundary; a number one more; a sum or a product turned; a branch or a statement dropped;
a sort or a filter left out; a minimum made a maximum. It is tried by the tests of its
module (`TESTS`), in a fork of a process that has what all of them import. A mutant that
runs too long counts as noticed. Those of `EQUAL` are the same program, each with its
reason, and are not tried. It prints those that survive, and of each module a row of the
table in docs/trust/EVIDENCE.md: its mutants, how many were noticed, are equal, and are left.
The last line is `N passed, M failed`: one passes where it is noticed, and with `--least`
as many may fail as that leaves. Without modules it is all of them, and `quick` those
whose tests are.
"""
import argparse
import ast
import contextlib
import copy
import itertools
import json
import os
import pathlib
import random
import resource
import signal
import sys
import tempfile
import time

from tools import TOP

PYTHON = TOP / "python"
SECONDS = 60  # of a processor, that the tests of a mutant have at most
LONGER, MORE = 3, 3  # a mutant has so many times what they take without one, and so many seconds beside it
SLOWER = 10  # times that they may take by the clock, on a machine that does much else
HAND, PARTS = ["tests/test_boundaries.py"], ["tests/test_parts_by_hand.py"]
SCENARIOS = [f"tests/test_scenarios.py::{it}" for it in """
    test_what_is_met test_a_call_that_still_waits test_long_lists_are_cut test_a_fault_names_file_line_and_word
    test_a_sum_is_what_its_terms_are test_values_count_by_their_units test_comments_ends_of_lines_and_spaces
    test_files_of_strangers test_a_fault_that_a_run_finds test_faults_of_plans test_the_text_of_a_failure
    test_an_input_acts_in_its_tick_and_a_command_in_the_next test_lines_take_the_place_of_the_log
    test_commands_of_a_session test_a_lamp_trips_after_its_tick test_a_refused_command_ends_the_run
    test_a_verify_that_finds_a_rule_broken test_values_of_the_plan test_needs test_included_settings
    test_the_plan_of_version_1_is_the_same_with_a_value_laid_over test_rows_have_what_lines_turn
    test_one_index_and_all_of_them test_commands_by_tick test_events_before_the_first_tick
    test_another_plan_is_in_the_command test_failures_are_in_the_order_of_their_lines
    test_the_greatest_and_the_least_of_each test_two_heads_and_the_last_tick test_a_panel_begins_at_the_tick
    test_a_panel_of_a_refused_command test_many_lines_on_one_run test_times_of_the_clock test_times_without_their_clock
""".split()]
DIFF = ["tests/test_diff.py"]
# The tests of each module that can notice a mistake in it: fast ones first.
TESTS = {
    "measures": [*HAND, "tests/test_measures.py", "tests/test_cycles.py"],
    "cycles": [*HAND, "tests/test_cycles.py"],
    "frames": [*HAND, "tests/test_frames.py"],
    "forms": ["tests/test_forms.py"],
    "tasks": ["tests/test_tasks.py", "tests/test_sweep.py::test_a_run_is_told_by_all_that_is_asked"],
    "sweep": ["tests/test_tasks.py", *(f"tests/test_sweep.py::{it}" for it in (
        "test_what_processes_cannot_find", "test_the_command_on_a_cluster_that_runs_already",
        "test_parts_that_a_dead_process_left_go", "test_a_sweep_that_is_stopped_leaves_nothing"))],
    "report.numbers": [*HAND, "tests/test_report_numbers.py"],
    "report.differences": [*HAND, "tests/test_report_numbers.py"],
    "report.runs": [*HAND, "tests/test_report_numbers.py"],
    "panel.tape": PARTS,
    "panel.track": PARTS,
    "panel.marks": PARTS,
    "panel.run": [*PARTS, *(f"tests/test_panel_parts.py::{it}" for it in (
        "test_the_last_tick_of_a_run", "test_anything_after_anything"))],
    "diff": DIFF,
    "patterns": DIFF,
    "worksheet": ["tests/test_worksheet.py"],
    "card": [f"tests/test_arrows.py::{it}" for it in (
        "test_lines_of_no_card", "test_a_card_by_hand", "test_a_card_that_is_none")],
    "sheet.spreadsheet": [f"tests/test_timing_sheet.py::{it}" for it in (
        "test_out_and_in_is_the_plan", "test_the_tables", "test_a_cell_that_is_wrong",
        "test_all_wrong_cells_are_listed", "test_what_a_hand_may_change", "test_texts_of_strangers",
        "test_columns_have_letters", "test_bounds")],
    "sumo.nema": ["tests/test_nema.py", f"{PARTS[0]}::test_the_offset_of_a_program_of_type_nema", *(f"tests/test_sumo.py::{it}" for it in (
        "test_cycles_of_programs_of_type_nema", "test_phases_of_nema_in_no_ring",
        "test_a_program_of_type_nema_is_read_back"))],
    "exchange.walk": [f"tests/test_oids.py::{it}" for it in (
        "test_lines_by_hand", "test_octets_as_they_are_printed", "test_oids_at_their_bounds",
        "test_a_walk_of_a_street", "test_files_that_are_no_walk", "test_other_ways_to_print_an_oid",
        "test_a_walk_that_is_too_long", "test_a_line_is_read_as_it_is_printed", "test_actions_of_events_by_hand",
        "test_lines_of_a_schedule_by_hand")],
    "exchange.forms": [f"tests/test_oids.py::{it}" for it in (
        "test_lines_by_hand", "test_options_by_hand", "test_what_a_walk_has_no_place_for", "test_a_walk_of_a_street",
        "test_what_forms_read_back", "test_numbers_that_stand_for_nothing", "test_examples_out_and_in",
        "test_lines_of_a_schedule_by_hand", "test_days_of_the_month_by_hand", "test_actions_of_events_by_hand")],
    "exchange.utdf": ["tests/test_utdf.py"],
    "preempt": ["tests/test_preempts.py"],
    "exchange.remarks": [f"tests/test_oids.py::{it}" for it in (
        "test_remarks_that_follow_one_another", "test_what_a_walk_has_no_place_for", "test_a_walk_of_a_street",
        "test_notes_have_no_place")],
    "exchange.sides": ["tests/test_oids.py::test_sides_by_hand", "tests/test_oids.py::test_examples_out_and_in"],
    "sumo.trips": PARTS,
    "sumo.peers": PARTS,
    **{f"scenario.{it}": SCENARIOS for it in ("times", "words", "text", "expect", "play")},
}
# The modules whose tests start no processes of a sweep, and few programs: `quick` for all of them.
QUICK = [it for it in TESTS if it not in ("tasks", "sweep", "preempt") and not it.startswith("scenario.")]
# Mutants that are the same program: why.
SORTED = "two columns are sorted stably whatever the kind is"
NAMED = "columns are taken by name"
PIECES = "how many ticks are taken at a time, which nothing tells"
NO_TICKS = "it takes 0 ticks then"
SHIFT = "shares are differences of what it moves by one"
SHORTER = "a shorter way to the same"
ANYWAY = "it is written over, or none, in any case"
BELOW = "numpy takes any number below 0 as -1"
AGAIN = "marks that are known are found again"
LATER = "all of them are sorted afterwards"
EQUAL = {
    "measures walk_waits: 1 -> 2": "no event has a code below 0",
    "measures arriving: 'stable' -> 'quicksort'": SORTED,
    "measures counted: all_of > 0 -> all_of >= 0": "0 of 0 is not known either way",
    "cycles _stretches: False -> True": NAMED,
    "cycles is_in_step: 0 -> 1": "in step is the state before the first, by either number",
    "cycles stays_in_step: 1 -> 2": "no tick is below 0",
    "cycles greens_a_cycle: False -> True": "without cycles no place is 0 or more",
    "measures _ask: for code, number in moment if code in ASKS -> for code, number in moment":
        "other codes turn nothing on or off",
    "frames : 1 -> 2": PIECES,
    "frames : 20 -> 21": PIECES,
    "frames of_lines: 1 -> 2": BELOW,
    "frames of_log: 1 -> 2": BELOW,
    "frames of_lines: 256 -> 257": "a byte is 255 at most",
    "frames of_lines: 1 -> 2 (2)": "a head has no other letter",
    "frames of_lines: 0 -> 1": "all four are digits, or all are hyphens",
    "frames to_lines: 0 -> 1": ANYWAY,
    "forms numbers_of: if column.dtype.kind in 'iu': return column.astype('Int64').where(c.. -> if False: return "
    "column.astype('Int64').where(column.between(0, LAR..": SHORTER,
    "forms moments_of: if times.str.fullmatch(_PLAIN).all(): with suppress(ValueError): to.. -> if False: with "
    "suppress(ValueError): told = np.array(times.to_list(..": SHORTER,
    "forms moments_of: _clocked(times.iloc[:1], it).isna().any() -> _clocked(times.iloc[:1], it).isna().all()":
        "of one time",
    "forms _clocked: day[0] >= 1000 -> day[0] > 1000": "a table has no moment before 1677",
    "forms _clocked: 1000 -> 1001": "a table has no moment before 1677",
    "forms _clocked: 0 -> 1 (3)": ANYWAY,
    "forms _since_1970: 0 -> 1 (4)": ANYWAY,
    "exchange.walk lines_of: 0 -> 1": ANYWAY,
    "exchange.walk lines_of: 0 -> 1 (2)": ANYWAY,
    "exchange.utdf _time: units > 0 -> units >= 0": "0 is a whole number",
    "exchange.utdf _tell_other: sorted(lines) -> list(lines)": LATER,
    "exchange.utdf _tell_row: sorted({it.line for it in record.values()}) -> list({it.line for it in record.values()})":
        "a row has one line",
    "preempt : 100 -> 101": PIECES,
    "preempt main: False -> True": "a bench that keeps events answers the same",
    "preempt tries: last - bench.now -> last + bench.now": "a bench begins at tick 0, and each moment is sought",
    "exchange.sides _groups: sorted(rings) -> list(rings)": LATER,
    "exchange.sides _joined: any(((a, b) in before and (b, a) in before for a in it for b in gro.. -> all(((a, b) in "
    "before and (b, a) in before for a in it for b in gro..": "pairs are of all phases of two groups",
    "exchange.remarks follows: 0 -> 1 (2)": "a line after another one is 2 at least",
    "tasks _measured: if not measures: return -> if False: return": "it gives nothing in any case",
    "tasks one_run: True -> False": "rows are written without their numbers",
    "tasks _log: 2 -> 3": "it names a line of the package in any case",
    "tasks _warn_of_weekday: 3 -> 4": "it names a line of the package in any case",
    "sweep run: done.close() -> pass": "what it left off has nothing to put away",
    "report.numbers _cycle_lengths: False -> True": NAMED,
    "report.numbers _cycle_lengths: ticks < it.end -> ticks <= it.end": ANYWAY,
    "report.numbers _waited: on.min() -> on.max()": "a phase has one wait at most that goes on",
    "report.differences of_counts: a + b -> a - b": "equal counts differ by 0 in any case",
    "report.differences _keys: sorted({*map(int, a.index), *map(int, b.index)}) -> list({*map(int, a.index), "
    "*map(int, b.index)})": LATER,
    "report.differences _pairs: sorted({int(k) for it in known for k in it[name].unique()}) -> list({int(k) for it in "
    "known for k in it[name].unique()})": LATER,
    "report.runs with_inputs_of: True -> False": "rows are numbered anew afterwards",
    "panel.tape _with_hands: if not hands: return row -> if False: return row": SHORTER,
    "panel.run : 500 -> 501": PIECES,
    "panel.run : 20000 -> 20001": PIECES,
    "panel.run : 1 -> 2": "serials are only compared",
    "panel.run __init__: tick > self.now -> tick >= self.now": NO_TICKS,
    "panel.run advance: 1 -> 2": "either is refused",
    "panel.run advance: self.now < target -> self.now <= target": NO_TICKS,
    "panel.run advance: time.monotonic() - begun < BUDGET -> time.monotonic() - begun <= BUDGET":
        "no time is just so long",
    "panel.run advance: min(2 * piece, PIECE) -> max(2 * piece, PIECE)": PIECES,
    "panel.run advance: 2 -> 3": PIECES,
    "panel.run _take_again: begun + 1 -> begun - 1": "the row that holds then is the same one",
    "panel.run _see_input: max(it.until, self.now) -> min(it.until, self.now)": AGAIN,
    "panel.run mark: 1 -> 2": "no tick is below 0",
    "panel.run _find_marks: for it in self.watched if it.until < end -> for it in self.watched": AGAIN,
    "panel.run _find_marks: end - begun -> end + begun": "there are no more changes than ticks",
    "panel.run _find_marks: self.now < end -> self.now <= end": NO_TICKS,
    "panel.run _find_marks: self.bench.follow(self.tape.taken(self.now + 1, end)) -> pass":
        "the rows that are followed hold still",
    "panel.run _find_marks: self.now + 1 -> self.now - 1": "the row that holds then is the same one",
    "panel.run _find_marks: it.until < end -> it.until <= end": AGAIN,
    "panel.run _take: count > again -> count >= again": NO_TICKS,
    "panel.track __init__: 0 -> 1 (2)": SHIFT,
    "panel.track put: 0 -> 1": SHIFT,
    "panel.track shares: 0 -> 1": "it is overwritten",
    "panel.track shares: 1 -> 2 (3)": "it stands behind all edges",
    "panel.track add: it.tick >= self.end -> it.tick > self.end": "a tick that is known shows the same",
    "panel.track cut: tick < self.end -> tick <= self.end": "nothing lies behind the end",
    "sumo.nema _whole: abs(whole - value) > 1e-09 -> abs(whole - value) >= 1e-09": "no time is just so near to a whole one",
    "scenario.expect of: 3 -> 4": "a head has two digits at most",
    "scenario.play tick: False -> True": "a bench that keeps events answers the same",
    "scenario.play _advance: if tick <= bench.now: return -> if False: return": NO_TICKS,
    "scenario.play _advance: tick <= bench.now -> tick < bench.now": NO_TICKS,
    "scenario.play _advance: it.tick > first -> it.tick >= first": NO_TICKS,
    "scenario.play _looked: sorted(bench.status.waits.items()) -> list(bench.status.waits.items())":
        "a status has them by phase",
    "sumo.peers answers: False -> True": "a bench that keeps events answers the same",
    "sumo.peers _next_green: 4 -> 5": "phase 5 is no through phase",
}

COMPARED = {
    ast.Lt: [ast.LtE], ast.LtE: [ast.Lt], ast.Gt: [ast.GtE], ast.GtE: [ast.Gt], ast.Eq: [ast.NotEq],
    ast.NotEq: [ast.Eq], ast.In: [ast.NotIn], ast.NotIn: [ast.In], ast.Is: [ast.IsNot], ast.IsNot: [ast.Is],
}
TURNED = {
    ast.Add: ast.Sub, ast.Sub: ast.Add, ast.Mult: ast.FloorDiv, ast.FloorDiv: ast.Mult, ast.Div: ast.Mult,
    ast.Mod: ast.FloorDiv, ast.LShift: ast.RShift, ast.RShift: ast.LShift,
}
# Names of functions and methods, each with the one that it is mistaken for.
MISTAKEN = {
    "min": "max", "max": "min", "any": "all", "all": "any", "first": "last", "last": "first",
    "bisect_right": "bisect_left", "mean": "max", "ceil": "floor", "append": "remove", "add": "discard",
}
WORDS = {"right": "left", "left": "right", "stable": "quicksort"}
# Calls that sort: the mutant leaves them out.
SORTS = {"sorted", "reversed", "sort_values", "sort_index"}


def own(node: ast.AST, parent: ast.AST | None) -> bool:
    """Whether mistakes in a part of a module are looked for: not in types, texts and messages."""
    if isinstance(node, (ast.Raise, ast.JoinedStr, ast.Import, ast.ImportFrom, ast.alias)):
        return False
    if isinstance(node, ast.If) and getattr(node.test, "id", "") == "TYPE_CHECKING":
        return False
    # (what a program checks of itself)
    if isinstance(node, ast.keyword) and node.arg == "strict":
        return False
    return not (isinstance(node, ast.Expr) and isinstance(node.value, ast.Constant))


def parts(node: ast.AST, path: tuple = ()) -> list[tuple[tuple, ast.AST]]:
    """All parts of a tree with the way to each."""
    found = [(path, node)]
    for name, value in ast.iter_fields(node):
        if name in ("annotation", "returns", "decorator_list", "type_comment", "args") and isinstance(
                node, (ast.arg, ast.AnnAssign, ast.FunctionDef, ast.ClassDef)) and name != "args":
            continue
        members = value if isinstance(value, list) else [value]
        for place, it in enumerate(members):
            if isinstance(it, ast.AST) and own(it, node):
                found += parts(it, (*path, (name, place if isinstance(value, list) else None)))
    return found


def at(tree: ast.AST, path: tuple) -> ast.AST:
    """The part of a tree at the end of a way."""
    for name, place in path:
        tree = getattr(tree, name)
        tree = tree if place is None else tree[place]
    return tree


def put(tree: ast.AST, path: tuple, new: ast.AST) -> None:
    """Puts another part at the end of a way."""
    (name, place), parent = path[-1], at(tree, path[:-1])
    if place is None:
        setattr(parent, name, new)
    else:
        getattr(parent, name)[place] = new


def compared(node: ast.Compare):
    """A comparison with each of its signs turned."""
    for place, sign in enumerate(node.ops):
        for other in COMPARED.get(type(sign), []):
            new = copy.deepcopy(node)
            new.ops[place] = other()
            yield new


def called(node: ast.Call):
    """A call of another function, or of none."""
    name = node.func.attr if isinstance(node.func, ast.Attribute) else getattr(node.func, "id", "")
    if name in MISTAKEN:
        new = copy.deepcopy(node)
        if isinstance(new.func, ast.Attribute):
            new.func.attr = MISTAKEN[name]
        else:
            new.func.id = MISTAKEN[name]
        yield new
    if name in SORTS:
        yield copy.deepcopy(node.func.value if isinstance(node.func, ast.Attribute) else
                            ast.Call(ast.Name("list", ast.Load()), node.args[:1], []))


def changed(node: ast.AST):
    """The mistakes of one part."""
    match node:
        case ast.Compare():
            yield from compared(node)
        case ast.BinOp() if type(node.op) in TURNED and not isinstance(node.left, (ast.JoinedStr, ast.List)):
            yield ast.BinOp(node.left, TURNED[type(node.op)](), node.right)
        case ast.BoolOp():
            yield ast.BoolOp(ast.Or() if isinstance(node.op, ast.And) else ast.And(), node.values)
        case ast.UnaryOp(op=ast.Not() | ast.Invert()):
            yield node.operand
        case ast.Constant(value=bool() as value):
            yield ast.Constant(not value)
        case ast.Constant(value=int() as value):
            yield ast.Constant(value + 1)
        case ast.Constant(value=str() as value) if value in WORDS:
            yield ast.Constant(WORDS[value])
        case ast.IfExp():
            yield ast.IfExp(node.test, node.orelse, node.body)
        case ast.comprehension() if node.ifs:
            yield ast.comprehension(node.target, node.iter, node.ifs[1:], node.is_async)
        case ast.If():
            yield ast.If(ast.Constant(False), node.body, node.orelse)
            if node.orelse:
                yield ast.If(ast.Constant(True), node.body, [])
        case ast.Expr(value=ast.Call()) | ast.AugAssign() | ast.Delete() | ast.Continue() | ast.Break():
            yield ast.Pass()
        case ast.Call():
            yield from called(node)


def mutants(module: str) -> list[tuple[str, str]]:
    """The mutants of a module: what each changes, and its text."""
    text = path_of(module).read_text(encoding="utf-8")
    tree, found, seen = ast.parse(text), [], {}
    for path, node in parts(tree):
        if not path:
            continue
        for new in changed(node):
            where = next((it.name for k in range(len(path), 0, -1)
                          if isinstance(it := at(tree, path[:k]), (ast.FunctionDef, ast.ClassDef))), "")
            was = at(tree, path)
            said = f"{module} {where}: {shown(was)} -> {shown(new)}"
            seen[said] = seen.get(said, 0) + 1
            name = said if seen[said] == 1 else f"{said} ({seen[said]})"
            other = copy.deepcopy(tree)
            put(other, path, copy.deepcopy(new))
            found.append((name, ast.unparse(ast.fix_missing_locations(other))))
    return found


def shown(node: ast.AST) -> str:
    """A part of a module on a line."""
    with contextlib.suppress(Exception):
        line = " ".join(ast.unparse(node).split())
        return line if len(line) <= 70 else f"{line[:67]}.."
    return type(node).__name__


def path_of(module: str) -> pathlib.Path:
    """The file of a module."""
    return PYTHON / "tsb" / f"{module.replace('.', '/')}.py"


@contextlib.contextmanager
def laid_over():
    """The package in a folder of its own, of links."""
    with tempfile.TemporaryDirectory(prefix="tsb-mutant-", ignore_cleanup_errors=True) as name:
        room = pathlib.Path(name)
        for path in (PYTHON / "tsb").rglob("*"):
            if path.is_file() and "__pycache__" not in path.parts:
                mine = room / "tsb" / path.relative_to(PYTHON / "tsb")
                mine.parent.mkdir(parents=True, exist_ok=True)
                mine.symlink_to(path)
        yield room


# Each text has a second of its own, by which Python sees whether it is compiled already.
_seconds = itertools.count(1)


@contextlib.contextmanager
def replaced(room: pathlib.Path, module: str, text: str):
    """A folder of the package in which a module has another text for a while."""
    mine = room / "tsb" / f"{module.replace('.', '/')}.py"
    was = mine.readlink()
    mine.unlink()
    mine.write_text(text, encoding="utf-8")
    os.utime(mine, times=(second := next(_seconds), second))
    try:
        yield
    finally:
        mine.unlink()
        mine.symlink_to(was)


class Fastest:
    """A plugin of pytest that runs first what took least before, and keeps what each test takes."""

    def __init__(self, room: pathlib.Path) -> None:
        self._kept = room / "took.json"
        self._before = json.loads(self._kept.read_text()) if self._kept.exists() else {}
        self._took: dict[str, float] = {}

    def pytest_collection_modifyitems(self, items: list) -> None:
        items.sort(key=lambda it: self._before.get(it.nodeid, 0))

    def pytest_runtest_logreport(self, report) -> None:
        self._took[report.nodeid] = self._took.get(report.nodeid, 0) + report.duration

    def pytest_sessionfinish(self) -> None:
        if not self._before:
            self._kept.write_text(json.dumps(self._took))


def tried(room: pathlib.Path, module: str, text: str, seconds: float, tests: list[str]) -> tuple[bool, float]:
    """Whether tests notice a text in the place of a module, and the processor seconds that they took."""
    with replaced(room, module, text):
        child = os.fork()
        if child == 0:
            os._exit(_tested(room, tests, seconds))
        until = time.monotonic() + SLOWER * seconds
        while time.monotonic() < until:
            done, status, spent = os.wait4(child, os.WNOHANG)
            if done:
                return status != 0, spent.ru_utime + spent.ru_stime
            time.sleep(0.02)
        os.killpg(child, signal.SIGKILL)
        os.waitpid(child, 0)
        return True, seconds


def _tested(room: pathlib.Path, tests: list[str], seconds: float) -> int:
    """Runs tests in this process, and says how they ended."""
    os.setsid()
    resource.setrlimit(resource.RLIMIT_CPU, (int(seconds), int(seconds) + 1))
    # (a shell that starts this in the background has Ctrl-C ignored, and tests send it)
    signal.signal(signal.SIGINT, signal.default_int_handler)
    nothing = os.open(os.devnull, os.O_RDWR)
    for fd in (0, 1, 2):
        os.dup2(nothing, fd)
    # (a program that a test starts takes the package of the folder that it is in)
    os.chdir(room)
    sys.path.insert(0, str(room))
    os.environ["PYTHONPATH"] = str(room)
    # (what is compiled once serves all mutants, outside of the tree)
    os.environ.pop("PYTHONDONTWRITEBYTECODE", None)
    os.environ["PYTHONPYCACHEPREFIX"] = sys.pycache_prefix = str(room / "compiled")
    sys.dont_write_bytecode = False
    import pytest

    # (nobody reads what a failed test says, and to compare long texts for it takes long)
    words = ["-x", "-q", "-p", "no:cacheprovider", "-p", "no:warnings", "--tb=no", "--assert=plain",
             f"--basetemp={room}/tests", "-c", str(PYTHON / "pyproject.toml"), f"--rootdir={PYTHON}"]
    try:
        return int(pytest.main([*words, *(str(PYTHON / it) for it in tests)], plugins=[Fastest(room)]))
    except BaseException:
        return 1


def main() -> int:
    words = argparse.ArgumentParser(description="Tries small mistakes in modules of the package.")
    words.add_argument("modules", nargs="*", choices=[[], *TESTS, "quick"], metavar="MODULE")
    words.add_argument("--sample", type=int, help="so many mutants of all of the modules")
    words.add_argument("--seed", type=int, default=1)
    words.add_argument("--name", action="append", default=[], help="those mutants alone whose names have this")
    words.add_argument("--seconds", type=float, default=SECONDS)
    words.add_argument("--least", type=int, default=0, help="how many have to be noticed, where not all")
    given = words.parse_args()
    # (texts of a set have one order in all runs)
    if os.environ.get("PYTHONHASHSEED") != "0":
        os.execve(sys.executable, [sys.executable, "-m", "tools.programs.mutants", *sys.argv[1:]],
                  {**os.environ, "PYTHONHASHSEED": "0"})
    modules = QUICK if given.modules == ["quick"] else given.modules or [*TESTS]
    # (what all forks have)
    import hypothesis, jinja2, matplotlib.figure, numpy, pandas, pytest  # noqa: E401, F401

    # (what a mutant fails by is not kept, or the tests of the package itself would begin with it, and may stop there;
    # examples are the same each time, so that figures are; one that fails is enough, and no shorter one is looked for)
    hypothesis.settings.register_profile("mutants", database=None, derandomize=True,
                                         phases=(hypothesis.Phase.explicit, hypothesis.Phase.generate))
    hypothesis.settings.load_profile("mutants")

    every = [(it, *mutant) for it in modules for mutant in mutants(it)]
    found = [it for it in every if it[1] not in EQUAL]
    if unknown := [it for it in EQUAL if it.split()[0] in modules and it not in {mutant[1] for mutant in every}]:
        print(f"no mutants are any more: {unknown}\n0 passed, 1 failed")
        return 1
    if given.name:
        found = [it for it in found if any(name in it[1] for name in given.name)]
    if given.sample:
        found = random.Random(given.seed).sample(found, min(given.sample, len(found)))
    used = dict.fromkeys(test for module in dict.fromkeys(it[0] for it in found) for test in TESTS[module])
    counts = {module: [0, 0] for module in modules}
    with laid_over() as room:
        as_it_is = path_of(modules[0]).read_text(encoding="utf-8")
        fails, spent = tried(room, modules[0], as_it_is, 10 * given.seconds, [*used])
        if fails:
            print("the tests fail as the modules are\n0 passed, 1 failed")
            return 1
        seconds = min(given.seconds, LONGER * spent + MORE)
        for module, name, text in found:
            is_killed, _ = tried(room, module, text, seconds, TESTS[module])
            counts[module][not is_killed] += 1
            if not is_killed:
                print(f"survives: {name}", flush=True)
    if not given.sample and not given.name:
        for module, (killed, survive) in counts.items():
            equal = sum(it[0] == module for it in every) - killed - survive
            print(f"| `{module}` | {killed + survive + equal} | {killed} | {equal} | {survive} |")
    killed, survive = (sum(it[k] for it in counts.values()) for k in (0, 1))
    is_enough = killed >= given.least > 0 or not survive
    print(f"{killed} passed, {0 if is_enough else survive} failed")
    return 0 if is_enough else 1


if __name__ == "__main__":
    sys.exit(main())
