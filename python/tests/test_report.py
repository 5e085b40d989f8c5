"""Reports of the real programs' runs: the page, its words, its faults, and how a
browser shows it."""

import re
import shutil
import subprocess
import sys
from collections.abc import Iterator, Sequence
from html.parser import HTMLParser
from pathlib import Path

import pandas as pd
import pytest

import tsb
from tsb import Bench, Log, Plan, frames, measures, programs
from tsb.diff import following
from tsb.report.command import main
from tsb.report.words import PROGRAM
from tsb.tasks import events_of_record, recorded

START = "2026-11-22 07:00:00"
TOP = Path(__file__).resolve().parents[2]
EXAMPLES, DOCUMENT = TOP / "examples", TOP / "docs/use/PYTHON.md"
PLANS = {"A": "main_and_oak", "B": "shorter_cycle"}
SESSION = "pattern 1\nstep 36000\n"
VOID = {"meta", "br", "hr", "img", "input", "link"}


class Page(HTMLParser):
    """The tables, headings and words of a page, which has to be well formed."""

    def __init__(self, text: str) -> None:
        super().__init__()
        self.open: list[str] = []
        self.tags: list[str] = []
        self.outside: list[str] = []
        self.ids: list[str] = []
        self.heads: list[str] = []
        self.sections: list[str] = []
        self.items: list[str] = []
        self.tables: dict[str, list[list[str]]] = {}
        self._cells: list[list[str]] = []
        self._caption = ""
        self.feed(text)
        self.close()
        assert self.open == [], "all that is opened is closed"

    def handle_starttag(self, tag: str, attrs: list[tuple[str, str | None]]) -> None:
        self.tags.append(tag)
        told = {name: value or "" for name, value in attrs}
        self.ids += [told["id"]] if "id" in told else []
        links = [told.get(it, "") for it in ("href", "src", "xlink:href", "action")]
        self.outside += [
            it for it in links if it and it[0] != "#" and it[:5] != "data:"
        ]
        if tag == "section":
            self.sections.append(told["id"])
        if tag == "tr":
            self._cells.append([])
        elif tag in ("td", "th"):
            self._cells[-1].append("")
        elif tag == "table":
            self._cells, self._caption = [], ""
        if tag not in VOID:
            self.open.append(tag)

    def handle_startendtag(self, tag: str, attrs: list[tuple[str, str | None]]) -> None:
        self.handle_starttag(tag, attrs)
        if tag not in VOID:
            self.handle_endtag(tag)

    def handle_endtag(self, tag: str) -> None:
        assert self.open and self.open.pop() == tag, f"</{tag}> closes what is open"
        if tag == "table":
            section = self.sections[-1] if self.sections else ""
            self.tables.setdefault(f"{section}: {self._caption}", self._cells)

    def handle_data(self, data: str) -> None:
        last = self.open[-1] if self.open else ""
        if last in ("td", "th"):
            self._cells[-1][-1] += data
        elif last == "caption":
            self._caption += data
        elif last in ("h1", "h2"):
            self.heads.append(data)
        elif last == "li":
            self.items.append(data)


@pytest.fixture(scope="session")
def days(tmp_path_factory: pytest.TempPathFactory) -> Path:
    """A folder with the record of a plan on the hour of traffic."""
    folder = tmp_path_factory.mktemp("report")
    words = ["record", f"--from={START}", "--device=1001"]
    words += [str(EXAMPLES / it) for it in ("quad.json", "hour_of_traffic.log")]
    done = programs.run("tsb_field", words, b"step 36000\n")
    (folder / "quad.csv").write_bytes(done.stdout)
    return folder


@pytest.fixture(scope="session")
def two(tmp_path_factory: pytest.TempPathFactory) -> Path:
    """The report of docs/use/PYTHON.md, made by its words: a pattern on the hour of
    traffic, and the same with a shorter cycle."""
    folder = tmp_path_factory.mktemp("document")
    for name in ("examples", "python"):
        (folder / name).symlink_to(TOP / name)
    blocks = re.findall("^```sh\n(.*?)^```", DOCUMENT.read_text(), re.M | re.S)
    (words,) = (it for it in blocks if "tsb report" in it)
    subprocess.run(["bash", "-euc", words], cwd=folder, check=True)
    return folder / "report.html"


def made(words: Sequence[object], out: Path) -> Page:
    """The page that the words make."""
    assert main([*map(str, words), "--out", str(out)]) == 0
    return Page(out.read_text())


ALL = [
    "plans", "unlike", "glance", "terminations", "splits", "cycles", "waits", "walks",
    "arrivals", "preempts", "alarms",
]  # fmt: skip


def test_a_page_stands_alone(two: Path) -> None:
    """It is well formed, and nothing of it comes from elsewhere."""
    text = two.read_text()
    page = Page(text)
    assert page.outside == []
    assert not re.search(r"https?:|@import|url\((?!#)", text)
    assert {"script", "link", "iframe", "object", "img"} & set(page.tags) == set()
    assert len(page.ids) == len(set(page.ids)), "a name stands once"
    assert page.sections == ALL
    assert page.tags.count("svg") == page.tags.count("figure") == 9
    assert page.tags.count("details") == 9 + 2, "behind each chart its numbers"


@pytest.fixture(scope="session")
def runs(two: Path) -> dict[str, pd.DataFrame]:
    """The events of the two runs of that report, by letter."""
    log = Log.read(EXAMPLES / "hour_of_traffic.log")
    folders = {"A": EXAMPLES, "B": two.parent}
    paths = {run: folders[run] / f"{plan}.json" for run, plan in PLANS.items()}
    return {
        run: recorded(path, log, SESSION, recalls=True) for run, path in paths.items()
    }


def test_the_numbers_are_those_of_the_measures(
    two: Path, runs: dict[str, pd.DataFrame]
) -> None:
    """Why greens ended, also by time of day, and the longest waits, of both runs."""
    tables = Page(two.read_text()).tables
    causes = ["gap", "maximum", "force-off", "other"]
    for run, events in runs.items():
        wanted = measures.terminations(events)[causes]
        ended = of_run(tables["terminations: Greens that ended"], run)
        assert [it[2:6] for it in ended] == [list(map(str, it)) for it in wanted.values]
        label = f"{run}: {PLANS[run]}, pattern 1"
        parts = tables[f"terminations: {label}: greens that ended, each 5 minutes"]
        assert [it[0] for it in parts[1:]][:: len(parts) - 2] == [
            "07:00:00",
            "07:55:00",
        ]
        for place, cause in enumerate(causes, 2):
            found = sum(int(it[place]) for it in parts[1:])
            assert found == wanted[cause].sum()
        walks = (events["code"] == 21).sum()
        assert sum(int(it[7]) for it in parts[1:]) == walks > 30
        longest = measures.waits(events).groupby("phase")["wait_s"].max()
        waits = of_run(tables["waits: Waits, in seconds"], run)
        assert {it[0]: it[7] for it in waits} == {
            str(phase): f"{most:.1f}" for phase, most in longest.items()
        }


def of_run(table: list[list[str]], run: str) -> list[list[str]]:
    """The rows of a run."""
    assert table[0][:2] == ["phase", "run"]
    return [it for it in table[1:] if it[1] == run]


def test_a_record_is_read_as_an_export_is(days: Path) -> None:
    """At once, as its form is known; also one without events."""
    path = days / "quad.csv"
    events = frames.events_of_export(frames.read_export(path), START)
    pd.testing.assert_frame_equal(events_of_record(path.read_bytes(), START), events)
    header = path.read_bytes().splitlines(keepends=True)[0]
    none = events_of_record(header)
    assert none.empty and (none.dtypes == events.dtypes).all()


def test_waits_come_first(two: Path, runs: dict[str, pd.DataFrame]) -> None:
    """By seconds times actuations, which fall; the others by standard errors. The
    first number is the mean wait for each actuation on yellow and red, in both runs:
    their difference."""
    rows = Page(two.read_text()).tables["unlike: "]
    assert rows[0] == [
        "what", "of", "seconds × actuations", "A: main_and_oak, pattern 1",
        "B: shorter_cycle, pattern 1", "difference", "standard errors",
    ]  # fmt: skip
    lost = [abs(_number(it[2])) for it in rows[1:] if it[2] != "–"]
    errors = [float(it[6]) for it in rows[1 + len(lost) :]]
    assert lost == sorted(lost, reverse=True) and len(lost) > 5
    assert errors == sorted(errors, reverse=True) and len(errors) > 3
    assert all(it[0].startswith("wait") == (it[2] != "–") for it in rows[1:])
    phases = Plan.read(EXAMPLES / "main_and_oak.json")["vehicleDetectorCallPhase"]
    for phase in (4, 5):
        named = ["wait from call to green, mean", f"phase {phase}"]
        (row,) = (it for it in rows if it[:2] == named)
        totals = []
        for events in runs.values():
            waits = measures.waits(events).query(f"phase == {phase}")["wait_s"]
            came = measures.arrivals(events, phases).loc[phase]
            totals.append(waits.mean() * (came["on_yellow"] + came["on_red"]))
        assert _number(row[2]) == round(totals[1] - totals[0])


def test_what_the_plans_differ_in_comes_first(two: Path) -> None:
    """Their values, as lines of `diff` have them, and folded what follows."""
    page = Page(two.read_text())
    folders = {"A": EXAMPLES, "B": two.parent}
    a, b = (Plan.read(folders[it] / f"{name}.json") for it, name in PLANS.items())
    table = page.tables["plans: "]
    labels = ["A: main_and_oak, pattern 1", "B: shorter_cycle, pattern 1"]
    assert table[0] == ["object", "index", *labels]
    assert table[1] == ["patternCycleTime", "1", "90 (90 s)", "70 (70 s)"]
    assert table[2] == ["splitTime", "1 (table 1, phase 1)", "15 (15 s)", "10 (10 s)"]
    lines = [
        f"{name}.{index}: {was.partition(' ')[0]} -> {now}"
        for name, index, was, now in table[1:]
    ]
    assert lines == list(map(str, a.diff(b)))
    assert page.items == list(following(a, b))
    assert "pattern 1, phase 1: split 15.0 s -> 10.0 s" in page.items
    text = two.read_text()
    folded = text.index("<summary>What follows from them</summary>")
    assert text.index('id="plans"') < folded < text.index('id="unlike"')


def test_a_change_without_effect(tmp_path: Path) -> None:
    """No split is used in free operation, so the runs are the same. The page says
    both: what was changed, and that no number shows it."""
    other = Plan.read(EXAMPLES / "main_and_oak.json")
    other["splitTime"][1, 3], other["splitTime"][1, 4] = 20, 20
    other["phasePassage"][15] = tsb.seconds(2.5)
    other.write(tmp_path / "longer_lefts.json")
    page = made(
        [
            "--plan-a", EXAMPLES / "main_and_oak.json", "--seconds", 300,
            "--plan-b", tmp_path / "longer_lefts.json",
            "--log", EXAMPLES / "hour_of_traffic.log",
        ],
        tmp_path / "page.html",
    )  # fmt: skip
    assert page.tables["plans: "] == [
        ["object", "index", "A: main_and_oak", "B: longer_lefts"],
        ["phasePassage", "15", "0 (0.0 s)", "25 (2.5 s)"],
        ["splitTime", "3 (table 1, phase 3)", "15 (15 s)", "20 (20 s)"],
        ["splitTime", "4 (table 1, phase 4)", "25 (25 s)", "20 (20 s)"],
    ]
    assert page.items[:2] == [
        "pattern 1, phase 3: split 15.0 s -> 20.0 s",
        "pattern 1, phase 4: split 25.0 s -> 20.0 s",
    ]
    assert "unlike: " not in page.tables
    text = (tmp_path / "page.html").read_text()
    assert "<p>Nothing differs, though the plans do.</p>" in text


def test_plans_that_events_are_of(days: Path, tmp_path: Path) -> None:
    """They are compared where both are named. The fault of one that is refused is
    shown in place of what follows, and many values are folded."""
    kept = ["--events-a", days / "quad.csv", "--events-b", days / "quad.csv"]
    kept += ["--seconds", 60, "--plan-b", EXAMPLES / "two_short_yellow.json"]
    page = made(kept, tmp_path / "page.html")
    assert page.sections == ALL[1:]
    quad = EXAMPLES / "quad.json"
    page = made([*kept, "--plan-a", quad], tmp_path / "page.html")
    assert page.sections == ALL and page.items == ["B: quad: plan: rule K8"]
    found = Plan.read(quad).diff(Plan.read(EXAMPLES / "two_short_yellow.json"))
    text = (tmp_path / "page.html").read_text()
    assert f"<summary>{len(found) - 15} more values that differ</summary>" in text
    assert text.count("Indices are those of") == 1


def _number(cell: str) -> int:
    return int(cell.replace("−", "-").replace(",", ""))


def test_splits_have_their_causes(two: Path, runs: dict[str, pd.DataFrame]) -> None:
    """Beside each programmed split, of services that are over."""
    caption = "Programmed splits, in seconds, and the causes of their greens' ends"
    table = Page(two.read_text()).tables[f"splits: {caption}"]
    assert table[0][2:] == [
        "programmed split", "services", "mean", "85 %", "gap-out", "max-out",
        "force-off",
    ]  # fmt: skip
    for run, events in runs.items():
        served = measures.services(events).dropna(subset=["over"])
        for phase, split in ((4, 25), (2, 25 if run == "B" else 35)):
            of = served[served["phase"] == phase]
            (row,) = (it for it in table if it[:2] == [str(phase), run])
            shares = [
                f"{100 * (of['cause'] == it).mean():.1f} %"
                for it in ("gap", "maximum", "force-off")
            ]
            assert row[2:4] == [f"{split}.0", str(len(of))] and row[6:] == shares


def test_ends_in_a_row(two: Path, tmp_path: Path) -> None:
    """With a word fewer ends have marks, and the table of marks has no more; shares
    stay."""
    words = ["--plan-a", EXAMPLES / "main_and_oak.json", "--pattern-a", 1]
    words += ["--log", EXAMPLES / "hour_of_traffic.log", "--consecutive"]
    ends = []
    for several in (1, 3):
        page = made([*words, several], tmp_path / "page.html")
        several_of = (
            " with 3 or more of its phase in a row by one cause" if several == 3 else ""
        )
        name = "terminations: main_and_oak, pattern 1: greens that ended"
        parts = page.tables[f"{name}{several_of}, each 5 minutes"]
        ends.append(sum(int(it[6]) for it in parts[1:]))
        text = (tmp_path / "page.html").read_text()
        assert f"Each green's end{several_of}: a mark" in text.replace("&#39;", "'")
        shares = page.tables["terminations: Greens that ended"]
        assert sum(int(it[5]) for it in shares[1:]) == ends[0]
    assert 0 < ends[1] < ends[0]


def test_actuations_have_no_place(two: Path) -> None:
    """One sentence beside their table says so, and none of the page is about cars on
    green."""
    text = two.read_text()
    at = text.index("<caption>Actuations</caption>")
    beside = text[text.index("</table>", at) :][:300]
    assert beside.count("No detector has a place") == 1 and beside.count("<p") == 1
    assert "platoon ratio" in text and "actuations on green" in text
    assert not re.search(r"cars (that come )?on green", text)


def test_places_in_the_cycle_are_the_local_counter(examples: Path) -> None:
    """The bench shows the same in its lines, also where the pattern changes."""
    plan, log = examples / "main_and_oak.json", examples / "hour_of_traffic.log"
    with Bench(plan, log) as bench:
        parts = []
        for pattern, steps in ((0, 300), (1, 2500), (0, 200), (1, 1500)):
            bench.set_pattern(pattern)
            parts.append(frames.of_lines(bench.step(steps)))
        events = frames.of_events(bench.events)
    shown = pd.concat(parts)["local"]
    ticks = pd.Series(shown.index)
    found = measures.in_cycle(events, ticks)
    known = ticks.to_numpy() < events["tick"].max()
    wanted = (shown.reset_index(drop=True).astype("Float64") / 10)[known]
    # (a pattern acts from the tick after that in which it was selected)
    changes = measures.patterns(events)["begin"]
    same = ~ticks[known].isin(changes)
    pd.testing.assert_series_equal(found[known][same], wanted[same], check_names=False)
    assert len(measures.cycles(events).dropna()) >= 3


@pytest.mark.parametrize("mode", [0, 1, 2, 3])
def test_cycles_begin_at_local_zero(examples: Path, mode: int) -> None:
    """Where lines show the local counter come to 0, or pass it with two steps, also
    while it comes into step. The way of pattern 2 begins at 53."""
    plan = Plan.read(examples / "coming_into_step.json")
    plan["coordCorrectionMode"], plan["coordCorrectionLimit"] = {1: mode}, {1: 20}
    with Bench(plan) as bench:
        parts = []
        for pattern, steps in ((1, 853), (2, 3600)):
            bench.set_pattern(pattern)
            parts.append(frames.of_lines(bench.step(steps)))
        events = frames.of_events(bench.events)
    shown = pd.concat(parts)["local"].astype(int)
    zeros = shown.index[shown.diff() < 0].tolist()
    found = measures.cycles(events)
    # (at tick 0, at which pattern 1 was selected, its local counter was 0)
    assert found.iloc[0].to_list() == [0, 800, 1, 80.0]
    assert [*found["end"][:1], *found["begin"][1:], *found["end"][-1:]] == zeros
    lengths = found.loc[found["pattern"] == 2, "cycle_s"]
    wanted = [{60.0}, {72.0, 64.0, 60.0}, {50.9, 60.0}, {72.0, 65.1, 60.0}]
    assert set(lengths) == wanted[mode]


def test_arrivals_and_greens_are_what_lines_show(examples: Path) -> None:
    """Where the input of a detector goes on, its phase's letter; and how long each
    phase shows a green that ends."""
    plan, log = examples / "quad.json", examples / "hour_of_traffic.log"
    with Bench(plan, log) as bench:
        lines = frames.of_lines(bench.step(9000))
        events = frames.of_events(bench.events)
    inputs = frames.of_log(Log.read(log)).reindex(lines.index, method="ffill")
    inputs = inputs.fillna(False).astype(bool)
    rises = inputs & ~inputs.shift(1, fill_value=False)
    phases = Plan.read(plan)["vehicleDetectorCallPhase"]
    came = measures.arrivals(events, phases)
    greens = measures.greens(events).dropna(subset=["end"])
    for detector, phase in phases.items():
        letters = lines.loc[rises[f"V{detector}"], f"P{phase}"].value_counts()
        found = came.loc[phase, ["on_green", "on_yellow", "on_red"]].to_list()
        assert found == [letters[it] for it in "GYR"]
        lit = lines[f"P{phase}"] == "G"
        ended = lit & ~lit[::-1].cummin()[::-1]  # (not of a green that goes on)
        of = greens[greens["phase"] == phase]
        assert (of["end"] - of["begin"]).sum() == ended.sum() > 100


def test_two_plans_on_a_log(
    examples: Path, tmp_path: Path, capfd: pytest.CaptureFixture[str]
) -> None:
    """The runs are those of the bench; in free operation no diagram is drawn. Names
    may be odd: no line speaks of them."""
    names = "_quad", "<b> 交差点 $x$"
    for name, plan in zip(names, ("quad", "railroad"), strict=True):
        shutil.copy(examples / f"{plan}.json", tmp_path / f"{name}.json")
    plans = [tmp_path / f"{name}.json" for name in names]
    page = made(
        [
            "--plan-a", plans[0], "--plan-b", plans[1], "--seconds", 300,
            "--log", examples / "hour_of_traffic.log", "--title", 'Oak & Main <"1">',
        ],
        tmp_path / "page.html",
    )  # fmt: skip
    assert capfd.readouterr() == ("", "")
    assert page.heads[0] == 'Oak & Main <"1">' and page.sections == ALL
    glance = page.tables["glance: "]
    assert glance[0] == ["", "A: _quad", "B: <b> 交差点 $x$"]
    assert "No pattern ran" in (tmp_path / "page.html").read_text()
    facts = page.tables[": "]
    assert facts[1][2:4] == ["2000-01-01 00:00:00.0", "2000-01-01 00:05:00.0"]


def test_one_run_by_commands(examples: Path, tmp_path: Path) -> None:
    """A session of its own, of one plan: nothing is compared."""
    commands = tmp_path / "commands"
    commands.write_text("pattern 1\nstep 1000\npreempt 1 on\nstep 600\n")
    page = made(
        [
            "--plan-a", examples / "main_and_oak.json", "--commands", commands,
            "--log", examples / "empty.log", "--from", START,
        ],
        tmp_path / "page.html",
    )  # fmt: skip
    assert page.sections == ALL[2:]
    services = page.tables[
        "preempts: main_and_oak: services, with seconds from one moment to another"
    ]
    # (turned on behind tick 1000, first seen at 1001, and then a delay of 1 s)
    assert len(services) == 2 and services[1][1].startswith("07:01:39.9")
    assert services[1][2].startswith("07:01:41.0")
    assert services[1][services[0].index("request to service")] == "1.1"
    assert page.tables[": "][1][5] == "pattern 1 (cycle 90 s, offset 40 s)"


def test_arrows_that_flash(examples: Path, tmp_path: Path) -> None:
    """By the lines of examples/ARROWS.md: overlap 1 flashes from 21 to 550 and from
    1072 on, overlap 2 from 21 to 550 and from 806 on, overlap 3 from 635 to 675. What
    goes on counts in the share, up to the last tick, 1100."""
    page = made(
        [
            "--plan-a", examples / "arrows.json", "--log", examples / "arrows.log",
            "--no-clock", "--seconds", 110,
        ],
        tmp_path / "page.html",
    )  # fmt: skip
    assert page.sections == [*ALL[2:-2], "arrows", *ALL[-2:]]
    times = ["1", "52.9", "52.9", "52.9", "52.9", "52.9"]
    assert page.tables["arrows: Flashes, in seconds"][1:] == [
        ["1", *times, "50.7 %"],
        ["2", *times, "74.9 %"],
        ["3", "1", "4.0", "4.0", "4.0", "4.0", "4.0", "3.6 %"],
    ]


def test_a_street_beside_the_bench(examples: Path, days: Path, tmp_path: Path) -> None:
    """The street's run is its export; the bench has its cars. Here the street is a
    bench too, so that nothing differs."""
    page = made(
        [
            "--street", "--plan-a", examples / "quad.json", "--from", START,
            "--export", days / "quad.csv", "--device", "1001", "--seconds", 600,
        ],
        tmp_path / "page.html",
    )  # fmt: skip
    assert page.tables["glance: "][0] == ["", "A: street", "B: quad"]
    assert page.tables.get("unlike: ") is None
    assert page.sections == ALL[1:] and page.items == [], "a street's plan is not known"
    assert "Nothing differs.</p>" in (tmp_path / "page.html").read_text()


def test_the_clock_of_a_report(
    examples: Path, days: Path, tmp_path: Path, capsys: pytest.CaptureFixture[str]
) -> None:
    """It is that of `--from`, where there is one, and none with `--no-clock`."""
    words = ["--plan-a", examples / "quad.json", "--pattern-a", 1, "--seconds", 180]
    words += ["--log", examples / "empty.log"]
    what = "plan quad.json, on the bench from power-up; inputs of empty.log"
    cases: list[tuple[list[str], str]] = [
        (["--from", START], f"{what}; its clock set to --from"),
        (["--from", START, "--no-clock"], what), ([], what),
        (["--from", "1999-12-31 23:00:00", "--no-clock"], what),
    ]  # fmt: skip
    for more, said in cases:
        page = made([*words, *more], tmp_path / "page.html")
        assert page.tables[": "][1][1] == said
    late = [*map(str, words), "--from", "2100-01-01 00:00:00", "--out", "x.html"]
    assert main(late) == 1
    assert capsys.readouterr().err.endswith(
        "quad.json: --from: a clock has the years 2000 to 2099 (give --no-clock for"
        " others)\n"
    )
    kept = ["--events-a", str(days / "quad.csv"), "--no-clock", "--out", "x.html"]
    with pytest.raises(SystemExit):
        main(kept)
    assert "leave --no-clock out" in capsys.readouterr().err


def test_channels_of_a_street(
    examples: Path, days: Path, tmp_path: Path, capsys: pytest.CaptureFixture[str]
) -> None:
    """Both runs have the inputs as they are led; the page says what is left out."""
    export = tmp_path / "street.csv"
    table = frames.read_export(days / "quad.csv").query("code != 45")
    of_two = table["code"].isin([81, 82]) & (table["parameter"] == 2)
    table.loc[of_two, "parameter"] = 21
    other = table.iloc[[0]].assign(code=82, parameter=30)
    frames.write_export(pd.concat([other, table]), export)
    words = ["--street", "--plan-a", examples / "quad.json", "--from", START]
    words += ["--export", export, "--vehicle", "21=2"]
    page = made(words, tmp_path / "page.html")
    table = page.tables["arrivals: Actuations"]
    came = {it[1]: it[2] for it in table if it[0] == "2"}
    assert came == {"A": "386", "B": "386"}
    left_out = (
        "left out: 0 rows of other devices, 1 events of channels without an input"
        " (vehicle 30), 0 lines that are no rows"
    )
    assert capsys.readouterr().err == f"{PROGRAM}: {left_out}\n"
    assert left_out in (tmp_path / "page.html").read_text()


def test_events_without_a_plan(days: Path, tmp_path: Path) -> None:
    """Greens and waits need none; which phase a detector counts for is not known."""
    page = made(["--events-a", days / "quad.csv"], tmp_path / "page.html")
    text = (tmp_path / "page.html").read_text()
    assert "give it with --plan-a" in text and page.sections == ALL[2:]


def test_a_run_in_which_nothing_happens(examples: Path, tmp_path: Path) -> None:
    """Of no tick, and of one: each section says that there is nothing."""
    commands = tmp_path / "none"
    for text in ("", "step 1\n"):
        commands.write_text(text)
        page = made(
            [
                "--plan-a", examples / "quad.json", "--log", examples / "empty.log",
                "--plan-b", examples / "quad.json", "--commands", commands,
            ],
            tmp_path / "page.html",
        )  # fmt: skip
        assert page.tags.count("svg") == 0 and page.sections == ALL
        text = (tmp_path / "page.html").read_text()
        assert "No green ended." in text
        assert "No value differs: the plans are the same." in text


FAULTS = [
    (["--events-a", "none.csv"], "none.csv: No such file or directory"),
    (["--events-a", "empty.csv"], "empty.csv: no events"),
    (["--events-a", "quad.csv", "--device", "7"], "quad.csv: no events"),
    (
        ["--events-a", "quad.csv", "--from", "2026-11-23"],
        "quad.csv: no events from 2026-11-23 on",
    ),
    (
        ["--events-a", "quad.csv", "--from", "seven"],
        "--from: 'seven' is no time as 2026-11-22 07:00:00",
    ),
    (["--plan-a", "none.json", "--log", "a.log"], "none.json: read fault"),
    (["--plan-a", "quad.json", "--log", "bad.log"], "bad.log: log line 1: malformed"),
    (
        ["--plan-a", "quad.json", "--log", "empty.log"],
        "empty.log: it has no last row: say how long by --seconds",
    ),
    (
        ["--plan-a", "quad.json", "--log", "a.log", "--pattern-a", "3"],
        "quad.json: command 1: pattern 3: refused E9 NoSuchPattern",
    ),
    (
        ["--plan-a", "quad.json", "--export", "empty.csv", "--from", START],
        "empty.csv: no events",
    ),
    (
        ["--events-a", "two.csv"],
        "two.csv: rows of 2 devices: name one by --device",
    ),
]


@pytest.fixture
def room(
    examples: Path, days: Path, tmp_path: Path, monkeypatch: pytest.MonkeyPatch
) -> Path:
    """A folder with good and bad files."""
    shutil.copy(days / "quad.csv", tmp_path)
    shutil.copy(examples / "quad.json", tmp_path)
    shutil.copy(examples / "first_plan.log", tmp_path / "a.log")
    shutil.copy(examples / "empty.log", tmp_path)
    (tmp_path / "empty.csv").write_text("")
    (tmp_path / "two.csv").write_text(f"1,{START},1,2\n2,{START},1,2\n")
    (tmp_path / "binary.csv").write_bytes(b"\xff\xfe\x00\x01\n")
    (tmp_path / "words.csv").write_text(f"SignalID,Time,EventCode\n7,{START},1\n")
    (tmp_path / "bad.json").write_text('{"version": 2}\n')
    (tmp_path / "bad.log").write_text("no log\n")
    monkeypatch.chdir(tmp_path)
    return tmp_path


@pytest.mark.parametrize(("words", "fault"), FAULTS)
def test_faults(
    room: Path, words: list[str], fault: str, capsys: pytest.CaptureFixture[str]
) -> None:
    """One line, status 1, and what was there stays."""
    (room / "page.html").write_text("kept")
    assert main([*words, "--out", "page.html"]) == 1
    assert capsys.readouterr().err == f"{PROGRAM}: {fault}\n"
    assert (room / "page.html").read_text() == "kept"


#: Files that are none, and how the line that says so begins.
BAD_FILES = [
    (["--events-a", "binary.csv"], "binary.csv: it "),
    (["--events-a", "words.csv"], "words.csv: the export has no column EventParam"),
    (["--plan-a", "bad.json", "--log", "a.log"], "bad.json: plan: rule K1: "),
    (["--events-a", "quad.csv", "--plan-a", "a.log"], "a.log: plan: not JSON: "),
    (["--events-a", "quad.json"], "quad.json: "),
]


@pytest.mark.parametrize(("words", "fault"), BAD_FILES)
def test_bad_files(
    room: Path, words: list[str], fault: str, capsys: pytest.CaptureFixture[str]
) -> None:
    """Likewise one line, which says what is wrong with the file."""
    assert main([*words, "--out", "page.html"]) == 1
    told = capsys.readouterr().err
    assert told.startswith(f"{PROGRAM}: {fault}") and told.count("\n") == 1
    assert not (room / "page.html").exists()


BAD_WORDS = [
    ([], "give --plan-a or --events-a"),
    (["--plan-a", "quad.json"], "give --log or --export"),
    (["--plan-a", "quad.json", "--export", "quad.csv"], "--export needs --from"),
    (
        ["--plan-a", "quad.json", "--export", "quad.csv", "--log", "a.log"],
        "give --log or --export, not both",
    ),
    (
        ["--plan-a", "quad.json", "--log", "a.log", "--street"],
        "--street needs --export",
    ),
    (
        ["--events-a", "quad.csv", "--log", "a.log", "--street"],
        "--events-a has its events: leave --log, --street out",
    ),
    (
        ["--plan-a", "quad.json", "--log", "a.log", "--events-b", "b"],
        "--events-b needs --events-a",
    ),
    (["--events-a", "quad.csv", "--plan-b", "quad.json"], "--plan-b needs --events-b"),
    (
        ["--events-a", "quad.csv", "--consecutive", "0"],
        "argument --consecutive: invalid whole number above 0 value: '0'",
    ),
    (
        ["--plan-a", "a", "--log", "b", "--seconds", "-1"],
        "argument --seconds: invalid whole number above 0 value: '-1'",
    ),
    (
        ["--plan-a", "a", "--export", "b", "--from", START, "--vehicle", "21"],
        "argument --vehicle: invalid CHANNEL=INPUT value: '21'",
    ),
]


@pytest.mark.parametrize(("words", "fault"), BAD_WORDS)
def test_bad_words(
    room: Path, words: list[str], fault: str, capsys: pytest.CaptureFixture[str]
) -> None:
    """The usage and what is wrong, status 2, and nothing is written."""
    with pytest.raises(SystemExit) as ended:
        main([*words, "--out", "page.html"])
    assert ended.value.code == 2
    assert capsys.readouterr().err.endswith(f"\n{PROGRAM}: error: {fault}\n")
    assert not (room / "page.html").exists()


def test_a_full_disk(room: Path, capsys: pytest.CaptureFixture[str]) -> None:
    """It is reported, and a folder that is not there as well."""
    words = ["--events-a", "quad.csv", "--seconds", "60", "--out"]
    assert main([*words, "/dev/full"]) == 1
    assert capsys.readouterr().err == f"{PROGRAM}: /dev/full: No space left on device\n"
    assert Path("/dev/full").is_char_device()
    assert main([*words, "no/page.html"]) == 1
    told = capsys.readouterr().err
    assert told == f"{PROGRAM}: no/page.html: No such file or directory\n"
    assert not [it for it in room.iterdir() if it.suffix == ".part"]


def test_the_command_is_listed() -> None:
    """With what it says of itself."""
    python = [sys.executable, "-m", "tsb"]
    listed = subprocess.run(python, capture_output=True, text=True, check=True)
    assert "  report    A page of charts and tables of one run or two" in listed.stdout


def test_the_same_words_give_the_same_bytes(days: Path, tmp_path: Path) -> None:
    """No page says when it was made."""
    words = ["--events-a", days / "quad.csv", "--seconds", 60]
    texts = []
    for name in ("one.html", "other.html"):
        made(words, tmp_path / name)
        texts.append((tmp_path / name).read_bytes())
    assert texts[0] == texts[1]


@pytest.fixture
def browser() -> Iterator[str]:
    """Chromium."""
    found = shutil.which("chromium")
    assert found is not None, "python/setup.sh installs it"
    yield found


def test_a_browser_shows_it(browser: str, two: Path, tmp_path: Path) -> None:
    """It draws the charts and opens no other file: the network is not there."""
    picture = tmp_path / "page.png"
    done = subprocess.run(
        [
            browser, "--headless", "--no-sandbox", "--disable-gpu",
            f"--user-data-dir={tmp_path / 'profile'}", "--window-size=1100,4000",
            f"--screenshot={picture}", "--dump-dom", two.as_uri(),
        ],
        capture_output=True, text=True, timeout=60, check=True,
    )  # fmt: skip
    import matplotlib.image

    pixels = matplotlib.image.imread(picture)[:, :, :3]
    colors = {
        "green of gaps": (0x5F, 0xA7, 0x77),
        "blue of force-offs": (0x2D, 0x6C, 0xB5),
        "blue of run A": (0x24, 0x55, 0x7D),
        "orange of run B": (0xE3, 0x9A, 0x3B),
    }
    for what, color in colors.items():
        near = abs(pixels * 255 - color).max(axis=2) < 4
        assert near.sum() > 500, what
    assert done.stdout.count("<svg") == 9
