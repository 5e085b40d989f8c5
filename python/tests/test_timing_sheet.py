"""The timing sheet: its page, as a browser has it, and its tables as CSV and back."""

import csv
import hashlib
import io
import re
import shutil
from html.parser import HTMLParser
from pathlib import Path
from typing import Any

import pytest
import tsb
from hypothesis import given, settings
from hypothesis import strategies as st
from test_diff import called, plans
from tsb import Plan
from tsb.__main__ import main
from tsb.sheet import command
from tsb.sheet.spreadsheet import column_of, is_sheet, plan_of, text_of

BROWSER = [it for it in command.BROWSERS if shutil.which(it)]


# Tables of CSV


@settings(max_examples=60, deadline=None)
@given(plans())
def test_out_and_in_is_the_plan(plan: Plan) -> None:
    """Plans have any version and may break the rules. A spreadsheet may save them with
    all cells between quotes or with semicolons and commas in 4,0."""
    text = text_of(plan)
    assert is_sheet(text) and plan_of(text) == plan
    for saved in (quoted(text), with_semicolons(text)):
        assert is_sheet(saved) and plan_of(saved) == plan


@settings(max_examples=60, deadline=None)
@given(
    st.dictionaries(st.sampled_from(["site", "phaseWalk.2", "unitMax2.1"]), st.text()),
    st.booleans(),
)
def test_notes_are_kept(notes: dict[str, str], is_more: bool) -> None:
    """They are the last rows, and keep their spaces and ends of lines. A table may come
    after them. A spreadsheet computes no cell of a note."""
    plan = Plan(3)
    plan["phaseWalk"][2] = 7
    plan.notes = notes
    text = text_of(plan)
    more = "Unit,of,unit,1\nunitMax2,,,1\n" if is_more else ""
    found = plan_of(text.replace("unitMax2,,yes or no,\n", "") + more if more else text)
    assert found.notes == notes and found["phaseWalk"][2] == 7
    assert found["unitMax2"][1] == is_more
    rows = csv.reader(io.StringIO(text, newline=""))
    assert not any(cell[:1] in {"=", "+", "-", "@"} for row in rows for cell in row)


def test_notes_that_are_wrong() -> None:
    """An earlier version has none, and a name has one."""
    with pytest.raises(tsb.Error, match=r"^cell A\d+: version 2 has no notes$"):
        plan_of(text_of(Plan(2)) + "\nNotes\nsite,x\n")
    with pytest.raises(tsb.Error, match=r"^cell A\d+: site has a note already$"):
        plan_of(text_of(Plan(3)) + "\nNotes\nsite,x\nsite,y\n")


def test_a_schedule_and_notes(examples: Path, tmp_path: Path) -> None:
    """Days have their names and events their times; a note is a text, and no markup."""
    plan, path = Plan.read(examples / "schedule.json"), tmp_path / "sheet.html"
    plan.notes = {"site": "by <b> the school", "phaseWalk.2": "slow"}
    plan["timeBaseScheduleMonth"][4] = {1, 2, 11}
    plan["timeBaseScheduleDate"][1, 4] = {1, 2, 3, 9}
    plan["timeBaseScheduleDate"][2, 4] = {16, 17}
    plan["timeBaseScheduleDay"][4] = {1, 7}
    plan["timeBaseScheduleDayPlan"][4] = 2
    plan.write(tmp_path / "plan.json")
    assert main(["sheet", str(tmp_path / "plan.json"), "--out", str(path)]) == 0
    found = Tables(path.read_text())
    days = [it for it in found.rows if len(it) == 5 and it[0] in {"1", "2", "3", "4"}]
    assert days[-4:] == [
        ["1", "all", "Mon, Tue, Wed, Thu, Fri", "all", "1"],
        ["2", "all", "Sun, Sat", "all", "2"],
        ["3", "Dec", "all", "9", "2"],
        ["4", "Jan, Feb, Nov", "Sun, Sat", "1–3, 9, 16, 17", "2"],
    ]
    assert found.row("1, 1") == ["7:00", "1", "pattern 1"]
    assert found.row("2, 2") == ["18:00", "3", "free operation"]
    assert found.row("site") == ["by <b> the school"]
    assert "Schedule" in found.texts["h2"] and "Notes" in found.texts["h2"]


def quoted(text: str) -> str:
    """A text as a spreadsheet may save it: with quotes, all rows of one length, and the
    bytes of its first mark read as letters."""
    rows = list(csv.reader(io.StringIO(text)))
    longest = max(map(len, rows))
    out = io.StringIO()
    writer = csv.writer(out, quoting=csv.QUOTE_ALL, lineterminator="\r\n")
    writer.writerows([*it, *[""] * (longest - len(it))] for it in rows)
    return "ï»¿" + out.getvalue()


def with_semicolons(text: str) -> str:
    """A text as a spreadsheet of a country with decimal commas saves it."""
    rows = csv.reader(io.StringIO(text))
    out = io.StringIO()
    writer = csv.writer(out, delimiter=";", lineterminator="\n")
    writer.writerows(
        [re.sub(r"^(\d+)\.(\d)$", r"\1,\2", it) for it in row] for row in rows
    )
    return "\ufeff" + out.getvalue()


def test_the_tables(examples: Path) -> None:
    """All objects of the version; times in seconds, lists as phases, 0 as nothing."""
    lines = text_of(Plan.read(examples / "main_and_oak.json")).splitlines()
    assert lines[0] == "tsb timing sheet,version,2"
    assert "Phases,of,unit,1,2,3,4,5,6,7,8,9,10,11,12,13,14,15,16" in lines
    for row in (
        "phaseYellowChange,,seconds,3.0,4.0,3.0,3.6,3.0,4.0,3.0,3.6,,,,,,,,",
        "phaseConcurrency,,list of phases,5 6,5 6,7 8,7 8,1 2,1 2,3 4,3 4,,,,,,,,",
        "splitTime,table 1,seconds,15,35,15,25,15,35,15,25,,,,,,,,",
        'sequenceData,"sequence 1, ring 2","phase, 0 for none",5,6,7,8,,,,,,,,,,,,',
        "unitRedRevert,,seconds,2.0",
    ):
        assert row in lines
    assert not any(it.startswith("overlapAcrossRings") for it in lines)
    assert text_of(Plan(3)).count("overlapAcrossRings") == 1
    assert "Phases,of,unit,1,2,3,4,5,6,7,8\n" in text_of(Plan(1))


WRONG = [
    (("phaseWalk,,seconds,", "phaseWalk,,seconds,7.5"), "cell D17: 7.5: phaseWalk: no"
     " whole number of seconds"),
    (("phasePassage,,seconds,,", "phasePassage,,seconds,,25.6"), "cell E25: 25.6:"
     " phasePassage: not in 0 to 25.5 s"),
    (("phasePassage,,seconds,", "phasePassage,,seconds,2.05"), "cell D25: 2.05:"
     " phasePassage: no whole number of tenths of a second"),
    (("phaseRing,,\"1 or 2, 0 for none\",", "phaseRing,,,3"), "cell D14: 3: phaseRing:"
     " not in 0 to 2 (1 or 2, 0 for none)"),
    (("phaseRing,,\"1 or 2, 0 for none\",", "phaseRing,,,-1"), "cell D14: -1: phaseRing:"
     " no number"),
    (("phaseWalk,,seconds,", "phaseWalk,,seconds,1e9999999999"), "cell D17: 1e9999999999:"
     " phaseWalk: no number"),
    (("phaseWalk,,seconds,", "phaseWalk,,seconds,\"4,0\""), "cell D17: 4,0: phaseWalk: no"
     " number"),
    (("phaseConcurrency,,list of phases,", "phaseConcurrency,,,5 17"), "cell D16: 5 17:"
     " phaseConcurrency: no phases of 1 to 16 with spaces between"),
    (("phaseWalk,", "phaseWlak,"), "cell A17: version 2 has no object phaseWlak: did you"
     " mean phaseWalk?"),
    (("phaseWalk,,", "phaseRing,,"), "cell A17: phaseRing has such a row already"),
    (("phaseWalk,,", "unitMax2,,"), "cell A17: unitMax2 is an object of the table Unit"),
    (("phaseWalk,,", "phaseWalk,table 1,"), "cell B17: table 1: empty it"),
    (("splitTime,table 2,", "splitTime,2,"), "cell B73: 2: write table 1"),
    (("splitTime,table 2,", "splitTime,table 9,"), "cell B73: table 9: it is 1 to 8"),
    (("phaseWalk,,", ",,"), "cell A17: the row has values, and no object"),
    (("Phases,of,unit,1,2", "Phases,of,unit,1,1"), "cell E3: 1: the column comes twice"),
    (("Phases,of,unit,1,2", "Phases,of,unit,x,2"), "cell D3: x: no column of 1 to 16"),
    (("Phases,of,unit,1,2", "Phases,of,unit,1,17"), "cell E3: 17: no column of 1 to 16"),
    (("unitMax2,,yes or no,", "unitMax2,,yes or no,1,1"), "cell E59: 1: no number stands"
     " above it"),
    (("version,2", "version,4"), "cell C1: 4 is no version of a plan text: 1, 2 or 3"),
    (("tsb timing", "timing"), "cell A1: no timing sheet, which begins with tsb timing"
     " sheet"),
]  # fmt: skip


@pytest.mark.parametrize("change, said", WRONG, ids=[said for _, said in WRONG])
def test_a_cell_that_is_wrong(change: tuple[str, str], said: str) -> None:
    """It is named by its column and row, with its text."""
    plan = Plan()
    plan["phaseWalk"][3] = 7
    text = text_of(plan)
    assert text.count(change[0]) >= 1
    with pytest.raises(tsb.Error) as told:
        plan_of(text.replace(*change, 1))
    assert str(told.value).splitlines()[0] == said


def test_all_wrong_cells_are_listed() -> None:
    """Up to twenty, and how many more there are."""
    text = text_of(Plan()).replace("yes or no" + "," * 16, "yes or no" + ",2" * 16, 1)
    for others, rest in ((4, []), (5, ["and 1 more"]), (16, ["and 12 more"])):
        cells = ",2" * others + "," * (16 - others)
        with pytest.raises(tsb.Error) as told:
            plan_of(text.replace("yes or no" + "," * 16, "yes or no" + cells, 1))
        lines = str(told.value).splitlines()
        assert lines[0] == "cell D4: 2: phaseEnabled: not in 0 to 1 (yes or no)"
        assert lines[16].startswith("cell D5: 2: phaseNonLock: ")
        assert lines[20:] == rest


def test_what_a_hand_may_change() -> None:
    """Columns in another order, rows and tables left out, notes between them in rows
    of their own table, lists with commas, and a number with a plus."""
    text = (
        "tsb timing sheet;version;3\nPhases;;;4;2\nphaseWalk;;;7;+9,0\n;;;;\n"
        "phaseConcurrency;;;5,6;1+2\nphaseMinimumGreen\nUnit;;;1\nunitRedRevert;;;2,5\n"
        "Overlaps;;;1\noverlapIncludedPhases;;;0\n"
    )
    plan = Plan(3)
    plan["phaseWalk"] = {4: 7, 2: 9}
    plan["phaseConcurrency"] = {4: {5, 6}, 2: {1, 2}}
    plan["unitRedRevert"][1] = 25
    assert plan_of(text) == plan


@pytest.mark.parametrize(
    "text, said",
    [
        ("tsb timing sheet,version,2\n\"", "no CSV: unexpected end of data"),
        ("tsb timing sheet,version,2\n" + "," * (1 << 20), "too large: over 1 MiB"),
        ("tsb timing sheet,version,2\nPhases,,,1\nphaseWalk,,,\x1b[31m" + 99 * "9",
         "cell D3: ?[31m" + 35 * "9" + "..: phaseWalk: no number"),
        ("tsb timing sheet,version,2\nPhases,,,1\nphaseWalk,table 1\n",
         "cell B3: table 1: empty it"),
        ("tsb timing sheet,version,1\nPhases,,,1\nphaseConcurrency,,,5 9\n",
         "cell D3: 5 9: phaseConcurrency: no phases of 1 to 8 with spaces between"),
        ("tsb timing sheet,version", "cell C1: an empty cell is no version of a plan"
         " text: 1, 2 or 3"),
    ],
)  # fmt: skip
def test_texts_of_strangers(text: str, said: str) -> None:
    with pytest.raises(tsb.Error) as told:
        plan_of(text)
    assert str(told.value) == said


def test_bounds() -> None:
    """A text of just 1 MiB is read, and 40 signs of a cell are shown."""
    text = "tsb timing sheet,version,2\n"
    assert plan_of(text.ljust(1 << 20, "\n")) == Plan()
    for long, said in ((40, "9" * 40), (41, "9" * 40 + "..")):
        with pytest.raises(tsb.Error, match=f"cell D3: {said}: phaseWalk: no number"):
            plan_of(f"{text}Phases,,,1\nphaseWalk,,,{'9' * long}\n")


def test_the_sizes_of_versions(examples: Path) -> None:
    """A sheet has the columns of its version, and is read by them."""
    beyond = {"vehicleDetectorDelay": 64, "pedestrianDetectorCallPhase": 16, "overlapType": 16, "preemptDelay": 8}
    plan = Plan.read(examples / "quad.json").wide(3)
    for name, index in beyond.items():
        plan[name][index] = 1
    text = text_of(plan)
    assert plan_of(text) == plan and plan.wide().version == 3
    for name, index in beyond.items():
        plan[name][index] = 0
    assert plan.wide().version == 2
    with pytest.raises(tsb.Error, match="17: no column of 1 to 16"):
        plan_of(text.replace("version,3", "version,2"))


def test_columns_have_letters() -> None:
    assert [column_of(it) for it in (0, 25, 26, 51, 52, 701, 702)] == [
        "A", "Z", "AA", "AZ", "BA", "ZZ", "AAA"
    ]  # fmt: skip


def test_csv_by_the_commands(
    examples: Path, tmp_path: Path, capsys: pytest.CaptureFixture[str]
) -> None:
    """A sheet out, a value changed in it, and in; no file is written over."""
    table, back = tmp_path / "sheet.csv", tmp_path / "plan.json"
    plan = examples / "main_and_oak.json"
    assert called(capsys, "sheet", plan, "--csv", table) == (0, "", "")
    said = f"python3 -m tsb sheet: {table}: there is such a file: name another\n"
    assert called(capsys, "sheet", plan, "--csv", table) == (1, "", said)
    text = table.read_text()
    table.write_text(text.replace("seconds,3.0,4.0,", "seconds,3.0,4.5,"))
    done = called(capsys, "plan", table, "--out", back)
    assert done.status == 0, done.stderr
    assert done.stdout.endswith("tsb check: plan ok\n")
    lines = list(map(str, Plan.read(plan).diff(Plan.read(back))))
    assert lines == ["phaseYellowChange.2: 40 -> 45 (4.5 s)"]
    table.write_text(text.replace("seconds,3.0,4.0,", "seconds,3.0,4.55,"))
    done = called(capsys, "plan", table, "--out", tmp_path / "other.json")
    assert (done.status, done.stdout) == (1, "")
    assert done.stderr == (
        f"{table}: cell E26: 4.55: phaseYellowChange: no whole number of tenths of a"
        " second\n"
    )
    assert sorted(it.name for it in tmp_path.iterdir()) == ["plan.json", "sheet.csv"]


# The page


class Tables(HTMLParser):
    """The rows of all tables of a page, by the names in their first cells, and the
    texts of its parts."""

    def __init__(self, text: str) -> None:
        super().__init__()
        self.rows: list[list[str]] = []
        self.texts: dict[str, list[str]] = {}
        self._open: list[str] = []
        self.feed(text)

    def handle_starttag(self, tag: str, attrs: Any) -> None:
        self._open.append(tag)
        if tag == "tr":
            self.rows.append([])
        elif tag in ("td", "th"):
            self.rows[-1].append("")

    def handle_endtag(self, tag: str) -> None:
        while self._open and self._open.pop() != tag:
            pass

    def handle_data(self, data: str) -> None:
        within = self._open[-1] if self._open else ""
        if within in ("td", "th"):
            self.rows[-1][-1] += data
        elif data.strip():
            self.texts.setdefault(within, []).append(data.strip())

    def row(self, name: str) -> list[str]:
        """The first row of a name."""
        return next(it[1:] for it in self.rows if it and it[0] == name)


@pytest.fixture(scope="module")
def page(tmp_path_factory: pytest.TempPathFactory) -> tuple[Path, Tables]:
    """The sheet of the plan that the manual's chapter 8 works out."""
    examples = Path(__file__).resolve().parents[2] / "examples"
    path = tmp_path_factory.mktemp("sheet") / "sheet.html"
    assert main(["sheet", str(examples / "coordination.json"), "--out", str(path)]) == 0
    return path, Tables(path.read_text())


def test_what_the_page_has(page: tuple[Path, Tables], examples: Path) -> None:
    """Phases are columns. Force-off and yield are those that the manual works out."""
    _, found = page
    text = (examples / "coordination.json").read_bytes()
    assert hashlib.sha256(text).hexdigest() in found.texts["dd"]
    assert "plan ok" in found.texts["dd"]
    assert found.row("phaseYellowChange") == ["seconds", *["4.0"] * 8]
    assert found.row("phaseConcurrency")[1:3] == ["5, 6", "5, 6"]
    assert found.row("phaseMinRecall") == ["", "", "yes", "", "", "", "yes", "", ""]
    assert found.row("split (s)") == [
        "15.0", "40.0", "15.0", "30.0", "15.0", "40.0", "15.0", "30.0"
    ]  # fmt: skip
    assert found.row("green of the split (s)")[:4] == ["10.0", "35.0", "10.0", "25.0"]
    assert found.row("force-off at (s)")[:4] == ["55.0", "95.0", "10.0", "40.0"]
    assert found.row("yield from (s)") == ["", "95.0", "", "", "", "95.0", "", ""]
    assert found.row("coordinated") == ["", "yes", "", "", "", "yes", "", ""]
    assert found.row("1") == ["–", "4.0 + 1.0", "4.0 + 1.0", "4.0 + 1.0", "", "",
                              "4.0 + 1.0", "4.0 + 1.0"]  # fmt: skip
    assert "phaseWalk" not in {it[0] for it in found.rows if it}
    assert found.texts["figcaption"] == [
        "Sequence 1: free operation, pattern 1", "Sequence 2: pattern 2"
    ]  # fmt: skip


def test_advices_and_preempts(
    examples: Path, tmp_path: Path, capsys: pytest.CaptureFixture[str]
) -> None:
    """The advices are those of a review; a preempt and walks have their rows."""
    path, plan = tmp_path / "sheet.html", Plan.read(examples / "main_and_oak.json")
    words: list[str | Path] = [
        examples / "main_and_oak.json",
        "--out",
        path,
        "--title",
        "Main & Oak",
    ]
    assert called(capsys, "sheet", *words) == (0, "", "")
    found = Tables(path.read_text())
    assert found.texts["li"] == plan.review() != []
    assert found.texts["h1"][-1].endswith("Main & Oak")
    assert found.row("preemptDwellPhase") == ["list of phases", "4, 7"]
    assert found.row("walk + clearance (s)") == [
        "", "7 + 12", "", "7 + 12", "", "", "", "7 + 12"
    ]  # fmt: skip
    assert found.row("left of that green (s)") == [
        "", "10.5", "", "0.9", "", "", "", "0.9"
    ]  # fmt: skip
    assert found.row("longest entry, proved (s)") == ["17.9"]
    assert found.row("delay (s)") == ["1.0"]


def test_split_tables_of_no_pattern(
    examples: Path, tmp_path: Path, capsys: pytest.CaptureFixture[str]
) -> None:
    """They are on the sheet too, and so are values of phases that are not enabled. A
    plan without patterns has no times of them."""
    plan = Plan.read(examples / "first_plan.json")
    plan["splitTime"][2, 4], plan["splitMode"][3, 9] = 20, 5
    plan["phaseWalk"][9] = 7
    plan.write(tmp_path / "plan.json")
    words: list[str | Path] = [tmp_path / "plan.json", "--out", tmp_path / "s.html"]
    assert called(capsys, "sheet", *words) == (0, "", "")
    found = Tables((tmp_path / "s.html").read_text())
    assert found.row("splitTime, table 2") == ["seconds", "20", "0"]
    assert found.row("splitMode, table 3") == ["", "none", "omitted"]
    assert found.row("phaseWalk") == ["seconds", "0", "0", "7"]
    assert "split (s)" not in {it[0] for it in found.rows if it}


def test_a_plan_that_is_refused(
    examples: Path, tmp_path: Path, capsys: pytest.CaptureFixture[str]
) -> None:
    """It has no page, and what was there stays. It has its tables, to mend it there."""
    plan, path = examples / "two_short_yellow.json", tmp_path / "s.html"
    path.write_text("before")
    done = called(capsys, "sheet", plan, "--csv", tmp_path / "s.csv", "--out", path)
    assert (done.status, done.stdout) == (1, "")
    assert done.stderr.startswith(f"python3 -m tsb sheet: {plan}: plan: rule K8: ")
    assert path.read_text() == "before"
    assert plan_of((tmp_path / "s.csv").read_text()) == Plan.read(plan)
    done = called(capsys, "sheet", plan)
    assert (done.status, done.stdout) == (2, "")
    assert done.stderr.endswith(
        "sheet: error: name a file by --out or --csv, at least\n"
    )
    none = tmp_path / "none.json"
    said = f"python3 -m tsb sheet: {none}: No such file or directory\n"
    assert called(capsys, "sheet", none, "--out", path) == (1, "", said)
    none.write_text("{}")
    done = called(capsys, "sheet", none, "--out", path)
    assert done.stderr.startswith(f"python3 -m tsb sheet: {none}: plan: version")
    good = examples / "quad.json"
    said = "python3 -m tsb sheet: /dev/full: No space left on device\n"
    assert called(capsys, "sheet", good, "--out", "/dev/full") == (1, "", said)
    said = f"python3 -m tsb sheet: {tmp_path}/no/s.csv: No such file or directory\n"
    assert called(capsys, "sheet", plan, "--csv", tmp_path / "no/s.csv")[2] == said


@pytest.mark.skipif(not BROWSER, reason="there is no Chromium")
def test_the_page_in_a_browser(page: tuple[Path, Tables], tmp_path: Path) -> None:
    """The drawing has its boxes and one barrier; nothing is wider than the window, and
    printed it is a PDF of a few pages."""
    webdriver = pytest.importorskip("selenium.webdriver")
    options = webdriver.ChromeOptions()
    for word in ("--headless", "--no-sandbox", "--window-size=1280,900"):
        options.add_argument(word)
    service = pytest.importorskip("selenium.webdriver.chrome.service").Service
    found = shutil.which("chromedriver")
    browser = webdriver.Chrome(options=options, service=service(found))
    try:
        browser.get(page[0].as_uri())
        count = (
            "return document.querySelectorAll('#rings figure:first-of-type {}').length"
        )
        assert browser.execute_script(count.format("rect")) == 8
        assert browser.execute_script(count.format("line")) == 1
        wide = "return document.documentElement.scrollWidth - window.innerWidth"
        assert browser.execute_script(wide) <= 0
        assert browser.get_log("browser") == []
        browser.save_screenshot(str(tmp_path / "sheet.png"))
    finally:
        browser.quit()


@pytest.mark.skipif(not BROWSER, reason="there is no Chromium")
def test_a_pdf(
    examples: Path, tmp_path: Path, capsys: pytest.CaptureFixture[str]
) -> None:
    path = tmp_path / "sheet.pdf"
    words: list[str | Path] = [examples / "coordination.json", "--out", path]
    assert called(capsys, "sheet", *words) == (0, "", "")
    assert path.read_bytes().startswith(b"%PDF-")


def test_a_pdf_without_a_browser(
    examples: Path, tmp_path: Path, monkeypatch: pytest.MonkeyPatch
) -> None:
    """It is said, and nothing is written."""
    monkeypatch.setattr(command, "BROWSERS", ("no-such-browser",))
    words = [str(examples / "quad.json"), "--out", str(tmp_path / "s.pdf")]
    assert command.main(words) == 1 and list(tmp_path.iterdir()) == []
