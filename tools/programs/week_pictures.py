"""Pictures that `tsb_field schedule --svg` writes, read as XML, and what they have to show by docs/use/FIELD.md: found by hand
for the schedule of the examples, and by tools/programs/week_rules.py for weeks at random.
"""
import datetime
import pathlib
import subprocess
import xml.etree.ElementTree
from collections.abc import Iterator

from tools.programs.review_cases import Table
from tools.programs.week_rules import Band, bands

SVG = "{http://www.w3.org/2000/svg}"
# A row is 32 units high, from 32 units below the top on. Hours lie between 140 and 1140 units from the left.
ROW, LEFT, WIDTH, MINUTES = 32, 140, 1000, 1440
FRAME = {"x": "140", "width": "1000", "height": "224", "viewBox": "0 0 1440 224", "preserveAspectRatio": "none"}
FILLS = 8

# The week of examples/schedule.json from a Sunday on: free, and by which action from which hour to which other one.
WEEKEND = [(0, 10, 0, 3), (10, 18, 2, 2), (18, 24, 0, 3)]
WORKDAY = [(0, 7, 0, 3), (7, 9, 1, 1), (9, 19, 2, 2), (19, 24, 0, 3)]
WORKED: list[Band] = [(day, 60 * begin, 60 * end, pattern, action)
                      for day, hours in enumerate([WEEKEND, WORKDAY, WORKDAY, WEEKEND, WORKDAY, WORKDAY, WEEKEND])
                      for begin, end, pattern, action in hours]

# A mark with its place: how far from the left, the row, and what is written.
Mark = tuple[int, int, str]


def name(pattern: int) -> str:
    """What a band is called."""
    return f"pattern {pattern}" if pattern else "free"


def clock(minute: int) -> str:
    """A minute of a day; midnight at its end is 24:00."""
    return f"{minute // 60:02}:{minute % 60:02}"


def rects(week: list[Band]) -> list[tuple[str, ...]]:
    """The shapes of bands: class, place and size, and what a viewer shows."""
    return [(f"p{(pattern - 1) % FILLS + 1 if pattern else 0}", str(begin), str(ROW * day + 4), str(end - begin), "24",
             f"{name(pattern)}, {clock(begin)} to {clock(end)}, {f'action {action}' if action else 'no action'}")
            for day, begin, end, pattern, action in week]


def labels(week: list[Band]) -> list[Mark]:
    """The labels of bands that are wide enough: 40 minutes for free, and an hour and a half for a pattern."""
    return [(LEFT + (begin + end) * WIDTH // (2 * MINUTES), day, name(pattern)) for day, begin, end, pattern, _ in week
            if end - begin >= (90 if pattern else 40)]


def marks(parent: xml.etree.ElementTree.Element, kind: str, inset: int) -> list[Mark]:
    """The texts of a class that are in rows."""
    return [(int(it.get("x", "")), (int(it.get("y", "")) - inset) // ROW, it.text or "") for it in parent.findall(f"{SVG}text")
            if it.get("class") == kind and (int(it.get("y", "")) - inset) % ROW == 0]


def differences(picture: bytes, first: datetime.date, week: list[Band]) -> Iterator[str]:
    """What a picture of a week shows otherwise."""
    try:
        root = xml.etree.ElementTree.fromstring(picture)
    except xml.etree.ElementTree.ParseError as fault:
        yield f"it is no XML: {fault}"
        return
    plot = root.find(f"{SVG}svg")
    frame = None if plot is None else plot.find(f"{SVG}svg")
    if plot is None or frame is None or plot.get("y") != "32":
        yield "it has no frame"
        return
    days = [f"{first + datetime.timedelta(it):%Y-%m-%d %a}" for it in range(7)]
    title = f"Patterns of the schedule, week from {days[0]}"
    shapes = [(*(it.get(key, "") for key in ("class", "x", "y", "width", "height")), it.findtext(f"{SVG}title", ""))
              for it in frame.findall(f"{SVG}rect")]
    hours = [(int(it.get("x", "")), it.text) for it in plot.findall(f"{SVG}text") if it.get("y") == "240"]
    lines = [tuple(it.get(key) for key in ("x1", "x2", "y2")) for it in plot.findall(f"{SVG}line")]
    places = [LEFT + hour * WIDTH // 24 for hour in range(25)]
    for what, it, wanted in [
            ("title", [root.findtext(f"{SVG}title"), root.findtext(f"{SVG}text")], [title, title]),
            ("frame", frame.attrib, FRAME),
            ("days", marks(plot, "l", 20), [(132, number, day) for number, day in enumerate(days)]),
            ("hours", hours, [(place, str(hour)) for hour, place in enumerate(places)]),
            ("lines", lines, [(str(place), str(place), "228") for place in places]),
            ("bands", shapes, rects(week)), ("labels", marks(plot, "k", 20), labels(week))]:
        if it != wanted:
            yield f"{what}: {it}, not {wanted}"


def drawn(program: pathlib.Path, folder: pathlib.Path, plan: str, first: datetime.date, week: list[Band]) -> Iterator[str]:
    """What the picture of a week of a plan in this folder shows otherwise."""
    words = ["schedule", "--svg", "--week", f"{first}", plan]
    run = subprocess.run([program, *words], cwd=folder, capture_output=True, timeout=120)
    if (run.returncode, run.stderr) != (0, b""):
        yield f"{words}: status {run.returncode}, {run.stderr!r}"
        return
    yield from (f"{words}: {it}" for it in differences(run.stdout, first, week))


def worked(program: pathlib.Path, folder: pathlib.Path) -> Iterator[str]:
    """What pictures show otherwise that were worked by hand: of the schedule of the examples, and of a plan without one."""
    yield from drawn(program, folder, "schedule.json", datetime.date(2026, 12, 6), WORKED)
    yield from drawn(program, folder, "quad.json", datetime.date(2099, 12, 28), [(day, 0, MINUTES, 0, 0) for day in range(7)])


def at_random(program: pathlib.Path, folder: pathlib.Path, weeks: list[tuple[str, Table, datetime.date]]) -> Iterator[str]:
    """What pictures of these weeks show otherwise: the file of a plan in the folder, the plan, and the first day."""
    for plan, text, first in weeks:
        yield from drawn(program, folder, plan, first, bands(text, first))
