"""Writes python/tsb/manual.json from tables of docs/use/MANUAL.md and docs/use/FIELD.md; run it at the top. With
`--check` it only compares.

The package has names, units, ranges, rules, cures and the columns of an export from this file alone. The table of
objects in the manual is written by manual_table.py from the source of tsb_plan, so a name or a range has one home.
"""
import json
import pathlib
import re
import sys
from typing import Any

MANUAL, FIELD = pathlib.Path("docs/use/MANUAL.md"), pathlib.Path("docs/use/FIELD.md")
WRITTEN = pathlib.Path("python/tsb/manual.json")
INDEX = re.compile(r"(?:(.+?),? )?1(?: to (\d+))?(?: \((?:(none|version \d)|(\d+))\))?")
RANGE = re.compile(r"0 to (\d+)(?: \((\d+)\))?(?: \((\d+) before version 3\))?")


def rows(text: str, first: str, start: str) -> list[list[str]]:
    """The cells of the table whose head begins with these words, of its rows that begin with a start."""
    table = text[text.index(f"\n| {first} |"):].split("\n\n")[0]
    cells = [line.strip("| ").split(" | ") for line in table.splitlines() if line.startswith(f"| {start}")]
    return [[cell.strip() for cell in row] for row in cells]


def an_object(index: str, values: str, unit: str, structural: str, meaning: str) -> dict[str, Any]:
    """What is said of an object: a count or a greatest value of version 1 is None where it has no such object. Where that
    of version 2 is another than that of version 3, it is said too."""
    counted, most = INDEX.fullmatch(index), RANGE.fullmatch(values)
    if counted is None or most is None:
        sys.exit(f"{MANUAL}: the object of {meaning!r} has an index or a range of another form")
    what, count, later, narrow = counted.groups()
    since = 1 if later is None else 2 if later == "none" else int(later.split()[1])
    wide = int(count or 1)
    return {
        "index": what or "", "count": wide, "count_1": None if later else int(narrow or wide),
        "greatest": int(most[1]), "greatest_1": None if later else int(most[2] or most[1]),
        "since": since, "unit": unit, "structural": structural == "S", "meaning": meaning,
    } | ({"greatest_2": int(most[3])} if most[3] else {})


def objects(text: str) -> dict[str, Any]:
    """The objects by name."""
    table = text[text.index("<!-- objects"):text.index("<!-- end of objects")]
    cells = [re.split(r" ?\| ?", line)[1:-1] for line in table.splitlines() if line.startswith("| `")]
    return {row[0].strip("`"): an_object(*row[1:]) for row in cells}


def told(text: str, field: str) -> dict[str, Any]:
    """All that the package has of the two documents."""
    last = [re.split(r", ", limit)[0] for _, limit in rows(text, "What | Limit", "ticks")]
    refusals = {}
    for line, *said in rows(text, "Line | What it means | Usual cause | Cure", "`refused"):
        number, name = re.findall(r"refused E(\d+) (\w+)", line)[0]
        refusals[number] = dict(zip(["name", "meaning", "cause", "cure"], [name, *said]))
    rules = {name: dict(zip(["holds", "cause", "cure"], said))
             for name, *said in rows(text, "Rule | What must hold | Usual cause | Cure", "K")}
    faults = {line.strip("`"): when for line, when, *_ in rows(text, "Line | When | Example of a plan text", "`plan: ")
              if "rule" not in line}
    columns = {what: [it.strip("` ") for it in re.split("[,;]", names)] for what, names in rows(field, "Column | Names", "")
               if what not in ("Column", "---|---")}
    return {"ticks": int(last[0].replace(",", "")), "objects": objects(text), "rules": rules, "plan_faults": faults,
            "refusals": refusals, "columns": columns}


def main(words: list[str]) -> int:
    """Writes the file, or compares it."""
    found = json.dumps(told(MANUAL.read_text(), FIELD.read_text()), indent=1, ensure_ascii=False) + "\n"
    if words == ["--check"]:
        is_same = WRITTEN.is_file() and WRITTEN.read_text() == found
        cure = "another: python3 -m tools.pages.python_manual writes it"
        print(f"{WRITTEN} is {'as the documents' if is_same else cure}")
        return 0 if is_same else 1
    if words:
        sys.exit("usage: python3 -m tools.pages.python_manual [--check]")
    WRITTEN.write_text(found)
    return 0


if __name__ == "__main__":
    sys.exit(main(sys.argv[1:]))
