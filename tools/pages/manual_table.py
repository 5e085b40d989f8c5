#!/usr/bin/env python3
"""Writes the table of objects in docs/use/MANUAL.md from the one table in the source; run it at the top.

Names, indices, ranges, units and what is structural come from crates/tsb_plan/src/object.rt: its table, and the
comments of its variants for what an index counts and for units. What an object means is the last cell of its row in
the manual, and is kept. With `--check` nothing is written. It then fails where the manual's table is another one than
the source gives, where a block of the manual, the tutorial, the README or the page of reviews that is headed `session NAME` or `file NAME`, or a row of
a table of the manual that begins with a command behind `> `, is not what the examples have, and where the examples lack
a command, a word of `when`, a refusal of the manual or a kind of input that is taken back.
"""
import pathlib
import re
import sys

SOURCE = pathlib.Path("crates/tsb_plan/src/object.rt")
MANUAL = pathlib.Path("docs/use/MANUAL.md")
# Other documents that show examples.
OTHERS = [pathlib.Path(it) for it in ("README.md", "docs/use/TUTORIAL.md", "docs/use/REVIEW.md", "examples/ARROWS.md")]
EXAMPLES = pathlib.Path("examples")
BEGIN, END = "<!-- objects: written by tools/pages/manual_table.py -->", "<!-- end of objects -->"

COMMENT = re.compile(r"`(\w+)`: (.+?), (.+); 0 to ((?:\d+,)?\d+)(?:, and before version 3 0 to (\d+))?\.")
ROW = re.compile(r'\s+(\w+) +"(\w+)" +\d+ \[(\d+) (\d+)\] +\[(?:since (\d)|(\d+) (\d+))\] +(structural|free)')

# What some example has: commands, words of `when`, kinds of input that `undo` names.
COMMANDS = """step back seek undo show when begin set verify commit abort pattern preempt omit fault reset clock quit""".split()
WATCHES = """interval ped call output alarm stage trip""".split()
KINDS = """tick pattern switch fault reset begin set verify commit abort clock omit""".split()

# Refusals that no example has: without memory, and behind 6,000,000 display lines.
NOT_SHOWN = ["E1", "E11"]

# How the names of objects begin, in the order in which the manual has them.
STARTS = ["phase", "vehicle", "pedestrian", "overlap", "coord", "pattern", "split", "sequence", "preempt", "unit",
          "timeBase", "dayPlan", "timebase", "action", "channel"]


def comments(source):
    """For each variant of the enum, the comment above it as one line."""
    body = source[source.index("pub enum Object {"):]
    body = body[:body.index("\n}")]
    said = []
    for line in body.splitlines()[1:]:
        line = line.strip()
        if line.startswith("///"):
            said.append(line[3:].strip())
        else:
            yield line.rstrip(","), " ".join(said)
            said = []


def unit_of(words):
    """The unit of a value, without what says its use."""
    clauses = words.replace(" (profile)", "").split(" whose ")[0].split(", ")
    return ", ".join(it for it in clauses if not it.startswith(("whether ", "in use ")))


def objects():
    """The cells of each object's row but the last, by its name, in the order of the source."""
    source = SOURCE.read_text()
    said = dict(comments(source))
    table = source[source.index("macro_rules! table {"):source.index("macro_rules! names {")]
    found = {}
    for row in filter(None, map(ROW.match, table.splitlines())):
        variant, name, indices, most, since, narrow_indices, narrow_most, change = row.groups()
        comment = COMMENT.fullmatch(said.pop(variant))
        if not comment or comment[1] != name or comment[4].replace(",", "") != most:
            sys.exit(f"{SOURCE}: the comment of {variant} is not of the form, or not as the table says")
        counted = "" if comment[2] == "1 alone" else comment[2] + ("," if "+" in comment[2] else "")
        index = "1" if indices == "1" else f"{counted} 1 to {indices}".strip()
        if since:
            index += " (none)" if since == "2" else f" (version {since})"
        elif narrow_indices != indices:
            index += f" ({narrow_indices})"
        values = f"0 to {most}" + (f" ({narrow_most})" if not since and narrow_most != most else "")
        values += f" ({comment[5]} before version 3)" if comment[5] else ""
        found[name] = [f"`{name}`", index, values, unit_of(comment[3]), "S" if change == "structural" else ""]
    if said:
        sys.exit(f"{SOURCE}: no row of the table for {', '.join(said)}")
    return found


def meanings(table):
    """The last cell of each row of a table, by the name in the first."""
    return {row[1]: row[2] for row in re.finditer(r"^\| `(\w+)` \|.*\| ([^|]+) \|$", table, re.M)}


def place(name):
    """Where the manual has an object, among those that begin otherwise."""
    return next((at for at, start in enumerate(STARTS) if name.startswith(start)), len(STARTS))


def spelled(found, meant):
    """The table."""
    lines = ["| Object | Index | Range | Unit | S | Meaning |", "|---|---|---|---|---|---|"]
    lines += ["| " + " | ".join(found[it] + [meant.get(it, "?")]) + " |" for it in sorted(found, key=place)]
    return "\n".join(lines) + "\n"


def transcript(name):
    """The lines of an example's session: each command behind `> `, and its answers."""
    answers = iter((EXAMPLES / f"{name}.expected").read_text().splitlines())
    for command in (EXAMPLES / f"{name}.commands").read_text().splitlines():
        words = command.split()
        if not words or command.startswith("#"):
            continue
        yield f"> {command}"
        if words == ["quit"]:
            return
        for _ in range(int(words[1]) if words[0] == "step" else 1):
            answer = next(answers)
            yield answer
            if answer.startswith("refused"):
                break


def shown_lines(block):
    """The lines of a block of a session, in which a short answer may follow its command and two spaces."""
    return [part for line in block.splitlines() for part in re.split(" {2,}", line)]


def stands_in(shown, whole):
    """Whether the lines shown are a part of a session, in which answers of a `step` may be left out."""
    def stands_at(at):
        is_step = False
        for line in shown:
            while is_step and at < len(whole) and whole[at] != line and not whole[at].startswith("> "):
                at += 1
            if at >= len(whole) or whole[at] != line:
                return False
            if line.startswith("> "):
                is_step = line.startswith("> step ")
            at += 1
        return True
    return any(stands_at(at) for at in range(len(whole)))


def other_blocks(text):
    """What is wrong with the blocks of a document that show examples."""
    for kind, name, block in re.findall(r"^```(session|file) (\S+)\n(.*?)^```$", text, re.M | re.S):
        path = EXAMPLES / (name if kind == "file" else f"{name}.commands")
        if not path.is_file():
            yield f"there is no {path}"
            continue
        if kind == "file":
            is_shown = f"\n{block}" in f"\n{path.read_text()}"
        else:
            is_shown = stands_in(shown_lines(block), list(transcript(name)))
        if not is_shown:
            yield f"the block `{kind} {name}` is not as the example: {block.splitlines()[0]}"


def other_rows(text):
    """The rows of the manual with a command that are not as the example of each command."""
    talk = list(transcript("each_command"))
    for shown in re.findall(r"^\| `(> [^`]+)` \| `([^`]+)` \|", text, re.M):
        if not stands_in(shown, talk):
            yield f"the row of `{shown[0]}` is not as the example"


def unshown(text):
    """What some example has to have, and none has."""
    typed = {tuple(line.split()[:2]) for path in EXAMPLES.glob("*.commands") for line in path.read_text().splitlines()}
    answered = {line for path in EXAMPLES.glob("*.expected") for line in path.read_text().splitlines()}
    refused = {line.split()[1] for line in answered if line.startswith("refused ")}
    refusals = re.findall(r"^\| `refused (E\d+) ", text, re.M)
    yield from (f"no example of `{it}`" for it in COMMANDS if it not in {words[0] for words in typed if words})
    yield from (f"no example of `when {it}`" for it in WATCHES if ("when", it) not in typed)
    yield from (f"no example of `undone {it}`" for it in KINDS if f"undone {it}" not in answered)
    yield from (f"no example of {it}" for it in refusals if it not in refused and it not in NOT_SHOWN)


def main(words):
    text = MANUAL.read_text()
    before, rest = text.split(BEGIN + "\n")
    table, behind = rest.split(END)
    meant = meanings(table)
    found = objects()
    new = "\n" + spelled(found, meant)
    wrong = [f"no meaning: {name}" for name in found if meant.get(name, "?") == "?"]
    wrong += [f"no object of the source: {name}" for name in meant if name not in found]
    if words == ["--check"]:
        was, now = table.splitlines(), new.splitlines()
        wrong += [f"not as the source: {line}" for line in was if line not in now]
        wrong += [f"missing: {line}" for line in now if line not in was]
        if not wrong and was != now:
            wrong.append("the rows stand in another order than the source's")
        wrong += [*other_blocks(text), *other_rows(text), *unshown(text)]
        wrong += [fault for it in OTHERS for fault in other_blocks(it.read_text())]
    elif words:
        sys.exit("usage: python3 -m tools.pages.manual_table [--check]")
    else:
        MANUAL.write_text(before + BEGIN + "\n" + new + END + behind)
    print("\n".join(wrong) if wrong else f"{len(found)} objects, as in the source")
    return 1 if wrong else 0


if __name__ == "__main__":
    sys.exit(main(sys.argv[1:]))
