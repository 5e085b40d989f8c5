"""Runs the built program of field files and compares what it writes; run it at the top.

    python3 -m tools.programs.run_field PROGRAM BENCH

PROGRAM is that of tsb_field, BENCH that of tsb, which answers the hour of the examples.

Worked runs, of tools/programs/field_cases.py, have the exact bytes and the status that the rules of docs/use/FIELD.md
ask for. Behind them come texts at random, the same in each run of this tool: logs go to events and back, events,
exports in all forms and display lines are compared with what tools/programs/field_rules.py makes of them, and so are
the bars of diagrams, which are read as XML. So are the sessions of the examples, and their hour of traffic. There are
texts of the greatest sizes, too.
"""
import bisect
import itertools
import pathlib
import random
import subprocess
import sys
import tempfile
import xml.etree.ElementTree

from tools.programs import (card_words, field_cases, field_rules, review_words, schedule_words, week_pictures,
                            worksheet_words)
from tools.programs.field_cases import BEGIN, FROM, GIB, LONGEST_LOG, MOST_ROWS
from tools.programs.run_program import EXAMPLES, shown

# How many texts there are of each kind.
TRIPS, TEXTS, EXPORTS, LATE = 200, 200, 2000, 1000
DEVICES = ["1001", "Main, 5th", "-7", "x y", "#7"]
KINDS = list(field_rules.MOST)

# How the stored picture of the hour was drawn.
HOUR_SECONDS, HOUR_TITLE = 1200, "An hour of made-up traffic on quad"
# The pictures of the options of coordination: their names without the value, plan and log, the option, values of it,
# and the seconds. Those of lead and lag are of two patterns.
OPTIONS = [
    ("late_force_off", "late_force_off", "late_force_off", "coordForceMode", (0, 1), 330),
    ("floating_force_off", "coordination", "coordination", "coordForceMode", (0, 2), 300),
    ("coordination_maximum", "coordination", "coordination", "coordMaximumMode", (0, 1), 300),
    ("permissive_time", "coordination", "permissive_time", "patternPermissiveTime", (0, 5), 300),
    ("lead_and_lag", "coordination", "lead_and_lag", "pattern", (1, 2), 300),
    ("arrows", "arrows", "lead_and_lag", "pattern", (1, 2), 300),
    ("pedestrian_recycle", "pedestrian_recycle", "pedestrian_recycle", "phasePedestrianRecycle", (0, 1), 300),
    ("coming_into_step", "coming_into_step", "coming_into_step", "coordCorrectionMode", (0, 1, 2, 3), 360),
]
# The indices at which an option is set, where they are not 1 alone.
INDICES = {"phasePedestrianRecycle": (2, 6)}
# What is set beside an option, and the tick at which pattern 2 follows pattern 1.
BESIDE = {"coordCorrectionMode": ("set 1 coordCorrectionLimit 1 20", 850)}
SVG = "{http://www.w3.org/2000/svg}"


def answer(program, words, text=b"", folder=None):
    """Status, output and errors of a run."""
    done = subprocess.run([program] + words, input=text, capture_output=True, cwd=folder, timeout=120)
    return done.returncode, done.stdout, done.stderr


def difference(what, it, wanted):
    """What a run has otherwise than it should."""
    return [] if it == wanted else [f"{what}: {shown(one)}, not {shown(other)}" for one, other in zip(it, wanted)
                                    if one != other]


def random_log(chance):
    """A log whose rows each differ from the one before."""
    tick, lit, rows = 0, set(), []
    by_lists = chance.randrange(2) == 0
    inputs = [(kind, n) for kind, most in (field_rules.MOST if by_lists else field_rules.DIGITS).items() for n in range(1, most + 1)]
    for _ in range(chance.randrange(12)):
        tick += chance.choice([1, 1, 2, 10, 601, 36_000, 500_000])
        lit ^= set(chance.sample(inputs, chance.choice([1, 1, 2, 28])))
        rows.append((tick, set(lit)))
    by_lists = any(field_rules.is_beyond(*it) for _, lit in rows for it in lit)
    return b"".join(field_rules.row_text(*row, by_lists) for row in rows)


def round_trips(program, folder):
    """Logs that do not come back from their events."""
    for count in range(TRIPS):
        chance = random.Random(f"trip {count}")
        log, device = random_log(chance), chance.choice(DEVICES)
        begin = f"2026-11-{chance.randrange(10, 30)} 07:00:{chance.choice(['00', '59.95', '00.000000001'])}"
        (folder / "trip.log").write_bytes(log)
        words = [f"--from={begin}", f"--device={device}"]
        status, events, errors = answer(program, ["events", *words, "--log", "trip.log"], b"", folder)
        wanted = field_rules.events(b"", field_rules.moment(begin.encode()), device.encode(), log)
        yield from difference(f"events of log {count}", (status, events, errors), (0, wanted, b""))
        beyond = {it for _, lit in field_rules.rows_of(log) for it in lit if field_rules.is_beyond(*it)}
        words += [f"--{kind}={number}={number}" for kind, number in sorted(beyond)]
        back = answer(program, ["log", *words, *([] if log else ["--allow-empty"])], events)
        yield from difference(f"round trip {count}", back, (0, log, b""))


def random_events(chance):
    """A text of events that has the faults of one now and then."""
    now = BEGIN + chance.choice([-3, -1, 0, 0]) * field_rules.SECOND
    step = chance.choice([1, 15 * 10 ** 6, 25 * 10 ** 6, 40 * 10 ** 6, field_rules.TENTH, 3 * field_rules.TENTH])
    lines = [] if chance.randrange(2) else [b"Parameter,EventId,Timestamp,DeviceId"]
    is_turned = bool(lines)
    for _ in range(chance.randrange(100)):
        now += step * chance.choice([0, 0, 1, 1, 2, 7])
        code = chance.choice([*field_rules.CODES, 82, 81, 1, 8])
        row = [chance.choice([b"7", b"7", b"7", b'"8,"']), field_rules.time_text(now), b"%d" % code,
               b"%d" % chance.choice([1, 1, 1, 2, 2, 4, 9, 17])]
        lines.append(b",".join(row[::-1] if is_turned else row))
    if lines and chance.randrange(4) == 0:
        early = lines[-1].replace(b"07:", b"06:")
        spoilt = chance.choice([b"x", b'7,"', lines[0], early, early, b"#", b" "])
        lines.insert(chance.randrange(len(lines)) + 1, spoilt)
    return chance.choice([b"\n", b"\r\n"]).join([*lines, b""])


def random_wires(chance):
    """Words of wires at random, and the wires."""
    for _ in range(chance.choice([0, 0, 1, 3])):
        kind = chance.choice(KINDS)
        channel, number = chance.choice([1, 2, 3, 9, 17]), chance.randint(1, field_rules.MOST[kind])
        yield [f"--{kind}={channel}={number}"], (kind, channel, number)


def logs_of_events(program):
    """Events at random from which the program makes another log than the rule."""
    for count in range(TEXTS):
        chance = random.Random(f"events {count}")
        text, wires = random_events(chance), list(random_wires(chance))
        device = chance.choice([None, "7", "8,"])
        mapped = [wire for kind in KINDS for _, wire in wires if wire[0] == kind]
        told = [chance.randrange(2) == 0 for _ in range(2)]
        try:
            wanted = field_rules.log(text, BEGIN, device and device.encode(), mapped, None, None, *told)
        except field_rules.Fault as fault:
            wanted = 1, fault.known, fault.line
        words = ["log", *FROM, *([f"--device={device}"] if device else []), *sum((words for words, _ in wires), [])]
        words += [word for word, is_asked in zip(["--count", "--allow-empty"], told) if is_asked]
        yield from difference(f"log of events {count}", answer(program, words, text), wanted)


HEADERS = [
    b"SignalID,Timestamp,EventCode,EventParam", b"signal_id,time_stamp,event_code,event_param", b"Timestamp,Event Type,Parameter",
    b"x, Device Id, DateTime, Event ID, Param", b'"LocationIdentifier","timestamp","eventCode","eventParam"', b"",
    b"EventValue,Code,Time,INTERSECTION-ID,",
]
FRONTS = [b"", b"", b"Version: 3\n", b"C:\\log.dat\nPhases in use: 1 2 3\n", b"# remark\n\n"]
SUFFIXES = {
    "year-first": ["", "", "Z", "+00:00", "-0700", " +01", "+530", " UTC"], "month-first": ["", "", " UTC", "-07:00"],
    "day-first": ["", "Z", " +05:30"],
}


def random_time(chance, nanos, form, suffix, point):
    """A moment in a form, with a point or a comma before its fraction."""
    if form == "seconds":
        seconds, part = divmod(nanos - field_rules.EPOCH * field_rules.SECOND, field_rules.SECOND)
        return f"{seconds}{point}{part:09}".rstrip("0").rstrip(chance.choice([point, ""]))
    if form == "milliseconds":
        return str((nanos - field_rules.EPOCH * field_rules.SECOND) // 10 ** 6)
    day, clock = field_rules.time_text(nanos).decode().split(" ")
    year, month, of_month = day.split("-")
    order = {"year-first": [year, month, of_month], "month-first": [month, of_month, year], "day-first": [of_month, month, year]}
    hour, rest = clock.replace(".", point).split(":", 1)
    half = ""
    if not suffix and chance.randrange(2) and form != "year-first":
        half = chance.choice([" AM", " am"]) if int(hour) < 12 else " PM"
        hour = str((int(hour) + 11) % 12 + 1)
    mark = "-" if form == "year-first" else chance.choice("/-.")
    return f"{mark.join(order[form])}{chance.choice(['T', ' ', ' '])}{hour}:{rest}{half}{suffix}"


def row_text(chance, said, places, width, space, mark):
    """A row with what is said in its places; a field that has the mark is in quotes, mostly."""
    row = ["x"] * width
    for place, field in zip(places, said):
        if place is not None:
            is_quoted = mark in field and chance.randrange(20) or not space and chance.randrange(20) == 0
            row[place] = f'"{field}"' if is_quoted else space + field + space
    return mark.join(row)


# How late a row comes, in tenths of a second, and words by which rows are sorted, with their window in seconds.
LATENESS = [0, 0, 0, 0, 0, 1, 3, 9, 9, 10, 10, 11, 25]
SORTED = [(["--sort"], 60), (["--sort-within", "1"], 1), (["--sort-within=2"], 2), (["--sort", "--sort-within", "3600"], 3600)]


def random_export(chance, is_late=False):
    """An export in a form at random, with a fault now and then; rows may come a little late."""
    header, form, mark = chance.choice(HEADERS), chance.choice(list(field_rules.FORM_TIMES)), chance.choice(",,,;;\t")
    places = (field_rules.columns(header) or [field_rules.USUAL])[0]
    width = max(place for place in places if place is not None) + 1 + chance.choice([0, 0, 1])
    suffix = chance.choice(SUFFIXES.get(form, [""]))
    space, zeros, point = chance.choice(["", "", " "]), chance.choice(["", "", ".0", ".00"]), chance.choice("..,")
    device = chance.choice(["7", "7", "7", "7, Main", "7;Main", "7\tM"])
    several = chance.choice([1, 1, 2, 7, 8, 9])
    day = chance.choice([0, 0, 0, -17 * 86_400, 86_400])
    now = BEGIN + day * field_rules.SECOND
    front = header.replace(b",", mark.encode())
    lines = [front] if header else []
    for _ in range(chance.randrange(30)):
        now += chance.choice([0, 1, 3, 70]) * 10 ** 8
        code = chance.choice([82, 81, 90, 89, 102, 104, 1, 150])
        channel = str(chance.choice([1, 1, 2, 4, 17])) + zeros
        if chance.randrange(150 if code in field_rules.CODES else 3) == 0:
            channel = chance.choice(["NULL", "-1", ""])
        at = now - chance.choice(LATENESS) * 10 ** 8 if is_late else now
        time = random_time(chance, at, form, suffix, point)
        said = [chance.choice([device, device, "8", str(8 + chance.randrange(several))]), time, f"{code}{zeros}", channel]
        lines.append(row_text(chance, said, places, width, space, mark).encode())
        spoilt = chance.randrange(120)
        if spoilt < 8:
            other = chance.choice([it for it in field_rules.MARKS if it != mark.encode()])
            turned = random_time(chance, now, chance.choice(list(field_rules.FORM_TIMES)), "", ".")
            said[1] = turned
            lines.append([
                b"---,---,---,---".replace(b",", mark.encode()), front or b"-", b"x", b"7,07:00:03,82,1", lines[-1][:-3],
                lines[-1].replace(mark.encode(), other), row_text(chance, said, places, width, space, mark).encode(),
                b"(%d rows affected)" % len(lines),
            ][spoilt])
    return chance.choice(FRONTS) + b"".join(line + b"\n" for line in lines)


def logs_of_exports(program):
    """Exports at random from which the program makes another log than the rule."""
    for count in range(EXPORTS):
        chance = random.Random(f"export {count}")
        text, device = random_export(chance), chance.choice([None, None, "7"])
        told = [chance.randrange(4) == 0, chance.randrange(2) == 0]
        form, zone = chance.choice([None] * 9 + list(field_rules.FORM_TIMES)), chance.choice([None] * 4 + ["Z", "-07:00", "+0530"])
        try:
            wanted = field_rules.log(text, BEGIN, device and device.encode(), (), form,
                                     zone and field_rules.zone_named(zone.encode()), *told)
        except field_rules.Fault as fault:
            wanted = 1, fault.known, fault.line
        words = ["log", *FROM]
        words += [f"--{name}={it}" for name, it in [("device", device), ("time-form", form), ("zone", zone)] if it]
        words += [word for word, is_asked in zip(["--count", "--allow-empty"], told) if is_asked]
        yield from difference(f"log of export {count}", answer(program, words, text), wanted)


def sorted_exports(program):
    """Exports at random, a little out of order, from which the program makes another log than the rule."""
    for count in range(LATE):
        chance = random.Random(f"late {count}")
        text, device = random_export(chance, chance.randrange(8) > 0), chance.choice([None, None, "7"])
        told, (more, window) = [chance.randrange(4) == 0, chance.randrange(2) == 0], chance.choice(SORTED)
        try:
            wanted = field_rules.log(text, BEGIN, device and device.encode(), (), None, None, *told, window)
        except field_rules.Fault as fault:
            wanted = 1, fault.known, fault.line
        words = ["log", *FROM, *more, *([f"--device={device}"] if device else [])]
        words += [word for word, is_asked in zip(["--count", "--allow-empty"], told) if is_asked]
        yield from difference(f"log of late export {count}", answer(program, words, text), wanted)


def random_display(chance, is_wide=False):
    """What a session may answer: display lines that go on or back, wide ones or not, and other answers."""
    tick, fields = 0, [["-RG"[n % 3] for n in range(16)], ["-D"[n % 2] for n in range(16)], ["-"] * 4, ["0"]]
    letters = ["-RYGF", "-DCW", "-RYGPF", "0012345678"]
    overlaps = ["-"] * 16
    for _ in range(chance.randrange(80)):
        tick = max(1, tick + chance.choice([1, 1, 1, 1, 5, 0, -1, -7]))
        for _ in range(chance.choice([0, 0, 0, 1, 3])):
            place = chance.randrange(4)
            fields[place][chance.randrange(len(fields[place]))] = chance.choice(letters[place])
        local = chance.choice(["----", f"{tick % 900:04}"])
        overlaps[:4], overlaps[chance.randrange(4, 16)] = fields[2], chance.choice(letters[2])
        wide = ["".join(overlaps)] if is_wide and chance.randrange(9) else []
        yield " ".join([f"{tick:07}", *("".join(field) for field in fields), local, *wide])
        if chance.randrange(6) == 0:
            others = ["ok", "nothing", "undone tick", "", "bad command", f"{tick:07} {'G' * 16}", "tick 0000001"]
            yield chance.choice(others)


def events_of_displays(program, folder):
    """Display lines at random from which the program makes other events than the rule, or draws another diagram."""
    for count in range(TEXTS):
        chance = random.Random(f"display {count}")
        is_wide = chance.randrange(4) == 0
        text = "\n".join(random_display(chance, is_wide)).encode()
        log, device = chance.choice([b"", random_log(chance)]), chance.choice(DEVICES)
        (folder / "random.log").write_bytes(log)
        words = [*FROM, f"--device={device}", "--log", "random.log", *(["--wide"] if is_wide else [])]
        wanted = field_rules.events(text, BEGIN, device.encode(), log, is_wide)
        it = answer(program, ["events", *words], text, folder)
        yield from difference(f"events of display lines {count}", it, (0, wanted, b""))
        yield from drawn_otherwise(program, folder, text, ("random.log", log), chance.choice([1, 3, 7, 300]), is_wide)


def picture_of(program, folder, text, words):
    """The diagram that the program draws, as XML, and what is wrong with it; none where it is no XML."""
    status, picture, errors = answer(program, ["diagram", *words], text, folder)
    if (status, errors) != (0, b""):
        return None, [f"diagram {words}: status {status}, {shown(errors)}"]
    try:
        root = xml.etree.ElementTree.fromstring(picture)
    except xml.etree.ElementTree.ParseError as fault:
        return None, [f"diagram {words} is no XML: {fault}"]
    known = root.tag == SVG + "svg" and not any(it.tag.endswith(("script", "foreignObject")) for it in root.iter())
    return root, [] if known else [f"diagram {words} is no SVG, or has a script"]


def drawn(root):
    """The bands of each line of a picture, and line, band, class, first tick and ticks of each bar."""
    lines = [line for line in root.findall(SVG + "svg") if line.find(SVG + "svg") is not None]
    bands, bars = [], []
    for count, line in enumerate(lines):
        bands.append([it.text for it in line.findall(SVG + "text") if it.get("class") == "l"])
        for bar in line.find(SVG + "svg").findall(SVG + "rect"):
            name = bands[-1][int(bar.get("y")) // 16]
            bars.append((count, name, bar.get("class"), int(bar.get("x")), int(bar.get("width"))))
    return bands, sorted(bars)


def drawn_otherwise(program, folder, text, log, seconds, is_wide=False):
    """The bands and bars of a diagram that the rules don't give, or that are missing; log has a name and a text."""
    words = [f"--seconds-per-line={seconds}", "--log", log[0], *(["--wide"] if is_wide else [])]
    root, wrong = picture_of(program, folder, text, words)
    if root is None:
        return wrong
    bands, bars = field_rules.diagram(text, log[1], seconds, is_wide)
    is_bands, is_bars = drawn(root)
    wrong += [f"diagram {words}: bands {one}, not {bands}" for one in is_bands if one != bands]
    other = set(bars) ^ set(is_bars)
    return [*wrong, f"diagram {words}: bars {sorted(other)[:4]}"] if other or len(bars) != len(is_bars) else wrong


def diagrams(program, folder):
    """What is wrong with diagrams of the worked display lines."""
    lines = field_cases.ALL_LINES
    for title, told in [("Main & 5th", None), ('<"Main">', None), ("it's", None), ("]]>", None), ("zw\u00f6lf", None),
                        ("x" * 1000, None), ("a\x01b\x1f", "a?b?"), ("a\ufffeb\uffff", "a?b?"), ("&amp;", None)]:
        root, wrong = picture_of(program, folder, lines, [f"--title={title}"])
        yield from wrong
        if root is not None and (told or title) not in ["".join(it.itertext()) for it in root.findall(SVG + "text")]:
            yield f"the diagram has no title {title}"
    for name in ["with_all.log", "car.log", "empty.log"]:
        log = (folder / name).read_bytes()
        begun = field_cases.display(0, "GR")
        for text, seconds in [(lines, 1), (lines, 13), (lines, 86400), (b"", 1), (b"ok\n", 60), (lines[:54], 1),
                              (begun, 1), (begun + field_cases.display(3, "RG"), 1), (begun + lines, 2),
                              (field_cases.SWITCHED, 1), (field_cases.UNDONE, 1), (field_cases.UNDONE + begun, 1)]:
            yield from drawn_otherwise(program, folder, text, (name, log), seconds)
    for words in [[], ["--log", "car.log"], ["--title="]]:
        for text in [b"", lines]:
            yield from picture_of(program, folder, text, words)[1]


def sessions(program):
    """What is otherwise of the sessions of the examples, which have commands of all kinds, and how many there are."""
    wrong, count = [], 0
    for line in (EXAMPLES / "list.txt").read_text().splitlines():
        name, *files = line.split()
        if name.startswith("#") or len(files) != 2:
            continue
        text, log = (EXAMPLES / f"{name}.expected").read_bytes(), EXAMPLES / files[1]
        if text.startswith(b"log "):
            continue
        wanted = field_rules.events(text, BEGIN, b"1001", log.read_bytes())
        it = answer(program, [*field_cases.EVENTS, "--log", str(log)], text)
        wrong += difference(f"events of session {name}", it, (0, wanted, b""))
        wrong += drawn_otherwise(program, None, text, (str(log), log.read_bytes()), 60)
        count += 1
    return wrong, count


def closed_pipes(program):
    """What is otherwise where nobody reads what the program writes."""
    for words, text in [(field_cases.LOG, field_cases.CAR), (field_cases.EVENTS, b""), (["diagram"], b"")]:
        with subprocess.Popen([program] + words, stdin=subprocess.PIPE, stdout=subprocess.PIPE,
                              stderr=subprocess.PIPE) as run:
            run.stdout.close()
            run.stdin.write(text)
            run.stdin.close()
            it = run.stderr.read(), run.wait(120)
        yield from difference(f"{words} with a closed pipe", it, (field_cases.WRITE, 3))


def one_stream(program):
    """What is otherwise where output and errors are one stream: what is known comes before the line of the fault."""
    events, log = field_cases.switching(2000)
    told = b"events line 2001: " + field_cases.ENDS % b"time" + b"\n"
    short = field_cases.told("07:00:01 82 2", "07:00:03 81 2")
    line = b"events line 3: " + field_cases.ENDS % b"time" + b"\n"
    for what, text, wanted in [("2,000 rows", events, log[:-len(field_cases.row(2000))] + told),
                               ("a row", short, field_cases.row(11, [2]) + line)]:
        done = subprocess.run([program] + field_cases.LOG, input=text + b"x\n", stdout=subprocess.PIPE,
                              stderr=subprocess.STDOUT, timeout=120)
        yield from difference(f"{what} and a fault in one stream", (done.returncode, done.stdout), (1, wanted))


# More than 16 bits count.
CHANGES = 70_000


def long_session(program):
    """What is otherwise of the events and the picture of a session with a change in each of many ticks."""
    text = b"".join(field_cases.display(tick, "-GRR"[tick % 2:]) for tick in range(1, CHANGES + 1))
    wanted = field_rules.events(text, BEGIN, b"1001", b"")
    yield from difference("events of a long session", answer(program, field_cases.EVENTS, text), (0, wanted, b""))
    yield from drawn_otherwise(program, None, text, ("/dev/null", b""), 300)


def greatest(program):
    """What is otherwise of the longest log and of one that is too long, and of 1 GiB of events and a byte more."""
    events, log = field_cases.switching(MOST_ROWS)
    yield from difference("the longest log", answer(program, field_cases.LOG, events), (0, log, b""))
    # The rows before the last event's tick are known, and fit; that of its tick would be one too many.
    more, _ = field_cases.switching(MOST_ROWS + 1)
    yield from difference("a longer log", answer(program, field_cases.LOG, more), (1, log, b"log: too large\n"))
    yield from longest_lists(program)
    # As many rows of one moment as may be held, and one more.
    row = field_cases.told("07:00:01 1 1")
    most = row * field_rules.MOST_HELD + field_cases.CAR
    line = b"events line %d: over 1000000 rows to sort: give a smaller --sort-within, or a --device\n" % (field_rules.MOST_HELD + 1)
    yield from difference("too many rows to sort", answer(program, [*field_cases.LOG, "--sort"], most), (1, b"", line))
    few = most[2 * len(row):]
    yield from difference("as many rows as are sorted", answer(program, [*field_cases.LOG, "--sort"], few), (0, field_cases.CAR_LOG, b""))
    feeds = bytes([10]) * (1 << 20)
    begun = field_cases.CAR.ljust(len(feeds), b"\n")
    for over, wanted in [(b"", (field_cases.CAR_LOG, b"", 0)),
                         (b"\n", (field_cases.CAR_KNOWN, b"events: too large\n", 1))]:
        with subprocess.Popen([program] + field_cases.LOG, stdin=subprocess.PIPE, stdout=subprocess.PIPE,
                              stderr=subprocess.PIPE) as run:
            for piece in itertools.chain([begun], itertools.repeat(feeds, GIB // len(feeds) - 1)):
                run.stdin.write(piece)
            output, errors = run.communicate(over, 120)
            yield from difference("1 GiB of events", (output, errors, run.returncode), wanted)


def longest_lists(program):
    """What is otherwise of the longest log in lists, by its bytes, and of one with a row more: every other row has each
    odd detector on."""
    odd = range(1, 64, 2)
    words = [*field_cases.LOG, *(word for d in odd for word in ("--vehicle", f"1={d}"))]
    on = ",".join(map(str, odd))
    lines = [b"%07d%s\n" % (k, f" V{on}".encode() if k % 2 else b"") for k in range(1, 2 * LONGEST_LOG // len(on) + 2)]
    ends = [*itertools.accumulate(map(len, lines))]
    rows = bisect.bisect_right(ends, LONGEST_LOG)
    log = b"".join(lines[:rows])
    for more, ended in [(0, (0, log, b"")), (1, (1, log, b"log: too large\n"))]:
        events, _ = field_cases.switching(rows + more)
        yield from difference(f"a log in lists of {rows + more} rows", answer(program, words, events), ended)


def hour(program, bench):
    """What is otherwise of the hour of the examples: of its log, which comes back from its events, and of its picture,
    by the rules and beside the one that is stored."""
    hours = EXAMPLES / "hour_of_traffic.log"
    commands = hours.with_suffix(".commands").read_bytes()
    lines = subprocess.run([bench, "run", EXAMPLES / "quad.json", hours], input=commands, capture_output=True).stdout
    log = b"".join(line for line in hours.read_bytes().splitlines(True) if not line.startswith(b"#"))
    words = [*FROM, "--device=7"]
    status, events, errors = answer(program, ["events", *words, "--log", str(hours)], lines)
    wanted = field_rules.events(lines, BEGIN, b"7", log)
    yield from difference("events of the hour", (status, events, errors), (0, wanted, b""))
    yield from difference("log of the hour", answer(program, ["log", *words], events), (0, log, b""))
    yield from drawn_otherwise(program, None, lines, (str(hours), log), HOUR_SECONDS)
    words = ["diagram", "--log", str(hours), f"--seconds-per-line={HOUR_SECONDS}", "--title", HOUR_TITLE]
    picture = hours.with_suffix(".svg").read_bytes()
    yield from difference("picture of the hour", answer(program, words, lines), (0, picture, b""))


def four_minutes(program, bench):
    """What is otherwise of the stored picture of four minutes with a preempt, a clock, and why greens ended."""
    plan, hours = EXAMPLES / "main_and_oak.json", EXAMPLES / "hour_of_traffic.log"
    commands = (EXAMPLES / "four_minutes.commands").read_bytes()
    lines = subprocess.run([bench, "run", plan, hours], input=commands, capture_output=True).stdout
    from_ = ["--from", "2026-11-22 07:40:00"]
    # (the session sets no clock)
    words = ["record", *from_, "--no-clock", "--device=1001", str(plan), str(hours)]
    status, events, errors = answer(program, words, commands)
    yield from difference("events of four minutes", (status, errors), (0, b""))
    with tempfile.NamedTemporaryFile(suffix=".csv") as told:
        told.write(events)
        told.flush()
        words = ["diagram", *from_, "--events", told.name, "--log", str(hours), "--seconds-per-line=240",
                 "--title", "Main and Oak, pattern 1, with a preempt"]
        picture = (EXAMPLES / "four_minutes.svg").read_bytes()
        yield from difference("picture of four minutes", answer(program, words, lines), (0, picture, b""))
        yield from letters(events, picture)


def letters(events, picture):
    """Ends of greens in events that have no letter in a picture of a line of 240 s, or another, or another phase's."""
    root = xml.etree.ElementTree.fromstring(picture)
    names = [it.text for it in root.find(f"{SVG}svg[@y='64']").findall(SVG + "text") if it.get("class") == "l"]
    begin, wanted = field_rules.moment(b"2026-11-22 07:40:00"), []
    for row in events.splitlines()[1:]:
        _, time, code, phase = row.decode().split(",")
        if code in "456":
            tick = (field_rules.moment(time.encode()) - begin) // field_rules.TENTH + 1
            wanted.append((139 + (tick - 1) * 1000 // 2400, 76 + 16 * names.index(phase), "GMF"["456".index(code)]))
    drawn = [(int(it.get("x")), int(it.get("y")), it.text) for it in root.find(SVG + "g")]
    return [] if drawn == wanted else [f"letters {drawn}, not {wanted}"]


def option_commands(option, value, seconds):
    """The commands that run patterns with a value of an option, or a pattern, for so many seconds."""
    run = ["pattern 1", f"step {10 * seconds}"]
    if option == "pattern":
        run[0] = f"pattern {value}"
    else:
        edits = [f"set 1 {option} {index} {value}" for index in INDICES.get(option, (1,))]
        if option in BESIDE:
            edit, tick = BESIDE[option]
            edits.append(edit)
            run = ["pattern 1", f"step {tick}", "pattern 2", f"step {10 * seconds - tick}"]
        run = ["begin 1", *edits, "verify 1", "commit 1", *run]
    return "".join(f"{it}\n" for it in run).encode()


def option_pictures(program, bench):
    """What is otherwise of the stored pictures of patterns with an option of coordination off and on."""
    for name, plan, log, option, values, seconds in OPTIONS:
        for value in values:
            commands = option_commands(option, value, seconds)
            run = subprocess.run([bench, "run", EXAMPLES / f"{plan}.json", EXAMPLES / f"{log}.log"], input=commands, capture_output=True)
            words = ["diagram", f"--seconds-per-line={seconds}", "--title", f"{option} {value}"]
            picture = (EXAMPLES / f"{name}_{value}.svg").read_bytes()
            yield from difference(f"picture of {option} {value}", answer(program, words, run.stdout), (0, picture, b""))


def worked_runs():
    """All worked runs."""
    return [
        *field_cases.form_runs(), *field_cases.wide_runs(), *field_cases.separator_runs(), *field_cases.export_runs(),
        *field_cases.moment_runs(), *field_cases.wire_runs(), *field_cases.zone_runs(), *field_cases.manner_runs(), *field_cases.sort_runs(), *field_cases.outputs_runs(),
        *field_cases.fault_runs(),
        *field_cases.event_runs(), *field_cases.record_runs(), *field_cases.form_of_record_runs(), *field_cases.cycle_runs(), *field_cases.clock_runs(),
        *field_cases.record_faults(),
        *field_cases.word_runs(),
        *field_cases.stream_runs(), *review_words.runs(), *schedule_words.runs(), *worksheet_words.runs(),
    ]


def main(words):
    if len(words) != 2:
        sys.exit("usage: python3 -m tools.programs.run_field PROGRAM BENCH")
    program, bench = (pathlib.Path(word).resolve() for word in words)
    for path in (program, bench):
        if not path.is_file():
            sys.exit(f"there is no {path}")
    with tempfile.TemporaryDirectory() as name:
        folder = pathlib.Path(name)
        field_cases.fill(folder)
        weeks = schedule_words.weeks_at_random(folder)
        runs = [*worked_runs(), *schedule_words.at_random_runs(weeks),
                *worksheet_words.at_random_runs(folder), *card_words.runs(folder), *card_words.at_random_runs(folder)]
        wrong = [f"{run.words} {run.places or ''}{shown(run.commands)}: {it}" for run in runs
                 for it in run.differences(program, folder)]
        wrong += [*round_trips(program, folder), *logs_of_events(program), *logs_of_exports(program)]
        wrong += sorted_exports(program)
        wrong += events_of_displays(program, folder)
        wrong += [*diagrams(program, folder), *closed_pipes(program), *one_stream(program)]
        wrong += [*week_pictures.worked(program, folder), *week_pictures.at_random(program, folder, weeks)]
        wrong += [*long_session(program), *greatest(program)]
    wrong += [*hour(program, bench), *four_minutes(program, bench), *option_pictures(program, bench)]
    of_sessions, count = sessions(program)
    wrong += of_sessions
    told = f"{len(runs)} worked runs, {count} sessions, {TRIPS} round trips, {EXPORTS + LATE} exports and {2 * TEXTS} texts " \
           f"at random as expected"
    print("\n".join(wrong) if wrong else f"tsb_field: {told}")
    return 1 if wrong else 0


if __name__ == "__main__":
    sys.exit(main(sys.argv[1:]))
