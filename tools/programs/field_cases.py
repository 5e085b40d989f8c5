"""Worked runs of tsb_field: its words, what it reads, and what it has to write, each found by hand from
docs/use/FIELD.md.

tools/programs/run_field.py runs them in a folder with a copy of the examples and the files of `fill`.
"""
import itertools
import json
import pathlib
import shutil

from tools.programs import field_rules, field_words
from tools.programs.field_rules import HEADER
from tools.programs.run_program import (
    ENDLESS, EXAMPLES, FULL, HINT, INPUT, IS_LOG, MARK, NOT_JSON, TORN, VERSION, WRITE, Run, not_read,
)

USAGE = (
    b"usage: tsb_field log --from TIME [--device ID] [--time-form FORM] [--zone OFFSET] [--count] [--allow-empty]\n"
    b"          [--sort] [--sort-within SECONDS] [--as-outputs PLAN]\n"
    b"          [--vehicle CHANNEL=DETECTOR].. [--pedestrian CHANNEL=DETECTOR].. [--preempt CHANNEL=INPUT]..\n"
    b"    or tsb_field record --from TIME --device ID [--go-on] [--recalls] [--outputs] [--no-clock] PLAN LOG\n"
    b"    or tsb_field events --from TIME --device ID [--log LOG]\n"
    b"    or tsb_field diagram [--log LOG] [--title TEXT] [--seconds-per-line N] [--from TIME [--events FILE]]\n"
    b"    or tsb_field review PLAN\n"
    b"    or tsb_field schedule [--svg] --week DATE PLAN\n"
    b"    or tsb_field worksheet PLAN\n"
    b"    or tsb_field card [--against FILE] PLAN\n"
)
A_TIME = b'a time is YYYY-MM-DD HH:MM:SS, such as "2026-11-22 07:00:00"\n'

A_DATE = b"a date is YYYY-MM-DD, such as 2026-11-22, of the years 2000 to 2099"

AT = "2026-11-22 07:00:00"
FROM = ["--from", AT]
BEGIN = field_rules.moment(AT.encode())
EXPORT_FOLDER = pathlib.Path(__file__).parent / "exports"
LOG, EVENTS = ["log", *FROM], ["events", *FROM, "--device", "1001"]
RECORD = ["record", *FROM, "--device", "1001", "quad.json"]

# The last moment of tick 6,000,000, and the first one behind it.
LAST, BEHIND = "2026-11-29 05:39:59.999999999", "2026-11-29 05:40:00"
# How many bytes a log has at most, and how many rows of digits.
LONGEST_LOG = 64 << 20
MOST_ROWS = 1_720_740

# Words, and what is printed of them: written by hand from docs/use/FIELD.md.
WRONG = [
    (["frob"], b'there is no command "frob": log, record, events, diagram, review, schedule, worksheet or card'),
    (["-h"], b'there is no command "-h": log, record, events, diagram, review, schedule, worksheet or card'),
    ([*LOG, "--title", "x"], b"--title: the command has no such option; --help after it lists all"),
    ([*LOG, "--zone", "EST"], b'--zone "EST": a zone is an offset such as -07:00, or Z'),
    ([*LOG, "--zone=-Z"], b'--zone "-Z": a zone is an offset such as -07:00, or Z'),
    ([*LOG, "--zone", "-Z"], b"--zone has no value (one that begins with a hyphen comes after =): a zone is an offset such as -07:00, or Z"),
    ([*LOG, "--zone", "-07:00"],
     b"--zone has no value (one that begins with a hyphen comes after =): a zone is an offset such as -07:00, or Z"),
    ([*LOG, "--zone=a\tb\"c\u00e9"], b'--zone "a?b?c??": a zone is an offset such as -07:00, or Z'),
    ([*LOG, "--zone=" + "x" * 41], b'--zone "' + b"x" * 40 + b'": a zone is an offset such as -07:00, or Z'),
    ([*LOG, "--time-form", "month"], b'--time-form "month": a form is year-first, month-first, day-first, seconds or milliseconds'),
    ([*LOG, "--time-form", "year-frist"], b'--time-form "year-frist": did you mean year-first?'),
    ([*LOG, "--time-form=second"], b'--time-form "second": did you mean seconds?'),
    ([*LOG, "--sort-within", "3601"], b'--sort-within "3601": a number of seconds is 1 to 3600'),
    ([*LOG, "--count=5"], b'--count "5": it takes no value'),
    ([*LOG, "--count", "--count"], b"--count comes twice"),
    ([*LOG, "--vehicle", "5=65"], b'--vehicle "5=65": CHANNEL=DETECTOR, with a detector from 1 to 64'),
    ([*LOG, "--pedestrian", "5"], b'--pedestrian "5": CHANNEL=DETECTOR, with a detector from 1 to 16'),
    ([*LOG, "--preempt", "1=9"], b'--preempt "1=9": CHANNEL=INPUT, with an input from 1 to 8'),
    ([*LOG, "--as-outputs"], b"--as-outputs has no value (one that begins with a hyphen comes after =): a name or a text has to follow"),
    (["log", "--from", "2026-11-22 07:00"], b'--from "2026-11-22 07:00": ' + A_TIME[:-1]),
    (["log"], b"--from has to be given: " + A_TIME[:-1]),
    (["diagram", "--events", "car.log"], b"--from has to be given: " + A_TIME[:-1]),
    (["events", *FROM], b"--device has to be given: a device has no double quote, no end of a line and at most 900 bytes"),
    (["events", *FROM, "--device", 'a"b'], b'--device "a?b": a device has no double quote, no end of a line and at most 900 bytes'),
    (["diagram", "--seconds-per-line", "0"], b'--seconds-per-line "0": a number of seconds is 1 to 86400'),
    ([*LOG, "export.csv"], b"log names no file: it reads an event log from standard input"),
    (RECORD, b"record names two files, PLAN and LOG"),
    ([*EVENTS, "car.log"], b"this command names files by options alone: it reads what `tsb run` answers from standard input"),
    (["review"], b"review names one file, PLAN"),
    (["schedule", "quad.json"], b"--week has to be given: " + A_DATE),
    (["schedule", "--week", "2026-11-22"], b"schedule names one file, PLAN"),
    (["schedule", "--week", "2026-11-31", "quad.json"], b'--week "2026-11-31": ' + A_DATE),
    (["schedule", "--week=2100-01-01", "quad.json"], b'--week "2100-01-01": ' + A_DATE),
    (["schedule", "--week"], b"--week has no value (one that begins with a hyphen comes after =): " + A_DATE),
    (["worksheet"], b"worksheet names one file, PLAN"),
    (["worksheet", "--week", "quad.json"], b"--week: the command has no such option; --help after it lists all"),
    (["card"], b"card names one file, PLAN"),
    (["card", "quad.json", "tee.json"], b"card names one file, PLAN"),
    (["card", "quad.json", "--against"],
     b"--against has no value (one that begins with a hyphen comes after =): a name or a text has to follow"),
    (["card", "--against=a", "--against", "b", "quad.json"], b"--against comes twice"),
    (["schedule", *FROM, "quad.json"], b"--from: the command has no such option; --help after it lists all"),
]

# What is printed of what was left out, where no event is of a channel without an input, and where there are such events.
LEFT = b"left out: %d rows of other devices, %d events of channels without an input, %d lines that are no rows\n"
LEFT_OF = LEFT.replace(b"an input", b"an input (%b)")

# What is printed where no row counts, where no input has an event from tick 1 on, and of the form of times.
NO_ROW, NO_EVENT, EMPTY = field_rules.NO_ROW, field_rules.NO_EVENT, "--allow-empty"
TIMES = b"times: %b, by the first row\n"
MONTH_FIRST, DAY_FIRST, OF_SECONDS, OF_MILLISECONDS = (
    TIMES % form for form in [b"month-first", b"day-first", b"seconds", b"milliseconds"])

# What is printed where a row that counts has a zone, and none is asked for.
ZONES = b"times: their zones are passed over (give that of --from, as --zone=-07:00)\n"

# What is printed of a line that ends before the field of a column, and of one of more than 1,000 bytes.
NO_DEVICE = b"header: no column is the device: name it SignalID, DeviceId, LocationIdentifier or LocationId"
NO_TIME = b"header: no column is the time: name it Timestamp, DateTime or Time"
NO_CODE = b"header: no column is the code: name it EventCode, EventId, EventType or Code"
NO_PARAMETER = b"header: no column is the parameter: name it EventParam, Parameter, Param or EventValue"
ENDS, LONG = b"%b: the line ends before it", b"over 1000 bytes (is it a text with lines?)"
GIB = 1 << 30


def bad(words, commands=b"", **places):
    """A run of bad words, with what is printed of them."""
    return Run(words, 2, b"", field_words.line(words) or USAGE, commands, **places)


def told(*events, end=b"\n"):
    """Lines of device 7, each of a time, a code and a channel; a time without its day is of 2026-11-22."""
    lines = [event.rsplit(" ", 2) for event in events]
    return b"".join(f"7,{at if at[4:5] == '-' else f'2026-11-22 {at}'},{code},{channel}".encode() + end
                    for at, code, channel in lines)


def row(tick, vehicle=(), pedestrian=(), preempt=()):
    """A row of a log in which these inputs are on."""
    numbers = zip(field_rules.MOST, (vehicle, pedestrian, preempt))
    return field_rules.row_text(tick, {(kind, n) for kind, on in numbers for n in on})


def logged(text, log, *words, errors=b""):
    """A run of `log` that is done."""
    return Run([*LOG, *words], 0, log, errors, text)


def refused(text, fault, known=b"", *words):
    """A run of `log` that a fault ends, after the rows that are known before it, and no others."""
    return Run([*LOG, *words], 1, known, fault, text)


def switching(rows):
    """Events of detector 1 that change it in each tick, and the rows of their log, as often."""
    # (a text for each second: to make one of each tenth takes a minute)
    seconds = [field_rules.time_text(BEGIN + k * field_rules.SECOND)[:-1] for k in range(rows // 10 + 1)]
    events = b"".join(b"7,%s%d,%d,1\n" % (seconds[k // 10], k % 10, 81 + (k + 1) % 2) for k in range(rows))
    marks = [row(0)[7:], row(0, [1])[7:]]
    return events, b"".join(b"%07d%s" % (k, marks[k % 2]) for k in range(1, rows + 1))


# A car on detector 2 from tick 11 to tick 30, and its log. As long as events may follow, the second row is not known:
# one more of tick 31 would change it.
CAR = told("07:00:01 82 2", "07:00:03 81 2")
CAR_LOG = b"0000011 0100000000000000 00000000 0000\n0000031 0000000000000000 00000000 0000\n"
CAR_FIRST, CAR_SECOND = CAR.splitlines(keepends=True)
CAR_KNOWN = b"0000011 0100000000000000 00000000 0000\n"


def form_runs():
    """Forms of the text: headers, ends of lines, a byte order mark, what is skipped."""
    usual = HEADER + CAR
    yield from (logged(text, CAR_LOG) for text in [
        CAR, usual, CAR[:-1], CAR.replace(b"\n", b"\r\n"), usual.replace(b"\n", b"\r\n"), MARK + CAR, MARK + usual,
        MARK + b"\n" + usual, b"\n  \n# a car\n" + usual + b"\n#\n", b"#" + b"x" * 999 + b"\n" + CAR,
        CAR.replace(b",82,", b',"82",').replace(b"7,", b'"7, Main",'), CAR.replace(b"22 07", b"22T07"),
        CAR.replace(b",82,2", b",0000000082,02"), CAR.replace(b"\n", b",and,more,\n"), CAR.replace(b"\n", b',""\n'),
        # The return before a line feed does not count, and one after the last line feed is a byte of its line.
        b"#" + b"x" * 999 + b"\r\n" + CAR, CAR + b"#\r", CAR.replace(b"\n", b",more\n")[:-1] + b"\r",
        CAR + told("07:00:03 1 2", "07:00:03 83 2", "07:00:03 4294967295 2", "07:00:03 0 4294967295"),
    ])
    for device in [b"SignalID", b"signalid", b"DeviceId", b"DEVICEID", b"LocationIdentifier"]:
        for code, parameter in [(b"EventCode", b"EventParam"), (b"eventid", b"PARAMETER"), (b"EventId", b"Parameter")]:
            yield logged(b"%s,TimeStamp,%s,%s\n" % (device, code, parameter) + CAR, CAR_LOG)
    turned = b'EventParam,x,"SignalID",DeviceId,EventCode,EventId,Timestamp\n2,,7,8,82,1,%s:01\n2,,7,8,81,1,%s:03\n'
    yield logged(turned.replace(b"%s", AT[:-3].encode()), CAR_LOG)
    for text in [b"", b"\n", HEADER, MARK, MARK + HEADER[:-1], b"# nothing"]:
        yield logged(text, b"", EMPTY)
        yield refused(text, NO_ROW)


def wide_runs():
    """Forms of rows: the words of headers, spaces, numbers, times, and lines that are passed over."""
    for header in [
        b"signal_id,time_stamp,event_code,event_param", b"Signal ID, Timestamp, Event Code, Event Parameter",
        b"LocationId,DateTime,EventType,Param", b"INTERSECTION-ID,Event Time,Event Type ID,EventValue",
        b'"Controller Id","Time","Code","Parameter"', b"x,Timestamp,EventCode,EventParam", HEADER[:-1] + b",",
    ]:
        yield logged(header + b"\n" + CAR, CAR_LOG)
    yield from (logged(HEADER + text, CAR_LOG) for text in [
        CAR.replace(b",", b" , "), CAR.replace(b",82,2", b",82.0,2.000"), CAR.replace(b",2\n", b",2.\n"),
        CAR.replace(b"\n", b",\n"), CAR.replace(b"7,", b'"7",'),
    ])
    # A device of a row that is not plain counts without the spaces around it.
    yield logged(CAR.replace(b"7,", b" 7 ,").replace(b",8", b", 8"), CAR_LOG, "--device", "7")
    # Codes that are passed over, and rows of other devices, need no parameter.
    more = b"7,2026-11-22 07:00:02,150,-1\n7,2026-11-22 07:00:02,1,NULL\n"
    yield logged(CAR_FIRST + more + CAR_SECOND, CAR_LOG)
    yield logged(CAR_FIRST + b"8,2026-11-22 07:00:02,82,NULL\n" + CAR_SECOND, CAR_LOG, "--device=7", errors=LEFT % (1, 0, 0))
    # Lines that are passed over.
    front = b"C:\\logs\\day.dat\nVersion: 3\nPhases in use: 1,2\n"
    for text, count in [
        (front + HEADER + CAR, 3), (front + CAR, 3), (b"\t\n" + CAR, 1), (HEADER + b"---,---,---,---\n" + CAR, 1),
        (HEADER + b"--------+ ---+----\n" + CAR, 1), (HEADER + CAR_FIRST + HEADER + CAR_SECOND, 1),
        (CAR + b"event_code,timestamp,param\n", 1), (HEADER + HEADER + b"-|-\n" + CAR, 2),
    ]:
        yield logged(text, CAR_LOG, errors=LEFT % (0, 0, count))
    for form, first, second in [
        (MONTH_FIRST, "11/22/2026 07:00:01", "11/22/2026 07:00:03.0"),
        (MONTH_FIRST, "11/22/2026 7:0:1 AM", "11/22/2026 07:00:03.000 am"),
        (MONTH_FIRST, "11-22-2026 07:00:01.0", "11-22-2026 07:00:03"),
        (MONTH_FIRST, " 11/22/2026 07:00:01 ", "11/22/2026 07:00:03  "),
        (DAY_FIRST, "22/11/2026 07:00:01", "22/11/2026 07:00:03"),
        (DAY_FIRST, "22-11-2026 7:00:01 AM", "22-11-2026 07:00:03"), (b"", "2026/11/22 07:00:01", "2026-11-22 07:00:03"),
        (OF_SECONDS, "1795330801", "1795330803.000"), (OF_MILLISECONDS, "1795330801000", "1795330803000"),
    ]:
        text = f"{HEADER.decode()}7,{first},82,2\n7,{second},81,2\n".encode()
        yield logged(text, CAR_LOG, errors=form)
        # A form that is named is not printed.
        if form:
            yield logged(text, CAR_LOG, "--time-form", form.decode()[7:].partition(",")[0])
    # Noon and midnight of a clock of twice 12 hours.
    for clock, tick in [("12:00:00 AM", 1), ("12:59:59 AM", 35_991), ("1:00:00 AM", 36_001), ("12:00:00 PM", 432_001),
                        ("1:00:00 PM", 468_001), ("11:59:59 PM", 863_991)]:
        text = f"7,11/22/2026 {clock},82,1\n".encode()
        yield Run(["log", "--from", "2026-11-22 00:00:00"], 0, row(tick, [1]), MONTH_FIRST, text)
    two = field_rules.TWO_WAYS + b"\n"
    yield refused(b"7,03/04/2026 07:00:01,82,2\n" + CAR, b'events line 1: time: "03/04/2026 07:00:01"' + two)
    yield refused(b"7,03/03/2026 07:00:01,82,2\n" + CAR, b'events line 1: time: "03/03/2026 07:00:01"' + two)
    # The first row says the form of all.
    told_so = b'events line 2: time: "%b" is %b, not %b: one form a file, by the first row or --time-form\n'
    for form, first, other, second in [
        (b"month-first", b"11/22/2026 07:00:01", b"day-first", b"22/11/2026 07:00:03"),
        (b"day-first", b"22/11/2026 07:00:01", b"month-first", b"11/22/2026 07:00:03"),
        (b"seconds", b"1795330801", b"milliseconds", b"1795330803000"),
        (b"milliseconds", b"1795330801000", b"year-first", b"2026-11-22 07:00:03"),
        (b"month-first", b"11/22/2026 07:00:01", b"year-first", b"2026-11-22 07:00:03"),
        (b"year-first", b"2026-11-22 07:00:01", b"month-first", b"11/22/2026 07:00:03"),
    ]:
        text = b"7,%b,82,2\n7,%b,81,2\n" % (first, second)
        yield refused(text, told_so % (second, other, form))
    # It has none of two ways here, as the first row says the form; this day is in no calendar in any of them.
    text = b"7,11/22/2026 07:00:01,82,2\n7,22/22/2026 07:00:03,81,2\n"
    yield refused(text, b'events line 2: time: "22/22/2026 07:00:03" is no time as 11/22/2026 07:00:00.1\n')


def separator_runs():
    """Semicolons and tabs in place of commas, by the header or the first row."""
    usual, front = HEADER + CAR, b"Version: 3\n\n"
    for mark in [b";", b"\t"]:
        for text in [usual, CAR, front + CAR, front + usual, usual.replace(b"\n", b",\n"), HEADER + CAR.replace(b",", b" , "),
                     HEADER.replace(b"SignalID,", b"x;y,SignalID,").replace(b";", b"") + CAR.replace(b"7,", b"x,7,"),
                     HEADER + CAR.replace(b"7,", b'"7",')]:
            passed = front.count(b"V") * text.startswith(front)
            told_so = LEFT % (0, 0, passed) if passed else b""
            yield logged(text.replace(b",", mark), CAR_LOG, errors=told_so)
        # What is no separator here is a part of a field, and so is each within quotes.
        for device in [b"7, Main", b'"7%b Main"' % mark]:
            yield logged(usual.replace(b",", mark).replace(b"7" + mark, device + mark), CAR_LOG)
        # A decimal comma needs no quotes.
        comma = usual.replace(b",", mark).replace(b":01", b":01,0").replace(b":03", b":03,000")
        yield logged(comma, CAR_LOG)
        yield logged(comma.split(b"\n", 1)[1], CAR_LOG)
        # Lines that a database draws, and in which it counts its rows; headers that come again.
        drawn = HEADER + b"---,---,---,---\n" + CAR_FIRST + HEADER + CAR_SECOND + b"\n(2 rows affected)\n"
        yield logged(drawn.replace(b",", mark), CAR_LOG, errors=LEFT % (0, 0, 3))
    yield logged(HEADER + b'7,"2026-11-22 07:00:01,0",82,2\n7,"2026-11-22 07:00:03,000",81,2\n', CAR_LOG)
    for said in [b"(1 row)", b"(12 rows)", b"(1 row affected)", b"(0 rows affected)"]:
        yield logged(usual + said + b"\n", CAR_LOG, errors=LEFT % (0, 0, 1))
    # One separator a file: by the first row where no header says it.
    names = {b",": b"commas", b";": b"semicolons", b"\t": b"tabs"}
    for mark, other in itertools.permutations(names, 2):
        text = HEADER.replace(b",", mark) + CAR_FIRST.replace(b",", mark) + CAR_SECOND.replace(b",", other)
        line = b"events line 3: %b part its fields, and %b those above: one separator a file\n" % (names[other], names[mark])
        yield refused(text, line)
        yield refused(text.split(b"\n", 1)[1], line.replace(b"3", b"2"))
    yield refused(HEADER.replace(b",", b";") + b"7;2026-11-22 07:00:01;82\n", b"events line 2: parameter: the line ends before it\n")
    yield refused(b"Timestamp;EventCode\n" + CAR, b"events line 1: " + NO_PARAMETER + b"\n")
    yield refused(b"Timestamp\tEventParam\n" + CAR, b"events line 1: " + NO_CODE + b"\n")


# What the exports of tools/programs/exports have to give: the ticks of the log's rows, of which the first has detector
# 4 on, and what is printed. They were made up, each in the form in which some controller, agency or spreadsheet hands out
# its log.
BOTH, ONE = (33, 41), (33,)
EXPORT_FORMS = {"a01_udot4": MONTH_FIRST, "a02_ampm": MONTH_FIRST, "a05_epoch": OF_SECONDS, "a06_epochms": OF_MILLISECONDS,
                "a08_v5z": ZONES, "a09_offset": ZONES, "a25_econ": MONTH_FIRST}
EXPORTS = {
    "a01_udot4": BOTH, "a02_ampm": BOTH, "a05_epoch": BOTH, "a06_epochms": ONE, "a07_v5": BOTH, "a08_v5z": ONE, "a09_offset": ONE,
    "a10_odot": BOTH, "a11_ssms": BOTH, "a12_ctrl3": BOTH, "a13_snake": ONE, "a14_space": ONE, "a15_commaspace": ONE,
    "a17_float": ONE, "a18_bomcrlf": BOTH, "a20_quoted": BOTH, "a21_trailcomma": ONE, "a22_catheader": (BOTH, 1),
    "a16_semicolon": ONE, "a31_comma_dec": ONE, "a33_tab": ONE, "a35_eof": (BOTH, 1), "a24_pandasidx": BOTH, "a25_econ": (ONE, 3), "a28_headeronly": (), "a30_neg": ONE, "a36_noHdr4": BOTH, "a37_sqldash": (ONE, 1),
    "a03_excel": b'events line 2: time: "00:03.2" has no day (was it opened in a spreadsheet?)',
    "a04_excel2": b'events line 2: time: "11/22/2026 7:00" has no seconds (was it opened in a spreadsheet?)',
    "a19_utf16": b"events: UTF-16: convert by iconv -f utf-16 -t utf-8",
    "a23_unsorted": b"events line 3: time order: 07:00:03.2 after 07:00:04.0: sort by column 2",
    "a26_maxtime": b"events: XML: export as CSV",
    "a29_null": b'events line 2: parameter: "NULL" is no whole number up to 4294967295',
    "a32_noon12": b'events line 2: time: "2026-11-22 24:00:00.0" is no time as 2026-11-22 07:00:00.1',
    "a34_ctrllast": b"events line 3: code: the line ends before it",
}


def export_runs():
    """The exports of tools/programs/exports."""
    for name, wanted in EXPORTS.items():
        text = (EXPORT_FOLDER / f"{name}.csv").read_bytes()
        if isinstance(wanted, bytes):
            yield refused(text, wanted + b"\n")
        elif wanted and isinstance(wanted[0], tuple):
            yield logged(text, ticked(wanted[0]), errors=EXPORT_FORMS.get(name, b"") + LEFT % (0, 0, wanted[1]))
        elif wanted:
            yield logged(text, ticked(wanted), errors=EXPORT_FORMS.get(name, b""))
        else:
            yield refused(text, NO_ROW)
            yield logged(text, b"", EMPTY)


def ticked(ticks):
    """The rows of a log in which detector 4 goes on and off at these ticks."""
    return b"".join(row(tick, [4] if count % 2 == 0 else []) for count, tick in enumerate(ticks))


def moment_runs():
    """When an input is on."""
    yield from (logged(told(*events), log) for events, log in [
        # What is switched off as a tick begins is off in it; a nanosecond later it is on in it.
        (["07:00:00.1 82 1", "07:00:00.2 81 1"], row(2, [1]) + row(3)),
        (["07:00:00.1 82 1", "07:00:00.200000001 81 1"], row(2, [1]) + row(4)),
        (["07:00:00.199999999 82 1", "07:00:00.3 81 1"], row(2, [1]) + row(4)),
        (["07:00:00.19 82 1", "07:00:00.199999999 81 1"], row(2, [1]) + row(3)),
        # A pulse that ends at its own moment; a pause of no time, and one within a tick.
        (["07:00:00.25 90 8", "07:00:00.25 89 8"], row(3, [], [8]) + row(4)),
        (["07:00:00.2 90 8", "07:00:00.2 89 8"], row(3, [], [8]) + row(4)),
        (["07:00:00 82 1", "07:00:00.5 81 1", "07:00:00.5 82 1", "07:00:01 81 1"], row(1, [1]) + row(11)),
        (["07:00:00 82 1", "07:00:00.51 81 1", "07:00:00.58 82 1", "07:00:01 81 1"], row(1, [1]) + row(11)),
        (["07:00:00 82 1", "07:00:00.51 81 1", "07:00:00.7 82 1"], row(1, [1]) + row(7) + row(8, [1])),
        # What is on already, or off already.
        (["07:00:00 82 1", "07:00:00.5 82 1", "07:00:01 81 1", "07:00:02 81 1"], row(1, [1]) + row(11)),
        # Before tick 1: what is on as it begins, and what was on before.
        (["06:59:00 102 1", "07:00:00.1 104 1"], row(1, [], [], [1]) + row(2)),
        (["06:59:00 102 1", "07:00:00.000000001 104 1"], row(1, [], [], [1]) + row(2)),
        (["06:59:00 102 1", "07:00:00 104 1"], b""),
        (["07:00:00 82 1", "07:00:00 81 1"], row(1, [1]) + row(2)),
        # Two in one tick, of several kinds, and the last tick.
        (["07:00:01.03 82 16", "07:00:01.04 90 1", "07:00:01.09 102 4"], row(11, [16], [1], [4])),
        ([f"{LAST} 82 3"], row(6_000_000, [3])),
        (["07:00:00 82 3", f"{LAST[:-10]}.9 81 3", f"{BEHIND} 1 3"], row(1, [3]) + row(6_000_000)),
    ])
    # With no event from there on the log is written, and that is told, unless it may be so.
    for events, log in [
        (["06:59:00 82 1", "06:59:01 81 1"], b""), (["06:59:59.999999999 82 1", "06:59:59.999999999 81 1"], b""),
        (["2026-11-21 23:59:59 82 1"], row(1, [1])), (["06:59:00 82 1", "07:00:00 1 1"], row(1, [1])),
    ]:
        yield logged(told(*events), log, EMPTY)
        yield refused(told(*events), NO_EVENT, log)
    for at, first, log in [
        ("2026-11-22T07:00:00.05", "2026-11-22 07:00:00.149999999", row(1, [1])),
        ("2026-11-22 07:00:00.05", "2026-11-22 07:00:00.15", row(2, [1])),
        ("2026-12-31 23:59:59.9", "2027-01-01 00:00:00", row(2, [1])),
        ("2028-02-28 23:59:59", "2028-02-29 00:00:00.0", row(11, [1])),
        ("2027-02-28 23:59:59", "2027-03-01 00:00:00.0", row(11, [1])),
        ("9999-12-31 23:59:59", "9999-12-31 23:59:59.999999999", row(10, [1])),
        ("0000-01-01 00:00:00", "0000-01-01 00:00:00.9", row(10, [1])),
    ]:
        yield Run(["log", "--from", at], 0, log, b"", told(f"{first} 82 1"))


def wire_runs():
    """Channels that lead to inputs, and devices."""
    on = [f"07:00:00 {code} {n}" for code, n in [(82, 16), (90, 8), (102, 4)]]
    yield logged(told(*on), row(1, [16], [8], [4]))
    beyond = [f"07:00:00 {code} {n}" for code, n in [(82, 17), (81, 0), (90, 9), (89, 10), (102, 5), (104, 4294967295)]]
    these = b"vehicle 17, vehicle 0, pedestrian 9, pedestrian 10, preempt 5, preempt 4294967295"
    yield logged(told(*on, *beyond), row(1, [16], [8], [4]), errors=LEFT_OF % (0, 6, these, 0))
    yield from (logged(told(*(f"07:00:00 {it}" for it in events)), log, *words) for words, events, log in [
        (["--vehicle", "17=3"], ["82 17"], row(1, [3])),
        (["--vehicle", "0=1", "--vehicle", "4294967295=2"], ["82 0", "82 4294967295"], row(1, [1, 2])),
        (["--vehicle", "9=1", "--vehicle", "9=2"], ["82 9"], row(1, [1, 2])),
        (["--vehicle", "3=7"], ["82 3"], row(1, [7])),
        (["--vehicle", "3=7"], ["82 7"], row(1, [7])),
        (["--vehicle", "20=5", "--vehicle", "21=5"], ["82 20", "82 21", "81 20"], row(1, [5])),
        (["--pedestrian", "12=8", "--preempt", "101=4", "--pedestrian=013=07"], ["90 12", "90 13", "102 101"],
         row(1, [], [7, 8], [4])),
        (["--preempt", "5=1", "--vehicle", "5=2"], ["90 5", "82 5", "102 5"], row(1, [2], [5], [1])),
    ])
    yield logged(told("07:00:00 82 18"), b"", "--vehicle=17=3", EMPTY, errors=LEFT_OF % (0, 1, b"vehicle 18", 0))
    yield refused(told("07:00:00 82 18"), LEFT_OF % (0, 1, b"vehicle 18", 0) + NO_EVENT, b"", "--vehicle=17=3")
    both = told("07:00:00 82 20", "07:00:00.1 82 21", "07:00:00.2 81 20", "07:00:00.3 81 21")
    yield logged(both, row(1, [5]) + row(4), "--vehicle", "20=5", "--vehicle", "21=5")
    # Channels without an input are named as they come, the first eight of them; with --sort in the order of time.
    ten = [f"07:00:03 {89 + k % 2} {20 + k // 2}" for k in range(20)]
    named = b", ".join(b"pedestrian %d" % (20 + k) for k in range(8))
    yield logged(CAR + told(*ten[:16]), CAR_LOG, errors=LEFT_OF % (0, 16, named, 0))
    yield logged(CAR + told(*ten[:17], *ten[:3]), CAR_LOG, errors=LEFT_OF % (0, 20, named + b", ..", 0))
    yield logged(CAR + told(*ten), CAR_LOG, errors=LEFT_OF % (0, 20, named + b", ..", 0))
    late = CAR + told("07:00:05 104 17", "07:00:04 82 17", "07:00:05 81 17")
    yield logged(late, CAR_LOG, "--sort", errors=LEFT_OF % (0, 3, b"vehicle 17, preempt 17", 0))
    other = b"8,2026-11-22 06:00:00,82,1\n9,2026-11-30 00:00:00,82,1\n"
    yield logged(CAR[:len(CAR) // 2] + other + CAR[len(CAR) // 2:], CAR_LOG, "--device", "7", errors=LEFT % (2, 0, 0))
    yield logged(CAR + other, b"", "--device=10", EMPTY, errors=LEFT % (4, 0, 0))
    yield refused(CAR + other, LEFT % (4, 0, 0) + NO_ROW, b"", "--device=10")
    # A device is its bytes, and no number.
    for device in ["07", " 7", "7 ", "+7"]:
        yield logged(CAR, b"", EMPTY, "--device", device, errors=LEFT % (2, 0, 0))
    yield logged(CAR.replace(b"7,2026", b"07,2026"), CAR_LOG, "--device", "07")
    yield logged(CAR.replace(b"7,2026", b"07,2026"), b"", "--device", "7", EMPTY, errors=LEFT % (2, 0, 0))
    yield logged(CAR.replace(b"7,", b"-7,"), CAR_LOG, "--device=-7")
    yield logged(CAR.replace(b"7,2026", b'"Main, 5th",2026'), CAR_LOG, "--device", "Main, 5th")
    yield logged(CAR.replace(b"7,2026", b",2026"), CAR_LOG)
    yield logged(CAR + b"8,2026-11-22 07:00:03,82,99\n", CAR_LOG, "--device", "7", errors=LEFT % (1, 0, 0))
    yield logged(CAR + told(f"{BEHIND} 82 17"), CAR_LOG, errors=LEFT_OF % (0, 1, b"vehicle 17", 0))
    # Behind the first line a byte order mark is a part of the device.
    yield logged(CAR + MARK + told("07:00:04 82 1"), CAR_LOG, "--device", "7", errors=LEFT % (1, 0, 0))


def zone_runs():
    """Zones of times, which are passed over where none is asked for: this is printed where a row that counts has one."""
    for form, first, second in [
        (DAY_FIRST, b"22-11-2026 7:00:01 AM", b"22-11-2026 07:00:03 UTC"), (b"", b"2026-11-22T07:00:01Z", b"2026-11-22T07:00:03.0Z"),
        (b"", b"2026-11-22T07:00:01 UTC", b"2026-11-22T07:00:03.0 +05:30"), (b"", b"2026-11-22 07:00:01Z", b"2026-11-22 07:00:03"),
        (b"", b"2026-11-22 07:00:01+01:00", b"2026-11-22 07:00:03-0700"), (b"", b"2026-11-22 07:00:01", b"2026/11/22 07:00:03-00"),
        (b"", b"2026-11-22 07:00:01.0000000 +00:00", b"2026-11-22 07:00:03.0000000 -07"),
        (b"", b"2026-11-22 07:00:01+23:59", b"2026-11-22 07:00:03-23:59"),
    ]:
        text = HEADER + b"7,%b,82,2\n7,%b,81,2\n" % (first, second)
        yield logged(text, CAR_LOG, errors=form + ZONES)
        yield logged(text, CAR_LOG, "--sort", errors=form + ZONES)
    # A row counts whatever its code and channel are, and one of another device does not.
    yield logged(CAR + b"7,2026-11-22 07:00:03Z,1,1\n", CAR_LOG, errors=ZONES)
    yield logged(CAR + b"7,2026-11-22 07:00:03Z,82,99\n", CAR_LOG, errors=ZONES + LEFT_OF % (0, 1, b"vehicle 99", 0))
    yield logged(CAR + b"8,2026-11-22 07:00:03Z,82,1\n", CAR_LOG, "--device", "7", errors=LEFT % (1, 0, 0))
    yield logged(b"7,2026-11-22 06:59:59Z,82,1\n7,2026-11-22 07:00:00Z,81,1\n", b"", EMPTY, errors=ZONES)
    # A zone that is asked for is not passed over.
    yield logged(CAR.replace(b":01,", b":01Z,"), CAR_LOG, "--zone=Z")


def manner_runs():
    """How a text is read, by words, and what is printed of it."""
    # A form that is named holds from the first row on.
    for form, day in [("month-first", b"03/04/2026"), ("day-first", b"04/03/2026")]:
        text = CAR.replace(b"2026-11-22", day)
        words = ["log", "--from", "2026-03-04 07:00:00", "--time-form", form]
        yield Run(words, 0, CAR_LOG, b"", text)
        yield Run(words, 0, CAR_LOG, b"", HEADER + text)
    other = b'events line 1: time: "2026-11-22 07:00:01" is year-first, not month-first: one form a file, by the first row or ' \
            b"--time-form\n"
    yield refused(CAR, other, b"", "--time-form=month-first")
    yield logged(CAR, CAR_LOG, "--time-form", "year-first")
    # Zones are passed over without --zone; with it moments are those of its clock. A clock without a zone is one of it.
    for zone, first, second in [
        ("-07:00", b"08:00:01-06:00", b"14:00:03Z"), ("-07:00", b"14:00:01Z", b"08:00:03-06:00"),
        ("+01", b"06:00:01Z", b"07:00:03"), ("Z", b"07:00:01", b"09:30:03+02:30"),
    ]:
        yield logged(CAR.replace(b"07:00:01", first).replace(b"07:00:03", second), CAR_LOG, f"--zone={zone}")
    epoch = b"7,1795330801,82,2\n7,1795330803,81,2\n"
    yield Run(["log", "--from", "2026-11-22 00:00:00", "--zone=-07:00"], 0, CAR_LOG, OF_SECONDS, epoch)
    # How much was read.
    read = b"read: %d rows from 2026-11-22 %b to 2026-11-22 %b, events of %d channels\n"
    yield logged(CAR, CAR_LOG, "--count", errors=read % (2, b"07:00:01.0", b"07:00:03.0", 1))
    more = told("06:59:59.25 90 2", "07:00:01 82 2", "07:00:01 1 9", "07:00:03 81 2", "07:00:03.000000001 82 99")
    yield logged(more, row(1, [], [2]) + row(11, [2], [2]) + row(31, [], [2]), "--count",
                 errors=LEFT_OF % (0, 1, b"vehicle 99", 0) + read % (5, b"06:59:59.25", b"07:00:03.000000001", 2))
    yield logged(b"8,2026-11-22 07:00:00,82,1\n" + CAR, CAR_LOG, "--count", "--device=7",
                 errors=LEFT % (1, 0, 0) + read % (2, b"07:00:01.0", b"07:00:03.0", 1))
    yield refused(HEADER, b"read: 0 rows\n" + NO_ROW, b"", "--count")
    yield logged(HEADER, b"", EMPTY, "--count", errors=b"read: 0 rows\n")
    yield refused(told("07:00:01 1 2"), read % (1, b"07:00:01.0", b"07:00:01.0", 0) + NO_EVENT, b"", "--count")
    # A minute without a row that counts is a gap, whatever the codes; of two as long the first is the longest.
    gaps = b"gaps: %d of a minute or more without a row that counts, the longest from 2026-11-22 %b to 2026-11-22 %b\n"
    for text, errors in [
        (CAR + told("07:01:02.999999999 1 1"), read % (3, b"07:00:01.0", b"07:01:02.999999999", 1)),
        (CAR + told("07:01:03 1 1"), read % (3, b"07:00:01.0", b"07:01:03.0", 1) + gaps % (1, b"07:00:03.0", b"07:01:03.0")),
        (CAR + told("07:01:03 1 1", "07:03:03.5 1 1", "07:05:04 1 1", "07:05:04 1 2"),
         read % (6, b"07:00:01.0", b"07:05:04.0", 1) + gaps % (3, b"07:01:03.0", b"07:03:03.5")),
        (told("06:00:00 1 1") + CAR, read % (3, b"06:00:00.0", b"07:00:03.0", 1) + gaps % (1, b"06:00:00.0", b"07:00:01.0")),
    ]:
        yield logged(text, CAR_LOG, "--count", errors=errors)
        yield logged(text, CAR_LOG, "--count", "--sort", errors=errors)
        yield logged(text, CAR_LOG)
    devices = b"devices: %b in these rows:%b (name one by --device)\n"
    other = CAR + b"8,2026-11-22 07:00:30,1,1\n" + told("07:01:04 1 1")
    two = devices % (b"2", b' "7" "8"')
    yield refused(other, two, CAR_LOG)
    yield refused(other, two, CAR_LOG, EMPTY)
    yield refused(other, read % (4, b"07:00:01.0", b"07:01:04.0", 1) + two, CAR_LOG, "--count")
    yield refused(CAR_FIRST.replace(b",82,", b",1,") + b"8,2026-11-22 07:00:30,1,1\n", two + NO_EVENT, b"")
    yield logged(other, CAR_LOG, "--count", "--device=7",
                 errors=LEFT % (1, 0, 0) + read % (3, b"07:00:01.0", b"07:01:04.0", 1) + gaps % (1, b"07:00:03.0", b"07:01:04.0"))
    # Devices are named as they come, the first eight of them, by their first 40 bytes as a fault shows them.
    nine, long = [b"%d" % it for it in range(9)], b"9" * 40
    for of, number, named in [
        ([b"8"], b"2", [b"7", b"8"]), ([b"7", b"7 ", b" 7"], b"", []), ([b"07", b"7", b"07"], b"2", [b"7", b"07"]),
        (nine[:8], b"8", [b"7", *nine[:7]]), (nine, b"9 or more", [b"7", *nine[:7]]),
        ([b'"8, Main"', b'"8 Main"', b"\xc3\xa9", b"\x1b"], b"5", [b"7", b"8, Main", b"8 Main", b"??", b"?"]),
        ([long, long + b"1", long + b"2", b""], b"3", [b"7", long, b""]),
    ]:
        line = devices % (number, b"".join(b' "%b"' % it for it in named)) if named else b""
        text = CAR + b"".join(b"%b,2026-11-22 07:00:05,1,1\n" % it for it in of)
        counted = read % (2 + len(of), b"07:00:01.0", b"07:00:05.0", 1) + line
        for words in [[], ["--sort"]]:
            yield Run([*LOG, "--count", *words], 1 if line else 0, CAR_LOG, counted, text)
            yield Run([*LOG, *words], 1 if line else 0, CAR_LOG, line, text)
    headed = b"Timestamp,EventId,Parameter\n2026-11-22 07:00:01,82,2\n2026-11-22 07:00:03,81,2\n"
    yield logged(headed, CAR_LOG, "--count", errors=read % (2, b"07:00:01.0", b"07:00:03.0", 1))
    late = told("07:01:03 1 1") + CAR
    yield logged(late, CAR_LOG, "--count", "--sort-within=62",
                 errors=read % (3, b"07:00:01.0", b"07:01:03.0", 1) + gaps % (1, b"07:00:03.0", b"07:01:03.0"))
    wires = [*("--vehicle 9=1 --vehicle 9=2 --vehicle 8=1 --pedestrian 9=1".split()), "--count"]
    events = told("07:00:00 82 9", "07:00:00 82 8", "07:00:00 90 9", "07:00:00 81 9")
    yield logged(events, row(1, [1, 2], [1]) + row(2, [1], [1]), *wires, errors=read % (4, b"07:00:00.0", b"07:00:00.0", 3))


def sort_runs():
    """Rows that are a little out of order."""
    order = b"events line %d: time order: %b after %b: over %d s late: give a larger --sort-within, or sort by column 2\n"
    turned = CAR_SECOND + CAR_FIRST
    yield refused(turned, b"events line 2: time order: 07:00:01.0 after 07:00:03.0: sort by column 2\n")
    for words, window in [(["--sort"], 60), (["--sort-within", "2"], 2), (["--sort-within=0300"], 300), (["--sort", "--sort-within=3600"], 3600)]:
        for text in [CAR, turned, HEADER + turned, turned.replace(b"\n", b"\r\n")]:
            yield logged(text, CAR_LOG, *words)
        # A row may be as late as the window, and no later.
        late = field_rules.time_text(BEGIN + (window + 1) * field_rules.SECOND).decode()
        yield logged(told(f"{late} 1 1", "07:00:01 82 2", "07:00:03 81 2") if window > 2 else told("07:00:03 81 2", "07:00:01 82 2"), CAR_LOG, *words)
        later = field_rules.clock(BEGIN + (window + 1) * field_rules.SECOND + 1)
        at = field_rules.time_text(BEGIN + (window + 1) * field_rules.SECOND + 1).decode()
        yield refused(told(f"{at} 1 1", "07:00:01 82 2"), order % (2, b"07:00:01.0", later, window), b"", *words)
    # Rows of one moment stay in their order: a pulse, and a pause that is not seen.
    yield logged(told("07:00:04 1 1", "07:00:02 82 3", "07:00:02 81 3"), row(21, [3]) + row(22), "--sort")
    yield logged(told("07:00:04 1 1", "07:00:02 81 3", "07:00:02 82 3"), row(21, [3]), "--sort")
    # What is printed is that of the sorted rows.
    read = b"read: 3 rows from 2026-11-22 %b to 2026-11-22 %b, events of 1 channels\n"
    yield logged(CAR_SECOND + told("07:00:09.5 1 1") + CAR_FIRST, CAR_LOG, "--sort", "--count", errors=read % (b"07:00:01.0", b"07:00:09.5"))
    # Rows of other devices, and rows before the header, say nothing of the time.
    other = HEADER + b"8,2026-11-23 07:00:00,1,1\n" + turned
    yield logged(other, CAR_LOG, "--sort", "--device=7", errors=LEFT % (1, 0, 0))
    # With each row one is given out at most. What a fault leaves is known by those.
    fault = b"events line %d: " + ENDS % b"time" + b"\n"
    yield refused(CAR + b"x\n", fault % 3, b"", "--sort")
    yield refused(CAR + told("07:00:05 1 1", "07:00:05.1 1 1") + b"x\n", fault % 5, CAR_KNOWN, "--sort-within=2")
    yield refused(CAR + told("07:01:05 1 1") + b"x\n", fault % 4, b"", "--sort")
    yield refused(CAR + told("07:01:05 1 1", "07:01:05 1 1") + b"x\n", fault % 5, CAR_KNOWN, "--sort")
    # An event past the last tick is refused as it is given out.
    yield refused(told(f"{BEHIND} 82 2") + CAR, order % (2, b"07:00:01.0", b"05:40:00.0 of a later day", 60), b"", "--sort")
    yield refused(CAR + told(f"{BEHIND} 82 2"), b"events: past tick 6000000\n", CAR_KNOWN, "--sort")
    far = b"Time,Device Id,Code,Param\n2026-11-23 00:00:00.001,7,1,1\n2026-11-22 23:58:59.9,7,1,1\n"
    yield refused(far, b"events line 3: time order: 23:58:59.9 after 00:00:00.001 of a later day: over 60 s late: "
                       b"give a larger --sort-within, or sort by column 1\n", b"", "--sort")
    # The longest line of a fault: a line number of 7 digits, both times in nanoseconds, a later day, a window of an hour, and
    # the times in column 300.
    far = [b"," * 299 + at + b",1,1\n" for at in [b"2026-11-23 07:00:00.123456789", b"2026-11-22 05:59:59.987654321"]]
    longest = b"," * 299 + b"Time,Code,Parameter\n" + far[0] + b"#\n" * 999_997 + far[1]
    yield refused(longest, b"events line 1000000: time order: 05:59:59.987654321 after 07:00:00.123456789 of a later day: over "
                           b"3600 s late: give a larger --sort-within, or sort by column 300\n", b"", "--sort-within=3600")
    yield logged((EXPORT_FOLDER / "a23_unsorted.csv").read_bytes(), ticked(BOTH), "--sort-within=1")
    for words in [["--sort=1"], ["--sort", "--sort"], ["--sort-within"], ["--sort-within=0"], ["--sort-within=3601"], ["--sort-within=1.5"],
                  ["--sort-within="], ["--sort-within=1", "--sort-within=1"], ["--sort-within=60s"], ["--sorted"]]:
        yield bad([*LOG, *words], CAR)


# Delays and extensions of a plan, in tenths of a second, and what is printed of each detector.
DELAYS, EXTENSIONS = {1: 50, 3: 7, 16: 2550}, {3: 20, 5: 255, 16: 1}
TWICE = {
    1: b"detector 1: its delay of 5.0 s acts twice\n",
    3: b"detector 3: its delay of 0.7 s and its extension of 2.0 s act twice\n",
    5: b"detector 5: its extension of 25.5 s acts twice\n",
    16: b"detector 16: its delay of 255.0 s and its extension of 0.1 s act twice\n",
}


def outputs_runs():
    """Events of outputs of the detectors of a plan: the input log is the same, and the last lines name what acts twice."""
    twice = ["--as-outputs", "twice.json"]
    every = b"".join(TWICE.values())
    # Detectors to which no wire leads are not told, however they are mapped.
    for words, detectors in [
        ([], [1, 3, 5, 16]), (["--vehicle=3=6"], [1, 5, 16]), (["--vehicle=3=6", "--vehicle=99=3"], [1, 3, 5, 16]),
        (["--vehicle=1=16", "--vehicle=16=16", "--vehicle=5=5"], [3, 5, 16]), (["--pedestrian=1=3", "--preempt=3=1"], [1, 3, 5, 16]),
        (["--vehicle=1=2", "--vehicle=3=2", "--vehicle=5=2", "--vehicle=16=2"], []), (["--vehicle=17=1", "--sort"], [1, 3, 5, 16]),
    ]:
        yield logged(CAR, CAR_LOG, *words, *twice, errors=b"".join(TWICE[detector] for detector in detectors))
        yield logged(CAR, CAR_LOG, *words, "--as-outputs=quad.json")
    yield logged(CAR, CAR_LOG, "--as-outputs", "main_and_oak.json", errors=b"detector 8: its delay of 5.0 s acts twice\n")
    # It comes last, and only where the log ends well.
    read = b"read: 2 rows from 2026-11-22 07:00:01.0 to 2026-11-22 07:00:03.0, events of 1 channels\n"
    yield logged(CAR, CAR_LOG, "--count", *twice, errors=read + every)
    yield logged(CAR + told("07:00:04 82 17"), CAR_LOG, *twice, errors=LEFT_OF % (0, 1, b"vehicle 17", 0) + every)
    yield logged(HEADER, b"", *twice, EMPTY, errors=every)
    yield refused(HEADER, NO_ROW, b"", *twice)
    yield refused(CAR + b"x\n", b"events line 3: " + ENDS % b"time" + b"\n", CAR_KNOWN, *twice)
    yield Run([*LOG, *twice], 3, b"", INPUT, stdin=TORN)
    yield Run([*LOG, *twice], 3, b"", WRITE, CAR, stdout=FULL)
    yield Run([*LOG, *twice], 3, CAR_LOG, b"", CAR, stderr=FULL)
    # Without a plan nothing is read or written.
    for path, status, line in plan_faults():
        yield Run([*LOG, "--as-outputs", path], status, b"", line, stdin=TORN)
        yield Run([*LOG, "--as-outputs", path], status, b"", line, CAR, stdout=FULL)
    for words in [["--as-outputs"], ["--as-outputs=quad.json", *twice], ["--as-outputs", "quad.json", "twice.json"]]:
        yield bad([*LOG, *words], CAR)


def line_faults():
    """Lines that are no rows after a first row, each with what is printed of it."""
    clock = b"7,2026-11-22 07:00:03"
    yield from ((line, ENDS % column) for line, column in [
        (b"7", b"time"), (b"\t", b"time"), (b" \t ", b"time"), (b"\t#", b"time"), (b"x", b"time"),
        (b"7;2026-11-22 07:00:03;82", b"time"), (clock, b"code"), (clock + b",82", b"parameter"),
    ])
    for code, channel, column, field in [
        (b"82", b"", b"parameter", b""), (b"", b"2", b"code", b""), (b"82", b"x", b"parameter", b"x"),
        (b"-82", b"2", b"code", b"-82"), (b"00000000082", b"2", b"code", b"00000000082"),
        (b"82", b"4294967296", b"parameter", b"4294967296"), (b"82", b'x"\x7f\xc3\xa4\t', b"parameter", b"x?????"),
        (b"82", b"9" * 41, b"parameter", b"9" * 40), (b"82.0", b" ", b"parameter", b""), (b"82.5", b"2", b"code", b"82.5"),
        (b" 82.0 1", b"2", b"code", b"82.0 1"), (b"82", b"NULL", b"parameter", b"NULL"), (b"104", b"-1", b"parameter", b"-1"),
    ]:
        yield clock + b"," + code + b"," + channel, b'%b: "%b" is no whole number up to 4294967295' % (column, field)
    for time in [
        b"", b"2026-11-22", b"2026-11-22 07:00:03.0000000001", b"2026-11-22t07:00:03", b"03/04/2026 07:00:03",
        b"2026-02-29 07:00:03", b"2026-04-31 07:00:03", b"2026-13-22 07:00:03", b"2026-11-00 07:00:03",
        b"2026-11-22 24:00:00", b"2026-11-22 07:60:00", b"2026-11-22 07:00:60", b"2026-11-22 07:00:03,2.5",
        b"2026-11-22 07:00:03.2,5", b"2026-11-22 07:00:03+24:00", b"2026-11-22 07:00:03+", b"26-11-22 07:00:03",
        b"2026-11-22 13:00:03 PM", b"2026-11-22 00:00:03 AM", b"2026-11-22 07:00:03 XM", b"2026-11-22 07:00:03Zx",
        b"2026-11-22 07:00:03+ab", b"2026-11-22 07:00:03-07:xx",
    ]:
        field = b'"%b"' % time if b"," in time else time
        yield b"7," + field + b",82,2", b'time: "%b" is no time as 2026-11-22 07:00:00.1' % time
    for form, time in [
        (b"month-first", b"11/22/2026 07:00:03"), (b"day-first", b"22/11/2026 07:00:03"), (b"day-first", b"22.11.2026 07:00:03"),
        (b"seconds", b"1795330803.2"), (b"milliseconds", b"1795330803200"),
    ]:
        why = b'time: "%b" is %b, not year-first: one form a file, by the first row or --time-form' % (time, form)
        yield b"7," + time + b",82,2", why
    for time in [b"2026-11-22 07:00", b"11/22/2026 7:00", b"22.11.2026 7:00"]:
        yield b"7," + time + b",82,2", b'time: "%b" has no seconds (was it opened in a spreadsheet?)' % time
    for time in [b"00:03.2", b"07:00:03"]:
        yield b"7," + time + b",82,2", b'time: "%b" has no day (was it opened in a spreadsheet?)' % time
    yield from ((line, b"a quote is out of place") for line in [
        b'"7,2026-11-22 07:00:03,82,2', clock + b',"82"0,2', clock + b',82,2,"', b'"7 ""x""",2026-11-22 07:00:03,82,2',
        b'"""7""",2026-11-22 07:00:03,82,2', clock + b',82,2,"a ""b"" c"', clock + b',82,2,""""',
    ])
    yield b"SignalID,Timestamp,EventCode", NO_PARAMETER
    yield from ((line, LONG) for line in [b"x" * 1001, b"#" + b"x" * 1000, b"\x00" * 1001])


def fault_runs():
    """Faults of event logs."""
    for line, why in line_faults():
        yield refused(CAR + b"\n" + line + b"\n", b"events line 4: " + why + b"\n", CAR_KNOWN)
        yield refused(CAR + line, b"events line 3: " + why + b"\n", CAR_KNOWN, "--device", "7")
    yield refused(b"Timestamp,EventCode,EventParam\n" + CAR, b"events line 1: " + NO_DEVICE + b"\n", b"",
                  "--device", "7")
    yield refused(b"SignalID,Timestamp,EventCode\n" + CAR, b"events line 1: " + NO_PARAMETER + b"\n")
    yield refused(b"SignalID,Code,EventId\n" + CAR, b"events line 1: " + NO_TIME + b"\n")
    yield refused(b"SignalID,Timestamp,Kind,Parameter\n" + CAR, b"events line 1: " + NO_CODE + b"\n")
    yield refused(HEADER[:-1] + b',"a ""b"""\n' + CAR, b"events line 1: a quote is out of place\n")
    yield refused(HEADER.replace(b",", b"|") + CAR.replace(b",", b"|"), field_rules.NOTHING)
    yield refused(b"a text\nthat is no log\n", field_rules.NOTHING)
    yield refused(b"\n# no time\n8,,82,1\n", b'events line 3: time: "" is no time as 2026-11-22 07:00:00.1\n', b"",
                  "--device", "7")
    for text, why in [
        (b"\xff\xfeS\x00\n", b"UTF-16: convert by iconv -f utf-16 -t utf-8"),
        (b"\xfe\xff\x00S\n", b"UTF-16: convert by iconv -f utf-16 -t utf-8"),
        (b"PK\x03\x04\x14\x00\n", b"packed: unpack by unzip or gunzip"),
        (b"\x1f\x8b\x08\x00\n", b"packed: unpack by unzip or gunzip"),
        (MARK + b"<EventResponses>\n", b"XML: export as CSV"), (b"<?xml?>", b"XML: export as CSV"),
        (b"PK\x00\x04\n", b"binary: convert by the controller's own program"),
        (CAR + b"\x00\x01\x02\n", b"binary: convert by the controller's own program"),
    ]:
        yield refused(text, b"events: " + why + b"\n", CAR_KNOWN if text.startswith(CAR) else b"")
    yield from return_runs()
    order = b"events line %d: time order: %b after %b: sort by column %d\n"
    yield refused(CAR + told("07:00:02.999999999 81 2"), order % (3, b"07:00:02.999999999", b"07:00:03.0", 2), CAR_KNOWN)
    yield refused(CAR + told("07:00:03.25 1 1", "07:00:02 1 1"), order % (4, b"07:00:02.0", b"07:00:03.250", 2), CAR_KNOWN)
    yield refused(b"\n" + told("06:00:01 1 1", "06:00:00 1 1") + CAR, order % (3, b"06:00:00.0", b"06:00:01.0", 2))
    other = HEADER + b"8,2026-11-23 07:00:00,1,1\n"
    yield refused(other + told("07:00:03 82 99", "07:00:02 82 99"), order % (4, b"07:00:02.0", b"07:00:03.0", 2), b"",
                  "--device=7")
    yield refused(b"Time,Device Id,Code,Param\n2026-11-23 00:00:00.001,7,1,1\n2026-11-22 23:59:59.9,7,1,1\n",
                  order % (3, b"23:59:59.9", b"00:00:00.001 of a later day", 1))
    past = b"events: past tick 6000000\n"
    yield refused(CAR + told(f"{BEHIND} 82 2"), past, CAR_KNOWN)
    yield refused(CAR + told(f"{BEHIND} 81 2"), past, CAR_KNOWN)
    yield refused(CAR + told(f"{LAST} 82 2", f"{BEHIND} 82 2"), past, CAR_LOG)
    yield refused(told(f"{BEHIND} 1 2", f"{BEHIND} 82 2") + b"x\n", past)
    yield refused(told(f"{BEHIND} 82 17"), past, b"", "--vehicle=17=1")
    yield from known_runs()


def return_runs():
    """Returns that are no part of a line's end: one without a line feed behind it, and the first of two."""
    number = b'parameter: "2?" is no whole number up to 4294967295\n'
    yield refused(CAR[:-1] + b"\r", b"events line 2: " + number)
    yield refused(CAR + b"\r", b"events line 3: " + ENDS % b"time" + b"\n", CAR_KNOWN)
    yield refused(CAR + b"  \r", b"events line 3: " + ENDS % b"time" + b"\n", CAR_KNOWN)
    header = b"events line 1: " + NO_PARAMETER + b"\n"
    yield refused(HEADER[:-1] + b"\r", header)
    yield refused(HEADER.replace(b"\n", b"\r\r\n") + CAR, header)
    yield refused(CAR.replace(b"\n", b"\r\r\n"), b"events line 1: " + number)
    # They count among the bytes of their line, and these are 1,000 at most.
    for end in [b"\r", b"\r\r\n"]:
        yield refused(CAR + b"#" + b"x" * 999 + end, b"events line 3: " + LONG + b"\n", CAR_KNOWN)


def known_runs():
    """Which rows are known before a fault: those before the tick of the last event of an input."""
    for events, known in [
        # More may come in the last tick. An event of a later one shows that none does, also where it switches nothing.
        (["07:00:01 82 2"], b""),
        (["07:00:01 82 2", "07:00:01.099999999 90 1"], b""),
        (["07:00:01 82 2", "07:00:01.1 82 2"], row(11, [2])),
        (["07:00:01 82 2", "07:00:05 104 4"], row(11, [2])),
        # A pulse in tick 31 has a row of tick 32 too.
        (["07:00:03 82 3", "07:00:03 81 3"], b""),
        (["07:00:03 82 3", "07:00:03 81 3", "07:00:03.1 82 5"], row(31, [3])),
        (["07:00:03 82 3", "07:00:03 81 3", "07:00:03.2 82 5"], row(31, [3]) + row(32)),
        # What is before tick 1 is known with it.
        (["06:59:00 102 1", "06:59:59 82 1"], b""),
        (["06:59:00 102 1", "07:00:00.099999999 82 1"], b""),
        (["06:59:00 102 1", "07:00:00.1 82 1"], row(1, [], [], [1])),
        # No event of an input is that of another code, or of a channel that leads nowhere.
        (["07:00:01 82 2", "07:00:05 1 2", "07:00:06 82 17"], b""),
    ]:
        yield refused(told(*events) + b"x\n", b"events line %d: %b\n" % (len(events) + 1, ENDS % b"time"), known)
    other = told("07:00:01 82 2") + b"8,2026-11-22 07:00:05,82,2\n"
    yield refused(other + b"x\n", b"events line 3: " + ENDS % b"time" + b"\n", b"", "--device", "7")
    # More rows than a buffer holds. That the last ones go out before the line of the fault shows in one stream alone,
    # as `run_field.one_stream` has it: a buffer is written as well when it is dropped.
    events, log = switching(2000)
    yield refused(events + b"x\n", b"events line 2001: " + ENDS % b"time" + b"\n", log[:-len(row(2000))])


def display(tick, vehicles="-R-R", pedestrians="-D", overlaps="R", preempt=0, local="----"):
    """A display line."""
    return f"{tick:07} {vehicles:-<16} {pedestrians:-<16} {overlaps:-<4} {preempt} {local}\n".encode()


def shown(*events, device="1001", day="2026-11-22"):
    """Lines of events, with the header: each of a clock, a code and a parameter."""
    found = (event.split(" ") for event in events)
    return HEADER + b"".join(f"{device},{day} {clock},{code},{n}\n".encode() for clock, code, n in found)


# Phase 2 red; green with a walk and overlap 1; with clearance and preempt 2 in service; yellow; all in flash; red.
LINES = [
    display(1), display(2, "-G-R", "-W", "G"), display(45, "-G-R", "-C", "G", 2, "0759"),
    display(101, "-Y-R", "-D", "Y", 2), display(102, "-F-F", "", "F"), display(131),
]
TOLD = [
    ["07:00:00.1 1 2", "07:00:00.1 21 2", "07:00:00.1 61 1"], ["07:00:04.4 22 2", "07:00:04.4 105 2"],
    ["07:00:10.0 7 2", "07:00:10.0 8 2", "07:00:10.0 23 2", "07:00:10.0 63 1"],
    ["07:00:10.1 9 2", "07:00:10.1 64 1", "07:00:10.1 173 6"], ["07:00:13.0 173 2"],
]
ALL_LINES = b"".join(LINES)
ALL_TOLD = shown(*sum(TOLD, []))

# A session whose second tick is taken back. No display line has shown that yet.
UNDONE = b"".join(LINES[:2]) + b"undone tick\n"

# The session of docs/use/MANUAL.md in which `preempt 1 on` is given before tick 1, and no row of a log has that input.
SWITCHED = display(0, "RR-R-R-R", "---D", "R") + b"ok\n" + display(1, "RR-R-R-R", "---D", "R", 1) + b"".join(
    display(tick, "RR-G-R-G", "---D", "G", 1) for tick in (2, 3))
SWITCHED_TOLD = ["07:00:00.0 105 1", "07:00:00.1 1 4", "07:00:00.1 1 8", "07:00:00.1 61 1"]


def event_runs():
    """Events of display lines, and of a log."""
    def given(text, events, *words):
        return Run([*EVENTS, *words], 0, events, b"", text)

    yield given(b"", HEADER)
    yield given(display(1), HEADER)
    yield from (given(text, ALL_TOLD) for text in [
        ALL_LINES, ALL_LINES[:-1], ALL_LINES.replace(b"\n", b"\r\n"), ALL_LINES.replace(b"\n", b"\nnothing\n"),
        ALL_LINES[:-1] + b"\r",
        ALL_LINES.replace(b"----\n", b"0000\n"), b"".join(line * 2 for line in LINES),
        ALL_LINES + display(132) + display(140), b"x" * 100_000 + b"\n" + ALL_LINES,
        b"".join(LINES[:3] + [b"undone tick\n", b"tick 0000031\n", b"refused E5 NotOwner\n"] + LINES[3:]),
        ALL_LINES + LINES[0][:-1] + b" \n" + LINES[0].replace(b"-R-", b"-W-") + LINES[0].replace(b" 0 ", b" 9 ")
        + LINES[0].replace(b"0000001", b"000000x") + b"\xff\n",
    ])
    # Lit in the first line; all kinds at once; the last heads.
    yield given(display(1, "GY", "WC", "GY", 1), shown(*(f"07:00:00.0 {it}" for it in [
        "1 1", "8 2", "21 1", "22 2", "61 1", "63 2", "105 1"])))
    yield given(display(9999999, 15 * "-" + "G", 15 * "-" + "W", "---Y", 4), shown(*(
        f"20:46:39.8 {it}" for it in ["1 16", "21 16", "63 4", "105 4"]), day="2026-12-03"))
    # From one to the other at once; a preempt that takes over, and one that ends.
    yield given(display(1, "GY", "WC", "GY", 1) + display(2, "YG", "CW", "YG", 2) + display(3, "RR", "DD", "RR"), shown(
        *(f"07:00:00.0 {it}" for it in ["1 1", "8 2", "21 1", "22 2", "61 1", "63 2", "105 1"]),
        *(f"07:00:00.1 {it}" for it in ["1 2", "7 1", "8 1", "9 2", "21 2", "22 1", "61 2", "63 1", "105 2"]),
        *(f"07:00:00.2 {it}" for it in ["7 2", "9 1", "23 1", "23 2", "64 1", "64 2"])))
    yield from back_runs(given)
    yield from joined_runs(given)
    yield Run(["events", "--from=2026-12-31T23:59:59.95", "--device=Main, 5th"], 0,
              HEADER + b'"Main, 5th",2027-01-01 00:00:00.05,1,1\n', b"", display(1) + display(2, "GR"))
    yield Run(["events", *FROM, "--device="], 0, HEADER + b",2026-11-22 07:00:00.0,1,1\n", b"", display(1, "G"))
    # Tick 9,999,999, which a display line can have, has to lie in the year 9999.
    latest = ["events", "--device", "1001", "--from", "9999-12-20 10:13:20.199999999"]
    yield Run(latest, 0, HEADER + b"1001,9999-12-20 10:13:20.199999999,1,1\n", b"", display(1, "G"))
    late = [*latest[:4], "9999-12-20 10:13:20.2"]
    yield Run(late, 2, b"", b"events: past the year 9999\n", display(1))
    yield Run(late, 3, b"", INPUT, stdin=TORN)
    yield Run([*late, "--log", "cut_short.log"], 1, b"", b"log line 1: malformed\n", display(1))


def back_runs(given):
    """Sessions that go back."""
    begun = b"".join(LINES[:2])
    yield given(begun + display(2), HEADER)
    # An undo has a line that takes nothing back: the next display line does.
    yield given(UNDONE, shown(*TOLD[0]))
    yield given(UNDONE + b"undone tick\n", shown(*TOLD[0]))
    yield given(UNDONE + LINES[0], HEADER)
    yield given(UNDONE + display(2, "-R-R", "-W", "G"), shown(*TOLD[0][1:]))
    yield given(UNDONE + display(3, "-Y-R", "-W", "G"), shown(*TOLD[0], *(f"07:00:00.2 {it}" for it in ["7 2", "8 2"])))
    yield given(ALL_LINES + b"undone tick\n" * 131, ALL_TOLD)
    yield given(ALL_LINES + LINES[0], HEADER)
    yield given(ALL_LINES + LINES[2], shown(*TOLD[0], *TOLD[1]))
    yield given(ALL_LINES + display(101, "-G-R", "-D", "G"), shown(*TOLD[0], *TOLD[1], "07:00:10.0 23 2"))
    again = b"undone switch\n" + display(44, "-G-R", "-W", "G") + b"".join(LINES[3:])
    yield given(begun + b"".join(LINES[2:4]) + again,
                shown(*TOLD[0], *TOLD[2][:3], "07:00:10.0 63 1", "07:00:10.0 105 2", *TOLD[3], *TOLD[4]))
    yield given(ALL_LINES + display(0, "RRRR") + ALL_LINES, ALL_TOLD)


def joined_runs(given):
    """Events of display lines with those of a log's inputs."""
    yield given(b"", shown("07:00:01.0 82 2", "07:00:03.0 81 2"), "--log", "car.log")
    yield given(b"", HEADER, "--log=empty.log")
    # A preempt in service whose input a command switched on: it enters service, and no input goes on.
    yield given(SWITCHED, shown(*SWITCHED_TOLD))
    yield given(SWITCHED, shown(*SWITCHED_TOLD), "--log", "empty.log")
    yield given(SWITCHED, shown(*SWITCHED_TOLD, "07:00:01.0 82 2", "07:00:03.0 81 2"), "--log", "car.log")
    # Rows of a log have events wherever the session ended: after its last line, and after the one to which it went
    # back.
    yield given(display(1), shown("07:00:01.0 82 2", "07:00:03.0 81 2"), "--log", "car.log")
    yield given(display(1) + display(20, "-G"), shown("07:00:01.0 82 2", "07:00:01.9 1 2", "07:00:03.0 81 2"),
                "--log", "car.log")
    yield given(ALL_LINES + LINES[0], shown("07:00:01.0 82 2", "07:00:03.0 81 2"), "--log", "car.log")
    on = [f"07:00:00.0 {code} {n + 1}" for code, most in [(82, 16), (90, 8), (102, 4)] for n in range(most)]
    off = [f"07:00:00.1 {code} {n + 1}" for code, most in [(81, 16), (89, 8), (104, 4)] for n in range(most)]
    yield given(b"", shown(*on, *off), "--log", "all.log")
    # In one tick by code, and then by parameter; an input log that goes on after the last display line.
    first = [*TOLD[0], "07:00:00.1 82 1", "07:00:00.1 82 2", "07:00:00.1 90 3"]
    second = [f"07:00:04.4 {it}" for it in ["22 2", "81 2", "82 9", "89 3", "102 1", "105 2"]]
    last = ["07:16:39.9 81 1", "07:16:39.9 81 9", "07:16:39.9 104 1"]
    yield given(ALL_LINES, shown(*first, *second, *TOLD[2], *TOLD[3], *TOLD[4], *last), "--log", "with_all.log")


def word_runs():
    """Words that are bad, and other spellings of good ones."""
    for words in [
        [], ["what"], ["--help", "log"], ["-h"], ["help"], ["--version", "log"], ["LOG", *FROM], ["log"],
        ["log", *FROM, "--help"], ["log", "--version"], ["what", "--help"], [*LOG, "--", "--devise"],
        [*LOG, *FROM], [*LOG, "more"], [*LOG, "--log", "car.log"], [*LOG, "--device", "-7"], [*LOG, "--device"],
        [*LOG, "--vehicle", "1"], [*LOG, "--time-form"], [*LOG, "--time-form", "month"], [*LOG, "--zone", "07:00"],
        [*LOG, "--zone"], [*LOG, "--zone=+24:00"], [*LOG, "--zone", "-07:00"], [*LOG, "--count=1"], [*LOG, "--count", "--count"],
        [*LOG, EMPTY, EMPTY], [*EVENTS, "--count"], [*LOG, "--zone=Z", "--zone=Z"],
        [*LOG, "--vehicle", "1=65"], [*LOG, "--vehicle", "1=0"], [*LOG, "--vehicle", "=1"], [*LOG, "--vehicle", "1="],
        [*LOG, "--vehicle", "1=1=1"], [*LOG, "--vehicle", "4294967296=1"], [*LOG, "--vehicle", "x=1"],
        [*LOG, "--pedestrian", "1=17"], [*LOG, "--preempt", "1=9"], [*LOG, "--device", "7", "--device", "7"],
        ["log", "--", "--from=x"], ["log", "--from"], ["events", *FROM], ["events", "--device", "7"],
        [*EVENTS, "--device", "7"], [*EVENTS, "--title", "x"], [*EVENTS, "car.log"],
        ["events", *FROM, "--device", 'a"b'], ["events", *FROM, "--device", "a\nb"],
        ["events", *FROM, "--device", "a\r"], ["events", *FROM, "--device", "7" * 901], [*EVENTS, "--log"],
        ["diagram", *FROM, *FROM], ["diagram", "--events", "car.log"],
        ["diagram", "--device", "7"], ["diagram", "--seconds-per-line", "0"],
        ["diagram", "--seconds-per-line", "86401"], ["diagram", "--seconds-per-line", "x"], ["diagram", "car.log"],
        ["diagram", "--title", "a", "--title", "b"], [b"\xff"], [*LOG, "--device", b"\xff"],
        ["diagram", "--title", b"\xc3"],
    ]:
        yield bad(words, CAR)
    for words in [
        ["log", "--from", "07:00"], ["log", "--from", "2026-11-22"], ["log", "--from", "2026-11-22 07:00:00Z"],
        ["log", "--from", "2026-02-29 07:00:00"], ["log", "--from", ""], ["log", "--from=2026-11-22 07:00"],
        ["record", "--device", "7", "--from=x", "quad.json", "car.log"], ["events", "--from=x", "--", "--from"],
        ["diagram", *FROM, "--from", "07:00"], ["what", "--from", "x"], ["log", "--from", "--from"],
    ]:
        yield bad(words, CAR)
    for words, said in WRONG:
        yield Run(words, 2, b"", said + b"\n", CAR)
    for words in [[], ["log", *FROM, "--help"], ["review", "--help", "tee.json"], [b"\xff"], [*LOG, "--device", b"\xff"]]:
        yield Run(words, 2, b"", USAGE, CAR)
    for words, right in [
        (["Log", *FROM], b"log"), (["lgo"], b"log"), (["dagram"], b"diagram"), (["--hlep"], b"--help"),
        (["reviews", "quad.json"], b"review"), ([*LOG, "--devise", "7"], b"--device"), ([*LOG, "--zones=Z"], b"--zone"),
        (["log", "--form", AT], b"--from"), ([*LOG, "--count", "--srot"], b"--sort"),
        ([*EVENTS, "--lgo=car.log"], b"--log"), (["record", *FROM, "--go-no"], b"--go-on"),
        (["diagram", "--seconds-perline", "9"], b"--seconds-per-line"), (["review", "--hel"], b"--help"),
        ([*LOG, "--as-output=quad.json"], b"--as-outputs"), ([*RECORD, "empty.log", "--recall"], b"--recalls"),
        ([*RECORD, "empty.log", "--output"], b"--outputs"), ([*RECORD, "empty.log", "--no-clok"], b"--no-clock"),
        (["schedul", "quad.json"], b"schedule"), (["worksheets", "quad.json"], b"worksheet"),
        (["crad", "quad.json"], b"card"), (["card", "--agianst=a", "quad.json"], b"--against"),
        (["schedule", "--weak", "2026-11-22"], b"--week"),
        (["schedule", "--swg", "--week=2026-11-22", "quad.json"], b"--svg"),
    ]:
        yield Run(words, 2, b"", HINT % right, CAR)
    yield Run(["--version"], 0, VERSION % b"tsb_field", b"", CAR)
    yield Run(["--version"], 3, b"", WRITE, CAR, stdout=FULL)
    turned = ["log", "--device=7", "--from", AT.replace(" ", "T")]
    for words in [["log", f"--from={AT}"], turned, [*LOG, "--vehicle=2=2"]]:
        yield Run(words, 0, CAR_LOG, b"", CAR)


def record(*events):
    """A record of controller 1001: each event has its tick, a code and a parameter."""
    return HEADER + b"".join(b"1001,2026-11-22 07:%02d:%02d.%d,%d,%d\n" % (*clock(tick), code, parameter)
                             for tick, code, parameter in events)


def clock(tick):
    """Minutes, seconds and tenths behind 7:00 of a tick within the hour; tick 0 has the time of tick 1."""
    seconds, tenths = divmod(max(tick - 1, 0), 10)
    return (*divmod(seconds, 60), tenths)


# From power-up phases 2 and 6 of quad turn green, as they are recalled, and overlap 1, which includes phase 2.
FIRST = [(1, 0, 2), (1, 0, 6), (1, 1, 2), (1, 1, 6), (1, 61, 1)]
# In a record with recalls their calls go as they are served.
SERVED = [(1, 44, 2), (1, 44, 6)]
# Pattern 1 has a cycle of 80 seconds, no offset, and eight splits. Its local counter is in step, as none ran before it.
PATTERN = [(1, 131, 1), (1, 132, 80), *((1, 133 + p, (25, 15)[p % 2]) for p in range(1, 9)), (1, 150, 1)]


def record_runs():
    """Records: of what remains, and what is printed of lines that are no command or are refused; the first ends a strict
    one."""
    for commands, events, errors in [
        (b"", [], b""), (b"step 1\n", FIRST, b""), (b"step 1", FIRST, b""),
        (b"step 1\r\nshow\r\nwhen trip", FIRST, b""),
        (b"step 1\nundo\n", [], b""), (b"step 1\nseek 0\n", [], b""), (b"step 9\nback 8\n", FIRST, b""),
        (b"step 1\npattern 1\n", [*FIRST, *PATTERN], b""), (b"step 1\npattern 1\nundo\n", FIRST, b""),
        (b"step 1\npattern 1\nstep 5\nseek 1\n", [*FIRST, *PATTERN], b""), (b"undo\nback 1\nseek 7\n", [], b""),
        (b"step 1\npattern 17\n", FIRST, b"command 2: pattern 17: refused E9 NoSuchPattern\n"),
        (b"# a comment\n\nx\nstep 1\n", FIRST, b"command 3: x: bad command\n"),
        (b"begin 2\nbegin 1\nverify 1\n", [],
         b"command 2: begin 1: refused E4 Busy 2\ncommand 3: verify 1: refused E5 NotOwner\n"),
        (b"step 1\nquit\nstep 1\nx\n", FIRST, b""), (b"quit", [], b""), (b"#" * 200 + b"\n", [], b""),
        (b"#" * 201 + b"\nstep 1", FIRST, b"command 1: " + b"#" * 200 + b": bad command\n"),
        (b"step 1\r", [], b"command 1: step 1?: bad command\n"),
        (b"\x1b[31m\xc3\xa9\t~ x\r\nstep 1\n", FIRST, b"command 1: ?[31m???~ x: bad command\n"),
        (b"step 1\n" + b"pattern 17 " * 18 + b"\r\n", FIRST, b"command 2: " + b"pattern 17 " * 18 + b": bad command\n"),
    ]:
        yield Run([*RECORD, "empty.log", "--go-on"], 0, record(*events), errors, commands)
        first = errors.splitlines(True)[:1]
        yield Run([*RECORD, "empty.log"], *((4, b"", *first) if first else (0, record(*events), b"")), commands)
    yield Run([*RECORD, "empty.log"], 4, b"", b"command 1: x: bad command\n", b"x\n" + b" " * (1 << 24))
    yield Run([*RECORD, "one_row.log", "--"], 0, HEADER, b"", b"show\n")
    yield Run(["record", "--device=1001", "quad.json", *FROM, "empty.log"], 0, record(*FIRST), b"", b"step 1\n")
    yield Run(["record", *FROM, "--device=a,b", "quad.json", "empty.log"], 0, HEADER, b"", b"")
    late = ["record", "--no-clock", "--from", "9999-12-31 00:00:00", "--device", "7", "quad.json", "empty.log"]
    yield Run(late, 2, b"", b"events: past the year 9999\n", b"step 1\n")
    yield Run(late, 4, b"", b"command 1: x: bad command\n", b"x\n")
    yield Run([*late, "--go-on"], 2, b"", b"command 1: x: bad command\nevents: past the year 9999\n", b"x\n")


# A car on detector 2 in ticks 3 to 5, whose phase is green: with an extension of 0.5 s its output is on up to tick 10.
# One on detector 4 from tick 11 on, with a delay of 1.0 s: its output comes at 21, calls phase 4, which no recall does,
# and so the greens of 2 and 6 have a conflict.
FORM_LOG = row(3, [2]) + row(6) + row(11, [4]) + row(41)
CALLED = [(21, 2, 2), (21, 2, 6), (21, 43, 4)]
INPUTS = [(3, 82, 2), (6, 81, 2), (11, 82, 4)]
OUTPUTS = [(3, 82, 2), (11, 81, 2), (21, 82, 4)]
# A green lamp of phase 4 beside those of 2 and 6 trips the monitor: all is in flash, also the overlap.
TRIPS = [(30, code, phase) for code in (7, 12) for phase in (2, 6)] + [(30, 64, 1), (30, 65, 1), (30, 173, 6)]
# The reset forgets the call of phase 4, and its detector's output. Phases 2 and 6 are red then, so their recalls call,
# and they turn green in the next tick as after power-up. Detector 4 is on all the while, and its delay begins anew.
FORGETS, AGAIN = [(30, 44, 4), (30, 173, 2)], [(31, code, number) for _, code, number in FIRST]
FORMS = [
    ([], FIRST, INPUTS, FORGETS, AGAIN),
    (["--outputs"], FIRST, OUTPUTS, [*FORGETS, (30, 81, 4)], AGAIN),
    (["--recalls"], [*FIRST, *SERVED], INPUTS, [*FORGETS, (30, 43, 2), (30, 43, 6)],
     [*AGAIN, (31, 44, 2), (31, 44, 6)]),
    (["--recalls", "--outputs"], [*FIRST, *SERVED], OUTPUTS, [*FORGETS, (30, 43, 2), (30, 43, 6), (30, 81, 4)],
     [*AGAIN, (31, 44, 2), (31, 44, 6)]),
]

# The input of preempt 1 is on in ticks 2 and 3, and its switch from tick 1 to 3, so that it is asked for up to tick 3.
# Then the switch alone goes on and off, and off once more.
SWITCHES = (b"step 1\npreempt 1 on\nstep 2\npreempt 1 off\nstep 1\npreempt 1 on\npreempt 1 off\npreempt 1 off\n"
            b"preempt 1 on\nundo\n")
ASKED = [(1, 102, 1), (2, 105, 1), (4, 104, 1), (4, 102, 1), (4, 104, 1)]


# Detector 4 is on in tick 2, and its phase is called from then on. A commit behind tick 3 puts the phase on recall, so
# that its call is none any more in a record without recalls; a commit behind tick 4 takes the recall away.
COMMIT = b"begin 1\nset 1 %b 4 %d\nverify 1\ncommit 1\n"
PASSING = [*((2, 2, phase) for phase in (2, 6)), (2, 43, 4), (2, 82, 4), (3, 81, 4)]


def form_of_record_runs():
    """Records with calls of recalls, with outputs of detectors and with both; requests of preempts by switches."""
    for recall in (b"phaseMinRecall", b"phaseMaxRecall"):
        commands = b"step 3\n" + COMMIT % (recall, 1) + b"step 1\n" + COMMIT % (recall, 0)
        passed = ["record", *FROM, "--device", "1001", "quad.json", "passed.log"]
        yield Run(passed, 0, record(*FIRST, *PASSING, (3, 44, 4), (4, 43, 4)), b"", commands)
        yield Run(passed, 0, record(*FIRST, *PASSING), b"", commands + b"seek 3\n" + b"undo\n")
        yield Run([*passed, "--recalls"], 0, record(*sorted([*FIRST, *SERVED]), *PASSING), b"", commands)
    for options, first, detectors, forgets, again in FORMS:
        begun = [*sorted(first), *sorted([*detectors, *CALLED])]
        whole = [*begun, *sorted(TRIPS), *sorted(forgets), *sorted(again)]
        words = ["record", *FROM, "--device", "1001", "delayed.json", "forms.log", *options]
        yield Run(words, 0, record(*begun), b"", b"step 30\n")
        yield Run(words, 0, record(*whole), b"", b"step 30\nfault P4 G\nreset\nstep 1\n")
        yield Run(words, 0, record(*sorted(first)), b"", b"step 30\nfault P4 G\nreset\nstep 1\nback 29\n")
        asked = [RECORD[0], *options, *RECORD[1:], "asked.log"]
        yield Run(asked, 0, record(*sorted(first), *ASKED), b"", SWITCHES)
        yield Run([*asked, "--go-on"], 0, record(*sorted(first)), b"command 1: x: bad command\n", b"x\nstep 1\n")
        for option in options:
            yield bad([*asked, option], b"step 1\n")
            yield bad([*asked[:1], option, *RECORD[1:], "asked.log", f"{option}=1"], b"step 1\n")
    turned = ["record", "--outputs", "delayed.json", *FROM, "--recalls", "forms.log", "--device=1001"]
    yield Run(turned, 0, record(*sorted([*FIRST, *SERVED])), b"", b"step 1\n")
    for words in [[*LOG, "--recalls"], [*LOG, "--outputs"], [*EVENTS, "--recalls"], [*EVENTS, "--outputs"],
                  [*RECORD, "empty.log", "--as-outputs"]]:
        yield bad(words, b"step 1\n")


# In coming_into_step.json phases 2 and 6 are coordinated. Pattern 1 has a cycle of 80 s, and they yield at 750; pattern 2
# has one of 60 s, and they yield at 550. Offsets are 0, and here the limit is 20 percent. The monitor trips at tick 1, so
# from then on the local counter alone goes.
FLASHES = b"pattern 1\nstep 1\nfault P4 G\n"
FLASHED = [
    (0, 131, 1), (0, 132, 80), (0, 135, 50), (0, 137, 30), (0, 139, 50), (0, 141, 30), (0, 150, 1),
    (1, 0, 2), (1, 0, 6), (1, 1, 2), (1, 1, 6), (1, 7, 2), (1, 7, 6), (1, 12, 2), (1, 12, 6), (1, 173, 6),
    (750, 151, 2), (750, 151, 6), (800, 150, 5),
]


def selected(tick, state):
    """What a selection of pattern 2 tells, whose local counter then goes so."""
    splits = ((tick, 133 + phase, 35 if phase in (2, 6) else 25) for phase in (2, 4, 6, 8))
    return [(tick, 131, 2), (tick, 132, 60), *splits, (tick, 150, state)]


def cycle(yields, zero):
    """What a cycle of pattern 2 gives: the yield points of phases 2 and 6, and local zero."""
    return [(yields, 151, 2), (yields, 151, 6), (zero, 150, 5)]


# Pattern 2 is selected at tick 850, where that of pattern 1 stands at 50: it is 400 ticks ahead of 250, where it would
# be in step. By dwell it stands at 549 for 120 ticks in each cycle: from 1349, 2069 and 2789 on, and from 3509 on for the
# last 40. In step it is at 0 at 3600.
DWELLS = [*selected(850, 4), *cycle(1470, 1520), *cycle(2190, 2240), *cycle(2910, 2960), (3549, 150, 1), *cycle(3550, 3600)]
# By the short way it gains one tick in four, 200 in 800: then it is a cycle ahead. After 400 ticks it has gone 500 steps,
# and after 440 it has gone 550.
GAINS = [*selected(850, 3), *cycle(1250, 1290), (1650, 150, 1), *cycle(1750, 1800)]
# At tick 851 it stands at 51. So it comes to 550 and to 0 with the first of the two steps that it takes in tick 400 and
# in tick 440 after the selection.
PASSES = [*selected(851, 3), *cycle(1251, 1291), (1651, 150, 1), *cycle(1750, 1800)]
# By add only it loses one tick in six, 400 in 2400. From 51 on it has gone 499 steps after 598 ticks, and 549 after 658;
# each cycle has 720.
LOSES = [*selected(851, 2), *cycle(1449, 1509), *cycle(2169, 2229), *cycle(2889, 2949), (3251, 150, 1), *cycle(3550, 3600)]
# From 50 on it has gone 500 steps after 599 ticks, and stays there in the next, which has no event; so with 550 after
# 659.
STANDS = [*selected(850, 2), (1449, 151, 2), (1449, 151, 6), (1509, 150, 5)]
# A commit that has each pattern in step at once.
AT_ONCE = b"begin 1\nset 1 coordCorrectionMode 1 0\nverify 1\ncommit 1\n"
# In free operation no local counter goes.
RESETS = [(3600, 131, 254), *((3600, code, 0) for code in (132, 135, 137, 139, 141, 150)), (3600, 173, 2)]


def cycle_runs():
    """Records of local counters: how they go, local zero and yield points, in flash too."""
    for plan, commands, events in [
        ("dwell.json", b"step 849\npattern 2\nstep 2750\n", DWELLS),
        ("dwell.json", b"step 849\npattern 2\nstep 2750\nreset\n", [*DWELLS, *RESETS]),
        ("dwell.json", b"step 849\npattern 2\nstep 2750\nseek 1469\n", DWELLS[:7]),
        ("short.json", b"step 849\npattern 2\nstep 950\n", GAINS),
        ("short.json", b"step 850\npattern 2\nstep 949\n", PASSES),
        ("adds.json", b"step 850\npattern 2\nstep 2749\n", LOSES),
        ("adds.json", b"step 849\npattern 2\nstep 660\n", STANDS),
        ("adds.json", b"step 849\npattern 2\n" + AT_ONCE + b"step 350\n",
         [*selected(850, 2), (850, 150, 1), *cycle(1150, 1200)]),
        ("adds.json", b"step 849\npattern 2\n" + AT_ONCE + b"undo\n", selected(850, 2)),
        ("adds.json", b"step 849\npattern 2\npattern 2\nundo\nundo\nstep 750\n", [(1550, 151, 2), (1550, 151, 6), (1600, 150, 5)]),
        ("coming_into_step.json", b"step 849\npattern 2\nstep 350\n", [*selected(850, 1)[:6], *cycle(1150, 1200)]),
    ]:
        yield Run(["record", *FROM, "--device", "1001", plan, "empty.log"], 0, record(*FLASHED, *events), b"", FLASHES + commands)


def record_from(at, *events):
    """A record of controller 1001 whose tick 1 begins then."""
    begin = field_rules.moment(at.encode())
    return HEADER + b"".join(b"1001,%s,%d,%d\n" % (field_rules.time_text(begin + max(tick - 1, 0) * field_rules.TENTH), code, parameter)
                             for tick, code, parameter in events)


# Moments of `--from`, and where the local counter of `FLASHES` is at tick 0 by the clock. 7:00 is 315 cycles of 80 s
# after midnight, and the next midnight 1,080. A clock has tenths of a second; what is less is left out.
CLOCKS = [
    ("2026-11-22 07:00:00", 0), ("2026-11-22 07:00:10", 100), ("2026-11-22 07:00:10.39", 103),
    ("2026-11-22T07:00:10.399999999", 103), ("2024-02-29 00:01:19.9", 799), ("2000-01-01 00:00:00", 0),
    ("2000-01-01 00:00:00.1", 1), ("2099-12-31 23:59:59.9", 799), ("2099-12-31 23:59:59.999999999", 799),
]
NO_CLOCKS = ["1999-12-31 23:59:59.999999999", "2100-01-01 00:00:00", "0001-01-01 00:00:00", "9999-12-31 23:59:59"]
NO_CLOCK = b"--from: a clock has the years 2000 to 2099 (give --no-clock for others)\n"


def flashed(ahead):
    """The events of `FLASHES` and 799 ticks more, from this place of the local counter at tick 0."""
    yields = (750 - ahead) % 800
    zero = (800 - ahead) % 800 or 800
    passed = [(yields, 151, 2), (yields, 151, 6), (zero, 150, 5)]
    # (a tick comes before the fault after it)
    return [it for _, it in sorted(enumerate([*FLASHED[:11], *passed, *FLASHED[11:-3]]), key=lambda it: it[1][0])]


def clock_runs():
    """Records with the clock of `--from` and a pattern: what it changes, and what takes it back."""
    session = FLASHES + b"step 799\n"
    for at, ahead in CLOCKS:
        words = ["record", "--from", at, "--device", "1001", "coming_into_step.json", "empty.log"]
        by_clock, by_ticks = (record_from(at, *flashed(it)) for it in (ahead, 0))
        yield Run(words, 0, by_clock, b"", session)
        yield Run([*words, "--no-clock"], 0, by_ticks, b"", session)
        yield Run(words, 0, by_ticks, b"", b"undo\n" + session)
        yield Run(words, 0, by_clock, b"", session + b"seek 9\nback 9\nundo\n" + session)
        yield Run(words, 0, by_ticks, b"", session + b"seek 0\nundo\nundo\n" + session)
        yield Run(words, 0, by_ticks, b"", b"clock 2026-11-22 07:00:00\n" + session)
        yield Run(words, 0, by_clock, b"", b"clock 2026-11-22 07:00:00\nundo\n" + session)
        yield Run(words, 4, b"", b"command 2: clock 07:00: bad command\n", b"\nclock 07:00\nstep 1\n")
        yield Run([*words, "--go-on"], 0, by_clock, b"command 1: x: bad command\n", b"x\n" + session)
    for at in NO_CLOCKS:
        words = ["record", "--from", at, "--device", "1001"]
        yield Run([*words, "none.json", "none.log"], 2, b"", NO_CLOCK, b"x\n")
        words += ["--no-clock", "coming_into_step.json", "empty.log"]
        if at > "9999":
            yield Run(words, 2, b"", b"events: past the year 9999\n", session)
        else:
            yield Run(words, 0, record_from(at, *flashed(0)), b"", session)


def plan_faults():
    """Plans that are refused or can't be read, each with the status and the lines that it ends with."""
    yield from ((path, 3, not_read(path)) for path in ["none.json", "folder", TORN])
    yield "car.log", 1, NOT_JSON + IS_LOG
    yield ENDLESS, 1, b"plan: too large\n"
    yield "two_short_yellow.json", 1, b"plan: rule K8\n"


def record_faults():
    """Plans and logs that `record` refuses or can't read, and streams that fail."""
    plan = ["record", *FROM, "--device", "1001"]
    for path, status, line in plan_faults():
        yield Run([*plan, path, "none.log"], status, b"", line, b"step 1\n")
    for path, status, line in log_faults():
        yield Run([*RECORD, path], status, b"", line, b"x\n")
        yield bad([*RECORD, path, "more"], stdin=TORN, stdout=FULL)
    for words in [
        [*RECORD], [*RECORD, "empty.log", "more"], ["record", "quad.json", "empty.log"],
        [*RECORD, "--log", "empty.log"], ["record", *FROM, "quad.json", "empty.log"],
        ["record", *FROM, "--device", 'a"b', "quad.json", "empty.log"],
        ["record", "--device", "7", "quad.json", "empty.log"], [*RECORD, *FROM, "empty.log"],
        [*RECORD, "empty.log", "--go-on=1"], [*RECORD, "--go-on", "empty.log", "--go-on"], [*RECORD, "empty.log", "--strict"],
        [*RECORD, "empty.log", "--no-clock=1"], [*RECORD, "--no-clock", "empty.log", "--no-clock"], [*LOG, "--no-clock"],
    ]:
        yield bad(words, b"step 1\n")
    words = [*RECORD, "empty.log"]
    yield Run(words, 3, b"", INPUT, stdin=TORN)
    yield Run(words, 3, b"", WRITE, b"step 1\n", stdout=FULL)
    yield Run(words, 3, b"", b"", b"x\nstep 1\n", stderr=FULL)
    yield Run([*words, "--go-on"], 3, b"", b"", b"x\nstep 1\n", stderr=FULL)
    yield Run(words, 3, b"", b"commands: too large\n", b" " * (1 << 24) + b"\n")
    yield Run(words, 0, b"", b"", b"\n" * (1 << 24), stdout="/dev/null")
    yield Run(words, 0, stdin="/dev/null", stdout="/dev/null")


def log_faults():
    """A log that `events` and `diagram` refuse, or can't read: its file, the status, and the line."""
    yield from ((path, 3, not_read(path)) for path in ["none.log", "folder", TORN])
    yield "cut_short.log", 1, b"log line 1: malformed\n"
    yield "same_tick.log", 1, b"log line 2: tick order\n"
    yield "tick_zero.log", 1, b"log line 1: malformed\n"
    yield "return.log", 1, b"log line 2: malformed\n"
    yield ENDLESS, 1, b"log: too large\n"


# Event logs in which `diagram` finds no end of a green: the name of a file, its text, and the line.
NO_GREEN_END = b"events: no gap out, max out or force-off from --from on\n"
GREEN_ENDS = [
    ("early.csv", HEADER + b"7,2026-11-22 06:59:59.9,4,2\n", NO_GREEN_END),
    ("other.csv", HEADER + b"7,2026-11-22 07:00:01.0,7,2\n", NO_GREEN_END),
    ("cut.csv", HEADER + b"7,2026-11-22 07:00:01.0,4\n", b"events line 2: parameter: the line ends before it\n"),
    ("torn.csv", b"#\n7,2026-11-22 07:00:01.0,4,x\n", b'events line 2: parameter: "x" is no whole number up to 4294967295\n'),
]


def green_end_faults():
    """An event log that `diagram` refuses, or can't read: its file, the status, and the line."""
    yield from ((path, 3, not_read(path)) for path in ["none.log", "folder", TORN])
    for path, text, line in GREEN_ENDS:
        yield path, 1, line
    yield ENDLESS, 1, b"events: too large\n"


def stream_runs():
    """Reads and writes that fail, and which of several faults is printed."""
    for words in [LOG, EVENTS, ["diagram"]]:
        text = CAR if words == LOG else ALL_LINES
        yield Run(words, 3, b"", INPUT, stdin=TORN)
        yield Run(words, 3, b"", WRITE, text, stdout=FULL)
        yield Run(words, 3, b"", INPUT, stdin=TORN, stdout=FULL)
        yield Run([*words, "more"], 2, stderr=FULL, commands=text)
        yield Run(words, 3, stdin=TORN, stderr=FULL)
        yield Run([*words, *([EMPTY] if words == LOG else [])], 0, stdin="/dev/null", stdout="/dev/null")
    yield Run(LOG, 1, stdin="/dev/null", stdout="/dev/null", stderr=FULL)
    yield Run(LOG, 1, b"", b"events line 1: " + ENDS % b"parameter" + b"\n", b"7,x,82\n" + CAR, stdout=FULL)
    yield Run(LOG, 1, stderr=FULL, commands=b"x\n")
    yield Run([*LOG, "--device", "8"], 1, stderr=FULL, commands=CAR)
    # A line of what was read well that is not written fails the program; without one nothing fails.
    yield Run([*LOG, "--device", "8", EMPTY], 3, stderr=FULL, commands=CAR)
    yield Run([*LOG, "--count"], 3, CAR_LOG, stderr=FULL, commands=CAR)
    yield Run(LOG, 3, CAR_LOG, stderr=FULL, commands=CAR + told("07:00:04 82 40"))
    yield Run(LOG, 0, CAR_LOG, stderr=FULL, commands=CAR)
    yield Run(LOG, 1, b"", b"events: too large\n", stdin=ENDLESS)
    for path, status, line in green_end_faults():
        yield Run(["diagram", *FROM, "--events", path], status, b"", line, ALL_LINES)
        yield Run(["diagram", *FROM, "--events", path], status, b"", line, stdin=TORN, stdout=FULL)
    yield Run(["diagram", *FROM, "--events", "folder", "--log", "none.log"], 3, b"", not_read("none.log"), ALL_LINES)
    for words in [EVENTS, ["diagram"]]:
        for path, status, line in log_faults():
            yield Run([*words, "--log", path], status, b"", line, ALL_LINES)
            yield Run([*words, "--log", path], status, b"", line, stdin=TORN, stdout=FULL)
            yield bad([*words, "--log", path, "more"], stdin=TORN, stdout=FULL)
    yield Run(["log", "--from", "x", "--device", "8"], 2, b"", b'--from "x": ' + A_TIME, b"x\n")


def fill(folder):
    """Puts the files of the runs into a folder."""
    shutil.copytree(EXAMPLES, folder, dirs_exist_ok=True)
    (folder / "folder").mkdir()
    (folder / "car.log").write_bytes(CAR_LOG)
    for path, text, _ in GREEN_ENDS:
        (folder / path).write_bytes(text)
    quad = json.loads((EXAMPLES / "quad.json").read_text())
    (folder / "twice.json").write_text(json.dumps({**quad, "vehicleDetectorDelay": DELAYS, "vehicleDetectorExtend": EXTENSIONS}))
    delayed = {**quad, "vehicleDetectorDelay": {"4": 10}, "vehicleDetectorExtend": {"2": 5}}
    (folder / "delayed.json").write_text(json.dumps(delayed))
    step = json.loads((EXAMPLES / "coming_into_step.json").read_text())
    for name, mode in [("dwell", 1), ("short", 2), ("adds", 3)]:
        corrected = {**step, "coordCorrectionMode": {"1": mode}, "coordCorrectionLimit": {"1": 20}}
        (folder / f"{name}.json").write_text(json.dumps(corrected))
    (folder / "forms.log").write_bytes(FORM_LOG)
    (folder / "passed.log").write_bytes(row(2, [4]) + row(3))
    (folder / "asked.log").write_bytes(row(2, preempt=[1]) + row(4))
    (folder / "return.log").write_bytes(CAR_LOG[:-1] + b"\r")
    (folder / "all.log").write_bytes(b"# All inputs.\n" + row(1, range(17), range(9), range(5)) + row(2))
    (folder / "with_all.log").write_bytes(
        row(2, [1, 2], [3]) + row(45, [1, 9], [], [1]) + row(46, [1, 9], [], [1]) + b"\n" + row(10_000) + row(10_001))
