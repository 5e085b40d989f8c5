"""The rules of tsb_field's filters in plain Python, for tools/programs/run_field.py to judge it by.

Nothing here is fast, and nothing of it comes from the program: each rule of docs/use/FIELD.md is computed as it is
said. Moments are whole nanoseconds from the first day of the year 1 on. Texts are bytes.
"""
import bisect
import datetime
import itertools
import re

SECOND = 1_000_000_000
TENTH = SECOND // 10
TICKS = 6_000_000

# What a code says of an input: of which kind, and whether it is switched on.
CODES = {
    82: ("vehicle", True), 81: ("vehicle", False), 90: ("pedestrian", True), 89: ("pedestrian", False),
    102: ("preempt", True), 104: ("preempt", False),
}
SAID = {signal: code for code, signal in CODES.items()}

# How many inputs a bench has of each kind, in the order of a row's fields.
MOST = {"vehicle": 64, "pedestrian": 16, "preempt": 8}
# How many of them a row in digits has, and the letter of each in a row of lists.
DIGITS = {"vehicle": 16, "pedestrian": 8, "preempt": 4}
LETTERS = {"vehicle": "V", "pedestrian": "P", "preempt": "E"}

# The names of the four columns, in small letters and without fillers, in the order that a text without a header has.
NAMES = [
    {b"signalid", b"deviceid", b"locationidentifier", b"locationid", b"intersectionid", b"controllerid"},
    {b"timestamp", b"datetime", b"eventtime", b"time"},
    {b"eventcode", b"eventid", b"eventtype", b"eventtypeid", b"code"},
    {b"eventparam", b"parameter", b"eventparameter", b"param", b"eventvalue"},
]
USUAL = [0, 1, 2, 3]
MARKS = {b",": b"commas", b";": b"semicolons", b"\t": b"tabs"}
COLUMNS = [b"device", b"time", b"code", b"parameter"]
# The names of one word that docs/use/FIELD.md has for them, as a fault lists them.
LISTED = [
    b"SignalID, DeviceId, LocationIdentifier or LocationId", b"Timestamp, DateTime or Time", b"EventCode, EventId, EventType or Code",
    b"EventParam, Parameter, Param or EventValue",
]

# What is printed of a line that begins so, of which the whole text is no text with lines of events.
WHOLE_FAULTS = [
    (rb"\xff\xfe|\xfe\xff", b"UTF-16: convert by iconv -f utf-16 -t utf-8"),
    (rb"PK.*\x03|\x1f\x8b", b"packed: unpack by unzip or gunzip"), (rb"<", b"XML: export as CSV"),
    (rb".*\x00", b"binary: convert by the controller's own program"),
]

# What is printed of a field.
NO_DAY = b" has no day (was it opened in a spreadsheet?)"
NO_SECONDS = b" has no seconds (was it opened in a spreadsheet?)"
TWO_WAYS = b" can be read in two ways: give --time-form month-first or --time-form day-first"
NO_NUMBER = b" is no whole number up to 4294967295"

# How many rows are held at a time where they are sorted, and what is printed of a row that is one too many.
MOST_HELD = 1_000_000
TOO_MANY = b" line %d: over 1000000 rows to sort: give a smaller --sort-within, or a --device"

# What is printed where no row counts, and where no input has an event from tick 1 on.
DEVICES = b"devices: %b in these rows:%b (name one by --device)\n"
NAMED = 8
GAPS = b"gaps: %d of a minute or more without a row that counts, the longest from %b to %b\n"
ZONES = b"times: their zones are passed over (give that of --from, as --zone=-07:00)\n"
NO_ROW = b"events: no row counts (give --allow-empty where that is right)\n"
NO_EVENT = b"events: no event of an input from --from on (give --allow-empty where that is right)\n"

# What is printed of a text without a header and without a row.
NOTHING = b"events: no header and no row (do commas, semicolons or tabs part its fields?)\n"

# Forms of times by the words that name them: where a day has its year, its month and its day, and a time in each.
ORDERS = {"year-first": (0, 1, 2), "month-first": (2, 0, 1), "day-first": (2, 1, 0)}
FORM_TIMES = {
    "year-first": b"2026-11-22 07:00:00.1", "month-first": b"11/22/2026 07:00:00.1", "day-first": b"22/11/2026 07:00:00.1",
    "seconds": b"1795330800.1", "milliseconds": b"1795330800100",
}
EPOCH = datetime.datetime(1970, 1, 1).toordinal() * 86400

# How many bytes a device has at most that a line can name.
LONGEST_DEVICE = 900

# What stands before the first display line: nothing is lit, and no preempt is in service.
NOTHING_LIT = 0, b"-" * 16, b"-" * 16, b"-" * 16, b"0"

# The classes of the bars of a diagram, by the letters of display lines, and the names of the bands of inputs.
CLASSES = {"G": "g", "Y": "y", "R": "r", "F": "f", "P": "q", "W": "w", "C": "c", "D": "d"}
INPUTS = {"vehicle": "detector", "pedestrian": "ped detector", "preempt": "preempt input"}

HEADER = b"SignalID,Timestamp,EventCode,EventParam\n"
TIME = re.compile(rb"(\d{4})-(\d\d)-(\d\d)[ T](\d\d):(\d\d):(\d\d)(?:\.(\d{1,9}))?")
FORM_TIME = re.compile(
    rb"(\d+)(?:/(\d+)/(\d+)|-(\d+)-(\d+)|\.(\d+)\.(\d+))[ T](\d{1,10}):(\d{1,10}):(\d{1,10})(?:[.,](\d{0,9}))?"
    rb"(?: (|[Aa][Mm]|[Pp][Mm]|[Uu][Tt][Cc]))?(Z|[+-]\d{1,2}(?::?\d\d)?)?")
OFFSET = re.compile(rb"([+-]\d{1,2}?)(?::?(\d\d))?")
FIELDS = {mark: re.compile(rb'(?:"([^"]*)"|([^"%b][^%b]*|))(%b|\Z)' % (mark, mark, mark), re.S) for mark in MARKS}
ROWS = re.compile(rb"\((\d{1,10}) rows?(?: affected)?\)")
SHOWN = re.compile(rb"(\d{7}) ([-RYGF]{16}) ([-DCW]{16}) ([-RYGPF]{4}) ([0-8]) (?:\d{4}|-{4})")
# A wide display line has the letters of overlaps 1 to 16 behind it, which then count.
WIDE = re.compile(rb"(\d{7}) ([-RYGF]{16}) ([-DCW]{16}) [-RYGPF]{4} ([0-8]) (?:\d{4}|-{4}) ([-RYGPF]{16})")


class Fault(Exception):
    """The line of a fault, and the rows of the log that are known before it."""

    def __init__(self, line, known):
        super().__init__(line)
        self.line, self.known = line, known


def moment(text):
    """The moment that a time names, or None.

    It is None for times of the year 0000 too, which docs/use/FIELD.md takes: Python's calendar begins with the year 1.
    So a worked run has that year, and no text at random.
    """
    found = TIME.fullmatch(text)
    if not found:
        return None
    *whole, part = found.groups()
    try:
        at = datetime.datetime(*map(int, whole))
    except ValueError:
        return None
    seconds = at.toordinal() * 86400 + at.hour * 3600 + at.minute * 60 + at.second
    return seconds * SECOND + int((part or b"0").ljust(9, b"0"))


def time_text(nanos):
    """A moment as text: as few digits after the point as it takes, but one."""
    seconds, part = divmod(nanos, SECOND)
    days, second = divmod(seconds, 86400)
    at = datetime.datetime.fromordinal(days) + datetime.timedelta(seconds=second)
    digits = f"{part:09}".rstrip("0") or "0"
    return f"{at.year:04}-{at:%m-%d %H:%M:%S}.{digits}".encode()


def fields(line, mark):
    """The fields of a line that a mark parts, or None where a quote is out of place."""
    found, place = [], 0
    while True:
        field = FIELDS[mark].match(line, place)
        if not field:
            return None
        found.append(field[2] if field[1] is None else field[1])
        place = field.end()
        if not field[3]:
            return found


def number(text):
    """The number that one to ten digits spell, of 32 bits, or None."""
    is_spelled = re.fullmatch(rb"[0-9]{1,10}", text)
    return int(text) if is_spelled and int(text) < 1 << 32 else None


def plain_names(line, mark):
    """The fields of a line in small letters and without what does not count in a name."""
    return [re.sub(rb"[ _-]", b"", field.lower()) for field in fields(line, mark) or []]


def columns(line):
    """The places of the columns that a header names, None for a device that it does not name, and its mark; or None."""
    for mark in MARKS:
        places = [[at for at, field in enumerate(plain_names(line, mark)) if field in names] for names in NAMES]
        if all(places[1:]):
            return [it[0] if it else None for it in places], mark
    return None


def usual(line):
    """The places and the mark of a text without a header that begins with this row."""
    return USUAL, next((mark for mark in MARKS if len(fields(line, mark) or []) > 2), b",")


def in_places(line, places, mark):
    """The fields of a line in these places, or None where one is missing."""
    found = fields(line, mark)
    if found is None or any(place is not None and len(found) <= place for place in places):
        return None
    return [b"" if place is None else found[place] for place in places]


def row_of(line, places, mark):
    """Device, moment, code and parameter of a plain row, or None."""
    found = in_places(line, places, mark)
    if found is None:
        return None
    device, time, code, parameter = found
    row = device, moment(time), number(code), number(parameter)
    return None if None in row else row


def zone_named(text):
    """How many minutes the clock of a zone is ahead of that of UTC, or None where the text names no zone."""
    found = OFFSET.fullmatch(text)
    if not found:
        return 0 if text.upper() in (b"Z", b"UTC") else None
    sign, hours, minutes = -1 if text.startswith(b"-") else 1, int(found[1][1:]), int(found[2] or 0)
    return sign * (hours * 60 + minutes) if hours < 24 and minutes < 60 else None


def moved(nanos, own, zone):
    """What the clock of a zone shows when one of its own zone shows so much; either may be None."""
    return nanos if own is None or zone is None else nanos + (zone - own) * 60 * SECOND


def moment_in(form, text, zone=None):
    """The moment that a text names in a form, or None; by the clock of a zone, where one is asked for."""
    if form == "seconds":
        found = re.fullmatch(rb"(\d{1,10})(?:[.,](\d{0,9}))?", text)
        whole, part = (found[1], found[2] or b"") if found else (b"", b"")
    elif form == "milliseconds":
        found = re.fullmatch(rb"(\d{1,10})(\d{3})", text)
        whole, part = (found[1], found[2]) if found else (b"", b"")
    else:
        return numbered(form, text, zone)
    if number(whole) is None:
        return None
    return moved((EPOCH + int(whole)) * SECOND + int(part.ljust(9, b"0")), 0, zone)


def numbered(form, text, zone):
    """The moment of a day by numbers and a clock, or None."""
    found = FORM_TIME.fullmatch(text)
    if not found:
        return None
    a, *others, hour, minute, second, part, half, said = found.groups()
    day = [a, *(it for it in others if it is not None)]
    year, month, of_month = (day[at] for at in ORDERS[form])
    half = (half or b"").lower()
    hours = range(1, 13) if half in (b"am", b"pm") else range(24)
    own = zone_named(said) if said else 0 if half == b"utc" else None
    if len(year) != 4 or int(hour) not in hours or said and own is None:
        return None
    if len(hours) == 12:
        hour = int(hour) % 12 + 12 * (half == b"pm")
    try:
        at = datetime.datetime(int(year), int(month), int(of_month), int(hour), int(minute), int(second))
    except ValueError:
        return None
    seconds = at.toordinal() * 86400 + at.hour * 3600 + at.minute * 60 + at.second
    return moved(seconds * SECOND + int((part or b"").ljust(9, b"0")), own, zone)


def says_zone(form, text):
    """Whether a time in this form has a zone behind its clock."""
    if form in ("seconds", "milliseconds"):
        return False
    *_, half, said = FORM_TIME.fullmatch(text).groups()
    return bool(said) or (half or b"").lower() == b"utc"


def form_of(text):
    """The one form in which a text is a time, or None; and whether its month and its day can't be told apart."""
    is_in = {form: moment_in(form, text) is not None for form in FORM_TIMES}
    is_open = not is_in["year-first"] and is_in["month-first"] and is_in["day-first"]
    return None if is_open or not any(is_in.values()) else next(form for form in is_in if is_in[form]), is_open


def whole(text):
    """The number that digits spell, with zeros after a point or without, or None."""
    digits, _, zeros = text.partition(b".")
    return None if zeros.strip(b"0") else number(digits)


def wide_row(line, places, mark, form, zone):
    """Device, form, moment, code and parameter of a row as exports have it; None is a parameter that is no number. None
    where there is no row."""
    found = in_places(line, places, mark)
    if found is None:
        return None
    device, time, code, parameter = (field.strip(b" ") for field in found)
    form = form or form_of(time)[0]
    row = device, form, form and moment_in(form, time, zone), whole(code)
    return None if None in row else (*row, whole(parameter))


def is_passed(line):
    """Whether a line that is no row is passed over: one that a database draws or counts its rows in, or a header."""
    is_drawn = b"-" in line and not line.strip(b"-,;\t +|")
    counted = ROWS.fullmatch(line)
    return bool(is_drawn or counted and number(counted[1]) is not None or columns(line))


def names(line):
    """Which of the four columns a line names, whatever parts its fields."""
    found = [field for mark in MARKS for field in plain_names(line, mark)]
    return [any(field in names for field in found) for names in NAMES]


def is_preface(line):
    """Whether a line is one that a maker writes before the header."""
    is_other = any(re.match(mark, line, re.S) for mark, _ in WHOLE_FAULTS)
    found = {mark: fields(line, mark) for mark in MARKS}
    is_short = all(found[mark] is not None and len(found[mark]) < 3 for mark in MARKS if mark in line)
    return not is_other and not any(names(line)[1:3]) and is_short and any(it is not None for it in found.values())


def shown(field):
    """The first bytes of a field, as a fault shows them."""
    return b'"' + re.sub(rb'[^ !#-~]', b"?", field[:40]) + b'"'


def lacks(place):
    """What is printed of a header that does not name this column."""
    return b"header: no column is the %b: name it %b" % (COLUMNS[place], LISTED[place])


def why(line, places, mark, form):
    """What is printed of a line that is no row, behind `events line N: ` or, of a text without lines, behind `events: `."""
    for begun, told in WHOLE_FAULTS:
        if re.match(begun, line, re.S):
            return b": " + told
    found, named = fields(line, mark), names(line)
    if named[1] or named[2]:
        return lacks(1 + named[1:].index(False))
    if in_places(line, places, mark) is None:
        other = next((it for it in MARKS if in_places(line, places, it) is not None), None)
        if other:
            return b"%b part its fields, and %b those above: one separator a file" % (MARKS[other], MARKS[mark])
    if found is None:
        return b"a quote is out of place"
    for column, place in zip(COLUMNS, places):
        if place is not None and len(found) <= place:
            return column + b": the line ends before it"
    _, time, code, parameter = (field.strip(b" ") for field in in_places(line, places, mark))
    own, is_open = form_of(time)
    if moment_in(form or own or "year-first", time) is None:
        return b"time: " + shown(time) + time_fault(time, form, own, is_open)
    if whole(code) is None:
        return b"code: " + shown(code) + NO_NUMBER
    return b"parameter: " + shown(parameter) + NO_NUMBER


def time_fault(time, form, own, is_open):
    """What is wrong with a time."""
    if is_open and not form:
        return TWO_WAYS
    if b":" in time and not re.search(rb"[-/]|^[^:]*\.", time):
        return NO_DAY
    if b":" in time and not time.partition(b":")[2].partition(b":")[2]:
        return NO_SECONDS
    if own:
        return f" is {own}, not {form}: one form a file, by the first row or --time-form".encode()
    return b" is no time as " + FORM_TIMES[form or "year-first"]


def lines_of(text):
    """The lines of a text: a carriage return before a line feed is a part of the line's end."""
    *ended, last = text.split(b"\n")
    return [line.removesuffix(b"\r") for line in ended] + [last]


def wires_of(mapped):
    """The wires: kind, channel and input of each; a channel without one leads to the input of its own number."""
    own = [(kind, n, n) for kind, most in DIGITS.items() for n in range(1, most + 1)]
    taken = {wire[:2] for wire in mapped}
    return [*mapped, *(wire for wire in own if wire[:2] not in taken)]


def is_on(switched, begin):
    """Whether a wire is on in the tick that begins at a moment: as it begins, or by being switched on in it."""
    before = [on for at, on in switched if at <= begin]
    return bool(before and before[-1]) or any(on and begin <= at < begin + TENTH for at, on in switched)


def is_beyond(kind, number):
    """Whether rows in digits have no such input."""
    return number > DIGITS[kind]


def list_text(numbers):
    """Numbers with commas between them, and each run of several as a range."""
    runs = []
    for number in sorted(numbers):
        if runs and runs[-1][1] == number - 1:
            runs[-1][1] = number
        else:
            runs.append([number, number])
    return ",".join(f"{first}" if first == last else f"{first}-{last}" for first, last in runs)


def row_text(tick, lit, by_lists=False):
    """The row of a tick in which these inputs are on, with its line feed: in digits, or by lists."""
    if by_lists:
        on = {kind: {n for of, n in lit if of == kind} for kind in MOST}
        return " ".join([f"{tick:07}", *(LETTERS[kind] + list_text(it) for kind, it in on.items() if it)]).encode() + b"\n"
    marks = ("".join("01"[(kind, n) in lit] for n in range(1, most + 1)) for kind, most in DIGITS.items())
    return f"{tick:07} {' '.join(marks)}\n".encode()


def tick_of(begin, at):
    """The tick that a moment lies in, and 0 before tick 1."""
    return max(0, (at - begin) // TENTH + 1)


def log_of_events(begin, wires, events, end=TICKS + 1):
    """The rows of events before a tick; each event has its moment, kind, channel and whether it switches on."""
    by_wire = {wire: [(at, on) for at, *of, on in events if (*of,) == wire[:2]] for wire in wires}
    ticks = {1} | {max(1, tick_of(begin, at)) + more for at, *_ in events for more in (0, 1)}
    log, before = b"", set()
    by_lists = any(is_beyond(kind, to) for kind, _, to in wires)
    for tick in sorted(ticks):
        first = begin + (tick - 1) * TENTH
        lit = {(kind, to) for (kind, _, to), switched in by_wire.items() if is_on(switched, first)}
        if lit != before and tick < end:
            log += row_text(tick, lit, by_lists)
            before = lit
    return log


def known_log(begin, wires, events):
    """The rows that no later event can change: those before the tick of the last event, in which more may come."""
    return log_of_events(begin, wires, events, tick_of(begin, events[-1][0]) if events else 0)


def clock(nanos):
    """The time of day of a moment, with one digit after the point, three or nine: the fewest that it takes."""
    clock, _, part = time_text(nanos).decode().split(" ")[1].partition(".")
    return f"{clock}.{part.ljust(next(n for n in (1, 3, 9) if len(part) <= n), '0')}".encode()


def order_fault(count, at, last, place, window=None):
    """What is printed of a row that is earlier than one before it, or by more than a window of seconds."""
    day = 86400 * SECOND
    later = b" of a later day" if at // day < last // day else b""
    cure = b"sort by column %d" % (place + 1)
    if window is not None:
        cure = b"over %d s late: give a larger --sort-within, or %b" % (window, cure)
    return b" line %d: time order: %b after %b%b: %b" % (count, clock(at), clock(last), later, cure)


class Read:
    """What was read: the events of inputs, the moments of the rows that count, how many rows are of other devices, the
    channels of events that have no input, how many lines are passed over, whether there is a header or a row, and
    the form of times where the first row says it, the devices of rows, as they come, and whether a row that counts has a
    zone where none is asked for."""

    def __init__(self):
        self.events, self.moments, self.others, self.lost, self.passed = [], [], 0, [], 0
        self.is_found, self.form, self.devices, self.is_zoned = False, None, [], False


def taken(lines, begin, device, wires, form=None, zone=None, window=None, is_all=True):
    """What was read of lines; where there is a window of seconds, rows are sorted that are no later, and where the lines
    are not all, some are not given out yet. A fault is raised."""
    read, is_named, places, mark = Read(), form is not None, None, None
    events, held, latest = read.events, [], 0

    def fault(told):
        raise Fault(b"events" + told + b"\n", known_log(begin, wires, events))

    def give(at, code, channel):
        read.moments.append(at)
        kind, on = CODES.get(code, (None, None))
        if kind and any(wire[:2] == (kind, channel) for wire in wires):
            if tick_of(begin, at) > TICKS:
                fault(b": past tick %d" % TICKS)
            events.append((at, kind, channel, on))
        elif kind:
            read.lost.append((kind, channel))

    for count, line in enumerate(lines, 1):
        if len(line) > 1000:
            fault(b" line %d: over 1000 bytes (is it a text with lines?)" % count)
        line = line.removeprefix(b"\xef\xbb\xbf") if count == 1 else line
        if not line.strip(b" ") or line.startswith(b"#"):
            continue
        if places is None:
            read.is_found = True
            if columns(line):
                places, mark = columns(line)
                if device is not None and places[0] is None:
                    fault(b" line %d: %b" % (count, lacks(0)))
                continue
            if is_preface(line):
                read.is_found = False
                read.passed += 1
                continue
            places, mark = usual(line)
        row = row_of(line, places, mark) if form in (None, "year-first") else None
        if row is None and is_passed(line):
            read.passed += 1
            continue
        wide = (row[0], "year-first", *row[1:]) if row else wide_row(line, places, mark, form, zone)
        counts = wide and device in (None, wide[0])
        if wide is None or wide[4] is None and counts and wide[3] in CODES:
            told = why(line, places, mark, form)
            fault(told if told.startswith(b": ") else b" line %d: %b" % (count, told))
        of, form, at, code, channel = wide
        read.form = None if is_named else form
        named = of.strip(b" ")[:40]
        if named not in read.devices:
            read.devices.append(named)
        if not counts:
            read.others += 1
            continue
        if row is None and zone is None and says_zone(form, in_places(line, places, mark)[1].strip(b" ")):
            read.is_zoned = True
        if window is None:
            if read.moments and at < read.moments[-1]:
                fault(order_fault(count, at, read.moments[-1], places[1]))
            give(at, code, channel)
            continue
        if at < latest - window * SECOND:
            fault(order_fault(count, at, latest, places[1], window))
        if len(held) == MOST_HELD:
            fault(TOO_MANY % count)
        bisect.insort_right(held, (at, code, channel), key=lambda row: row[0])
        latest = max(latest, at)
        if held[0][0] < latest - window * SECOND:
            give(*held.pop(0))
    for row in held if is_all else ():
        give(*row)
    return read


def of_devices(devices):
    """The line of devices, where there are two or more."""
    if len(devices) < 2:
        return b""
    names = b"".join(b' "%b"' % re.sub(rb'[^ !#-~]', b"?", it) for it in devices[:NAMED])
    return DEVICES % (b"%d" % len(devices) if len(devices) <= NAMED else b"9 or more", names)


def of_channels(lost):
    """The first channels of those without an input, in parentheses, where there are any."""
    found = [f"{kind} {channel}" for kind, channel in dict.fromkeys(lost)]
    return f" ({', '.join(found[:NAMED] + ['..'] * (len(found) > NAMED))})" if found else ""


def counted(read):
    """The lines of how much was read, and of the gaps in it."""
    if not read.moments:
        return b"read: 0 rows\n"
    channels = {(kind, channel) for _, kind, channel, _ in read.events}
    span = time_text(read.moments[0]), time_text(read.moments[-1])
    told = b"read: %d rows from %b to %b, events of %d channels\n" % (len(read.moments), *span, len(channels))
    gaps = [pair for pair in itertools.pairwise(read.moments) if pair[1] - pair[0] >= 60 * SECOND]
    if gaps:
        longest = max(gaps, key=lambda pair: pair[1] - pair[0])
        told += GAPS % (len(gaps), *map(time_text, longest))
    return told


def log(text, begin, device=None, mapped=(), form=None, zone=None, is_counted=False, may_be_empty=False, window=None):
    """The status of `log` for a text of events, its log from a moment on, and what standard error has. A fault is
    raised."""
    wires = wires_of(mapped)
    read = taken(lines_of(text), begin, device, wires, form, zone, window)
    if read.passed and not read.is_found:
        raise Fault(NOTHING, b"")
    told = b"" if read.form in (None, "year-first") else f"times: {read.form}, by the first row\n".encode()
    told += ZONES if read.is_zoned else b""
    if read.others or read.lost or read.passed:
        told += f"left out: {read.others} rows of other devices, {len(read.lost)} events of channels without an input" \
                f"{of_channels(read.lost)}, {read.passed} lines that are no rows\n".encode()
    told += counted(read) if is_counted else b""
    several = of_devices(read.devices) if device is None else b""
    is_heard = may_be_empty or any(at >= begin for at, *_ in read.events)
    told += several + (b"" if is_heard else NO_EVENT if read.moments else NO_ROW)
    return 0 if is_heard and not several else 1, log_of_events(begin, wires, read.events), told


def begun_log(text, begin, device=None, mapped=(), window=None):
    """What is known of the log where the text goes on, or reading fails behind it: its last line is not whole."""
    wires = wires_of(mapped)
    return known_log(begin, wires, taken(lines_of(text)[:-1], begin, device, wires, window=window, is_all=False).events)


def remaining(text, is_wide=False):
    """The display lines of a text that remain, or its wide ones: a line takes back those whose tick is not below its own."""
    found = []
    for line in text.split(b"\n"):
        shown = (WIDE if is_wide else SHOWN).fullmatch(line.removesuffix(b"\r"))
        if shown:
            tick, vehicles, pedestrians, *others = shown.groups()
            while found and found[-1][0] >= int(tick):
                found.pop()
            found.append((int(tick), vehicles, pedestrians, *(others[::-1] if is_wide else others)))
    return found


def heads(letters, field):
    """The numbers of the heads of a field that show one of these letters."""
    return {n for n, letter in enumerate(field, 1) if letter in letters}


def display_events(before, now):
    """Code and parameter of each event between what two display lines show."""
    def begun(code, letters, place):
        return [(code, n) for n in heads(letters, now[place]) - heads(letters, before[place])]

    def ended(code, letters, place):
        return [(code, n) for n in heads(letters, before[place]) - heads(letters, now[place])]

    found = begun(1, b"G", 1) + ended(7, b"G", 1) + begun(8, b"Y", 1) + ended(9, b"Y", 1)
    found += begun(21, b"W", 2) + begun(22, b"C", 2) + ended(23, b"WC", 2)
    found += begun(32, b"P", 3) + ended(33, b"P", 3)
    found += begun(61, b"G", 3) + begun(63, b"Y", 3) + ended(64, b"GYP", 3)
    if now[4] not in (b"0", before[4]):
        found.append((105, int(now[4])))
    was, is_now = b"F" in before[1], b"F" in now[1]
    return found + ([(173, 6 if is_now else 2)] if was != is_now else [])


def rows_of(log_text):
    """Tick and inputs that are on of each row of a log."""
    for line in lines_of(log_text):
        if line.strip(b" ") and not line.startswith(b"#"):
            tick, *marks = line.split(b" ")
            if marks and marks[0].isdigit():
                yield int(tick), {(kind, n) for kind, field in zip(MOST, marks) for n in heads(b"1", field)}
            else:
                yield int(tick), {it for field in marks for it in listed(field.decode())}


def listed(field):
    """The inputs of a list of a row, as V1,4,17-20."""
    kind = next(kind for kind, letter in LETTERS.items() if letter == field[0])
    for item in field[1:].split(","):
        first, _, last = item.partition("-")
        yield from ((kind, n) for n in range(int(first), int(last or first) + 1))


def input_events(log_text):
    """Tick, code and parameter of each event of a log's rows."""
    before = set()
    for tick, lit in rows_of(log_text):
        for kind, n in lit ^ before:
            yield tick, SAID[kind, (kind, n) in lit], n
        before = lit


def can_be_written(device):
    """Whether a line can name the device."""
    return len(device) <= LONGEST_DEVICE and not re.search(rb'["\n\r]', device)


def device_field(device):
    """A device as the first field of a line: in quotes where it has a comma, or its # would make the line a comment."""
    if not can_be_written(device):
        raise ValueError("no line can name the device")
    return b'"' + device + b'"' if b"," in device or device.startswith(b"#") else device


def events(text, begin, device, log_text=b"", is_wide=False):
    """The events that display lines and a log tell from a moment on, as CSV."""
    found, before = list(input_events(log_text)), NOTHING_LIT
    for now in remaining(text, is_wide):
        found += [(now[0], *event) for event in display_events(before, now)]
        before = now
    rows = (b"%s,%s,%d,%d\n" % (device_field(device), time_text(begin + max(tick - 1, 0) * TENTH), code, parameter)
            for tick, code, parameter in sorted(found))
    return HEADER + b"".join(rows)


def marks(now, lit):
    """What each band shows of a display line and of inputs, by its name: a class, or nothing where it is dark."""
    _, vehicles, pedestrians, overlaps, preempt = (it if isinstance(it, int) else it.decode() for it in now)
    found = {f"preempt {n}": "p" * (preempt == str(n)) for n in range(1, 9)}
    found["flash"] = "f" * ("F" in vehicles)
    for n, (vehicle, pedestrian) in enumerate(zip(vehicles, pedestrians), 1):
        found |= {f"{n}": CLASSES.get(vehicle, ""), f"{n} ped": CLASSES.get(pedestrian, "")}
    found |= {f"overlap {n}": CLASSES.get(letter, "") for n, letter in enumerate(overlaps.ljust(16, "-"), 1)}
    return found | {f"{name} {n}": "o" * ((kind, n) in lit) for kind, name in INPUTS.items()
                    for n in range(1, MOST[kind] + 1)}


def diagram(text, log_text, seconds, is_wide=False):
    """The bands of a diagram, and line, band, class, first tick and ticks of each bar, with so many seconds a line."""
    lines, rows = remaining(text, is_wide), list(rows_of(log_text))
    last = lines[-1][0] if lines else 0
    shown = [marks(line, set()) for line in lines] + [marks(NOTHING_LIT, lit) for tick, lit in rows if tick <= last]
    bands = [name for name in marks(NOTHING_LIT, set()) if any(it[name] for it in shown)]
    at_lines, at_rows = [line[0] for line in lines], [tick for tick, _ in rows]
    all_shown, all_lit = [NOTHING_LIT, *lines], [set(), *(lit for _, lit in rows)]
    in_force = [None] + [marks(all_shown[bisect.bisect(at_lines, tick)], all_lit[bisect.bisect(at_rows, tick)])
                         for tick in range(1, last + 1)]
    bars = []
    for count, first in enumerate(range(1, last + 1, 10 * seconds)):
        ticks = range(first, min(first + 10 * seconds, last + 1))
        for name in bands:
            for mark, run in itertools.groupby(ticks, lambda tick: in_force[tick][name]):
                run = list(run)
                bars += [(count, name, mark, run[0], len(run))] if mark else []
    return bands, sorted(bars)
