"""Display lines, events, logs and a street's exports as pandas tables, both ways.

| Table | Index | Columns |
|---|---|---|
| display lines | `tick` | `P1` to `P16`, `W1` to `W16`, `O1` to `O4`, and two more |
| events | none | `tick`, `code`, `parameter` |
| log | `tick` | `V1` to `V16`, `B1` to `B8`, `I1` to `I4`, true for on |
| export | none | `device` (text), `time` (a moment), `code`, `parameter` |

Display lines have letters of heads, `preempt`, 0 for none, and `local`, the counter of
the pattern in tenths of a second, NA in free operation. A log has vehicle detectors,
buttons and preempt inputs. Ticks are tenths of a second: tick t begins (t - 1) tenths
after the start that is given.
"""

import warnings
from collections.abc import Iterable, Mapping
from contextlib import suppress
from os import PathLike, fspath
from pathlib import Path
from subprocess import CompletedProcess
from typing import Any

import numpy as np
import numpy.typing as npt
import pandas as pd

from tsb import programs
from tsb.errors import Error, ProgramDied, shown
from tsb.files import read
from tsb.forms import INPUTS, columns_of, moments_of, numbers_of, places_of
from tsb.lines import OVERLAPS, WIDE, WIDTH, Event, Lines
from tsb.manual import COLUMNS
from tsb.rows import COUNTS, DIGITS, Log, fields, of_fields

TENTH = np.timedelta64(100, "ms")
GAP = pd.Timedelta(minutes=15)  # of an export: without a row for so long is told
EVENT = ["tick", "code", "parameter"]
BAD_WORDS = 2  # the status of a program that has bad words

# Of each kind of head, the place of its first letter in a line, how many there are,
# and its letters.
_HEADS = {"P": (8, 16, "GYRF-"), "W": (25, 16, "WCD-"), "O": (42, 4, "GYRPF-")}
_WIDE = {"O": (54, 16, "GYRPF-")}  # of wide lines
_PREEMPT, _LOCAL = 47, 49
PIECE, LONGEST = 1 << 20, 1 << 30  # bytes of an export: read at a time, and at most
_KINDS = "VBI"  # the columns of vehicle detectors, buttons and preempt inputs

AnyPath = str | PathLike[str]
Cells = npt.NDArray[Any]


# --- display lines ---


def _numbers(digits: Cells) -> Cells:
    """The numbers of rows of digits."""
    powers = 10 ** np.arange(digits.shape[1] - 1, -1, -1)
    found: Cells = (digits.astype(np.int64) - ord("0")) @ powers
    return found


def of_lines(lines: Lines) -> pd.DataFrame:
    """Display lines as a table."""
    cells = np.frombuffer(lines.text, np.uint8).reshape(-1, lines.width)
    table = {}
    heads = _HEADS if lines.width == WIDTH else _HEADS | _WIDE
    for kind, (first, count, letters) in heads.items():
        codes = np.full(256, -1, np.int8)
        codes[list(letters.encode())] = range(len(letters))
        for place in range(count):
            found = codes[cells[:, first + place]]
            named = pd.Categorical.from_codes(found, list(letters))
            table[f"{kind}{place + 1}"] = named
    table["preempt"] = cells[:, _PREEMPT].astype(np.int64) - ord("0")
    counter = cells[:, _LOCAL : _LOCAL + 4]
    runs = counter[:, 0] != ord("-")
    table["local"] = pd.array(_numbers(counter), "Int64")
    table["local"][~runs] = pd.NA
    return pd.DataFrame(table, index=pd.Index(_numbers(cells[:, :7]), name="tick"))


def to_lines(table: pd.DataFrame) -> Lines:
    """The display lines of a table."""
    is_wide = f"O{OVERLAPS[1]}" in table
    cells = np.full((len(table), WIDE if is_wide else WIDTH), ord(" "), np.uint8)
    cells[:, -1] = ord("\n")
    heads = [*_HEADS.items(), *(_WIDE.items() if is_wide else ())]
    for kind, (first, count, _) in heads:
        for place in range(count):
            letters = np.asarray(table[f"{kind}{place + 1}"], "S1")
            cells[:, first + place] = letters.view(np.uint8)
    local = table["local"].astype("Int64")
    counter = local.fillna(0).to_numpy(np.int64)
    _spell(cells[:, :7], table.index.to_numpy(np.int64))
    _spell(cells[:, _PREEMPT : _PREEMPT + 1], table["preempt"].to_numpy(np.int64))
    _spell(cells[:, _LOCAL : _LOCAL + 4], counter)
    cells[local.isna().to_numpy(bool), _LOCAL : _LOCAL + 4] = ord("-")
    return Lines(cells.tobytes())


def _spell(cells: Cells, numbers: Cells) -> None:
    """Writes numbers as digits."""
    for place in range(cells.shape[1] - 1, -1, -1):
        numbers, digit = np.divmod(numbers, 10)
        cells[:, place] = digit + ord("0")


# --- events ---


def of_events(events: Iterable[Event]) -> pd.DataFrame:
    """Events as a table."""
    return pd.DataFrame(list(events), columns=EVENT, dtype=np.int64)


def to_events(table: pd.DataFrame) -> list[Event]:
    """The events of a table."""
    return [Event(*map(int, it)) for it in table[EVENT].itertuples(index=False)]


# --- logs ---


def of_log(log: Log) -> pd.DataFrame:
    """A log as a table: a row for each tick at which inputs change. It has columns for
    the inputs of a row in digits, or for all where a row of the log has lists."""
    is_listed = any(not row.startswith(("0", "1")) for row in log.rows)
    counts = COUNTS if is_listed else DIGITS
    told = [fields(row) for row in log.rows] if is_listed else map(str.split, log.rows)
    rows = "".join("".join(row) for row in told).encode()
    cells = np.frombuffer(rows, np.uint8).reshape(-1, sum(counts)) == ord("1")
    names = [
        f"{kind}{place + 1}"
        for kind, count in zip(_KINDS, counts, strict=True)
        for place in range(count)
    ]
    table = {name: cells[:, at] for at, name in enumerate(names)}
    return pd.DataFrame(table, index=pd.Index(log.ticks, name="tick", dtype=np.int64))


def to_log(table: pd.DataFrame) -> Log:
    """The log of a table; a column that is not there is off."""
    kinds = []
    for kind, count in zip(_KINDS, COUNTS, strict=True):
        cells = np.full((len(table), count), ord("0"), np.uint8)
        for place in range(count):
            if (name := f"{kind}{place + 1}") in table:
                cells[:, place] += table[name].to_numpy(bool)
        kinds.append([row.tobytes().decode() for row in cells])
    rows = map(of_fields, zip(*kinds, strict=True))
    return Log.of(zip(map(int, table.index), rows, strict=True))


# --- exports of a street's controller ---


def read_export(path: AnyPath) -> pd.DataFrame:
    """A controller's event log as a table: CSV with or without a header, or Parquet
    where pyarrow is there. Columns have the names of docs/use/FIELD.md, and times one
    of its forms; `Error` says what is neither."""
    try:
        if Path(path).suffix == ".parquet":
            return export_of_table(_read_parquet(path))
        text = _csv_text(path)
        return export_of_table(columns_of(text.decode("utf-8-sig", "replace")))
    except Error as fault:
        raise Error(f"{path}: {fault}") from None


def _csv_text(path: AnyPath) -> bytes:
    """The bytes of a file of CSV, as far as it is one."""
    parts, size = [], 0
    with Path(path).open("rb") as file:
        while part := file.read(PIECE):
            if b"\0" in part:
                what = "convert it, or export as CSV"
                raise Error(f"it has a byte 0, as no CSV has: {what}")
            parts.append(part)
            size += len(part)
            if size > LONGEST:
                raise Error(f"too large: over {LONGEST >> 30} GiB: cut it by days")
    return b"".join(parts)


def _read_parquet(path: AnyPath) -> pd.DataFrame:
    try:
        return pd.read_parquet(path)
    except ImportError:
        raise Error("Parquet needs pyarrow: pip install pyarrow") from None


def export_of_table(table: pd.DataFrame) -> pd.DataFrame:
    """The export of a table from elsewhere, as a database: columns have the names of
    docs/use/FIELD.md, in any order, and others are left out. Times are moments, or
    texts in one of its forms. A row whose parameter is no number is left out, as NULL,
    and a warning tells how many; of an input it is an `Error`. Without a column of
    devices all are the same one, ""."""
    places = places_of(table.columns)
    time, code, parameter = (
        table.iloc[:, places[it]] for it in ("time", "code", "parameter")
    )
    codes, parameters = numbers_of(code), numbers_of(parameter)
    needed = parameters.notna() | ~codes.isin(INPUTS)
    for name, of, fine in (
        ("code", code, codes.notna()), ("parameter", parameter, needed)
    ):  # fmt: skip
        if not fine.all():
            at = int((~fine).to_numpy().argmax())
            what = f"{name} {of.iloc[at]!r} is no whole number"
            raise Error(f"line {of.index[at]}: {what}")
    if not parameters.notna().all():
        _tell_left_out(parameter[parameters.isna()])
    device = table.iloc[:, places["device"]].astype(str) if "device" in places else ""
    said = {"time": moments_of(time), "code": codes, "parameter": parameters}
    found = pd.DataFrame({"device": device, **said}, table.index)
    found = found[parameters.notna()].reset_index(drop=True)
    return found.astype({"code": np.int64, "parameter": np.int64})


def _tell_left_out(parameter: "pd.Series[Any]") -> None:
    """Tells of rows that are left out for their parameters."""
    count, line, first = len(parameter), parameter.index[0], shown(parameter.iloc[0])
    rows = "1 row whose parameter is" if count == 1 else f"{count} rows whose parameter is"
    what = f"left out: {rows} no whole number, first line {line}: {first!r}"
    warnings.warn(what, stacklevel=3)


def write_export(table: pd.DataFrame, path: AnyPath) -> None:
    """Writes an export as CSV, as `tsb_field record` does."""
    Path(path).write_bytes(_csv(table))


def _csv(table: pd.DataFrame) -> bytes:
    """The CSV text of an export."""
    times = np.datetime_as_string(table["time"].to_numpy("datetime64[ns]"), unit="ns")
    clocks = [it.replace("T", " ").rstrip("0") for it in times]
    shown = [it + "0" if it.endswith(".") else it for it in clocks]
    named = table[list(COLUMNS)].assign(time=shown)
    named.columns = pd.Index([names[0] for names in COLUMNS.values()])
    text: str = named.to_csv(index=False)
    return text.encode()


def export_of_events(events: pd.DataFrame, start: str, device: str) -> pd.DataFrame:
    """The export of events, of which tick 1 begins at a start. As in a record, what
    was done before the first tick has the time of tick 1."""
    ticks = np.maximum(events["tick"].to_numpy(np.int64) - 1, 0)
    found = {
        "device": device,
        "time": np.datetime64(start, "ns") + ticks * TENTH,
        "code": events["code"].to_numpy(),
        "parameter": events["parameter"].to_numpy(),
    }
    return pd.DataFrame(found)


def events_of_export(
    export: pd.DataFrame, start: str, device: str | None = None
) -> pd.DataFrame:
    """The events of an export from a start on, whose tick 1 it is; with a device,
    those of it alone. Rows of several devices are an `Error` where none is named."""
    since = export["time"].to_numpy("datetime64[ns]") - moment(start)
    counts = (since >= np.timedelta64(0)) & (
        device is None or export["device"] == device
    )
    if device is None and (several := export.loc[counts, "device"].nunique()) > 1:
        raise Error(f"rows of {several} devices: name one")
    ticks = since[counts] // TENTH + 1
    found = export.loc[counts, ["code", "parameter"]].assign(tick=ticks)
    return found[EVENT].reset_index(drop=True)


def moment(text: str, word: str = "start") -> np.datetime64:
    """The moment of a text as `2026-11-22 07:00:00`; `Error` where it is none, by the
    name of the word that gave it."""
    with suppress(ValueError):
        found = np.datetime64(text, "ns")
        if not np.isnat(found):
            return found
    raise Error(f"{word}: {text!r} is no time as 2026-11-22 07:00:00")


def gap_told(export: pd.DataFrame) -> str | None:
    """The longest time without a row, where it is `GAP` or more: what was on in it is
    not known."""
    times = export["time"].sort_values()
    lengths = times.diff()
    if len(times) < 2 or lengths.max() < GAP:
        return None
    at = int(lengths.to_numpy()[1:].argmax()) + 1
    begin, end = (str(times.iloc[it]) for it in (at - 1, at))
    return f"no row from {begin} to {end}: what changed in between is not known"


def log_of_export(
    export: pd.DataFrame | AnyPath,
    start: str,
    device: str | None = None,
    *,
    vehicles: Mapping[int, int] | None = None,
    pedestrians: Mapping[int, int] | None = None,
    preempts: Mapping[int, int] | None = None,
    allow_empty: bool = False,
    as_outputs: AnyPath | None = None,
) -> Log:
    """The log of inputs that an export makes, by `tsb_field log`: its tick 1 begins
    at the start. `export` is a table, or a file of docs/use/FIELD.md's forms; its rows
    may come in any order. The mappings lead channels of the controller to inputs of
    the bench, as `vehicles={21: 2, 22: 2}`; others lead to their own numbers. What is
    left out is told as a warning, and so is a form of times that the first row said.
    Without an event of an input from the start on it is an error, unless it may be
    empty. Where the events are those of detector outputs, `as_outputs` is the file of
    the session's plan: a warning tells each detector whose delay or extension acts
    twice. Rows of several devices are an `Error` where none is named."""
    words = ["log", f"--from={spelled(moment(start))}"]
    words += ["--allow-empty"] if allow_empty else []
    words += [] if device is None else [f"--device={device}"]
    words += [] if as_outputs is None else [f"--as-outputs={fspath(as_outputs)}"]
    for name, leads in [
        ("vehicle", vehicles), ("pedestrian", pedestrians), ("preempt", preempts)
    ]:  # fmt: skip
        words += [f"--{name}={channel}={to}" for channel, to in (leads or {}).items()]
    try:
        done = _logged(words, export)
    except ProgramDied as died:
        raise Error(_refused(words[2:], died)) from None
    if left_out := done.stderr.decode().strip():
        warnings.warn(left_out, stacklevel=2)
    return Log.of_text(done.stdout)


def _refused(words: list[str], died: ProgramDied) -> str:
    """What `tsb_field log` says of an export, or of these words."""
    if died.status != BAD_WORDS:
        # (these are words of the program, and none of Python's commands)
        allowed = " (give --allow-empty where that is right)"
        told = died.stderr.strip().replace(" (name one by --device)", ": name one")
        return told.removesuffix(allowed)
    return f"{' '.join(words)}: docs/use/FIELD.md has the ranges of these words"


def spelled(time: np.datetime64) -> str:
    """A moment as the programs read it."""
    text = str(np.datetime_as_string(time, unit="ns")).replace("T", " ")
    return text.rstrip("0").rstrip(".")


def _logged(
    words: list[str], export: pd.DataFrame | AnyPath
) -> CompletedProcess[bytes]:
    """The run of `tsb_field log` on an export: on the bytes of a file as they are,
    unless it is Parquet or its rows are not in the order of time."""
    if not isinstance(export, pd.DataFrame):
        if Path(export).suffix != ".parquet":
            try:
                return programs.run("tsb_field", words, read(export, LONGEST))
            except ProgramDied as died:
                if ": time order: " not in died.stderr:
                    raise
        export = read_export(export)
    ordered = export.sort_values("time", kind="stable")
    return programs.run("tsb_field", words, _csv(ordered))

