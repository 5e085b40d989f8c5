"""Tables of lines, events, logs and exports, there and back."""

import re
import warnings
from pathlib import Path

import numpy as np
import pandas as pd
import pytest
from tsb import Display, Error, Event, Lines, Log, Plan, frames, seconds
from tsb.manual import COLUMNS

START = "2026-11-22 07:00:00"
LINES = [
    "0000071 RGRRRGRR-------- -C-D-C-D-------- R--- 1 ----",
    "0000072 FFFFFFFF-------- ---------------- F--- 0 0045",
    "6000000 RGYRRGRR-------- -W-D-C-D-------- RGY- 4 2539",
]


def expected_lines(examples: Path) -> Lines:
    """All display lines of the examples."""
    texts = [it.read_text() for it in sorted(examples.glob("*.expected"))]
    shape = re.compile(r"^\d{7} .{16} .{16} .{4} \d [\d-]{4}$", re.M)
    return Lines(
        "".join(f"{it}\n" for text in texts for it in shape.findall(text)).encode()
    )


def test_lines(examples: Path) -> None:
    """A table of display lines has each letter and number, and gives them back."""
    lines = Lines("".join(f"{it}\n" for it in LINES).encode())
    table = frames.of_lines(lines)
    assert list(table.index) == [71, 72, 6000000]
    assert list(table["P2"]) == ["G", "F", "G"] and list(table["W6"]) == ["C", "-", "C"]
    assert list(table["O3"]) == ["-", "-", "Y"] and list(table["preempt"]) == [1, 0, 4]
    assert table["local"].isna().to_list() == [True, False, False]
    assert table["local"].iloc[1] == 45 and len(table.columns) == 38
    assert frames.to_lines(table) == lines
    every = expected_lines(examples)
    assert len(every) > 1000 and frames.to_lines(frames.of_lines(every)) == every
    assert len(frames.of_lines(Lines())) == 0


def test_a_table_agrees_with_the_displays(examples: Path) -> None:
    """What the table has of a line is what `Display` reads."""
    lines = expected_lines(examples)[::7]
    table = frames.of_lines(lines)
    for (tick, row), display in zip(table.iterrows(), lines, strict=True):
        assert tick == display.tick and row["preempt"] == display.preempt
        assert "".join(row[f"P{it}"] for it in range(1, 17)) == display.vehicles
        assert (None if row["local"] is pd.NA else row["local"]) == display.local


def test_events() -> None:
    """Events, there and back."""
    events = [Event(0, 131, 1), Event(51, 4, 2), Event(51, 7, 2)]
    table = frames.of_events(events)
    assert list(table.columns) == ["tick", "code", "parameter"]
    assert (
        frames.to_events(table) == events
        and frames.to_events(frames.of_events([])) == []
    )


def test_logs(examples: Path) -> None:
    """Logs, there and back; a table may leave inputs out."""
    log = Log.read(examples / "main_and_oak.log")
    table = frames.of_log(log)
    assert frames.to_log(table) == log
    assert table.columns.to_list()[::9] == ["V1", "V10", "B3", "I4"]
    short = pd.DataFrame({"V2": [True, False]}, index=[5, 9])
    assert frames.to_log(short).text == (
        "0000005 0100000000000000 00000000 0000\n0000009 0000000000000000 00000000 0000\n"
    )


EXPORTS = {
    "usual": "SignalID,Timestamp,EventCode,EventParam\n07,2026-11-22 07:00:00.1,82,2\n",
    "any case, any order, more columns": (
        "eventid,Note,PARAMETER,timestamp,DEVICEID\n82,x,2,2026-11-22T07:00:00.1,07\n"
    ),
    "no header, a comment, a byte order mark": (
        "\ufeff# a comment, with a comma\n\n07,2026-11-22 07:00:00.10,82,2,more\n"
    ),
    "quotes": '"SignalID","Timestamp","EventCode","EventParam"\n"07","2026-11-22 07:00:00.1","82",2\n',
}


@pytest.mark.parametrize("name", EXPORTS)
def test_exports(tmp_path: Path, name: str) -> None:
    """An export in the names that docs/use/FIELD.md has, in any order."""
    path = tmp_path / "export.csv"
    path.write_text(EXPORTS[name], encoding="utf-8")
    found = frames.read_export(path)
    assert list(found.columns) == list(COLUMNS)
    assert found.iloc[0].to_list() == ["07", pd.Timestamp(f"{START}.1"), 82, 2]
    assert len(found) == 1


def test_an_export_without_a_column_says_which(tmp_path: Path) -> None:
    """Three columns are no export."""
    path = tmp_path / "export.csv"
    path.write_text("SignalID,Timestamp,EventCode\n7,2026-11-22 07:00:00,82\n")
    with pytest.raises(Error, match="EventParam or Parameter"):
        frames.read_export(path)


def test_files_that_are_no_export(
    tmp_path: Path, monkeypatch: pytest.MonkeyPatch
) -> None:
    """One with a byte 0, and one that is too large: just so large is read."""
    path = tmp_path / "export.csv"
    text = EXPORTS["usual"].encode()
    path.write_bytes(text + b"\0")
    with pytest.raises(Error, match="export.csv: it has a byte 0, as no CSV has"):
        frames.read_export(path)
    path.write_bytes(text)
    assert (frames.LONGEST, len(frames.read_export(path))) == (1 << 30, 1)
    monkeypatch.setattr(frames, "PIECE", 7)
    monkeypatch.setattr(frames, "LONGEST", len(text))
    assert len(frames.read_export(path)) == 1
    path.write_bytes(text + b"\n")
    with pytest.raises(Error, match="export.csv: too large: over 0 GiB: cut it by days"):
        frames.read_export(path)


def test_what_is_left_out_is_told() -> None:
    """How many rows, and the first of them; a warning names who asked."""
    time = "2026-11-22T07:00:03Z"
    table = pd.DataFrame(
        [(time, 1, 2), (time, 131, "x"), (time, 7, -1)], columns=["Time", "Code", "Param"]
    )
    said = "left out: {} whose parameter is no whole number, first line {}: {}"
    for rows, told in (
        (table.iloc[:1], None),
        (table.iloc[:2], said.format("1 row", 1, "'x'")),
        (table, said.format("2 rows", 1, "'x'")),
        (table.iloc[[0, 2]], said.format("1 row", 2, "'-1'")),
    ):
        with pytest.warns(UserWarning) as warned:
            found = frames.export_of_table(rows)
        zone = "the zone Z of times is passed over: what clocks show counts"
        said_of = [str(it.message) for it in warned]
        assert said_of == [*([told] if told else []), zone]
        assert {it.filename for it in warned} == {__file__} and len(found) == 1
    two = frames.export_of_table(table.iloc[:1].assign(Time="2026-11-22 07:00:03"))
    two = pd.concat([two.assign(device="7", code=82), two.assign(device="8")])
    with pytest.warns(UserWarning, match="^left out: 1 rows of other devices") as warned:
        frames.log_of_export(two, START, "7")
    assert [it.filename for it in warned] == [__file__]


def test_parquet(tmp_path: Path) -> None:
    """Parquet is read where pyarrow is, and elsewhere the message says what to do."""
    path = tmp_path / "export.parquet"
    table = pd.DataFrame(
        {
            "DeviceId": [7],
            "TimeStamp": [pd.Timestamp(START)],
            "EventId": [82],
            "Parameter": [2],
        }
    )
    try:
        table.to_parquet(path)
    except ImportError:
        path.write_bytes(b"PAR1")
        with pytest.raises(Error, match="pip install pyarrow"):
            frames.read_export(path)
    else:
        assert frames.read_export(path).iloc[0].to_list() == [
            "7",
            pd.Timestamp(START),
            82,
            2,
        ]


def test_a_table_from_elsewhere() -> None:
    """Its columns are taken by name; clocks lose their zone."""
    times = pd.to_datetime([START]).tz_localize("Europe/Berlin")
    table = pd.DataFrame({"Parameter": [2], "EVENTID": ["82"], "Timestamp": times})
    with pytest.raises(Error, match="no column EventCode or EventId"):
        frames.export_of_table(table.drop(columns="EVENTID"))
    found = frames.export_of_table(table.assign(DeviceId=7, note="x"))
    assert found.iloc[0].to_list() == ["7", pd.Timestamp(START), 82, 2]
    # (the device alone may be missing)
    assert frames.export_of_table(table)["device"].to_list() == [""]


def test_events_of_exports(tmp_path: Path) -> None:
    """Events become an export and events again; times have the digits they need."""
    events = frames.of_events([Event(1, 1, 2), Event(33, 82, 4), Event(864000, 7, 2)])
    export = frames.export_of_events(events, START, "1001")
    path = tmp_path / "events.csv"
    frames.write_export(export, path)
    assert path.read_text() == (
        "SignalID,Timestamp,EventCode,EventParam\n"
        "1001,2026-11-22 07:00:00.0,1,2\n"
        "1001,2026-11-22 07:00:03.2,82,4\n"
        "1001,2026-11-23 06:59:59.9,7,2\n"
    )
    read = frames.read_export(path)
    pd.testing.assert_frame_equal(read, export)
    pd.testing.assert_frame_equal(frames.events_of_export(read, START), events)
    assert len(frames.events_of_export(read, START, "7")) == 0
    later = frames.events_of_export(read, "2026-11-22 07:00:03")
    assert later["tick"].to_list() == [3, 863970]


def test_log_of_an_export(examples: Path) -> None:
    """The log of an export of a log's inputs is that log, whatever its order."""
    log = Log.read(examples / "main_and_oak.log")
    table = frames.of_log(log)
    codes = {"V": (82, 81), "B": (90, 89), "I": (102, 104)}
    found = []
    before = pd.Series(False, table.columns)
    for tick, now in table.iterrows():
        for name in table.columns[now != before]:
            code = codes[name[0]][0 if now[name] else 1]
            found.append(Event(tick, code, int(name[1:])))
        before = now
    export = frames.export_of_events(frames.of_events(found), START, "7")
    mixed = export.sample(frac=1, random_state=np.random.RandomState(1))
    assert frames.log_of_export(mixed.sort_index(), START, "7") == log
    with pytest.warns(
        UserWarning, match=f"left out: {len(export)} rows of other devices"
    ):
        assert frames.log_of_export(export, START, "8", allow_empty=True) == Log()
    # (which word of the program would allow that is not passed on)
    with pytest.raises(Error, match=r"\nevents: no row counts$"):
        frames.log_of_export(export, START, "8")


def test_log_of_a_file(examples: Path, tmp_path: Path) -> None:
    """A file is read by the program itself, and a table of it gives the same log; rows
    may come in any order."""
    found = [Event(33, 82, 4), Event(41, 81, 4), Event(50, 90, 2)]
    export = frames.export_of_events(frames.of_events(found), START, "7")
    wanted = frames.log_of_export(export, START, "7")
    assert wanted.ticks == (33, 41, 50)
    path = tmp_path / "export.csv"
    for rows in (export, export.iloc[::-1]):
        frames.write_export(rows, path)
        assert frames.log_of_export(path, START, "7") == wanted
    with pytest.raises(Error, match="events line 2: time: "):
        path.write_text(path.read_text().replace("2026-11-22 ", ""))
        frames.log_of_export(path, START)


@pytest.mark.parametrize("text", ["07:00:00", "7:00", "", "11/22/2026 07:00:00"])
def test_a_start_that_is_no_time(text: str) -> None:
    """It is named, by its word."""
    export = frames.export_of_events(frames.of_events([Event(33, 82, 4)]), START, "7")
    said = f"^start: '{text}' is no time as 2026-11-22 07:00:00$"
    with pytest.raises(Error, match=said):
        frames.log_of_export(export, text)
    with pytest.raises(Error, match=said):
        frames.events_of_export(export, text)


def test_starts_of_an_export() -> None:
    """Without seconds, or with parts of one."""
    export = frames.export_of_events(frames.of_events([Event(33, 82, 4)]), START, "7")
    for text, tick in (
        ("2026-11-22 07:00", 33), ("2026-11-22T07:00:00", 33), ("2026-11-22 07:00:03.2", 1),
        ("2026-11-22 06:59:50", 133), ("2026-11-22", 252033),
    ):  # fmt: skip
        assert frames.log_of_export(export, text).ticks == (tick,)
        assert frames.events_of_export(export, text)["tick"].to_list() == [tick]


def test_words_that_lead_nowhere(tmp_path: Path) -> None:
    """They are named, and not the usage of another program."""
    export = frames.export_of_events(frames.of_events([Event(33, 82, 4)]), START, "7")
    with pytest.raises(Error, match=r"^--device=7 --vehicle=4=65: docs/use/FIELD.md has"):
        frames.log_of_export(export, START, "7", vehicles={4: 65})


def test_a_file_of_several_devices(tmp_path: Path) -> None:
    """They are refused by their names, in a file as in a table. One device is not, and
    neither is a file without devices."""
    path = tmp_path / "e.csv"
    text = "SignalID,Timestamp,EventCode,EventParam\n7,2026-11-22 07:00:00,82,4\n"
    path.write_text(f"{text}8,2026-11-22 07:00:01,81,4\n")
    for export in (path, frames.read_export(path)):
        with pytest.raises(Error, match='^devices: 2 in these rows: "7" "8": name one$'):
            frames.log_of_export(export, START)
    path.write_text("Time,Code,Param\n2026-11-22 07:00:00,82,4\n")
    with warnings.catch_warnings():
        warnings.simplefilter("error")
        assert frames.log_of_export(path, START).ticks == (1,)
        path.write_text(text)
        assert frames.log_of_export(path, START).ticks == (1,)


def test_what_acts_twice(examples: Path, tmp_path: Path) -> None:
    """Of events of outputs, each detector is told whose delay the plan has again: the
    log is the same."""
    plan = Plan.of_text((examples / "quad.json").read_bytes())
    plan["vehicleDetectorDelay"][3] = seconds(5)
    path = tmp_path / "plan.json"
    path.write_text(plan.text)
    export = frames.export_of_events(frames.of_events([Event(33, 82, 3)]), START, "7")
    with pytest.warns(UserWarning, match=r"^detector 3: its delay of 5\.0 s acts twice$"):
        log = frames.log_of_export(export, START, "7", as_outputs=path)
    assert log == frames.log_of_export(export, START, "7")
    path.write_text("{}")
    with pytest.raises(Error, match="^plan: version$"):
        frames.log_of_export(export, START, "7", as_outputs=path)


def test_channels_lead_to_inputs() -> None:
    """Channel 21 leads to detector 2, and channel 2 to its own number still."""
    export = frames.export_of_events(frames.of_events([Event(5, 82, 21)]), START, "7")
    log = frames.log_of_export(export, START, vehicles={21: 2})
    assert log == Log.of([(5, "0100000000000000 00000000 0000")])
    assert Display.of(LINES[0]).head("P2") == "G"
