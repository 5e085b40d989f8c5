"""Exports in the forms that docs/use/FIELD.md has: as `tsb_field log` reads them."""

import importlib
import random
import warnings
from pathlib import Path

import pandas as pd
import pytest
from tsb import Error, Log, forms, frames

START = "2026-11-22 07:00:00"
# The files of tools/programs/exports that are read, by the letters and numbers of
# their names.
READ = """a01 a02 a05 a06 a07 a08 a09 a10 a11 a12 a13 a14 a15 a16 a17 a18 a20 a21 a22
    a23 a24 a25 a28 a30 a31 a33 a35 a36 a37""".split()
RANDOM = 60


def logs_of(path: Path, device: str | None = None) -> tuple[Log | None, Log | None]:
    """The logs of a file: by the program alone, and by a table; None where refused."""
    found: list[Log | None] = []
    for read in (lambda it: it, frames.read_export):
        try:
            log = frames.log_of_export(read(path), START, device, allow_empty=True)
            found.append(log)
        except Error:
            found.append(None)
    return found[0], found[1]


def first_device(path: Path) -> str | None:
    """The device of a file's first row, if it is read and has one."""
    try:
        return next(iter(frames.read_export(path)["device"]), None)
    except Error:
        return None


@pytest.mark.filterwarnings("ignore:left out", "ignore:times: ")
def test_each_form_is_read_as_the_program_reads_it(top: Path) -> None:
    """Those of controllers, agencies and spreadsheets; what cannot be read says why."""
    read = []
    for path in sorted((top / "tools/programs/exports").glob("*.csv")):
        program, table = logs_of(path)
        if table is not None:
            assert table == program, path.name
            read.append(path.name[:3])
    assert set(READ) <= set(read)


@pytest.mark.filterwarnings("ignore:left out", "ignore:times: ")
def test_exports_at_random(
    top: Path, tmp_path: Path, monkeypatch: pytest.MonkeyPatch
) -> None:
    """Where a table is made of one, its log is that of the program."""
    monkeypatch.chdir(top)
    monkeypatch.syspath_prepend(str(top))
    export_of = importlib.import_module("tools.programs.run_field").random_export
    path, both = tmp_path / "export.csv", 0
    for number in range(RANDOM):
        path.write_bytes(export_of(random.Random(f"export {number}")))
        program, table = logs_of(path, first_device(path))
        assert program is None or table == program, number
        both += program is not None
    assert both > RANDOM / 3


TIMES = {
    "2026-11-22 07:00:03.2": "2026-11-22 07:00:03.2",
    "2026/11/22 7:00:03": "2026-11-22 07:00:03",
    "2026-11-22T07:00:03.2Z": "2026-11-22 07:00:03.2",
    "2026-11-22 07:00:03.2-07:00": "2026-11-22 07:00:03.2",
    "11/22/2026 12:00:03.25 AM": "2026-11-22 00:00:03.25",
    "11-22-2026 12:00:03 PM": "2026-11-22 12:00:03",
    "22/11/2026 07:00:03": "2026-11-22 07:00:03",
    "2026-11-22 07:00:03,2": "2026-11-22 07:00:03.2",
    "2026-11-22T07:00:03.2 UTC": "2026-11-22 07:00:03.2",
    "22.11.2026 07:00:03,200": "2026-11-22 07:00:03.2",
    "11/22/2026 7:00:03 PM-0700": "2026-11-22 19:00:03",
    "1795330803.2": "2026-11-22 07:00:03.2",
    "1795330803,2": "2026-11-22 07:00:03.2",
    "1795330803200": "2026-11-22 07:00:03.2",
}


@pytest.mark.parametrize("text", TIMES)
def test_times_by_hand(text: str) -> None:
    """One of each form."""
    table = pd.DataFrame({"Time": [text], "Code": ["82.0"], "Param": ["4"]})
    found = frames.export_of_table(table)
    assert found["time"][0] == pd.Timestamp(TIMES[text]) and found["code"][0] == 82


# What parts fields: without a header the first row says it.
PARTED = {
    "7;2026-11-22 07:00:03,2;82;4": ["7", 82, 4],
    "7;2026-11-22 07:00:03,2;82.0;4;": ["7", 82, 4],
    "7\t2026-11-22 07:00:03,2\t82\t4": ["7", 82, 4],
    '"7, Main";"2026-11-22 07:00:03,2";"82";"4"': ["7, Main", 82, 4],
    '"7;8","2026-11-22 07:00:03,2",82,4,a;b;c': ["7;8", 82, 4],
    "Id;Version\nTime;Code;Param\n2026-11-22 07:00:03,2;82;4": ["", 82, 4],
    "Version;3\nParam\tx\tCode\tTime\n4\t\t82\t2026-11-22 07:00:03,2": ["", 82, 4],
    "Time;Code;Param\n--;--;--\n2026-11-22 07:00:03.2;82;4\n\n(1 row)": ["", 82, 4],
}


@pytest.mark.parametrize("text", PARTED)
def test_fields_are_parted(tmp_path: Path, text: str) -> None:
    """By semicolons and tabs as well."""
    path = tmp_path / "export.csv"
    path.write_text(text)
    found = frames.read_export(path)
    assert found["time"].to_list() == [pd.Timestamp("2026-11-22 07:00:03.2")]
    assert found[["device", "code", "parameter"]].to_numpy().tolist() == [PARTED[text]]


FAULTS = {
    "03/04/2026 07:00:03,82,4": "line 2: time .* its month or its day first",
    "00:03.2,82,4": "line 2: time '00:03.2' is no time as 2026-11-22 07:00:00.1",
    "2026-11-22 07:00:03,82,4\n11/23/2026 07:00:03,82,4": "line 3: time .* of the form",
    "2026-11-31 07:00:03,82,4": "line 2: time '2026-11-31 07:00:03' is no time",
    "2026-11-22 07:00:03,82.5,4": "line 2: code '82.5' is no whole number",
    "2026-11-22 07:00:03+24:00,82,4": "line 2: time .* is no time",
    "2026-11-22 07:00:03,82,4\n2026-11-22 07:00:03;82;4": "line 3: code '' is no",
    "2026-11-22 07:00:03,82,NULL": "line 2: parameter 'NULL' is no whole number",
    '2026-11-22 07:00:03,"82,4\n2026-11-22 07:00:04,81",4': "a quote is out of place",
}


@pytest.mark.parametrize("rows", FAULTS)
def test_what_is_no_row_names_its_line(tmp_path: Path, rows: str) -> None:
    """And the file."""
    path = tmp_path / "export.csv"
    path.write_text(f"Time,Code,Param\n{rows}\n")
    with pytest.raises(Error, match=f"export.csv: .*{FAULTS[rows]}"):
        frames.read_export(path)


def test_a_parameter_that_tells_nothing_is_left_out() -> None:
    """With codes that are no inputs."""
    time = "2026-11-22 07:00:03"
    rows = [(time, 150, -1), (time, 82, 4), (time, 131, 2)]
    table = pd.DataFrame(rows, columns=["Time", "Code", "Param"])
    assert frames.export_of_table(table)["code"].to_list() == [82, 131]


# By hand, at boundaries


def known(found: "pd.Series[int]") -> list[int | None]:
    """Numbers, with None for what is none."""
    return [None if it is pd.NA else int(it) for it in found]


def test_whole_numbers() -> None:
    """Up to the greatest, as texts or as numbers; what is none is not known."""
    texts = {
        "0": 0, "82": 82, " 82. ": 82, "82.000": 82, "4294967295": 4294967295,
        "4294967295.0": 4294967295, "4294967296": None, "42949672950": None,
        "82.5": None, "-1": None, "": None, "8 2": None, "x": None, "+8": None,
    }  # fmt: skip
    assert known(forms.numbers_of(pd.Series([*texts]))) == [*texts.values()]
    whole = pd.Series([0, 4294967295, 4294967296, -1], index=[3, 1, 2, 0])
    found = forms.numbers_of(whole)
    assert known(found) == [0, 4294967295, None, None] and list(found.index) == [3, 1, 2, 0]
    assert known(forms.numbers_of(pd.Series([7], dtype="uint8"))) == [7]
    assert known(forms.numbers_of(pd.Series([82.0, 82.5]))) == [82, None]
    texts_ = pd.Series(["5", "x", "5"], index=[9, 4, 7])
    assert known(forms.numbers_of(texts_)) == [5, None, 5]
    assert list(forms.numbers_of(texts_).index) == [9, 4, 7]
    assert sorted(forms.INPUTS) == [81, 82, 89, 90, 102, 104] and forms.LARGEST == 2**32 - 1


def columned(*lines: str) -> tuple[list[str], dict[int, list[str]]]:
    """The names of columns, and the fields of the rows by their lines."""
    found = forms.columns_of("\n".join(lines))
    rows = {int(at): [*row] for at, row in zip(found.index, found.to_numpy(), strict=True)}
    return [str(it) for it in found.columns], rows


ROW = "7,2026-11-22 07:00:03,82,4"
FIELDS = ["7", "2026-11-22 07:00:03", "82", "4"]
USUAL = ["DeviceId", "Timestamp", "EventId", "Parameter"]


def test_lines_of_an_export() -> None:
    """Comments and empty lines count as lines, and are none of its rows."""
    usual = columned("")[0]
    assert usual == ["SignalID", "Timestamp", "EventCode", "EventParam"]
    assert columned("# nothing", "  ", "\t")[0] == usual
    assert columned("# a", "", ROW, " ", f"{ROW}\r", "#", ROW) == (
        usual, {3: FIELDS, 5: FIELDS, 7: FIELDS}
    )  # fmt: skip
    header = ",".join(USUAL)
    assert columned("Made by x", "on a, day", header, ROW) == (USUAL, {4: FIELDS})
    # a header comes again where files were put together
    assert columned(header, ROW, header.lower(), ROW) == (USUAL, {2: FIELDS, 4: FIELDS})
    # what a database draws, and counts; a row may begin as such
    dashes = FIELDS[1:]
    assert columned(
        header, "--,---,--,-", ROW, "(1 row)", "(2 rows affected)", "-+-", "|---|---|",
        f"-5,{','.join(dashes)}",
    ) == (USUAL, {3: FIELDS, 8: ["-5", *dashes]})  # fmt: skip
    # columns without a name are numbered, where there is no header
    assert columned(f"{ROW},more") == ([*usual, "4"], {1: [*FIELDS, "more"]})
    assert columned(ROW, "7,x") == (usual, {1: FIELDS, 2: ["7", "x", "", ""]})
    with pytest.raises(Error, match="no header and no row: put commas"):
        columned("a,b", "c;d")
    with pytest.raises(Error, match="the export has no column "):
        columned("DeviceId,Timestamp,Parameter", "7,x,4")
    assert columned("Timestamp,EventId,Parameter", "x,82,4")[1] == {2: ["x", "82", "4"]}


def test_what_parts_fields() -> None:
    """What names the columns, or else makes three fields; a comma where nothing does."""
    names = ["Timestamp", "EventId", "Parameter"]
    for mark in ",;\t":
        assert forms._separator(mark.join(names)) == mark
        assert forms._separator(mark.join("abc")) == mark
        assert forms._separator(f"{mark.join(names)}{mark}x,y;z\tw") == mark
        assert forms._separator(f"{mark.join(names)}{mark}x,y,z") == mark
    assert forms._separator("a,b,c;d;e") == "," and forms._separator("a;b") == ","
    assert forms._separator("a,b;c;d") == ";"
    assert forms._has_three("a,b,c") and forms._has_three("a\tb\tc")
    assert not forms._has_three("a,b;c") and not forms._has_three("")
    for line, fields in (
        ('"a,b",c', ["a,b", "c"]), ("a,,c", ["a", "", "c"]), ("", [""]),
        ('a"b,c', ['a"b', "c"]), ('"a"b,c', []), ('a,"b', []), ('"",x', ["", "x"]),
    ):  # fmt: skip
        assert forms._parted(line, ",") == fields


def test_fields_of_lines() -> None:
    """Without the spaces around them; a quote may hold a mark, and one out of place
    is a fault."""
    found = forms._fields({3: ' a , "b;c",d', 9: "e"}, ",")
    assert found.to_numpy().tolist() == [["a", "b;c", "d"], ["e", "", ""]]
    assert list(found.index) == [3, 9]
    found = forms._fields({1: '"b,c", d', 2: "e"}, ",")
    assert found.iloc[:, 0].to_list() == ["b,c", "e"] and found.iloc[0, 1] == "d"
    with pytest.raises(Error, match="the export is no CSV: a quote is out of place"):
        forms._fields({1: 'a,"b', 2: 'c",d'}, ",")
    assert forms._fields({1: "NA,null"}, ",").to_numpy().tolist() == [["NA", "null"]]
    assert forms._fields({1: "e"}, ",").shape == (1, 1)


def test_places_of_columns() -> None:
    """The first that has one of its names, in any case and with any fillers."""
    assert forms.places_of(["x", "param", "Event_ID", "TIME stamp", "event-id"]) == {
        "time": 3, "code": 2, "parameter": 1
    }  # fmt: skip
    twice = ["Param", "Time", "Code", "Timestamp", "Event Code", "Event Param"]
    assert forms.places_of(twice) == {"time": 1, "code": 2, "parameter": 0}
    with pytest.raises(Error, match="the export has no column "):
        forms.places_of(["Timestamp", "Parameter"])


def moments(*texts: str) -> list[str]:
    """The moments of texts, on lines from 5 on."""
    found = forms.moments_of(pd.Series([*texts], index=range(5, 5 + len(texts))))
    assert list(found.index) == list(range(5, 5 + len(texts)))
    assert found.dtype == "datetime64[ns]"
    return [str(it) for it in found]


def test_moments_that_are_moments_already() -> None:
    """A zone is passed over: what the clock shows counts."""
    plain = pd.to_datetime(pd.Series(["2026-11-22 07:00:00", "2026-11-22 07:00:01"]))
    with warnings.catch_warnings():
        warnings.simplefilter("error")
        assert forms.moments_of(plain).equals(plain)
    with pytest.warns(UserWarning, match="^the zone Etc/GMT.7 of times is passed over"):
        assert forms.moments_of(plain.dt.tz_localize("Etc/GMT+7")).equals(plain)
    assert forms.moments_of(pd.Series([], dtype=object)).dtype == "datetime64[ns]"


@pytest.mark.parametrize(
    "text, zone",
    [
        ("2026-11-22T07:00:00Z", "Z"), ("2026-11-22 07:00:00.5-07", "-07"),
        ("11/22/2026 7:00:00 AM+05:30", None), ("2026-11-22 07:00:00,5 UTC", "UTC"),
        ("2026-11-22 07:00:00", None), ("11-22-2026 07:00:00", None), ("1795330803", None),
        ("2026-11-22 07:00:00+0530", "+0530"),
    ],
)  # fmt: skip
def test_a_zone_is_told(text: str, zone: str | None) -> None:
    """That it counts for nothing, once for all rows."""
    with warnings.catch_warnings(record=True) as told:
        warnings.simplefilter("always")
        moments(text, text)
    wanted = f"the zone {zone} of times is passed over: what clocks show counts"
    assert [str(it.message) for it in told] == ([] if zone is None else [wanted])


@pytest.mark.parametrize(
    "clock, shown",
    [
        ("0:00:00", "00:00:00"), ("23:59:59", "23:59:59"), ("24:00:00", None),
        ("7:60:00", None), ("7:00:60", None), ("12:00:00 AM", "00:00:00"),
        ("12:59:59 pm", "12:59:59"), ("1:00:00 PM", "13:00:00"),
        ("11:00:00 am", "11:00:00"), ("0:00:00 AM", None), ("13:00:00 PM", None),
        ("7:00:00.", "07:00:00"), ("7:00:00,000000001", "07:00:00.000000001"),
        ("7:00:00 XM", None), ("7:00:00+23:59", "07:00:00"), ("7:00:00-7", "07:00:00"),
    ],
)  # fmt: skip
def test_clocks(clock: str, shown: str | None) -> None:
    """On a day whose order shows, and after such a day."""
    if shown is None:
        with pytest.raises(Error, match="line 5: time .* is no time"):
            moments(f"11/22/2026 {clock}")
        with pytest.raises(Error, match="line 6: time .* is no time of the form of '11"):
            moments("11/22/2026 7:00:00", f"11/22/2026 {clock}")
    else:
        assert moments(f"11/22/2026 {clock}") == [f"2026-11-22 {shown}"]
        assert moments(f" 22-11-2026 {clock} ") == [f"2026-11-22 {shown}"]
        assert moments(f"2026/11/22 {clock}") == [f"2026-11-22 {shown}"]


def test_days() -> None:
    """One over 12 shows which is the month and which the day; a year that is first
    shows it by itself."""
    assert moments("2026/12/11 7:00:00") == ["2026-12-11 07:00:00"]
    assert moments("13/12/2026 7:00:00", "1/2/2026 7:00:00") == [
        "2026-12-13 07:00:00", "2026-02-01 07:00:00"
    ]  # fmt: skip
    assert moments("12/13/2026 7:00:00", "1/2/2026 7:00:00")[1] == "2026-01-02 07:00:00"
    for text in ("12/12/2026 7:00:00", "1/2/2026 7:00:00"):
        with pytest.raises(Error, match="line 5: time .* its month or its day first"):
            moments(text, "22/11/2026 7:00:00")
    for text in ("2026-02-30 07:00:00", "2026-13-01 07:00:00", "22/13/2026 7:00:00", "x"):
        with pytest.raises(Error, match="line 5: time .* is no time as 2026-11-22 07:00"):
            moments(text)
    for text in ("2026-02-30 07:00:00", "2026-02-28 07:00", "NaT"):
        with pytest.raises(Error, match=f"line 6: time '{text}' is no time of the form"):
            moments("2026-02-28 07:00:00", text)


def test_seconds_since_1970() -> None:
    """With ten digits at most, and parts; more digits are milliseconds, in all rows."""
    assert moments("0", "0.5", "1,25", "9223372035") == [
        "1970-01-01 00:00:00", "1970-01-01 00:00:00.500000", "1970-01-01 00:00:01.250000",
        "2262-04-11 23:47:15",
    ]  # fmt: skip
    # (a table has no later moments)
    assert moments("9223372035999") == ["2262-04-11 23:47:15.999000"]
    for late in ("9223372036", "9999999999", "9223372036000", "9999999999999"):
        with pytest.raises(Error, match=f"line 5: time '{late}' is no time of the form"):
            moments(late)
    assert moments("17953308032", "1795330803200") == [
        "1970-07-27 19:01:48.032000", "2026-11-22 07:00:03.200000"
    ]  # fmt: skip
    for texts in (("1795330803", "1795330803200"), ("1795330803200", "1.5")):
        with pytest.raises(Error, match="line 6: time .* is no time of the form of '1795"):
            moments(*texts)
    with pytest.raises(Error, match="line 5: time .* is no time as"):
        moments("17953308032001")
