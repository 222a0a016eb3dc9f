"""Exports read into events: all forms, what is dropped, the order, tables, and hour files."""

from __future__ import annotations

import random
import time
from pathlib import Path

import numpy as np
import pandas as pd
import pytest
from makers import exports
from makers.days import write_day
from makers.row_reader import Row, RowReader

from sigaudit_tools.errors import InputError, UsageError
from sigaudit_tools.events import Events
from sigaudit_tools.intake import Intake, hour_files, read_export
from sigaudit_tools.intake.hours import planned
from sigaudit_tools.times import HOUR, tenth_of_hour, tenth_of_stamp

HEAD = "SignalID,Timestamp,EventCode,EventParam\n"
ROWS = [(tenth_of_stamp(f"{date}T{hour:02d}:{rest}"), code, param)
        for _, date, hour, rest, code, param in exports.PLAIN]


def rows_of(events: Events) -> list[tuple[int, int, int]]:
    return list(zip(events.tenth.tolist(), events.code.tolist(), events.param.tolist()))


def put(folder: Path, name: str, text: str) -> Path:
    path = folder / name
    path.write_bytes(text.encode())
    return path


@pytest.mark.parametrize("form", exports.FORMS)
def test_each_form_has_the_same_rows(tmp_path: Path, form: str) -> None:
    intake = read_export(exports.write(tmp_path, form), signal="7")
    assert rows_of(intake.events) == ROWS
    assert intake.signal == "7"


def test_zones_are_cut_off_and_counted(tmp_path: Path) -> None:
    assert read_export(exports.write(tmp_path, "turned")).zones == {"-06:00": 6}


def test_a_date_with_points_is_always_day_first(tmp_path: Path) -> None:
    path = put(tmp_path, "a.csv", "7,3/4/2024 01:00:00,1,1\n7,3.4.2024 01:00:00,1,1\n")
    assert [tenth // (24 * HOUR) for tenth in read_export(path).events.tenth] == [19786, 19816]
    assert [tenth // (24 * HOUR) for tenth in read_export(path, day_first=True).events.tenth] == [19816, 19816]


def test_each_cause_is_said_once_with_its_first_record(tmp_path: Path) -> None:
    path = put(tmp_path, "odd.csv", exports.text_of("plain") + """8,2024-03-04 07:00:00.0,1,1
7,2024-02-30 07:00:00.0,1,1
7,2024-03-04 24:00:00.0,1,1
7,2024-03-04 07:00:00.0,256,1
7,2024-03-04 07:00:00.0,1,65536
7,2024-03-04 07:00:00.0,1,NULL
7,2024-03-04 07:00:00.0,1
7,2024-03-04 07:00,1,1

7,"2024-03-04 07:00:00.0,1,1
7,2024-03-05 07:00:00.0,1,1
SignalID,Timestamp,EventCode,EventParam
(15 rows affected)
""")
    begin = tenth_of_hour("2024-03-04T00")
    intake = read_export(path, signal="7", begin=begin, end=begin + 24 * HOUR)
    assert intake.sources[0].records == 17 and intake.sources[0].kept == 6
    assert intake.dropped_lines() == [
        f"dropped 1: no code from 0 to 255; first line 11 of {path}: 7,2024-03-04 07:00:00.0,256,1",
        f"dropped 2: no parameter from 0 to 65535; first line 12 of {path}: 7,2024-03-04 07:00:00.0,1,65536",
        f"dropped 3: no stamp; first line 9 of {path}: 7,2024-02-30 07:00:00.0,1,1",
        f"dropped 1: other signal; first line 8 of {path}: 8,2024-03-04 07:00:00.0,1,1",
        f"dropped 1: outside the window; first line 18 of {path}: 7,2024-03-05 07:00:00.0,1,1",
        f"dropped 3: too few fields; first line 14 of {path}: 7,2024-03-04 07:00:00.0,1"]


QUARTER = "7,2024-03-04 06:14:59.9,82,5\n7,2024-03-04 06:15:00.0,81,5\n7,2024-03-04 06:15:00.0,82,5\n"
NEXT = "7,2024-03-04 06:15:00.0,81,5\n7,2024-03-04 06:15:00.0,82,5\n7,2024-03-04 06:15:00.1,81,5\n"


def test_of_a_record_in_two_files_one_is_kept(tmp_path: Path) -> None:
    paths = [put(tmp_path, "q1.csv", QUARTER), put(tmp_path, "q2.csv", NEXT)]
    intake = read_export(paths)
    assert (len(intake.events), intake.overlapping) == (4, 2)
    twice = put(tmp_path, "twice.csv", QUARTER * 2)
    assert read_export([paths[0], twice]).overlapping == 3
    assert len(read_export([paths[0], twice]).events) == 6


def test_years_apart_are_no_overlap(tmp_path: Path) -> None:
    text = "7,0001-01-01 00:00:00,1,1\n7,9999-12-31 23:59:59.9,1,1\n"
    intake = read_export([put(tmp_path, "a.csv", text), put(tmp_path, "b.csv", text + "7,2024-03-04 06:00:00,1,1\n")])
    assert (len(intake.events), intake.overlapping) == (3, 2)


def test_doubled_rows_are_counted_and_left_out_where_asked(tmp_path: Path) -> None:
    path = put(tmp_path, "two.csv", QUARTER * 2)
    intake = read_export(path)
    assert intake.doubled is None and intake.doubled_by_hour == {tenth_of_hour("2024-03-04T06"): 3}
    once = read_export(path, once=True)
    assert once.doubled == 3 and len(once.events) == 3 and once.doubled_by_hour == {}


def test_digits_after_the_tenth_order_rows_and_steps_back_are_told(tmp_path: Path) -> None:
    path = put(tmp_path, "fine.csv",
               "7,2024-03-04 06:00:00.149,81,5\n7,2024-03-04 06:00:00.143,82,5\n7,2024-03-04 05:59:59,1,2\n")
    intake = read_export(path)
    assert intake.events.code.tolist() == [1, 82, 81]
    assert intake.lines()[-1] == ("out of order 2, the furthest step back 1.1 s, from 2024-03-04T06:00:00.1 to "
                                  f"2024-03-04T05:59:59.0 in {path}")


def test_backward_turns_each_file_round(tmp_path: Path) -> None:
    path = put(tmp_path, "back.csv", "".join(reversed(exports.text_of("plain").splitlines(True)[1:])))
    intake = read_export(path, backward=True)
    assert rows_of(intake.events) == ROWS and intake.stepped_back is None


def test_records_without_a_signal_want_one(tmp_path: Path) -> None:
    with pytest.raises(InputError, match="give it by --signal"):
        read_export(exports.write(tmp_path, "three"))
    letter = put(tmp_path, "letter.txt", "dear all,\nwe, who write, have no log\n")
    assert not read_export(letter).signals


def test_several_signals_are_told_apart(tmp_path: Path) -> None:
    intake = read_export(put(tmp_path, "s.csv", "7,3/4/2024 01:00:00,1,1\nA/1,3/4/2024 01:00:00,1,1\n"))
    assert list(intake.signals) == ["7", "A/1"]
    with pytest.raises(InputError, match="several signals: 7 A/1"):
        intake.events


@pytest.mark.parametrize("data, words", [
    (b"\x1f\x8b\x08\x00", "gunzip"), (b"PK\x03\x04", "spreadsheet"), (b"", "no row"), (b"\x00" * 300, "no row"),
    (bytes(range(256)) * 40, "no row")])
def test_what_is_no_text_is_said(tmp_path: Path, data: bytes, words: str) -> None:
    path = tmp_path / "x"
    path.write_bytes(data)
    with pytest.raises(InputError, match=words):
        read_export(path, signal="7").events


def test_what_is_not_there_is_said(tmp_path: Path) -> None:
    for path in (tmp_path, tmp_path / "none.csv"):
        with pytest.raises(InputError, match="can't be read"):
            read_export(path)


# ---- beside the slow second way


def moment(row: Row) -> tuple[int, str]:
    return row.tenth, row.rest


@pytest.mark.parametrize("seed", range(60))
def test_columns_and_rows_agree(tmp_path: Path, seed: int) -> None:
    rng = random.Random(f"export {seed}")
    text, day_first, signal = exports.text(rng), rng.random() < 0.3, rng.choice(("7", "8"))
    path = tmp_path / "a.csv"
    path.write_bytes(text.encode(rng.choice(("utf-8", "utf-8-sig", "utf-16", "utf-16-le", "utf-16-be"))))
    reader = RowReader(signal, day_first)
    rows = sorted(reader.rows(text), key=moment)
    intake = read_export(path, signal=signal, day_first=day_first)
    found = rows_of(intake.events) if intake.signals else []
    assert found == [(row.tenth, row.code, row.param) for row in rows]
    assert {why: one.count for why, one in intake.dropped.items()} == reader.dropped
    assert intake.zones == reader.zones


@pytest.mark.parametrize("seed", range(20))
def test_overlaps_are_those_of_counting(tmp_path: Path, seed: int) -> None:
    rng = random.Random(f"overlap {seed}")
    texts = ["".join(f"7,{exports.plain_stamp(rng)},1,{rng.randint(0, 2)}\n" for _ in range(rng.randint(0, 40)))
             for _ in range(3)]
    paths = [put(tmp_path, f"{number}.csv", text) for number, text in enumerate(texts)]
    most: dict[Row, int] = {}
    kept = []
    for text in texts:
        here: dict[Row, int] = {}
        for row in RowReader("7", False).rows(text):
            here[row] = here.get(row, 0) + 1
            if here[row] > most.get(row, 0):
                most[row] = here[row]
                kept.append(row)
    intake = read_export(paths, signal="7")
    assert rows_of(intake.events) == [(row.tenth, row.code, row.param) for row in sorted(kept, key=moment)]


# ---- tables


def frame() -> pd.DataFrame:
    """The plain log as a table, its times as datetime64."""
    stamps = [f"{date} {hour:02d}:{rest}" for _, date, hour, rest, _, _ in exports.PLAIN]
    return pd.DataFrame({"DeviceId": 7, "TimeStamp": pd.to_datetime(stamps), "EventId": [row[1] for row in ROWS],
                         "Parameter": [row[2] for row in ROWS]})


def test_a_table_is_read_as_its_file(tmp_path: Path) -> None:
    intake = read_export(frame())
    assert rows_of(intake.events) == ROWS and intake.signal == "7"
    texts = frame().assign(TimeStamp=lambda table: table.TimeStamp.astype(str), DeviceId=7.0)
    assert rows_of(read_export(texts).events) == ROWS
    zoned = frame().assign(TimeStamp=lambda table: table.TimeStamp.dt.tz_localize("America/Denver"))
    assert rows_of(read_export(zoned).events) == ROWS and read_export(zoned).zones == {"America/Denver": 6}


def test_odd_rows_of_a_table_are_dropped() -> None:
    table = frame().assign(EventId=[1.5, None, 300, 81, 8, 82], Parameter=pd.array([2] * 6, "Int64"))
    table.loc[3, "TimeStamp"] = None
    table["DeviceId"] = [7, 7, 7, 7, 7, None]
    intake = read_export(table)
    assert {why: one.count for why, one in intake.dropped.items()} == {
        "no code from 0 to 255": 3, "no stamp": 1, "no signal": 1}
    with pytest.raises(InputError, match="no columns of stamp, code and parameter"):
        read_export(pd.DataFrame({"a": [1]}))


def test_parquet_is_read_or_wants_pyarrow(tmp_path: Path) -> None:
    path = tmp_path / "day.parquet"
    try:
        frame().to_parquet(path)
    except ImportError:
        path.write_bytes(b"PAR1")
        with pytest.raises(InputError, match="pip install pyarrow"):
            read_export(path)
        return
    assert rows_of(read_export(path).events) == ROWS


# ---- hours


def test_hour_files_have_the_rows(tmp_path: Path) -> None:
    intake = read_export(exports.write(tmp_path, "clock"))
    paths = hour_files(intake, tmp_path / "out")
    assert [path.name for path in paths] == [f"7_2024-03-04T{hour}.csv" for hour in ("05", "06", "12", "23")]
    assert paths[1].read_text() == (HEAD + "7,2024-03-04 06:00:00.0,82,5\n7,2024-03-04 06:00:00.4,82,6\n"
                                    "7,2024-03-04 06:00:00.4,81,6\n")
    again = read_export(paths)
    assert rows_of(again.events) == ROWS
    assert again.hours == tuple(tenth_of_hour(f"2024-03-04T{hour}") for hour in ("05", "06", "12", "23"))


def test_files_that_are_there_stay_unless_replaced(tmp_path: Path) -> None:
    intake = read_export(exports.write(tmp_path, "plain"))
    there = put(tmp_path, "7_2024-03-04T12.csv", "mine")
    with pytest.raises(UsageError, match="is there already"):
        hour_files(intake, tmp_path, replace=False)
    assert there.read_text() == "mine" and len(list(tmp_path.iterdir())) == 2
    hour_files(intake, tmp_path)
    assert there.read_text() == HEAD + "7,2024-03-04 12:30:00.1,8,2\n"


def test_an_hour_without_a_row_is_told_by_its_name(tmp_path: Path) -> None:
    paths = [put(tmp_path, "7_2024-03-04T05.csv", HEAD), put(tmp_path, "7_2024-03-04T06.csv", QUARTER)]
    assert read_export(paths).hours == (tenth_of_hour("2024-03-04T05"), tenth_of_hour("2024-03-04T06"))


def test_signals_with_the_same_names_of_files_are_refused(tmp_path: Path) -> None:
    intake = read_export(put(tmp_path, "s.csv", "A_1,3/4/2024 01:00:00,1,1\nA/1,3/4/2024 01:00:00,1,1\n"))
    with pytest.raises(InputError, match="--signal"):
        planned(intake, tmp_path)


def test_events_are_an_intake() -> None:
    events = Events(np.array([5, HOUR + 1]), np.array([1, 8], np.uint8), np.array([2, 2], np.uint16))
    assert Intake.of_events(events, "7").hours == (0, HOUR)


def test_a_day_is_read_in_half_a_second(tmp_path: Path) -> None:
    path = write_day("d1", tmp_path)
    began = time.process_time()
    intake = read_export(path)
    assert time.process_time() - began < 1  # half of it on a quiet machine
    assert len(intake.events) == 129_628 and len(intake.hours) == 24
