"""Stamps and numbers of exports, whatever moment they tell and however they are written."""

from __future__ import annotations

import datetime

import numpy as np
import pytest
from hypothesis import given
from hypothesis import strategies as st

from sigaudit_tools.intake.cells import WIDEST, Bytes, gathered
from sigaudit_tools.intake.numbers import MOST, read_numbers
from sigaudit_tools.intake.stamps import read_stamps

FIRST = datetime.datetime(1970, 1, 1)
FORMS = ("{0:%Y-%m-%d %H:%M:%S}.{1}", "{0:%Y/%m/%d}T{0:%H:%M:%S}.{1}00", "{0:%m/%d/%Y} {0:%I:%M:%S}.{1} {0:%p}",
         "{0:%d.%m.%Y}  {0:%H:%M:%S},{1}", "{0.month}-{0.day}-{0:%Y} {0.hour}:{0:%M:%S}.{1}Z",
         "{0:%Y-%m-%d}T{0:%H:%M:%S}.{1}-05:00", "{0:%Y}-{0.month}-{0.day} {0:%I:%M:%S}.{1}{0:%p}")
MOMENTS = st.datetimes(datetime.datetime(1000, 1, 1), datetime.datetime(9999, 12, 31))


def chars_of(texts: list[str]) -> Bytes:
    """The bytes of texts, shape (width, n)."""
    parts = [text.encode() for text in texts]
    end = np.cumsum([len(part) for part in parts])
    data = np.frombuffer(b"".join(parts) + bytes(WIDEST + 1), np.uint8)
    return gathered(data, end - [len(part) for part in parts], end)


@given(st.lists(st.tuples(MOMENTS, st.integers(0, 9), st.sampled_from(FORMS)), min_size=1, max_size=30))
def test_each_moment_is_read_in_each_form(moments: list[tuple[datetime.datetime, int, str]]) -> None:
    whole = [(moment.replace(microsecond=0), tenth, form) for moment, tenth, form in moments]
    found = read_stamps(chars_of([form.format(moment, tenth) for moment, tenth, form in whole]))
    assert found.good.all() and not found.rest.any()
    assert found.tenth.tolist() == [(moment - FIRST) // datetime.timedelta(seconds=1) * 10 + tenth
                                    for moment, tenth, _ in whole]
    zones = {FORMS[4]: "Z", FORMS[5]: "-05:00"}
    assert [found.zones[zone] for zone in found.zone] == [zones.get(form, "") for _, _, form in whole]


@pytest.mark.parametrize("text", [
    "", "2024-03-04", "2024-02-30 01:00:00", "2023-02-29 01:00:00", "2024-13-01 01:00:00", "2024-03-04 24:00:00",
    "2024-03-04 05:60:00", "2024-03-04 05:00:60", "2024-03/04 05:00:00", "13/13/2024 05:00:00", "2024-03-04 05:00",
    "2024-03-04 13:00:00 PM", "2024-03-04 00:00:00 AM", "24-03-04 05:00:00", "2024-03-04t05:00:00", "1709528400",
    "2024-03-04 05:00:00 CET", "0000-03-04 05:00:00", "2024-03-04 05:00:00.", "x" * 80])
def test_what_is_no_stamp(text: str) -> None:
    assert not read_stamps(chars_of([text])).good.any()


def test_digits_after_the_tenth_are_in_order() -> None:
    clocks = ("05:00:00.1", "05:00:00.10", "05:00:00.1000000000000000000001", "05:00:00.11", "05:00:00.109999999999")
    rest = read_stamps(chars_of([f"2024-03-04 {clock}" for clock in clocks])).rest.tolist()
    assert rest[0] == rest[1] == rest[2] == 0 and rest[0] < rest[4] < rest[3]


@given(st.lists(st.tuples(st.integers(0, 10 ** 9), st.sampled_from(("{}", "{}.0", "{}.000", "00{}"))), min_size=1))
def test_whole_numbers_are_read(numbers: list[tuple[int, str]]) -> None:
    value, good = read_numbers(chars_of([form.format(number) for number, form in numbers]))
    assert good.all()
    assert value.tolist() == [min(number, MOST) for number, _ in numbers]


@pytest.mark.parametrize("text", ["", ".", "1.", ".0", "1.5", "-1", "+1", "1e3", "NULL", "1 2", "1.0.0", "x1"])
def test_what_is_no_whole_number(text: str) -> None:
    _, good = read_numbers(chars_of(["82", text]))
    assert good.tolist() == [True, False]
