"""A reader of exports that goes row by row: the slow second way with which the reading by columns is compared."""

from __future__ import annotations

import csv
import datetime
import re
from typing import NamedTuple

from sigaudit_tools.intake import columns
from sigaudit_tools.intake.columns import Layout, layout_of
from sigaudit_tools.times import DAY, EPOCH

_TIME = re.compile(
    r"(?:(\d{4})([-/])(\d{1,2})\2(\d{1,2})|(\d{1,2})([-/.])(\d{1,2})\6(\d{4}))(?: +|T)"
    r"(\d{1,2}):(\d\d):(\d\d)(?:[.,](\d+))? *([AaPp]\.?[Mm]\.?)? *(Z|[+-]\d\d:?\d\d)?", re.ASCII)


class Row(NamedTuple):
    """A row: its signal, tenth, the digits of its second after the tenth, code and parameter."""

    signal: str
    tenth: int
    rest: str
    code: int
    param: int


class RowReader:
    """Reads texts, and counts what it leaves out by its cause."""

    def __init__(self, signal: str | None, day_first: bool) -> None:
        self.signal, self.day_first = signal, day_first
        self.dropped: dict[str, int] = {}
        self.zones: dict[str, int] = {}

    def rows(self, text: str) -> list[Row]:
        """The rows of a text in its order."""
        lines = re.split(r"\r\n|\r|\n", text)
        first = [line for line in lines if line.strip(" \t")][:100]
        mark = max(",;\t|", key=lambda mark: sum(line.count(mark) > 1 for line in first))
        layout: Layout | None = None
        found = []
        for line in lines:
            if not line.strip(" \t"):
                continue
            fields = line.split(mark) if '"' not in line else next(csv.reader([line], delimiter=mark))
            fields = [field.strip(" \t") for field in fields]
            header = None if len(fields) < 3 or any(map(str.isdigit, fields)) else layout_of(fields)
            if header:
                layout = header
                continue
            row = self.row(fields, layout)
            if isinstance(row, Row):
                found.append(row)
            else:
                self.dropped[row] = self.dropped.get(row, 0) + 1
        return found

    def row(self, fields: list[str], layout: Layout | None) -> Row | str:
        """The row of a record, or why it is none."""
        if layout is None:
            if len(fields) not in (3, 4):
                return "not three or four fields"
            layout = columns.WITHOUT_SIGNAL if len(fields) == 3 else columns.WITH_SIGNAL
        if len(fields) < layout.width:
            return "too few fields"
        stamp = fields[layout.stamp] if layout.date is None else f"{fields[layout.date]} {fields[layout.stamp]}"
        signal = self.signal if layout.signal is None else fields[layout.signal]
        if self.signal is not None and signal != self.signal:
            return "other signal"
        if signal is None or not re.fullmatch(r"[!#-+\--~]{1,32}", signal):
            return "no signal"
        time = self.stamp(stamp)
        if time is None:
            return "no stamp"
        code, param = (re.fullmatch(r"0*(\d{1,5})(?:\.0+)?", fields[place], re.ASCII)
                       for place in (layout.code, layout.param))
        if not code or int(code[1]) > 255:
            return "no code from 0 to 255"
        if not param or int(param[1]) > 65535:
            return "no parameter from 0 to 65535"
        tenth, rest, zone = time
        if zone:
            self.zones[zone] = self.zones.get(zone, 0) + 1
        return Row(signal, tenth, rest, int(code[1]), int(param[1]))

    def stamp(self, text: str) -> tuple[int, str, str | None] | None:
        """The tenth, the digits after it, and the zone; None where it isn't a stamp."""
        found = _TIME.fullmatch(text)
        if not found:
            return None
        y, _, m, d, a, mark, b, year, hour, minute, second, fraction, half, zone = found.groups()
        if y is None:
            y, m, d = (year, b, a) if self.day_first or mark == "." else (year, a, b)
        clock = int(hour)
        if half:
            if not 1 <= clock <= 12:
                return None
            clock = clock % 12 + (12 if half[0] in "Pp" else 0)
        if clock > 23 or int(minute) > 59 or int(second) > 59:
            return None
        try:
            day = datetime.date(int(y), int(m), int(d)).toordinal() - EPOCH
        except ValueError:
            return None
        digits = (fraction or "") + "0"
        tenth = day * DAY + ((clock * 60 + int(minute)) * 60 + int(second)) * 10 + int(digits[0])
        return tenth, digits[1:].rstrip("0"), zone
