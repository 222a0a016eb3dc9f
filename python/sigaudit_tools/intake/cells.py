"""A text cut into lines and fields, as places in its bytes: no field is a Python text until somebody asks for it."""

from __future__ import annotations

import csv
import dataclasses
import re

import numpy as np
import numpy.typing as npt

Bytes = npt.NDArray[np.uint8]
Places = npt.NDArray[np.int64]
Mask = npt.NDArray[np.bool_]

MARKS = b",;\t|"
LOOKED_AT = 100   # lines with something on them, by which the mark between fields is found
WIDEST = 64       # bytes of a field that is looked into: no stamp, signal, code or parameter is longer
LONGEST_ODD = 1 << 16
_NEWLINE, _RETURN, _QUOTE, _SPACE, _TAB = b'\n\r" \t'


@dataclasses.dataclass(frozen=True, eq=False)
class Cells:
    """The lines of a text that have something on them, and their fields without blanks and quotes around.

    Attributes:
        data: the bytes of the text in UTF-8, with zeros after them, and fields that had to be made anew.
        number: the number of each line in the text, from 1, shape (n,).
        line_start, line_end: where its bytes begin and end, shape (n,).
        first: which of the fields is its first, shape (n,).
        count: how many fields it has, shape (n,).
        start, end: where the bytes of each field begin and end, shape (m,).
    """

    data: Bytes
    number: Places
    line_start: Places
    line_end: Places
    first: Places
    count: Places
    start: Places
    end: Places

    def __len__(self) -> int:
        return len(self.number)

    def line(self, place: int) -> str:
        """The text of a line; what isn't UTF-8 is replaced."""
        return self._text(self.line_start[place], self.line_end[place])

    def fields(self, place: int) -> list[str]:
        """The fields of a line."""
        begin = int(self.first[place])
        every = range(begin, begin + int(self.count[place]))
        return [self._text(self.start[field], self.end[field]) for field in every]

    def _text(self, start: int, end: int) -> str:
        return self.data[start:end].tobytes().decode("utf-8", "replace")

    def chars(self, lines: Places, column: int) -> Bytes:
        """The bytes of the fields of a column, shape (width, lines): byte j of each field, zeros after its end.

        Of a field that is longer than WIDEST the bytes are zeros.
        """
        fields = self.first[lines] + column
        return gathered(self.data, self.start[fields], self.end[fields])


def gathered(data: Bytes, start: Places, end: Places) -> Bytes:
    """The bytes between some places, shape (width, n), zeros after their ends; all zeros where there are too many.

    After the last place WIDEST bytes more have to be there.
    """
    length = end - start
    length = np.where(length > WIDEST, 0, length)
    width = int(length.max(initial=0))
    found = np.zeros((width, len(start)), np.uint8)
    least = int(length.min(initial=0))
    for place in range(width):
        found[place] = data[start + place]
        if place >= least:
            found[place][place >= length] = 0
    return found


def cut(text: bytes) -> Cells:
    """The lines and fields of a text in UTF-8; the mark between fields is the one that most of its first lines have."""
    data = np.frombuffer(text + bytes(WIDEST + 1), np.uint8)
    start, end = _lines(data, len(text))
    number = np.arange(1, len(start) + 1)
    start_of_field, _ = _stripped(data, start, end)
    filled = start_of_field < end
    start, end, number = start[filled], end[filled], number[filled]
    return _fields(data, number, start, end, mark_of(text, start, end))


def mark_of(text: bytes, start: Places, end: Places) -> int:
    """The mark that stands twice or more in most of the first lines."""
    first = [text[a:b] for a, b in zip(start[:LOOKED_AT].tolist(), end[:LOOKED_AT].tolist())]
    return max(MARKS, key=lambda mark: sum(line.count(mark) > 1 for line in first))


def _lines(data: Bytes, size: int) -> tuple[Places, Places]:
    """Where lines begin and end; they end with a newline, a return, or both."""
    text = data[:size]
    stops = np.flatnonzero((text == _NEWLINE) | (text == _RETURN))
    if len(stops) and (text[stops] == _RETURN).any():
        second = (text[stops] == _NEWLINE) & (stops > 0) & (data[stops - 1] == _RETURN)
        stops = stops[~second]
    start = np.concatenate(([0], stops + 1 + ((data[stops] == _RETURN) & (data[stops + 1] == _NEWLINE))))
    return start, np.append(stops, size)


def _stripped(data: Bytes, start: Places, end: Places) -> tuple[Places, Places]:
    """The places without blanks and tabs at both ends."""
    start, end = start.copy(), end.copy()
    left = np.flatnonzero(start < end)
    while len(left := left[(start[left] < end[left]) & _is_blank(data[start[left]])]):
        start[left] += 1
    left = np.flatnonzero(start < end)
    while len(left := left[(start[left] < end[left]) & _is_blank(data[end[left] - 1])]):
        end[left] -= 1
    return start, end


def _is_blank(chars: Bytes) -> Mask:
    return np.isin(chars, (_SPACE, _TAB))


def _fields(data: Bytes, number: Places, line_start: Places, line_end: Places, mark: int) -> Cells:
    marks = np.flatnonzero(data == mark)
    quotes = np.flatnonzero(data == _QUOTE)
    odd: Places = np.empty(0, np.int64)
    if len(quotes):
        marks, odd = _outside_quotes(data, marks, quotes, line_start, line_end, mark)
    before = np.searchsorted(marks, line_start)
    count = np.searchsorted(marks, line_end) - before + 1
    first = np.cumsum(count) - count
    start = np.empty(int(count.sum()), np.int64)
    end = np.empty_like(start)
    # a mark ends a field of its line and begins the next; marks outside all lines don't count
    inside = np.ones(len(start), bool)
    inside[first] = False
    kept = np.repeat(before - first, count)[inside] + np.flatnonzero(inside) - 1
    start[first], start[inside] = line_start, marks[kept] + 1
    marked = np.append(inside, False)[1:]
    end[~marked], end[marked] = line_end, marks[kept]
    if len(quotes):
        quoted = (data[start] == _QUOTE) & (end - start >= 2)
        start, end = start + quoted, end - quoted
    start, end = _stripped(data, start, end)
    cells = Cells(data, number, line_start, line_end, first, count, start, end)
    return _with_odd(cells, odd, mark) if len(odd) else cells


def _outside_quotes(data: Bytes, marks: Places, quotes: Places, line_start: Places, line_end: Places,
                    mark: int) -> tuple[Places, Places]:
    """The marks that stand in no quotes, and the lines whose quotes don't just stand around whole fields."""
    line = np.searchsorted(line_start, quotes, "right") - 1
    within = (line >= 0) & (quotes < line_end[np.maximum(line, 0)])
    quotes, line = quotes[within], line[within]
    first = np.searchsorted(quotes, line_start)
    closes = (np.arange(len(quotes)) - first[line]) % 2 == 1
    after, before = data[quotes + 1], data[quotes - 1]
    good = np.where(closes, (after == mark) | (quotes + 1 == line_end[line]),
                    (before == mark) | (quotes == line_start[line]))
    lonely = np.flatnonzero((np.searchsorted(quotes, line_end) - first) % 2 == 1)
    of_mark = np.searchsorted(line_start, marks, "right") - 1
    outside = (np.searchsorted(quotes, marks) - first[of_mark]) % 2 == 0
    return marks[outside], np.union1d(line[~good], lonely)


def _with_odd(cells: Cells, odd: Places, mark: int) -> Cells:
    """With the fields of lines with odd quotes as csv reads them, after those of all others."""
    first, count = cells.first.copy(), cells.count.copy()
    extra: list[tuple[int, int]] = []
    texts: list[bytes] = []
    at = len(cells.data)
    for place in odd.tolist():
        line = cells.line(place)
        fields = next(csv.reader([line], delimiter=chr(mark))) if len(line) < LONGEST_ODD else [line]
        first[place], count[place] = len(cells.start) + len(extra), len(fields)
        for field in fields:
            text = re.sub(r"^[ \t]+|[ \t]+$", "", field).encode()
            extra.append((at, at + len(text)))
            texts.append(text)
            at += len(text)
    data = np.concatenate((cells.data, np.frombuffer(b"".join(texts) + bytes(WIDEST + 1), np.uint8)))
    start, end = np.array(extra, np.int64).reshape(-1, 2).T
    return dataclasses.replace(cells, data=data, first=first, count=count,
                               start=np.append(cells.start, start), end=np.append(cells.end, end))


def distinct(chars: Bytes) -> tuple[list[bytes], npt.NDArray[np.intp]]:
    """The distinct columns of bytes, shape (width, n), as bytes without zeros at their ends; and which each is."""
    width, size = chars.shape
    if size == 0 or width == 0:
        return [b""] * min(size, 1), np.zeros(size, np.intp)
    if bool((chars == chars[:, :1]).all()):
        return [chars[:, 0].tobytes().rstrip(b"\0")], np.zeros(size, np.intp)
    texts, which = np.unique(np.ascontiguousarray(chars.T).view(f"S{width}").ravel(), return_inverse=True)
    return texts.tolist(), which
