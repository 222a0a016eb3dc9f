"""The records of one file or table of an export: which are rows of the log, and why the others aren't."""

from __future__ import annotations

import collections
import dataclasses
import re
from collections.abc import Callable, Sequence

import numpy as np
import numpy.typing as npt

from sigaudit_tools.errors import InputError
from sigaudit_tools.events import Codes, Params, Tenths
from sigaudit_tools.intake import columns
from sigaudit_tools.intake.cells import Bytes, Cells, Mask, Places, cut, distinct
from sigaudit_tools.intake.columns import Layout
from sigaudit_tools.intake.numbers import read_numbers
from sigaudit_tools.intake.stamps import Stamps, read_stamps

Names = npt.NDArray[np.intp]
Causes = npt.NDArray[np.int8]

GREATEST_CODE, GREATEST_PARAM = 255, 65535
SHOWN = 60  # letters of a record that is named
# Why a record is no row, in the order in which it is looked for.
CAUSES = ("too few fields", "not three or four fields", "other signal", "no signal", "no stamp",
          "no code from 0 to 255", "no parameter from 0 to 65535", "outside the window")
TOO_FEW, NOT_THREE_OR_FOUR, OTHER_SIGNAL, NO_SIGNAL, NO_STAMP, NO_CODE, NO_PARAM, OUTSIDE = range(len(CAUSES))
KEPT = -1
_NOWHERE: Places = np.empty(0, np.int64)
_SIGNAL = re.compile(r"[!#-+\--~]{1,32}")


@dataclasses.dataclass(frozen=True)
class Wanted:
    """Which records count: of a signal (None: of any), and from a tenth up to but without another (None: at any)."""

    signal: str | None = None
    begin: int | None = None
    end: int | None = None
    day_first: bool = False


@dataclasses.dataclass(frozen=True)
class Dropped:
    """How many records were dropped for a cause, and the first of them, with its place, in words."""

    count: int
    first: str


@dataclasses.dataclass(frozen=True, eq=False)
class Rows:
    """The rows of a log in the order in which they stand in a file, shapes (n,).

    Attributes:
        names: the signals that rows are of.
        signal: of which of them a row is.
        tenth: its tenth (`times`).
        rest: what its stamp says beyond the tenth (`stamps`).
        code, param: its event code and parameter.
        line: its line in the file, from 1, or its row in the table.
    """

    names: tuple[str, ...]
    signal: Names
    tenth: Tenths
    rest: Tenths
    code: Codes
    param: Params
    line: Places

    def __len__(self) -> int:
        return len(self.tenth)

    def __getitem__(self, places: Places | Mask | slice) -> Rows:
        """Those at some places."""
        return Rows(self.names, self.signal[places], self.tenth[places], self.rest[places], self.code[places],
                    self.param[places], self.line[places])


@dataclasses.dataclass(frozen=True)
class Records:
    """What a file or table has: its rows, how many records, those that were dropped by their cause, and how many
    stamps of rows had which zone."""

    rows: Rows
    count: int
    dropped: dict[str, Dropped]
    zones: dict[str, int]


@dataclasses.dataclass(frozen=True, eq=False)
class Part:
    """Records of one layout as columns, before it is known which are rows; shapes (n,).

    Attributes:
        line: their lines in the file, or rows in the table, from 1, rising.
        names, signal: the signals that are written, and of which of them a record is; -1 where none is written.
        stamps: their stamps.
        code, param: event codes and parameters, -1 where they aren't numbers of their ranges.
    """

    line: Places
    names: list[str]
    signal: Names
    stamps: Stamps
    code: Places
    param: Places


def read_text(text: bytes, place: str, wanted: Wanted) -> Records:
    """The records of a text in UTF-8.

    Args:
        text: lines with fields between commas, semicolons, tabs or bars; headers where they like.
        place: what it is called in what is said of it.
        wanted: which of them count.

    Raises:
        InputError: a record without a signal would be a row, and no signal is wanted.
    """
    cells = cut(text)
    known, which, headers = columns.layouts(cells)
    is_record = np.ones(len(cells), bool)
    is_record[headers] = False
    parts: list[Part] = []
    refused = {NOT_THREE_OR_FOUR: np.flatnonzero(is_record & (which == columns.UNKNOWN)), TOO_FEW: _NOWHERE}
    for number, layout in enumerate(known):
        mine = is_record & (which == number)
        short = mine & (cells.count < layout.width)
        refused[TOO_FEW] = np.append(refused[TOO_FEW], np.flatnonzero(short))
        if (mine & ~short).any():
            parts.append(_part(cells, np.flatnonzero(mine & ~short), layout, wanted.day_first))
    dropped = {cause: cells.number[lines] for cause, lines in refused.items()}

    def words(line: int) -> str:
        text = cells.line(int(np.searchsorted(cells.number, line)))
        return f"line {line} of {place}: {repr(text[:SHOWN])[1:-1]}"

    return judged(parts, dropped, wanted, place, words)


def _part(cells: Cells, lines: Places, layout: Layout, day_first: bool) -> Part:
    """The records of one layout, which stand on some lines."""
    names, signal = [], np.full(len(lines), -1)
    if layout.signal is not None:
        texts, signal = distinct(cells.chars(lines, layout.signal))
        names = [text.decode("utf-8", "replace") for text in texts]
    stamp = cells.chars(lines, layout.stamp)
    if layout.date is not None:
        stamp = _beside(cells.chars(lines, layout.date), stamp)
    return Part(cells.number[lines], names, signal, read_stamps(stamp, day_first),
                _number(cells.chars(lines, layout.code), GREATEST_CODE),
                _number(cells.chars(lines, layout.param), GREATEST_PARAM))


def _number(chars: Bytes, greatest: int) -> Places:
    value, good = read_numbers(chars)
    return np.where(good & (value <= greatest), value, -1)


def _beside(first: Bytes, second: Bytes) -> Bytes:
    """Texts with a blank and others behind them."""
    length = (first != 0).sum(axis=0)
    every = np.arange(first.shape[1])
    found = np.zeros((len(first) + 1 + len(second), first.shape[1]), np.uint8)
    found[:len(first)] = first
    found[length, every] = ord(" ")
    for place, chars in enumerate(second, 1):
        found[length + place, every] = chars
    return found


# ---- which records are rows


def judged(parts: list[Part], dropped: dict[int, Places], wanted: Wanted, place: str,
           words: Callable[[int], str]) -> Records:
    """The records of some parts, some more that are dropped, by their cause, and what is said of a line."""
    causes = [_causes(part, wanted, place) for part in parts]
    lines = {cause: [dropped.get(cause, _NOWHERE)] + [part.line[mine == cause] for part, mine in zip(parts, causes)]
             for cause in range(len(CAUSES))}
    every = {CAUSES[cause]: np.concatenate(some) for cause, some in lines.items()}
    rows = joined([_rows(part, np.flatnonzero(mine == KEPT), wanted) for part, mine in zip(parts, causes)])
    count = len(rows) + sum(map(len, every.values()))
    zones = collections.Counter[str]()
    for part, mine in zip(parts, causes):
        for zone, times in enumerate(np.bincount(part.stamps.zone[mine == KEPT]).tolist()):
            zones[part.stamps.zones[zone]] += times
    return Records(rows[np.argsort(rows.line, kind="stable")] if len(parts) > 1 else rows, count,
                   {why: Dropped(len(some), words(int(some.min()))) for why, some in every.items() if len(some)},
                   {zone: times for zone, times in zones.items() if zone and times})


def _causes(part: Part, wanted: Wanted, place: str) -> Causes:
    """Of each record the first cause for which it is no row, or KEPT.

    Raises:
        InputError: a record without a signal would be a row, and no signal is wanted.
    """
    named = [name == wanted.signal if wanted.signal is not None else True for name in part.names]
    spelled = [bool(_SIGNAL.fullmatch(name)) for name in part.names]
    other, unnamed = ~_looked_up(named, part.signal), ~_looked_up(spelled, part.signal)
    outside = np.zeros(len(part.line), bool)
    if wanted.begin is not None and wanted.end is not None:
        outside = (part.stamps.tenth < wanted.begin) | (part.stamps.tenth >= wanted.end)
    tests = ((OTHER_SIGNAL, other), (NO_SIGNAL, unnamed), (NO_STAMP, ~part.stamps.good), (NO_CODE, part.code < 0),
             (NO_PARAM, part.param < 0), (OUTSIDE, outside))
    found: Causes = np.select([mask for _, mask in tests], [cause for cause, _ in tests], KEPT).astype(np.int8)
    if wanted.signal is None and not part.names and (found == KEPT).any():
        raise InputError("its records have no signal", place, "give it by --signal ID or --config C")
    return found


def _looked_up(answers: list[bool], which: Names) -> Mask:
    """The answers for signals; yes where none is written."""
    return np.array([*answers, True])[which]


def _rows(part: Part, kept: Places, wanted: Wanted) -> Rows:
    names = tuple(part.names) or (wanted.signal or "",)
    return Rows(names, np.maximum(part.signal[kept], 0), part.stamps.tenth[kept], part.stamps.rest[kept],
                part.code[kept].astype(np.uint8), part.param[kept].astype(np.uint16), part.line[kept])


def joined(parts: Sequence[Rows]) -> Rows:
    """The rows of several files or parts, one after the other."""
    if len(parts) == 1:
        return parts[0]
    names = tuple(dict.fromkeys(name for part in parts for name in part.names))
    whole: Places = np.empty(0, np.int64)

    def column(of: Callable[[Rows], Places]) -> Places:
        return np.concatenate([whole, *map(of, parts)])

    return Rows(names, column(lambda part: np.array([names.index(name) for name in part.names], np.int64)[part.signal]),
                column(lambda part: part.tenth), column(lambda part: part.rest),
                column(lambda part: part.code.astype(np.int64)).astype(np.uint8),
                column(lambda part: part.param.astype(np.int64)).astype(np.uint16), column(lambda part: part.line))
