"""The rows of one channel with what each says, and the silences between them."""

from __future__ import annotations

import dataclasses
from collections.abc import Mapping, Sequence

import numpy as np
import numpy.typing as npt

from sigaudit_tools.events import Tenths
from sigaudit_tools.faults.rows import COORDINATION, DAY, ON_CODES, Group, Log, Places, Span
from sigaudit_tools.times import HOUR

Marks = npt.NDArray[np.int64]
Mask = npt.NDArray[np.bool_]
Hush = Mapping[int, Sequence[Span]]

# What a row says. NOTHING stands where a stretch of the log begins too, and where a row tells nothing, END where a
# stretch ends. BOTH are an on and an off with one stamp, as in batches: the state isn't known. Of the coordination a
# mark is the row's code and parameter, more than these.
NOTHING, END, OFF, ON, BOTH = range(5)
EVERY = -1  # any mark
_WORDS = {NOTHING: "the log's begin", OFF: "off", ON: "on", BOTH: "on and off"}
_CODE = 16
_COORDINATION_MARKS = 1 << 8

WIDTH = 2 * HOUR  # what is usual at a time is what is so from two hours before to two hours after
FEW = 20          # rows: with fewer in that time it is looked for in twice as long


def mark_in_words(mark: int) -> str:
    """A mark as it is printed."""
    if mark < _COORDINATION_MARKS:
        return _WORDS[mark]
    return f"code {mark - _COORDINATION_MARKS >> _CODE} param {mark - _COORDINATION_MARKS & 65535}"


@dataclasses.dataclass(frozen=True, eq=False)
class Spans:
    """Silences, or times at which one might begin, shapes (n,), in tenths: from, to, how far around them it is looked
    for what is usual, and the rows of the channel there."""

    begin: Places
    end: Places
    width: Places
    rows: Places

    def __len__(self) -> int:
        return len(self.begin)

    def __getitem__(self, places: Places | Mask) -> Spans:
        return Spans(self.begin[places], self.end[places], self.width[places], self.rows[places])


@dataclasses.dataclass(frozen=True, eq=False)
class Track:
    """The rows of a channel in order, each with its mark, and the ends of the stretches of the log.

    Attributes:
        tenth, mark: of each row or end, shape (n,).
        rows: the tenths of the rows that say something, shape (m,).
    """

    tenth: Tenths
    mark: Marks
    rows: Tenths

    def silences(self) -> tuple[Marks, Tenths, Tenths, Marks]:
        """Of each silence the mark of the row before it, from, to, and the mark of the row that ends it or END."""
        kept = (self.mark[:-1] != END) & (self.mark[1:] != NOTHING)
        return self.mark[:-1][kept], self.tenth[:-1][kept], self.tenth[1:][kept], self.mark[1:][kept]

    def marks(self) -> list[int]:
        """What its rows say, in order."""
        return sorted(set(self.mark.tolist()) - {NOTHING, END})

    def goes_on(self) -> Tenths:
        """The tenths at which it goes on, or may do so."""
        goes_on: Tenths = self.tenth[~np.isin(self.mark, (NOTHING, END, OFF))]
        return goes_on

    def spans(self, begin: Places, end: Places) -> Spans:
        """The time around silences from some tenths to others: as wide as wanted to have FEW rows, up to days."""
        rows = self.rows
        last, first = rows.searchsorted(begin, "right"), rows.searchsorted(end)
        width, count = np.full(len(begin), WIDTH), np.zeros(len(begin), np.int64)
        left = np.arange(len(begin))
        while len(left):
            count[left] = (last[left] - rows.searchsorted(begin[left] - width[left])
                           + rows.searchsorted(end[left] + width[left]) - first[left])
            left = left[(count[left] < FEW) & (width[left] < DAY)]
            width[left] *= 2
        return Spans(begin, end, width, np.maximum(1, count))

    def count(self, begin: Places, end: Places) -> Places:
        """The rows of the channel between some tenths and others."""
        found: Places = np.maximum(0, self.rows.searchsorted(end) - self.rows.searchsorted(begin))
        return found


def track_of(log: Log, group: Group, hush: Hush) -> Track:
    """The rows of a channel; those of a detector in `hush`, from tenth to tenth, tell nothing."""
    place, mark = _rows(log, group)
    tenth = log.tenth[place]
    if group.kind == "detector":
        mark = np.where(hushed(tenth, log.param[place], hush), NOTHING, mark)
    begin, end = np.array(log.spans, np.int64).reshape(-1, 2).T
    every = np.concatenate((begin, tenth, end))
    marks = np.concatenate((np.full(len(begin), NOTHING), mark, np.full(len(end), END)))
    kind = np.concatenate((np.zeros(len(begin)), np.ones(len(tenth)), np.full(len(end), 2)))
    order = np.lexsort((kind, every))
    every, marks = every[order], marks[order]
    both = np.flatnonzero((np.diff(every) == 0) & (marks[:-1] + marks[1:] == OFF + ON)
                          & np.isin(marks[:-1], (OFF, ON)))
    marks[both] = BOTH
    return Track(np.delete(every, both + 1), np.delete(marks, both + 1), tenth[mark != NOTHING])


def _rows(log: Log, group: Group) -> tuple[Places, Marks]:
    """The places of a channel's rows, rising, and their marks; of several numbers those alone count that go on."""
    if group.kind == "coordination":
        place = log.of(COORDINATION)
        return place, _COORDINATION_MARKS + (log.code[place].astype(np.int64) << _CODE | log.param[place])
    on = ON_CODES[group.kind]
    wanted = (on,) if len(group.numbers) > 1 else (on - 1, on)
    some = [log.places[code, number] for code in wanted for number in group.numbers if (code, number) in log.places]
    place = np.sort(np.concatenate(some)) if some else np.empty(0, np.int64)
    return place, np.where(log.code[place] == on, ON, OFF)


def hushed(tenth: Tenths, number: npt.NDArray[np.uint16], hush: Hush) -> Mask:
    """Whether rows of detectors tell nothing, shape (n,)."""
    found = np.zeros(len(tenth), bool)
    for detector, spans in hush.items():
        for begin, end in spans:
            found |= (number == detector) & (tenth >= begin) & (tenth < end)
    return found
