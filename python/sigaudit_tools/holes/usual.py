"""Which times between two rows are usual at a time of day: counts of them, for many gaps at once.

Times are kept by a mark (of the row before, of both, of the row behind) and by the quarter of an hour of the day, the
bin. What is usual at a bin is what stands in the bins around it, so many to each side that there is enough.
"""

from __future__ import annotations

import dataclasses
from typing import Literal

import numpy as np
import numpy.typing as npt

from sigaudit_tools.events import Tenths
from sigaudit_tools.times import DAY

Ints = npt.NDArray[np.int64]
Floats = npt.NDArray[np.float64]

BIN = 9_000             # tenths: what is usual is counted by quarters of an hour of the day
BINS = DAY // BIN
ALL = BINS // 2         # so many bins to each side are the whole day
WIDTHS = (3, 6, 12, 24, ALL)    # so many to each side are counted together, until there is enough
SHIFT = 26              # bits of a time: none that is counted is longer than the week that is learned at once
LONGEST = (1 << SHIFT) - 1


def bin_of(tenth: Tenths) -> Ints:
    """The bin of the day in which a tenth lies, 0 to BINS - 1."""
    return tenth // BIN % BINS


def distance(place: Ints, other: Ints) -> Ints:
    """How many bins lie between two, over midnight where that is shorter."""
    away = (place - other) % BINS
    return np.minimum(away, BINS - away)


def around(cumulated: Ints, first: Ints, place: Ints, width: Ints) -> Ints:
    """How much stands in the bins so many to each side of one.

    Args:
        cumulated: rising sums over rows of BINS cells, with a 0 before them all.
        first: the first cell of the row.
        place: the bin, 0 to BINS - 1.
        width: the bins to each side; ALL is the whole row.
    """
    low, high = place - width, place + width + 1
    sums = cumulated[first + np.minimum(high, BINS)] - cumulated[first + np.maximum(low, 0)]
    sums = sums + cumulated[first + np.maximum(high - BINS, 0)] - cumulated[first]
    sums = sums + cumulated[first + BINS] - cumulated[first + BINS + np.minimum(low, 0)]
    return np.where(width == ALL, cumulated[first + BINS] - cumulated[first], sums)


def numbered(key: Ints, count: int) -> tuple[Ints, Ints]:
    """The keys that there are, from 0 up to `count`, rising; and the place of each key among them."""
    there = np.zeros(count, bool)
    there[key] = True
    number = np.cumsum(there) - 1
    return np.flatnonzero(there), number[key]


@dataclasses.dataclass(frozen=True, eq=False)
class Lists:
    """Lists of times, each in order, behind one another; the last one is empty.

    Attributes:
        keyed: all times, the number of the list in the upper bits, rising.
        starts: where each list begins in `keyed`, and the end.
    """

    keyed: Ints
    starts: Ints

    @classmethod
    def of(cls, number: Ints, time: Ints, count: int) -> Lists:
        """Of times with the number of the list that each is in, of so many lists."""
        starts = np.zeros(count + 2, np.int64)
        np.cumsum(np.bincount(number, minlength=count + 1), out=starts[1:])
        return cls(np.sort(number << SHIFT | time, kind="stable"), starts)

    @property
    def empty(self) -> int:
        """The number of the empty list."""
        return len(self.starts) - 2

    def lengths(self, number: Ints) -> Ints:
        """How many times are in these lists."""
        lengths: Ints = self.starts[number + 1] - self.starts[number]
        return lengths

    def sums(self, number: Ints) -> Ints:
        """The sums of these lists."""
        sums = np.zeros(len(self.keyed) + 1, np.int64)
        np.cumsum(self.keyed & LONGEST, out=sums[1:])
        found: Ints = sums[self.starts[number + 1]] - sums[self.starts[number]]
        return found

    def times(self, number: int) -> Ints:
        """The times of a list, in order."""
        found: Ints = self.keyed[self.starts[number]:self.starts[number + 1]] & LONGEST
        return found

    def longer(self, number: Ints, than: Ints, own: Ints) -> Ints:
        """How many times of each list are longer than one, but for so many of the gap's own."""
        longer: Ints = np.maximum(self.starts[number + 1] - self._place(number, than, "right") - own, 0)
        return longer

    def within(self, number: Ints, low: Ints, high: Ints) -> Ints:
        """How many times of each list are from `low` to `high`."""
        found: Ints = self._place(number, high, "right") - self._place(number, low, "left")
        return found

    def _place(self, number: Ints, time: Ints, side: Literal["left", "right"]) -> Ints:
        return np.asarray(np.searchsorted(self.keyed, number << SHIFT | np.minimum(time, LONGEST), side))


class Times:
    """Times by marks and bins."""

    def __init__(self, mark: Ints, place: Ints, time: Ints, marks: int) -> None:
        """Takes times with their marks, of which there are so many, and their bins; shapes (n,)."""
        cell = mark * BINS + place
        self.cells = np.zeros(marks * BINS + 1, np.int64)
        np.cumsum(np.bincount(cell, minlength=marks * BINS), out=self.cells[1:])
        self.by_cell = np.sort(cell << SHIFT | time, kind="stable") & LONGEST
        self.whole = Lists.of(mark, time, marks)

    def widths(self, mark: Ints, place: Ints, least: int) -> Ints:
        """How many bins to each side of one have enough of a mark."""
        found = np.full(len(mark), ALL, np.int64)
        for width in reversed(WIDTHS[:-1]):
            enough = around(self.cells, mark * BINS, place, np.full_like(place, width)) >= least
            found[enough] = width
        return found

    def near(self, mark: Ints, place: Ints, width: Ints) -> Lists:
        """For each mark, bin and width a list of the times around."""
        first = mark * BINS
        low, high = place - width, place + width + 1
        low, high = np.where(width == ALL, 0, low), np.where(width == ALL, BINS, high)
        number = np.arange(len(mark))
        begins = np.concatenate([first + np.maximum(low, 0), first, first + BINS + np.minimum(low, 0)])
        ends = np.concatenate([first + np.minimum(high, BINS), first + np.maximum(high - BINS, 0), first + BINS])
        begins, ends = self.cells[begins], self.cells[ends]
        lengths = ends - begins
        offsets = np.cumsum(lengths) - lengths
        index = np.arange(int(lengths.sum())) + np.repeat(begins - offsets, lengths)
        return Lists.of(np.repeat(np.tile(number, 3), lengths), self.by_cell[index], len(mark))
