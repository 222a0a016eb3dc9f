"""How much likelier the rows of one group on both sides of a gap are with a hole between than without.

The last row of the group before the gap is x, the first after it y. Without a hole, the row after an x that hadn't come
up to the gap was y and came when it did: the share of it is counted among the log's own times from an x to the next
row, most of all those at this time of day. With a hole, y is the first row of a group that goes on unseen: counted are
the times before a y that last longer than the silence behind the gap. The second share over the first is a likelihood
ratio of renewal processes with marks, by empirical distributions (D. R. Cox and P. A. W. Lewis, The Statistical
Analysis of Series of Events, 1966). The gap's own time is left out of what it is compared with. If x and y are odd
together, the hole may be in any gap between them: so each has its part of the ratio, by their number. And a hole that
took no row of the group leaves x and y as they are: so the ratio counts by the chance that the next row would have come
within the gap, and the score is the logarithm of 1 and that part together. A time longer than all that were seen is as
rare as one row in those around, and no rarer; it is judged alike without a hole and behind one, by a tail from the mean
of those around on.
"""

from __future__ import annotations

import dataclasses
from collections.abc import Sequence

import numpy as np
import numpy.typing as npt

from sigaudit_tools.events import Tenths
from sigaudit_tools.holes.groups import Group
from sigaudit_tools.holes.spans import Span, columns
from sigaudit_tools.holes.usual import BINS, Floats, Ints, Lists, Times, around, bin_of, distance, numbered

Places = npt.NDArray[np.intp]

ENOUGH = 30     # times of a row: a share of one in thirty is told from none
FAR = 30_000    # no ratio is more: a day has some 30,000 tenths with rows, and shows nothing rarer
NOWHERE = -1


@dataclasses.dataclass(frozen=True, eq=False)
class Gaps:
    """Gaps of a log: the tenths of the last row before each and of the first row behind it, shape (n,)."""

    begin: Tenths
    end: Tenths

    def __len__(self) -> int:
        return len(self.begin)

    def where(self, which: npt.NDArray[np.bool_] | Places | slice | list[int]) -> Gaps:
        """Some of them."""
        return Gaps(self.begin[which], self.end[which])

    def pairs(self) -> list[Span]:
        """They as numbers."""
        return list(zip(self.begin.tolist(), self.end.tolist()))

    @classmethod
    def of(cls, pairs: list[Span]) -> Gaps:
        """Of numbers."""
        begin, end = np.array(pairs, np.int64).reshape(-1, 2).T
        return cls(begin, end)


@dataclasses.dataclass(frozen=True, eq=False)
class Sides:
    """Groups that have rows on both sides of a gap: of each its place, the gap's, and those of the two rows; (n,)."""

    group: Places
    gap: Places
    before: Places
    behind: Places


class Renewal:
    """The times from row to row of some groups, but those over a missing hour or a known hole.

    Attributes:
        groups: their names.
        tenth, mark: of all rows, group behind group; no two groups have the same mark.
        counted: whether the time from each to the next is counted.
    """

    def __init__(self, groups: Sequence[Group], known_of_bin: Ints, missing: list[Span], begins: Tenths) -> None:
        """Takes groups; of each bin the tenths that the log has of it; what of the log isn't known; and where its gaps
        begin."""
        self.groups = [group.name for group in groups]
        self.known = np.append(0, np.cumsum(known_of_bin))
        self.starts = np.cumsum([0, *(len(group.tenth) for group in groups)])
        marks = np.cumsum([0, *(group.marks for group in groups)])
        self.marks = int(marks[-1])
        self.tenth = np.concatenate([group.tenth for group in groups])
        self.mark = np.concatenate([group.mark + first for group, first in zip(groups, marks.tolist())])
        self.counted = ~uncounted(self.tenth, np.append(self.tenth[1:], 0), missing)
        self.counted[self.starts[1:] - 1] = False
        self.begins, self.begun = begins, np.searchsorted(begins, self.tenth)
        which = np.flatnonzero(self.counted)
        x, y, time = self.mark[which], self.mark[which + 1], self.tenth[which + 1] - self.tenth[which]
        place = bin_of(self.tenth[which])
        self.after = Times(x, place, time, self.marks)
        self.before = Times(y, bin_of(self.tenth[which + 1]), time, self.marks)
        self.pairs, pair = np.unique(x * self.marks + y, return_inverse=True)
        self.pair = Times(pair.astype(np.int64), place, time, len(self.pairs))

    def sides(self, gaps: Gaps) -> Sides:
        """The groups with rows on both sides of each gap.

        Those with the same mark before it at the same time of day are behind one another: lists that are looked into
        one after another are near one another then.
        """
        before, behind = np.empty((2, len(self.groups), len(gaps)), np.int64)
        for place, (start, end) in enumerate(zip(self.starts[:-1], self.starts[1:])):
            tenth = self.tenth[start:end]
            before[place] = start + np.searchsorted(tenth, gaps.begin, "right") - 1
            behind[place] = start + np.searchsorted(tenth, gaps.end)
        group, gap = np.nonzero((before >= self.starts[:-1, None]) & (behind < self.starts[1:, None]))
        before, behind = before[group, gap], behind[group, gap]
        order = np.argsort(self.mark[before] * BINS + bin_of(gaps.begin[gap]), kind="stable")
        return Sides(group[order], gap[order], before[order], behind[order])

    def scores(self, gaps: Gaps, sides: Sides) -> Floats:
        """The logarithm of how much likelier the rows on both sides are with a hole in each gap, shape as of sides.

        Args:
            gaps: of the log.
            sides: the groups that have rows on both sides of them.
        """
        begin, end = gaps.begin[sides.gap], gaps.end[sides.gap]
        before, behind = self.tenth[sides.before], self.tenth[sides.behind]
        own = (self.counted[sides.before] & (sides.behind == sides.before + 1)).astype(np.int64)
        near = Near(self, sides, bin_of(begin))
        own_x = own * (distance(bin_of(before), near.place) <= near.width_x)
        own_y = own * (distance(bin_of(behind), near.place) <= near.width_y)
        time, age, silence = behind - before, begin - before, behind - end
        mean_x = 10 + (near.sum_x - own_x * time) / np.maximum(1, near.count_x - own_x)
        mean_y = 10 + (near.sum_y - own_y * time) / np.maximum(1, near.count_y - own_y)
        # Without a hole. A time that none had is one row's more, of those around as of all, with a tail from the mean
        # on that never ends; and 1 in 20 such rows is another than all before.
        spans, seen = _spans(time, age), near.count_pair > own
        tail = (age + mean_x) / (time + mean_x) ** 2
        alive, alive_near = near.all_after.longer(near.x, age, own) + 1, near.after.longer(near.nx, age, own_x) + 4
        share = (_density(near.all_pair, near.xy, spans, own) + np.where(seen, tail, 0.05 * tail)) / alive
        share = ((_density(near.pair, near.nxy, spans, own_x) + np.where(seen, tail, 0) + 4 * share)
                 / (alive_near + seen))
        # With one that took a row, as it does where the next row would have come before the gap's end. What is silent
        # behind it for longer than all have been has the same tail.
        until = end - before
        spared = (near.all_after.longer(near.x, until, own) + 0.5) / alive
        spared = (near.after.longer(near.nx, until, own_x) + 4 * spared) / alive_near
        fresh = near.before.longer(near.ny, silence, own_y) + 0.5 * mean_y / (silence + mean_y)
        fresh = (1 - spared) * fresh / near.known
        score: Floats = np.log1p(np.minimum(FAR, fresh / share) / (1 + self._others(gaps, sides)))
        return score

    def _others(self, gaps: Gaps, sides: Sides) -> Ints:
        """How many other gaps of the log lie between the rows on both sides of each."""
        between = self.begun[sides.behind] - self.begun[sides.before]
        begun = np.searchsorted(self.begins, gaps.end) - np.searchsorted(self.begins, gaps.begin)
        others: Ints = between - begun[sides.gap]
        return others


class Near:
    """What scores count in: the times after x and from x to y, of the whole day and around; those before y around.

    Attributes:
        x, xy: numbers of lists of all_after, all_pair; nx, nxy, ny those of after, pair, before.
        width_x, width_y: how many bins to each side were taken.
        sum_x, count_x, sum_y, count_y: of the lists around.
        count_pair: of the list of the whole day.
        known: the tenths that the log has of the bins around.
    """

    def __init__(self, renewal: Renewal, sides: Sides, place: Ints) -> None:
        """For the rows on both sides of some gaps, and the bins in which these begin."""
        x, y = renewal.mark[sides.before], renewal.mark[sides.behind]
        self.place, self.x = place, x
        self.all_after, self.all_pair = renewal.after.whole, renewal.pair.whole
        keys, inverse = numbered(x * BINS + place, renewal.marks * BINS)
        width = renewal.after.widths(keys // BINS, keys % BINS, ENOUGH)
        self.after, self.nx = renewal.after.near(keys // BINS, keys % BINS, width), inverse
        self.width_x = width[inverse]
        self.sum_x, self.count_x = self.after.sums(inverse), self.after.lengths(inverse)

        keys, inverse = numbered(y * BINS + place, renewal.marks * BINS)
        width = renewal.before.widths(keys // BINS, keys % BINS, ENOUGH)
        self.before, self.ny = renewal.before.near(keys // BINS, keys % BINS, width), inverse
        self.width_y = width[inverse]
        self.sum_y, self.count_y = self.before.sums(inverse), self.before.lengths(inverse)
        known = around(renewal.known, np.zeros_like(keys), keys % BINS, width)
        self.known = np.where(known == 0, 1, known)[inverse]

        self.xy = self._pairs(renewal, x, y)
        self.count_pair = self.all_pair.lengths(self.xy)
        keys, inverse = numbered(self.xy * BINS + place, (len(renewal.pairs) + 1) * BINS)
        width = np.zeros(len(keys), np.int64)
        width[inverse] = self.width_x
        there = keys < len(renewal.pairs) * BINS
        self.pair = renewal.pair.near(keys[there] // BINS, keys[there] % BINS, width[there])
        self.nxy = np.minimum(inverse, self.pair.empty)

    @staticmethod
    def _pairs(renewal: Renewal, x: Ints, y: Ints) -> Ints:
        """The numbers of pairs of marks; that of the empty list where no such row follows such a one."""
        wanted = x * renewal.marks + y
        found = np.searchsorted(renewal.pairs, wanted)
        known = np.append(renewal.pairs, NOWHERE)[found] == wanted
        return np.where(known, found, len(renewal.pairs))


def uncounted(begin: Tenths, end: Tenths, missing: list[Span]) -> npt.NDArray[np.bool_]:
    """Whether the time from each row to the next goes over something that is missing, and so isn't counted."""
    begins, ends = columns(missing)
    after = np.searchsorted(ends, begin, "right")
    over: npt.NDArray[np.bool_] = end > np.append(begins, np.iinfo(np.int64).max)[after]
    return over


def _spans(time: Ints, age: Ints) -> tuple[tuple[Ints, Ints], ...]:
    """Three nets around a time, of a tenth, a tenth part and a half of it, not below the age that it had."""
    return ((np.maximum(time - 1, age + 1), time + 1),
            (np.maximum(time - 3 - time // 10, age + 1), time + 3 + time // 10),
            (np.maximum(time // 2 - 3, age + 1), time + time // 2 + 3))


def _density(lists: Lists, number: Ints, spans: tuple[tuple[Ints, Ints], ...], own: Ints) -> Floats:
    """How many of the times a tenth has in the spans, in the mean of the three."""
    total = np.zeros(len(number))
    for low, high in spans:
        total += np.maximum(lists.within(number, low, high) - own, 0) / (high - low + 1)
    return total / 3
