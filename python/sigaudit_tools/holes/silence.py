"""How unusual it is that a log has no row at all for so long, and how busy the signal is around."""

from __future__ import annotations

import numpy as np

from sigaudit_tools.events import Tenths
from sigaudit_tools.holes.renewal import Gaps, uncounted
from sigaudit_tools.holes.spans import Span
from sigaudit_tools.holes.usual import LONGEST, Floats, Ints, Lists, Times, bin_of

ENOUGH_GAPS = 200   # gaps around a time of day, to rank a silence among them
TAIL = 50           # the longest of these are the tail, or a tenth of all and one


class Stillness:
    """The gaps of a log between tenths with rows, but those over a missing hour or a known hole."""

    def __init__(self, tenth: Tenths, missing: list[Span]) -> None:
        self.tenth = tenth
        self.counted = np.append(~uncounted(tenth[:-1], tenth[1:], missing), False)
        which = np.flatnonzero(self.counted)
        self.times = Times(np.zeros(len(which), np.int64), bin_of(tenth[which]), tenth[which + 1] - tenth[which], 1)

    def rank(self, gaps: Gaps) -> tuple[Ints, Ints]:
        """How many gaps around the time of day of each last at least as long, and of how many."""
        lists, number = self._lists(gaps)
        return self._longer(lists, number, gaps), lists.lengths(number)

    def silent(self, gaps: Gaps) -> Floats:
        """Minus the logarithm of the share of gaps around this time of day that last as long.

        Past what is seen often, the tail of the longest is carried on by its mean.
        """
        lists, number = self._lists(gaps)
        count, whole, length = self._longer(lists, number, gaps), lists.lengths(number), gaps.end - gaps.begin
        most = np.minimum(TAIL, whole // 10 + 1)
        seen = -np.log(np.maximum(1, count) / np.maximum(1, whole))
        times = np.append(lists.keyed & LONGEST, 0)
        sums = np.append(0, np.cumsum(times))
        end = lists.starts[number + 1]
        first = np.maximum(end - most, 0)
        edge = times[first]
        excess = sums[end] - sums[first] - most * edge - (length - edge) * self._own(gaps)
        mean = np.maximum(1.0, excess / most + 1)
        beyond = np.maximum(0, length - edge) / mean - np.log(most / np.maximum(1, whole))
        return np.where((count >= most) | (whole <= most), seen, beyond)

    def busy(self, gaps: Gaps, reach: int) -> Floats:
        """The logarithm of how many tenths with rows there are so near each gap."""
        before = np.searchsorted(self.tenth, gaps.begin, "right") - np.searchsorted(self.tenth, gaps.begin - reach)
        behind = np.searchsorted(self.tenth, gaps.end + reach, "right") - np.searchsorted(self.tenth, gaps.end)
        return np.asarray(np.log(1 + before + behind))

    def _lists(self, gaps: Gaps) -> tuple[Lists, Ints]:
        """The lists of the gaps around, and the number of that of each gap."""
        places, number = np.unique(bin_of(gaps.begin), return_inverse=True)
        marks = np.zeros(len(places), np.int64)
        return self.times.near(marks, places, self.times.widths(marks, places, ENOUGH_GAPS)), number

    def _own(self, gaps: Gaps) -> Ints:
        """1 where the gap is itself among those that are counted, else 0."""
        place = np.searchsorted(self.tenth, gaps.begin, "right")
        inside = np.minimum(place, len(self.tenth) - 1)
        is_own = (place < len(self.tenth)) & (self.tenth[inside] == gaps.end) & self.counted[np.maximum(place - 1, 0)]
        return np.asarray(is_own, np.int64)

    def _longer(self, lists: Lists, number: Ints, gaps: Gaps) -> Ints:
        return lists.longer(number, gaps.end - gaps.begin - 1, self._own(gaps))
