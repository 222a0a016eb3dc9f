"""Stretches that are cut out of a log at random, as an outage would: by seeds, so that a log is always cut alike."""

from __future__ import annotations

import random
from collections.abc import Callable
from typing import NamedTuple

import numpy as np
import numpy.typing as npt

from sigaudit_tools.events import Tenths
from sigaudit_tools.holes.renewal import Gaps
from sigaudit_tools.holes.spans import Span, overlapped
from sigaudit_tools.times import HOUR

BLOCK = 1_500    # draws that are looked at together
Test = Callable[[Gaps], npt.NDArray[np.bool_]]


class Kind(NamedTuple):
    """What is cut: lengths in tenths, from the shortest to the longest, alike by their logarithms; and from which hour
    of the day up to which, or at any."""

    shortest: int
    longest: int
    hours: tuple[int, int] = (0, 24)


class Cutter:
    """Draws stretches one after another."""

    def __init__(self, seed: int, stretches: list[Span], tenth: Tenths, least: int) -> None:
        """Takes from where to where the log goes, its tenths with rows, and how long a gap is at least."""
        self.rng, self.least, self.tenth = random.Random(seed), least, tenth
        self.begins, self.ends = (np.array([stretch[side] for stretch in stretches]) for side in (0, 1))
        self.reached = np.cumsum(self.ends - self.begins)
        self.waiting: list[tuple[float, int]] = []

    def take(self, count: int, tries: int, kind: Kind, taken: Test) -> Gaps:
        """The first so many that pass a test, of so many that are drawn at most: the gaps that they leave."""
        found, left = Gaps.of([]), tries
        while left and len(found) < count:
            draws = self._draws(min(left, BLOCK))
            gaps, places = self._gaps(draws, kind)
            passed = np.flatnonzero(taken(gaps))[:count - len(found)]
            found = Gaps(np.append(found.begin, gaps.begin[passed]), np.append(found.end, gaps.end[passed]))
            used = int(places[passed[-1]]) + 1 if len(found) == count else len(draws)
            self.waiting = draws[used:] + self.waiting
            left -= used
        return found

    def _draws(self, count: int) -> list[tuple[float, int]]:
        """The next draws: a share of the length, and a tenth of the stretches, counted through."""
        whole = int(self.reached[-1])
        bits, random_share, random_bits = whole.bit_length(), self.rng.random, self.rng.getrandbits
        draws, self.waiting = self.waiting[:count], self.waiting[count:]
        while len(draws) < count:
            share, tenth = random_share(), random_bits(bits)
            while tenth >= whole:
                tenth = random_bits(bits)
            draws.append((share, tenth))
        return draws

    def _gaps(self, draws: list[tuple[float, int]], kind: Kind) -> tuple[Gaps, npt.NDArray[np.intp]]:
        """The gaps that draws leave, without those that lose no row, and the places of their draws."""
        ratio = kind.longest / kind.shortest
        length = np.array([int(kind.shortest * ratio ** share) for share, _ in draws])
        at = np.array([tenth for _, tenth in draws])
        stretch = np.searchsorted(self.reached, at, "right")
        low = self.ends[stretch] - self.reached[stretch] + at
        i, j = np.searchsorted(self.tenth, low), np.searchsorted(self.tenth, low + length)
        hour = low // HOUR % 24
        loses = (0 < i) & (i < j) & (j < len(self.tenth)) & (kind.hours[0] <= hour) & (hour < kind.hours[1])
        places = np.flatnonzero(loses)
        gaps, stretch = Gaps(self.tenth[i[places] - 1], self.tenth[j[places]]), stretch[places]
        inside = (gaps.begin >= self.begins[stretch]) & (gaps.end < self.ends[stretch])
        inside &= gaps.end - gaps.begin >= self.least
        return gaps.where(inside), places[inside]


class Examples:
    """The cuts by which the models of one log learn, drawn once for all of them."""

    def __init__(self, cutter: Cutter, kind: Kind, tries: int, taken: Test) -> None:
        """Takes what draws, what is cut, how many draws there are at most, and which of them count."""
        self.cutter, self.kind, self.left, self.taken = cutter, kind, tries, taken
        self.drawn = Gaps.of([])

    def take(self, count: int, known: list[Span]) -> Gaps:
        """The first so many that have nothing in common with holes that are known."""
        while True:
            free = np.flatnonzero(~overlapped(self.drawn.begin, self.drawn.end, known))
            if len(free) >= count or not self.left:
                return self.drawn.where(free[:count])
            tries = min(self.left, BLOCK)
            more = self.cutter.take(tries, tries, self.kind, self.taken)
            self.drawn = Gaps(np.append(self.drawn.begin, more.begin), np.append(self.drawn.end, more.end))
            self.left -= tries
