"""How often chance makes a silence see so much: a geometric tail, learned from the silences that see the most.

Of those, the forty largest or one in fifty, the chance falls with each further event by a constant factor; the factor
is estimated from them, and held for as uncertain as so few make it. The three largest of a day count only as no smaller
than the next, since they may be faults themselves, and the silence that is judged is left out.
"""

from __future__ import annotations

import dataclasses
import math
from collections.abc import Iterable

ENOUGH = 60          # silences: with fewer, a tail of twenty would be more than a third of all
TOP, SHARE = 40, 50  # silences in the tail: forty a day, as far as a third of all goes, or one in fifty
FAULTS = 3           # silences a day: so many of a channel may be faults
CERTAINTY = 40       # silences: that a tail is geometric is no surer than so many make it, however many there are


@dataclasses.dataclass(frozen=True)
class Tail:
    """Where a tail begins, how many are in it and the natural logarithm of one more, how it falls with each event, and
    from how many that is learned."""

    edge: int
    reached: int
    log_reached: float
    fall: float
    learned: int


class Amounts:
    """How many silences saw how much of one witness.

    Args:
        amounts: what those saw that are measured.
        count: how many silences there are.
        top: how many the tail holds.
        faults: how many of the largest may be faults.
    """

    def __init__(self, amounts: Iterable[int], count: int, top: int, faults: int) -> None:
        self.count, self.top, self.faults = count, top, faults
        self.times: dict[int, int] = {}
        for amount in amounts:
            self.times[amount] = self.times[amount] + 1 if amount in self.times else 1
        self.times.pop(0, None)
        self.in_order = sorted(self.times.items(), reverse=True)
        self.tails: dict[int | None, Tail] = {}

    def tail(self, without: int | None = None) -> Tail:
        """The tail, learned without a silence that saw `without`."""
        key = without if without in self.times else None if without is None else 0
        if key not in self.tails:
            self.tails[key] = self._learned(without)
        return self.tails[key]

    def _learned(self, without: int | None) -> Tail:
        edge, reached = self._edge(without)
        if edge == 0:
            reached = self.count - (without is not None)
        spare = self.faults if self.faults < reached // 2 else reached // 2
        excess, largest, left = 0, edge, spare
        for amount, times in self.in_order:
            if amount <= edge:
                break
            times -= amount == without
            hidden = times if times < left else left
            left, times = left - hidden, times - hidden
            if times and largest == edge:
                largest = amount
            excess += times * (amount - edge)
        excess += spare * (largest - edge)
        learned = reached - spare + 1
        return Tail(edge, reached, math.log(reached + 1), math.log1p(1 / ((excess + 1) / learned)),
                    learned if learned < CERTAINTY else CERTAINTY)

    def _edge(self, without: int | None) -> tuple[int, int]:
        """The least amount in the tail, 0 where it holds all, and how many have that or more."""
        reached = 0
        for amount, times in self.in_order:
            reached += times - (amount == without)
            if reached >= self.top:
                return amount, reached
        return 0, reached

    def expected(self, amount: int, without: int | None = None) -> float:
        """The natural logarithm of how many silences of the log would see so much by chance.

        With the factor known it would fall by `fall` for each event; it is known from `learned` silences alone.
        """
        tail = self.tail(without)
        if amount <= tail.edge:
            return math.log(self.count + 1)
        return tail.log_reached - tail.learned * math.log1p((amount - tail.edge) * tail.fall / tail.learned)

    def need(self, expected: float) -> int:
        """The least that has to be seen so that no more than expected (its logarithm) are."""
        tail = self.tail()
        more = tail.learned * math.expm1((tail.log_reached - expected) / tail.learned) / tail.fall
        return tail.edge + max(1, math.ceil(more))


def tail_size(count: int, days: float) -> int:
    """How many of so many silences the tail holds."""
    return max(ENOUGH // 3, min(max(TOP, round(TOP * days)), count // 3), count // SHARE)


def fault_size(count: int, days: float) -> int:
    """How many of so many silences may be faults."""
    return max(1, min(round(FAULTS * days), FAULTS * count // ENOUGH))
