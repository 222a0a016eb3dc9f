"""A log as holes are looked for in it: its events, and which hours of it are there."""

from __future__ import annotations

import dataclasses
import functools
import math

import numpy as np

from sigaudit_tools.events import Events, Tenths
from sigaudit_tools.holes.renewal import Gaps
from sigaudit_tools.holes.spans import Span
from sigaudit_tools.times import HOUR

PORTION = 7     # days: a longer log is learned in portions, since traffic and plans change with the weeks


@dataclasses.dataclass(frozen=True, eq=False)
class Log:
    """A log that has an hour at least.

    Attributes:
        events: all of hours that are there.
        hours: the first tenths of these, rising; one may have no event.
    """

    events: Events
    hours: tuple[int, ...]

    @functools.cached_property
    def tenth(self) -> Tenths:
        """The tenths with rows, rising."""
        return distinct(self.events.tenth)

    @functools.cached_property
    def stretches(self) -> list[Span]:
        """The hours that follow one another without one missing, in order."""
        found: list[Span] = []
        for hour in self.hours:
            if found and found[-1][1] == hour:
                found[-1] = found[-1][0], hour + HOUR
            else:
                found.append((hour, hour + HOUR))
        return found

    @property
    def missing(self) -> list[Span]:
        """What lies between the stretches."""
        return [(a[1], b[0]) for a, b in zip(self.stretches, self.stretches[1:])]

    @functools.cached_property
    def silences(self) -> Gaps:
        """The silences of all channels with at least one tenth between two rows, in order; those before the first row
        of a stretch and after its last too."""
        parts = []
        for begin, end in self.stretches:
            low, high = np.searchsorted(self.tenth, [begin, end])
            tenth = self.tenth[low:high]
            before, after = np.append(begin - 1, tenth), np.append(tenth, end)
            silent = after > before + 1
            parts.append((np.maximum(before[silent], begin), after[silent]))
        return Gaps(*(np.concatenate([part[side] for part in parts]) for side in (0, 1)))

    def portions(self) -> list[tuple[Log, float]]:
        """Logs of at most PORTION days each, about as long as one another.

        Each with the first tenth that it isn't asked about: that of its last hour, which stands in the next one too, so
        that no gap lies between two of them.
        """
        count = -(-len(self.hours) // (24 * PORTION))
        cuts = [len(self.hours) * i // count for i in range(count + 1)]
        return [(self.of_hours(self.hours[a:b + 1]), self.hours[b] if b < len(self.hours) else math.inf)
                for a, b in zip(cuts, cuts[1:])]

    def of_hours(self, hours: tuple[int, ...]) -> Log:
        """That of some of its hours that follow one another among these."""
        return Log(self.events.between(hours[0], hours[-1] + HOUR), hours)


def distinct(tenth: Tenths) -> Tenths:
    """Tenths that never fall, each once."""
    fresh = np.ones(len(tenth), bool)
    fresh[1:] = tenth[1:] != tenth[:-1]
    return np.asarray(tenth[fresh])


def log_of(events: Events, hours: tuple[int, ...] = ()) -> Log:
    """The log of some events; `hours` are the first tenths of hours that are there too, though they have none."""
    every = np.unique(np.append(events.tenth // HOUR * HOUR, np.array(hours, np.int64)))
    return Log(events, tuple(every.tolist()))
