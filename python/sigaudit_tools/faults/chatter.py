"""Detectors that chatter: that go on and off more often than vehicles make them.

In a minute, or in ten as a share of all, a detector goes on far more often than in the fullest minutes of other hours,
or far more often within half a second of going off. Hours are left out of what is usual only where each of them is told
by the others.
"""

from __future__ import annotations

import bisect
import dataclasses
import math
import operator
from collections.abc import Iterable

import numpy as np

from sigaudit_tools.events import Tenths
from sigaudit_tools.faults.rows import Log
from sigaudit_tools.faults.scores import SURE, score_of
from sigaudit_tools.faults.tails import Amounts
from sigaudit_tools.times import HOUR

Flag = tuple[int, int, float]  # from, to, score

MINUTE, TEN = 600, 6000
TOO_MANY = 60        # actuations in a minute: vehicles that follow one another take 1.5 s or more each
BOUNCE = 5           # tenths: vehicles don't follow one another that closely over one loop
AROUND = 50          # actuations, added to those of the others, so that a share by night isn't one of five
FAULTY_HOURS = 4     # a day: so many may be faulty, and the fullest of twice as many others tell what is usual
APART = 1200         # tenths: chatter goes on over pauses of two minutes


@dataclasses.dataclass(frozen=True)
class Chatter:
    """A stretch in which a detector goes on and off too often: from, to, its actuations there, and its score."""

    detector: int
    begin: int
    end: int
    count: int
    score: float


@dataclasses.dataclass(frozen=True, eq=False)
class Windows:
    """Stretches of so many tenths: where each begins that has one, rising, and its count, shapes (n,)."""

    width: int
    begin: Tenths
    count: Tenths


def chattering(log: Log, least: float) -> list[Chatter]:
    """The stretches in which a detector chatters, with a score of at least so much, by detector and time."""
    ons = {number: places for (code, number), places in sorted(log.places.items()) if code == 82}
    if not ons:
        return []
    tests = math.log10(3 * len(ons))
    others = windows(log.tenth[np.concatenate(list(ons.values()))], TEN)
    found = []
    for number, places in ons.items():
        tenth = log.tenth[places]
        flagged = sorted(_flagged(log, tenth, tenth[_bounces(log, number)], others, tests, least))
        for begin, end, score in joined(flagged):
            inside = tenth[slice(*np.searchsorted(tenth, [begin, end]))]
            found.append(Chatter(number, int(inside[0]), int(inside[-1]) + 1, len(inside), score))
    return found


def _bounces(log: Log, number: int) -> np.ndarray[tuple[int], np.dtype[np.bool_]]:
    """Whether a detector's going on follows too closely on its going off, shape (n,)."""
    on, off = log.places[82, number], log.places.get((81, number), np.empty(0, np.int64))
    last = np.searchsorted(off, on) - 1
    after = np.full(len(on), BOUNCE + 1)
    after[last >= 0] = log.tenth[on[last >= 0]] - log.tenth[off[last[last >= 0]]]
    found: np.ndarray[tuple[int], np.dtype[np.bool_]] = after <= BOUNCE
    return found


def _flagged(log: Log, tenth: Tenths, bounces: Tenths, others: Windows, tests: float, least: float) -> list[Flag]:
    """The minutes and tens of minutes of a detector with too many actuations."""
    minutes, tens = windows(tenth, MINUTE), windows(tenth, TEN)
    found = too_many(log, minutes, tests, least) + too_many(log, windows(bounces, MINUTE), tests, least)
    found += [(begin, begin + MINUTE, SURE) for begin in minutes.begin[minutes.count >= TOO_MANY].tolist()]
    of_all = others.count[np.searchsorted(others.begin, tens.begin)]
    share = dataclasses.replace(tens, count=100 * tens.count // (of_all - tens.count + AROUND))
    beyond = ([*_fullest(tens), *[0] * (_faulty(log) + 1)])[_faulty(log)]
    many = set(tens.begin[tens.count > beyond].tolist())
    return found + [flag for flag in too_many(log, share, tests, least) if flag[0] in many]


def windows(tenth: Tenths, width: int) -> Windows:
    """How many of the tenths lie in each stretch of so many."""
    begin, count = np.unique(tenth // width * width, return_counts=True)
    return Windows(width, begin, count)


def _fullest(found: Windows) -> list[int]:
    """The largest count of each hour that has one, the largest first."""
    if not len(found.begin):
        return []
    hour = found.begin // HOUR
    heads = np.flatnonzero(np.diff(hour, prepend=hour[0] - 1))
    return sorted(np.maximum.reduceat(found.count, heads).tolist(), reverse=True)


def _faulty(log: Log) -> int:
    """How many hours of the log may be faulty."""
    return FAULTY_HOURS * math.ceil(log.days)


def too_many(log: Log, found: Windows, tests: float, least: float) -> list[Flag]:
    """The windows with a count beyond what the fullest of each hour let expect, with their scores.

    Hours tell nothing of what is usual where each of them is beyond what the rest lets expect, and are so few as may be
    faulty: a hundred rows in one minute do, and two vehicles in a minute don't, as a side street has each day.
    """
    most, faulty = _fullest(found), _faulty(log)
    if len(log.hours) < 2 * faulty:
        return []
    for count in sorted(set(most)):
        hidden = bisect.bisect_right(most, -count, key=operator.neg)
        if hidden <= faulty:
            usual = Amounts(most[hidden:], len(log.hours) - hidden, 2 * faulty, 0)
            if score_of(log.days, usual.expected(count), tests) >= least:
                break
    else:
        return []
    counts, which = np.unique(found.count, return_inverse=True)
    score = np.array([score_of(log.days, usual.expected(each), tests) for each in counts.tolist()])[which]
    return [(int(found.begin[place]), int(found.begin[place]) + found.width, float(score[place]))
            for place in np.flatnonzero(score >= least).tolist()]


def joined(flags: Iterable[Flag]) -> list[Flag]:
    """Flags in order, those that are little apart as one with the highest score."""
    found: list[Flag] = []
    for begin, end, score in flags:
        if found and begin <= found[-1][1] + APART:
            found[-1] = found[-1][0], max(end, found[-1][1]), max(score, found[-1][2])
        else:
            found.append((begin, end, score))
    return found
