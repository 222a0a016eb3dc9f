"""How long a silence of a channel has to last until it is likely to be a fault, by hour of the day."""

from __future__ import annotations

import math
import statistics
from collections.abc import Iterator

import numpy as np

from sigaudit_tools.faults.rows import Group, Places
from sigaudit_tools.faults.scores import LIKELY
from sigaudit_tools.faults.tracks import Spans
from sigaudit_tools.faults.watch import LEAST, PATIENCE, Watch
from sigaudit_tools.faults.witnesses import STEP
from sigaudit_tools.times import HOUR

Minutes = list[int | None]

EACH = 15  # steps of the mesh from one beginning that is tried to the next: four in an hour


def chances(watch: Watch) -> Iterator[tuple[Group, int, Minutes]]:
    """By channel and mark, for each hour of the day the minutes that a silence from then on has to last, or None.

    The middle one of four beginnings in each hour of the log at that time of day, if nothing comes unanswered; PATIENCE
    where it takes longer, None where the log has no such hour.
    """
    begin = watch.witnesses.mesh[::EACH]
    hour = begin // HOUR % 24
    place = {group: place for place, group in enumerate(watch.tracks)}
    learned = [pair for pair, usual in watch.learned.items() if usual.chosen]
    for group, mark in sorted(learned, key=lambda pair: (place[pair[0]], pair[1])):
        minutes = _likely_after(watch, group, mark, watch.tracks[group].spans(begin, begin), answers=False)
        by_hour = [minutes[hour == each].tolist() for each in range(24)]
        yield group, mark, [statistics.median_high(each) if each else None for each in by_hour]


def likely_at(watch: Watch, group: Group, begin: int, end: int) -> int | None:
    """The tenth at which a silence of a channel had lasted long enough to be likely, to a minute.

    None where there is no such silence, or too few of its kind were learned from.
    """
    track = watch.tracks[group]
    mine = [one for one in watch.judged(-math.inf, [group]) if (one.begin, one.end) == (begin, end)]
    marks = {mark for one in mine for mark in watch.marks(group, one.mark, one.next) if (group, mark) in watch.learned}
    spans = track.spans(np.array([begin]), np.array([end]))
    minutes = [int(_likely_after(watch, group, mark, spans, answers=True)[0]) for mark in sorted(marks)]
    return begin + STEP * max(minutes) if minutes else None


def _likely_after(watch: Watch, group: Group, mark: int, spans: Spans, answers: bool) -> Places:
    """The minutes from some tenths on until silences are likely, halving: a score only grows. Shape (n,)."""
    low, high = np.full(len(spans), LEAST // STEP), np.full(len(spans), PATIENCE)
    nothing = np.zeros(len(spans), bool)
    while (low < high).any():
        middle = (low + high) // 2
        score, _ = watch.scores(group, mark, spans, spans.begin + middle * STEP, nothing, answers)
        likely, left = score >= LIKELY, low < high
        high = np.where(left & likely, middle, high)
        low = np.where(left & ~likely, middle + 1, low)
    return low
