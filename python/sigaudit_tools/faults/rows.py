"""A log as the search for faults takes it: its hours, the stretches in which it goes on, its channels and their rows.

A channel is a detector, a pedestrian input, the coordination, or several detectors or inputs taken as one.
"""

from __future__ import annotations

import dataclasses
from collections.abc import Iterable
from typing import NamedTuple

import numpy as np
import numpy.typing as npt

from sigaudit_tools.events import Codes, Events, Params, Tenths
from sigaudit_tools.times import HOUR

Places = npt.NDArray[np.int64]
Span = tuple[int, int]

DAY = 24 * HOUR
PAUSE = 1200      # tenths: where the whole log is silent for longer than a cycle, no silence goes on over it
COORDINATION = (131, 132, 150, 151, 152)
FLASH, NO_FLASH = 173, 2
SWITCHES = {81: "detector", 82: "detector", 89: "ped_detector", 90: "ped_detector"}
ON_CODES = {"detector": 82, "ped_detector": 90}
FAULT_CODES = range(84, 89)


class Group(NamedTuple):
    """A channel: its kind, and its numbers; the coordination has the number 0."""

    kind: str
    numbers: tuple[int, ...]


@dataclasses.dataclass(frozen=True, eq=False)
class Log:
    """The rows of a signal in order, those that stand twice at one tenth once, and its hours.

    Attributes:
        tenth, code, param: the rows, shape (n,).
        hours: the first tenths of the hours that are there, rising.
        places: of each code and parameter the places of its rows, rising.
        spans: from where to where the log goes on: its hours that follow one another, cut at each pause.
    """

    tenth: Tenths
    code: Codes
    param: Params
    hours: tuple[int, ...]
    places: dict[tuple[int, int], Places]
    spans: tuple[Span, ...]

    @classmethod
    def of_events(cls, events: Events, hours: Iterable[int] = ()) -> Log:
        """Of events; hours are the first tenths of those that are known to be there without a row."""
        mine = events.where(_first_of_tenth(events))
        every = sorted({*hours, *(np.unique(mine.tenth // HOUR) * HOUR).tolist()})
        key = mine.code.astype(np.int64) << 16 | mine.param
        order = np.argsort(key, kind="stable")
        heads = np.flatnonzero(np.diff(key[order], prepend=-1) != 0)
        found = {(int(key[order[head]]) >> 16, int(key[order[head]]) & 65535): order[head:end]
                 for head, end in zip(heads, np.append(heads[1:], len(order)))}
        return cls(mine.tenth, mine.code, mine.param, tuple(every), found, tuple(_spans(mine.tenth, every)))

    @property
    def days(self) -> float:
        return len(self.hours) / 24

    def of(self, codes: Iterable[int]) -> Places:
        """The places of the rows with some codes, rising."""
        wanted = set(codes)
        some = [places for (code, _), places in self.places.items() if code in wanted]
        return np.sort(np.concatenate(some)) if some else np.empty(0, np.int64)

    def numbers(self, kind: str) -> tuple[int, ...]:
        """The numbers of the detectors, or of the pedestrian inputs, of which there is a row."""
        return tuple(sorted({number for code, number in self.places if SWITCHES.get(code) == kind}))

    def channels(self) -> list[Group]:
        """The channels of one number that have a row, in order."""
        return sorted({Group("coordination", (0,)) if code in COORDINATION else Group(SWITCHES[code], (number,))
                       for code, number in self.places if code in COORDINATION or code in SWITCHES})

    def flashes(self) -> list[Span]:
        """From where to where the signal flashes (code 173; 2 says that it doesn't): the coordination stands still."""
        found: list[Span] = []
        begin: int | None = None
        rows = self.of((FLASH,))
        for tenth, state in zip(self.tenth[rows].tolist(), self.param[rows].tolist()):
            if begin is not None:
                found.append((begin, tenth))
            begin = None if state == NO_FLASH else tenth
        return found + ([(begin, self.hours[-1] + HOUR)] if begin is not None else [])

    def faults_logged(self, numbers: Iterable[int], begin: int, end: int) -> tuple[int, ...]:
        """The codes 84 to 88 that the log has of some detectors between two tenths."""
        wanted = set(numbers)
        low, high = np.searchsorted(self.tenth, [begin, end])
        return tuple(sorted(code for (code, number), places in self.places.items()
                            if code in FAULT_CODES and number in wanted
                            and ((places >= low) & (places < high)).any()))


def _first_of_tenth(events: Events) -> npt.NDArray[np.bool_]:
    """Whether a row is the first of its tenth with its code and parameter, shape (n,)."""
    key = events.code.astype(np.int64) << 16 | events.param
    order = np.lexsort((key, events.tenth))
    first = np.ones(len(key), bool)
    first[order[1:]] = (np.diff(events.tenth[order]) != 0) | (np.diff(key[order]) != 0)
    return first


def _spans(tenth: Tenths, hours: list[int]) -> list[Span]:
    runs: list[list[int]] = []
    for hour in hours:
        if runs and runs[-1][1] == hour:
            runs[-1][1] += HOUR
        else:
            runs.append([hour, hour + HOUR])
    found: list[Span] = []
    for begin, end in runs:
        rows = tenth[slice(*np.searchsorted(tenth, [begin, end]))]
        for pause in np.flatnonzero(np.diff(rows) >= PAUSE).tolist():
            found.append((begin, int(rows[pause]) + 1))
            begin = int(rows[pause + 1])
        found.append((begin, end))
    return found
