"""The rows of a log on which verdicts stand, for a page: each with its line in the file of its hour."""

from __future__ import annotations

import dataclasses
from typing import NamedTuple

import numpy as np
import numpy.typing as npt

from sigaudit_tools.answer import Answer
from sigaudit_tools.events import Events
from sigaudit_tools.report.svg import Stretch
from sigaudit_tools.signal.channels import CHANNELS, NONE, Channel, channel_ids
from sigaudit_tools.signal.config import Config
from sigaudit_tools.times import HOUR

Places = npt.NDArray[np.int64]
Mask = npt.NDArray[np.bool_]

# A longer stretch is shown by the rows of the rule's channels, and so many others at its ends and around its silence.
MOST_ROWS, ENDS = 60, 12


class Line(NamedTuple):
    """A row as it stands in a file: the line's number, the tenth, code and parameter, whether it is of one of the
    rule's channels; or, where `left_out` isn't 0, so many rows of other channels that aren't shown."""

    number: int
    tenth: int
    code: int
    param: int
    own: bool
    left_out: int = 0


@dataclasses.dataclass(frozen=True, eq=False)
class KnownLog:
    """The rows that the program knew at the end: those at blanked tenths aren't there, and repeats neither.

    Attributes:
        events: the rows.
        line: of each its line in its hour's file, from 1, shape (n,).
        channel: of each its channel as a place in CHANNELS, or NONE, shape (n,).
        files: the file of each hour that is held, by the tenth at which the hour begins.
        unknown: the stretches that aren't known, in order.
    """

    events: Events
    line: Places
    channel: Places
    files: dict[int, str]
    unknown: list[Stretch]

    @classmethod
    def of(cls, answer: Answer, events: Events) -> KnownLog:
        """That of an answer.

        Args:
            answer: the answer.
            events: the rows of all hours that it holds, each hour's as its file has them below a head.
        """
        start = answer.config.start_tenth
        files = {start + hour * HOUR: held.file for hour, held in answer.known.held.items()}
        hour = events.tenth // HOUR * HOUR
        first = np.searchsorted(hour, hour)
        line = np.arange(len(events)) - first + 2
        channel = channel_ids(events.code, events.param).astype(np.int64)
        unknown = answer.unknown()
        known = ~_inside(events, unknown) & ~_repeated(events, channel)
        return cls(events.where(known), line[known], channel[known], files, unknown)

    def unknown_in(self, low: int, high: int) -> list[Stretch]:
        """The unknown stretches, as far as they reach into the time from low up to high."""
        return [(max(begin, low), min(end, high)) for begin, end in self.unknown if begin < high and low < end]

    def silence(self, low: int, high: int) -> Stretch | None:
        """The longest time from low to high without a row, known to be so; None where nothing is known."""
        first, last = np.searchsorted(self.events.tenth, [low, high + 1])
        tenth = self.events.tenth[first:last]
        holes = np.array(self.unknown_in(low, high + 1), np.int64).reshape(-1, 2)
        ends = np.array([low, high], np.int64)
        begin: Places = np.concatenate((ends[:1], tenth, holes[:, 0], ends[1:]))
        end: Places = np.concatenate((ends[:1], tenth, holes[:, 1], ends[1:]))
        order = np.lexsort((end, begin))
        gaps = begin[order][1:] - end[order][:-1]
        at = int(gaps.argmax())
        if gaps[at] <= 0 and len(holes):
            return None
        return int(end[order][at]), int(begin[order][at + 1])

    def lines(self, stretch: Stretch, channels: tuple[Channel, ...]) -> list[Line]:
        """The rows of a stretch (its first and its last tenth), all of a short one."""
        first, last = np.searchsorted(self.events.tenth, [stretch[0], stretch[1] + 1])
        own = np.isin(self.channel[first:last], [CHANNELS.index(channel) for channel in channels])
        shown = np.ones(last - first, bool) if last - first <= MOST_ROWS else self._shown(first, last, own, stretch)
        found, left_out = [], 0
        for place in range(last - first):
            if not shown[place]:
                left_out += 1
                continue
            at = first + place
            found.append(Line(int(self.line[at]), int(self.events.tenth[at]), int(self.events.code[at]),
                              int(self.events.param[at]), bool(own[place]), left_out))
            left_out = 0
        return found

    def _shown(self, first: int, last: int, own: Mask, stretch: Stretch) -> Mask:
        """Which rows of a long stretch are shown: the rule's own, those at its ends and around its silence."""
        tenth, place = self.events.tenth[first:last], np.arange(last - first)
        silence = self.silence(*stretch)
        near = int(np.searchsorted(tenth, silence[0])) if silence else 0
        keep: Mask = own | (place < ENDS) | (place >= len(place) - ENDS) | (np.abs(place - near) <= ENDS // 2)
        # A row alone between two that are shown is shown too.
        keep[1:-1] |= keep[:-2] & keep[2:]
        return keep

    def files_of(self, lines: list[Line]) -> list[str]:
        """The files in which lines stand, each once, by name."""
        return sorted({self.files[line.tenth // HOUR * HOUR] for line in lines})


def _inside(events: Events, stretches: list[Stretch]) -> Mask:
    """Which events lie in one of some stretches, which are in order and don't touch."""
    low, high = np.array(stretches, np.int64).reshape(-1, 2).T
    place = np.searchsorted(low, events.tenth, side="right") - 1
    inside: Mask = (place >= 0) & (events.tenth < np.append(high, 0)[place])
    return inside


def _repeated(events: Events, channel: Places) -> Mask:
    """Which events the program leaves out: equal to the one before of its tenth and channel, or of none to any."""
    code_param = events.code.astype(np.int64) << 16 | events.param
    among = np.where(channel == NONE, code_param + len(CHANNELS), channel)
    order = np.lexsort((among, events.tenth))
    again = np.zeros(len(events), bool)
    again[1:] = ((np.diff(events.tenth[order]) == 0) & (np.diff(among[order]) == 0)
                 & (np.diff(code_param[order]) == 0))
    found = np.empty(len(events), bool)
    found[order] = again
    return found


def channels_of(name: str, config: Config) -> tuple[Channel, ...]:
    """The channels that the rule of a name looks at."""
    words = name.split(" ")
    number = int(words[1])
    if words[0] == "conflict":
        return Channel("phase", number), Channel("phase", int(words[2]))
    if words[0] == "companion":
        return Channel("ped", number), Channel("phase", number)
    if words[0] == "parents":
        parents = next(overlap.parents for overlap in config.overlaps if overlap.number == number)
        return Channel("overlap", number), *(Channel("phase", phase) for phase in parents)
    return (Channel(words[0], number),)
