"""The colours that a channel can have had over some time, by its known rows there and nothing else."""

from __future__ import annotations

import functools
from typing import NamedTuple

import numpy as np
import numpy.typing as npt

from sigaudit_tools.explain.log import KnownLog, Places
from sigaudit_tools.holes.machine_rows import Sets, every, steps
from sigaudit_tools.holes.spans import Span
from sigaudit_tools.signal.channels import Channel
from sigaudit_tools.signal.machines import COLOURS, MACHINES

NO_CODE = -1    # of an unknown stretch


class Begin(NamedTuple):
    """When a colour began.

    Attributes:
        earliest: a tenth; None where it may have begun before the time that is looked at.
        latest: a tenth.
        row: the place of the row with which it began, where that is certain.
        holes: the unknown stretches that make the difference, in order.
    """

    earliest: int | None
    latest: int
    row: int | None
    holes: tuple[Span, ...]


class Test(NamedTuple):
    """A test of the colours that are possible: all of them are among some (`sure`), or one of them is."""

    colours: int
    sure: bool

    def of(self, sets: Sets) -> npt.NDArray[np.bool_]:
        """Whether sets of possible colours pass."""
        return np.asarray((sets & ~self.colours & 0xFF) == 0 if self.sure else (sets & self.colours) != 0)


class Course:
    """A channel over some time. An event is a row, or an unknown stretch, in which every colour can be reached.

    Attributes:
        low, high: from a tenth up to another.
        rows: of each event the place of its row in the log; 0 of an unknown stretch.
        begin, end: its tenth, or from and up to; shape (n,).
        before, after: the colours that the events before event i, and those from it on, leave at the moment before it;
            shape (n + 1,).
    """

    def __init__(self, log: KnownLog, channel: Channel, low: int, high: int) -> None:
        self.log, self.kind, self.low, self.high = log, channel.kind, low, high
        rows = log.of_channel(channel, low, high)
        stretches = np.array(log.unknown_in(low, high), np.int64).reshape(-1, 2)
        tenth = log.events.tenth[rows]
        code = log.events.code[rows].astype(np.int64)
        if channel.kind == "coordination":
            code = log.events.param[rows].astype(np.int64)
        begin = np.append(tenth, stretches[:, 0])
        order = np.argsort(begin, kind="stable")
        none = np.zeros(len(stretches), np.intp)
        self.rows, self.begin = np.append(rows, none)[order], begin[order]
        self.end = np.append(tenth, stretches[:, 1])[order]
        self.code = np.append(code, none + NO_CODE)[order]
        self.before = _carried(steps(self.kind), self.code, every(self.kind))
        self.after = _carried(_steps_back(self.kind), self.code[::-1], every(self.kind))[::-1]
        self.possible = self.before & self.after

    def colours(self, place: int) -> tuple[str, ...]:
        """The colours that are possible between an event and the one before it; after the last where there is none."""
        return tuple(colour for number, colour in enumerate(COLOURS[self.kind])
                     if self.possible[place] >> number & 1)

    def begin_of(self, place: int, colour: str) -> Begin:
        """When the colour began that the channel has before an event."""
        number = COLOURS[self.kind].index(colour)
        latest: int | None = None
        earliest: int | None = None
        row: int | None = None
        holes: list[Span] = []
        while place > 0:
            place -= 1
            low, high = int(self.begin[place]), int(self.end[place])
            can_be = bool(self.before[place] >> number & 1)
            if self.code[place] == NO_CODE:
                holes.append((low, high))
                latest, earliest = high - 1 if latest is None else latest, low
                if not can_be:
                    return Begin(earliest, latest, None, tuple(holes[::-1]))
                continue
            came = {before for before, after in MACHINES[self.kind][int(self.code[place])].items()
                    if after == colour and self.before[place] >> COLOURS[self.kind].index(before) & 1}
            if came - {colour}:
                earliest, row = low, int(self.rows[place]) if latest is None else None
                latest = low if latest is None else latest
            if colour not in came:
                return Begin(earliest, self.low if latest is None else latest, row, tuple(holes[::-1]))
        return Begin(None, self.low if latest is None else latest, None, tuple(holes[::-1]))

    def ends_at(self, colour: str, tenth: int) -> list[int]:
        """The events that are rows of a tenth and can end the colour, in order."""
        found = [place for place in self.rows_at(tenth) if colour in self.colours(place)]
        return [place for place in found if MACHINES[self.kind][int(self.code[place])][colour] != colour]

    def rows_at(self, tenth: int) -> list[int]:
        """The events that are rows of a tenth, in order."""
        low, high = np.searchsorted(self.begin, tenth), np.searchsorted(self.begin, tenth, "right")
        return [place for place in range(int(low), int(high)) if self.code[place] != NO_CODE]

    @functools.cached_property
    def pieces(self) -> tuple[Places, Places, Sets]:
        """The time as pieces, from and up to, each with the colours that are possible at the ends of its tenths."""
        lost = self.code == NO_CODE
        first, last = np.append(self.low, np.where(lost, self.end - 1, self.begin)), np.append(self.begin, self.high)
        begin, end = np.append(first, self.begin[lost]), np.append(last, self.end[lost] - 1)
        sets = np.append(self.possible, np.full(int(lost.sum()), every(self.kind), np.uint8))
        whole = np.flatnonzero(begin < end)
        whole = whole[np.argsort(begin[whole], kind="stable")]
        return begin[whole], end[whole], sets[whole]

    def run(self, tenth: int, test: Test) -> Span | None:
        """The longest time around a tenth in which the possible colours pass a test; None where they don't there."""
        begin, end, sets = self.pieces
        place = int(np.searchsorted(begin, tenth, "right")) - 1
        fails = np.flatnonzero(~test.of(sets))
        after = int(np.searchsorted(fails, place))
        if after < len(fails) and fails[after] == place:
            return None
        first = int(fails[after - 1]) + 1 if after else 0
        last = int(fails[after]) - 1 if after < len(fails) else len(begin) - 1
        return int(begin[first]), int(end[last])

    def turn(self, tenth: int, test: Test, passes: bool = True) -> int | None:
        """The place of the first row of a tenth after which the possible colours pass a test (or don't), or None."""
        return next((int(self.rows[place]) for place in self.rows_at(tenth)
                     if bool(test.of(self.possible[place + 1:place + 2])[0]) == passes), None)


def _carried(step: Sets, code: npt.NDArray[np.int64], everything: int) -> Sets:
    """The sets of colours before each event and after the last one, by the events before; shape (n + 1,).

    Each pass carries what is known on by an event, until it changes nothing.
    """
    found = np.full(len(code) + 1, everything, np.uint8)
    is_row = code != NO_CODE
    while True:
        carried = np.append(np.uint8(everything), np.where(is_row, step[code, found[:-1]], everything).astype(np.uint8))
        if np.array_equal(carried, found):
            return found
        found = carried


@functools.cache
def _steps_back(kind: str) -> Sets:
    """By code and set of colours the colours from which a row leads to one of them, shape (256, 256)."""
    colours, sets = COLOURS[kind], np.arange(256)
    found = np.zeros((256, 256), np.uint8)
    for code, table in MACHINES[kind].items():
        for colour, after in table.items():
            found[code] |= (sets >> colours.index(after) & 1).astype(np.uint8) << colours.index(colour)
    return found
