"""Where the rows of a channel contradict one another: what no history has, by the machines and the floors.

Most rows can't contradict those before them, whatever these were: their colours follow from the few rows before, and
each has lasted its floor since the row before. These are told from tables, all at once. The others are looked at one
by one, each from the last row that left a single colour, begun with it.
"""

from __future__ import annotations

import dataclasses
import functools
import math
from collections.abc import Mapping, Sequence
from typing import NamedTuple

import numpy as np
import numpy.typing as npt

from sigaudit_tools.holes.machine_rows import Rows, Sets, every, floors_in_order, steps, targets
from sigaudit_tools.holes.spans import Span
from sigaudit_tools.signal.channels import Channel
from sigaudit_tools.signal.machines import COLOURS, MACHINES

# Of each colour that a channel may have the earliest tenth at which it may have begun.
State = dict[str, float]

REACH = 3    # rows before one that tell its colour: after them a service goes on by the book


@dataclasses.dataclass(frozen=True, order=True)
class Contradiction:
    """A shortest stretch of rows of one channel that no history has.

    Attributes:
        tenths: how long it is.
        low, high: the tenths of its first row and of its last.
        channel: whose rows they are.
        code: the code of the last row, which can't be.
    """

    tenths: int
    low: int
    high: int
    channel: Channel
    code: int


def contradictions(channels: Mapping[Channel, Rows], blanks: Sequence[Span]) -> list[Contradiction]:
    """What no history has of some channels where rows in blanks aren't known, the shortest stretches first."""
    found = []
    for channel, rows in channels.items():
        course = Course(rows, blanks)
        for first, last in course.contradictions():
            low, high = int(course.rows.tenth[first]), int(course.rows.tenth[last])
            found.append(Contradiction(high - low, low, high, channel, int(course.rows.code[last])))
    return sorted(found)


class Course:
    """The known rows of a channel, with the blanks between them."""

    def __init__(self, rows: Rows, blanks: Sequence[Span]) -> None:
        self.blanks = blanks
        starts, ends = (np.array([blank[side] for blank in blanks], np.int64) for side in (0, 1))
        begun = np.searchsorted(starts, rows.tenth, "right")
        known = np.ones(len(rows.tenth), bool)
        if blanks:
            known = (begun == 0) | (rows.tenth >= ends[begun - 1])
        self.rows = rows.where(known)
        self.begun = begun[known]
        self.kind = rows.channel.kind
        self.tenths, self.codes = self.rows.tenth.tolist(), self.rows.code.tolist()

    def contradictions(self) -> list[tuple[int, int]]:
        """The shortest stretches that no history has, as places of their first and last rows, in order."""
        if not self.tenths:
            return []
        doubtful, resets = self.doubtful(), self.resets()
        found: list[tuple[int, int]] = []
        at = 0
        for last in doubtful.tolist():
            if last > at and not self.leads(self.begin_of(resets, at, last), last):
                first = last
                while self.leads((first, None), last):
                    first -= 1
                found.append((first, last))
                at = last
        return found

    def leads(self, begin: tuple[int, State | None], last: int) -> bool:
        """Whether a history has the rows from a place up to `last`.

        Args:
            begin: the place of the first row, and the state after it where that is known.
            last: the place of the last row.
        """
        first, state = begin
        if state is None:
            state = after_row(self.kind, dict.fromkeys(COLOURS[self.kind], -math.inf), self.tenths[first],
                              self.codes[first], self.rows.floors)
        for place in range(first + 1, last + 1):
            for blank in self.blanks[self.begun[place - 1]:self.begun[place]]:
                state = after_blank(self.kind, state, blank, self.rows.floors)
            state = after_row(self.kind, state, self.tenths[place], self.codes[place], self.rows.floors)
            if not state:
                return False
        return True

    def begin_of(self, resets: Resets, at: int, last: int) -> tuple[int, State | None]:
        """From where on rows tell what there is to know before `last`, where nothing is known before `at`."""
        nearest = int(np.searchsorted(resets.places, last)) - 1
        place = int(resets.places[nearest]) if nearest >= 0 else at
        if place <= at:
            return at, None
        return place, {COLOURS[self.kind][resets.colours[nearest]]: self.tenths[place]}

    def doubtful(self) -> npt.NDArray[np.intp]:
        """The places of the rows that some history of the few rows before might not have."""
        step, lasts = steps(self.kind), self.rows.code
        seen = np.full(len(lasts), every(self.kind), np.uint8)
        for back in range(REACH, 0, -1):
            there = np.arange(back, len(lasts))
            before = step[lasts[there - back], seen[there]]
            seen[there] = np.where(self.begun[there - back] == self.begun[there - back + 1], before, every(self.kind))
        legal = legal_sets(self.kind)[lasts]
        doubtful = (seen & ~legal) != 0
        return np.flatnonzero(doubtful | (seen == 0) | self.short(seen))

    def short(self, seen: Sets) -> npt.NDArray[np.bool_]:
        """Of each row whether a colour that may be before it, and that it ends, may last less than its floor."""
        found = np.zeros(len(seen), bool)
        lasted = np.diff(self.rows.tenth, prepend=self.rows.tenth[:1])
        lasted[1:][self.begun[1:] != self.begun[:-1]] = 0
        for colour, floor in enumerate(floors_in_order(self.rows)):
            if floor:
                ended = targets(self.kind)[self.rows.code, colour] != colour
                found |= ended & ((seen >> colour & 1) == 1) & (lasted < floor)
        return found

    def resets(self) -> Resets:
        """The rows that leave a single colour which begins with them, whatever was before the row before them."""
        colours = reset_colours(self.kind)[self.rows.code[:-1], self.rows.code[1:]]
        places = np.flatnonzero((colours >= 0) & (self.begun[:-1] == self.begun[1:]))
        return Resets(places + 1, colours[places])


class Resets(NamedTuple):
    """Places of rows, shape (n,), and the colour that each leaves, as a place in COLOURS."""

    places: npt.NDArray[np.intp]
    colours: npt.NDArray[np.int8]


def after_blank(kind: str, state: State, blank: Span, floors: Mapping[str, int]) -> State:
    """After unknown tenths: each colour that can be reached in them, as old as it can be."""
    begin, end = blank
    state, moved = dict(state), True
    while moved:
        moved = False
        for colour, after in moves(kind):
            if colour in state:
                left = max(begin, state[colour] + floors.get(colour, 0))
                if left < end and left < state.get(after, math.inf):
                    state[after], moved = left, True
    return state


def after_row(kind: str, state: State, tenth: int, code: int, floors: Mapping[str, int]) -> State:
    """After a row: no colour at all where it can't be."""
    found: State = {}
    for colour, after in MACHINES[kind][code].items():
        if colour not in state:
            continue
        if after == colour:
            found[after] = min(found.get(after, math.inf), state[colour])
        elif tenth - state[colour] >= floors.get(colour, 0):
            found[after] = min(found.get(after, math.inf), tenth)
    return found


@functools.cache
def moves(kind: str) -> tuple[tuple[str, str], ...]:
    """Each colour of a kind with each that a row can make of it."""
    return tuple({move: None for table in MACHINES[kind].values() for move in table.items()})


@functools.cache
def legal_sets(kind: str) -> Sets:
    """By code the colours in which a row of it is legal, shape (256,)."""
    legal = targets(kind) < len(COLOURS[kind])
    return np.asarray((legal << np.arange(legal.shape[1])).sum(axis=1), np.uint8)


@functools.cache
def reset_colours(kind: str) -> npt.NDArray[np.int8]:
    """By the codes of two rows that follow one another the one colour that the second leaves, begun with it; -1 where
    there may be others, or where it may have begun before. Shape (256, 256)."""
    found = np.full((256, 256), -1, np.int8)
    for before, codes in MACHINES[kind].items():
        seen = set(codes.values())
        for code, table in MACHINES[kind].items():
            left = {after for colour, after in table.items() if colour in seen}
            if len(left) == 1 and not left & {colour for colour in seen if table.get(colour) == colour}:
                found[before, code] = COLOURS[kind].index(left.pop())
    return found
