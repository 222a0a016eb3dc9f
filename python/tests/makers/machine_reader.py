"""The machines read row by row, as docs/FORMATS.md tells them: a second way to what the tools do by columns."""

from __future__ import annotations

import math
from collections.abc import Mapping, Sequence

from sigaudit_tools.signal.machines import COLOURS, MACHINES

Row = tuple[int, int]
State = dict[str, float]


class MachineReader:
    """A channel of a kind: a state has of each colour that may be the earliest tenth at which it may have begun."""

    def __init__(self, kind: str, floors: Mapping[str, int]) -> None:
        self.codes, self.floors = MACHINES[kind], floors
        self.any: State = dict.fromkeys(COLOURS[kind], -math.inf)

    def after_blank(self, state: State, begin: int, end: int) -> State:
        state = dict(state)
        for _ in range(len(self.any) ** 2):
            for table in self.codes.values():
                for colour, after in table.items():
                    if colour in state:
                        left = max(begin, state[colour] + self.floors.get(colour, 0))
                        if left < end and left < state.get(after, math.inf):
                            state[after] = left
        return state

    def after_row(self, state: State, tenth: int, code: int) -> State:
        found: State = {}
        for colour, after in self.codes[code].items():
            if colour in state and (after == colour or tenth - state[colour] >= self.floors.get(colour, 0)):
                begin = state[colour] if after == colour else tenth
                found[after] = min(found.get(after, math.inf), begin)
        return found

    def first_wrong(self, rows: Sequence[Row], blanks: Sequence[tuple[int, int]], begin: int = 0) -> int | None:
        """The place of the first row from `begin` on that no history has after those from there, or None."""
        state, waiting = self.any, [blank for blank in blanks if rows[begin][0] <= blank[0]]
        for place in range(begin, len(rows)):
            tenth, code = rows[place]
            if any(low <= tenth < high for low, high in blanks):
                continue
            while waiting and waiting[0][0] <= tenth:
                state = self.after_blank(state, *waiting.pop(0))
            state = self.after_row(state, tenth, code)
            if not state:
                return place
        return None

    def contradictions(self, rows: Sequence[Row], blanks: Sequence[tuple[int, int]]) -> list[tuple[int, int]]:
        """The shortest stretches that no history has, as places of their first and last rows, in order."""
        found, at = [], 0
        while at < len(rows):
            last = self.first_wrong(rows, blanks, at)
            if last is None:
                break
            first = last
            while self.first_wrong(rows[:last + 1], blanks, first) != last:
                first -= 1
            found.append((first, last))
            at = last
        return found
