"""The channels of a signal: what a row of the log is a row of."""

from __future__ import annotations

from typing import NamedTuple

import numpy as np
import numpy.typing as npt

from sigaudit_tools.events import Codes, Events, Params

Ids = npt.NDArray[np.int16]


class Channel(NamedTuple):
    """A channel: its kind and its number; the coordination has the number 0.

    Sorted by kind and number.
    """

    kind: str
    number: int

    @property
    def name(self) -> str:
        """As people and the program write it: `phase 2`, `ped_detector 4`, `coordination`."""
        return self.kind if self.kind == "coordination" else f"{self.kind} {self.number}"

    @classmethod
    def named(cls, name: str) -> Channel:
        """The channel of a name as a configuration has it, `phase 2`.

        Raises:
            ValueError: it is no such name.
        """
        kind, number = name.split(" ")
        return cls(kind, int(number))


# Of each kind its event codes, and the greatest number of such a channel; the least is 1.
CODES: dict[str, tuple[tuple[int, ...], int]] = {
    "phase": ((0, 1, 7, 8, 9, 10, 11, 12), 16),
    "ped": ((21, 22, 23, 24), 16),
    "overlap": ((61, 62, 63, 64, 65, 66), 16),
    "detector": ((81, 82, 83, 84, 85, 86, 87, 88), 128),
    "ped_detector": ((89, 90), 16),
    "preempt_input": ((102, 104), 16),
    "preempt": ((105, 106, 107, 111), 16),
}
COORDINATION = Channel("coordination", 0)
COORDINATION_CODE = 150
COORDINATION_STATES = 7
# Every channel that a log may have; the id of a channel is its place here.
CHANNELS: tuple[Channel, ...] = (COORDINATION, *(
    Channel(kind, number) for kind, (_, most) in CODES.items() for number in range(1, most + 1)))
IDS: dict[Channel, int] = {channel: place for place, channel in enumerate(CHANNELS)}
NONE = -1
_KINDS = {code: (kind, most) for kind, (codes, most) in CODES.items() for code in codes}


def _tables() -> tuple[Ids, Params]:
    """By code the id of the channel before the first of its kind, and how many channels the kind has."""
    before, most = np.zeros(256, np.int16), np.zeros(256, np.uint16)
    for kind, (codes, greatest) in CODES.items():
        before[list(codes)] = IDS[Channel(kind, 1)] - 1
        most[list(codes)] = greatest
    return before, most


_BEFORE, _MOST = _tables()


def channel_ids(code: Codes, param: Params) -> Ids:
    """The channel of each row, as a place in `CHANNELS`; NONE where a row is of none. Shapes (n,)."""
    param = param.astype(np.uint16, copy=False)
    known = (param >= 1) & (param <= _MOST[code])
    found = np.where(known, _BEFORE[code] + param.astype(np.int32), NONE).astype(np.int16)
    found[(code == COORDINATION_CODE) & (param < COORDINATION_STATES)] = IDS[COORDINATION]
    return found


def channel_of(code: int, param: int) -> Channel | None:
    """The channel of one row, or None."""
    if code == COORDINATION_CODE and param < COORDINATION_STATES:
        return COORDINATION
    kind, most = _KINDS.get(code, ("", 0))
    return Channel(kind, param) if 1 <= param <= most else None


def by_channel(events: Events) -> dict[Channel, npt.NDArray[np.intp]]:
    """Of each channel that the events have the places of its rows, rising; channels in order of kind and number."""
    ids = channel_ids(events.code, events.param)
    order = np.argsort(ids, kind="stable")
    ids = ids[order]
    heads = np.flatnonzero(np.diff(ids, prepend=NONE) != 0)
    ends = np.append(heads[1:], len(ids))
    found = {CHANNELS[ids[head]]: order[head:end] for head, end in zip(heads, ends)}
    return dict(sorted(found.items()))
