"""The rows of the channels whose rows can contradict one another, and whether a few of them do.

A state holds of each colour that a channel may have the earliest tenth at which that may have begun: -inf where it may
be as old as the log, inf where the channel can't have the colour.
"""

from __future__ import annotations

import dataclasses
import functools
from collections.abc import Iterator, Mapping, Sequence

import numpy as np
import numpy.typing as npt

from sigaudit_tools.events import Codes, Events, Tenths
from sigaudit_tools.signal.channels import IDS, Channel, by_channel, channel_ids
from sigaudit_tools.signal.config import Config
from sigaudit_tools.signal.machines import COLOURS, MACHINES, STRICT

Earliest = npt.NDArray[np.float64]
Places = npt.NDArray[np.intp]
Sets = npt.NDArray[np.uint8]


@dataclasses.dataclass(frozen=True, eq=False)
class Rows:
    """The rows of one channel in order, without repeats, and what the configuration takes its colours to last.

    Attributes:
        channel: one of the kinds STRICT.
        tenth: tenths, never falling, shape (n,).
        code: event codes, shape (n,).
        floors: of each colour that has a floor, its tenths.
    """

    channel: Channel
    tenth: Tenths
    code: Codes
    floors: Mapping[str, int]

    def between(self, first: int, end: int) -> Rows:
        """Those from place `first` up to but without place `end`."""
        return dataclasses.replace(self, tenth=self.tenth[first:end], code=self.code[first:end])

    def where(self, mask: npt.NDArray[np.bool_]) -> Rows:
        """Those for which the mask, shape (n,), holds."""
        return dataclasses.replace(self, tenth=self.tenth[mask], code=self.code[mask])


def channel_rows(events: Events, channel: Channel, config: Config | None = None) -> Rows:
    """The rows of a channel; with the floors of a configuration where one is given."""
    return _rows(channel, events.where(channel_ids(events.code, events.param) == IDS[channel]), config)


def strict_rows(events: Events, config: Config | None) -> dict[Channel, Rows]:
    """The rows of each channel that can contradict itself, channels in order of kind and number."""
    return {channel: _rows(channel, Events(events.tenth[places], events.code[places], events.param[places]), config)
            for channel, places in by_channel(events).items() if channel.kind in STRICT}


def _rows(channel: Channel, events: Events, config: Config | None) -> Rows:
    """The events of a channel without repeats."""
    fresh = np.ones(len(events), bool)
    fresh[1:] = (events.tenth[1:] != events.tenth[:-1]) | (events.code[1:] != events.code[:-1])
    return Rows(channel, events.tenth[fresh], events.code[fresh], config.floors_of(channel) if config else {})


@functools.cache
def targets(kind: str) -> npt.NDArray[np.intp]:
    """By code and colour the colour to which a row leads, shape (256, colours); where it is illegal their number."""
    colours = COLOURS[kind]
    found = np.full((256, len(colours)), len(colours), np.intp)
    for code, table in MACHINES[kind].items():
        for colour, after in table.items():
            found[code, colours.index(colour)] = colours.index(after)
    return found


def floors_in_order(rows: Rows) -> Earliest:
    """The floor of each colour, shape (colours,)."""
    return np.array([rows.floors.get(colour, 0) for colour in COLOURS[rows.channel.kind]], float)


def after_rows(kind: str, state: Earliest, tenth: Tenths, code: Codes, floors: Earliest) -> Earliest:
    """The states after a row each: all inf where no history has the row.

    Args:
        kind: of all the channels.
        state: shape (n, colours).
        tenth, code: of the rows, shape (n,).
        floors: of the channels' colours, shape (n, colours).
    """
    lines, led = np.arange(len(state)), targets(kind)[code]
    left = np.where(state + floors <= tenth[:, None], tenth[:, None], np.inf)
    found = np.full((len(state), state.shape[1] + 1), np.inf)
    for colour in range(state.shape[1]):
        target = led[:, colour]
        begin = np.where(target == colour, state[:, colour], left[:, colour])
        found[lines, target] = np.minimum(found[lines, target], begin)
    return found[:, :-1]


def contradicted(channels: Sequence[Rows], begin: Tenths, end: Tenths, reach: int) -> npt.NDArray[np.bool_]:
    """Of each gap whether the rows of a channel before and behind it contradict one another, were there none between.

    Args:
        channels: the rows of channels that can contradict themselves.
        begin, end: the tenths of the last row of the log before each gap and of the first behind it, shape (n,).
        reach: so many rows of a channel before the gap are looked at, and so many behind it.
    """
    found = np.zeros(len(begin), bool)
    for test in (_reach_nothing, _end_early):
        for kind in STRICT:
            mine = [rows for rows in channels if rows.channel.kind == kind and (rows.floors or test is _reach_nothing)]
            left = np.flatnonzero(~found)
            if mine and len(left):
                found[left] = test(_Around(mine, begin[left], end[left], reach)).any(axis=0)
    return found


class _Around:
    """The rows of some channels of a kind around some gaps."""

    def __init__(self, channels: Sequence[Rows], begin: Tenths, end: Tenths, reach: int) -> None:
        self.channels, self.count, self.reach = channels, len(begin), reach
        self.kind = channels[0].channel.kind
        starts = np.cumsum([0, *(len(rows.tenth) for rows in channels)])
        self.tenth = np.concatenate([rows.tenth for rows in channels])
        self.code = np.concatenate([rows.code for rows in channels])
        self.before = np.concatenate([start + np.searchsorted(rows.tenth, begin, "right")
                                      for start, rows in zip(starts, channels)])
        self.behind = np.concatenate([start + np.searchsorted(rows.tenth, end)
                                      for start, rows in zip(starts, channels)])
        self.low, self.high = np.repeat(starts[:-1], self.count), np.repeat(starts[1:], self.count)

    def steps(self) -> Iterator[tuple[Places, Places]]:
        """Row by row, from the first before the gaps to the last behind them: for which channel and gap there is one,
        counted through, and its place."""
        for step in range(2 * self.reach):
            place = self.before - self.reach + step if step < self.reach else self.behind + step - self.reach
            there = np.flatnonzero((place >= self.low) & (place < self.high))
            yield there, place[there]


def _reach_nothing(rows: _Around) -> npt.NDArray[np.bool_]:
    """Whether no colour is left at the end, floors aside; shape (channels, gaps)."""
    after = steps(rows.kind)
    seen = np.full(len(rows.before), every(rows.kind), np.uint8)
    for there, place in rows.steps():
        seen[there] = after[rows.code[place], seen[there]]
    return np.asarray(seen == 0).reshape(len(rows.channels), rows.count)


def _end_early(rows: _Around) -> npt.NDArray[np.bool_]:
    """Whether no colour is left at the end by the floors; shape (channels, gaps)."""
    floors = np.repeat([floors_in_order(one) for one in rows.channels], rows.count, axis=0)
    state = np.full(floors.shape, -np.inf)
    for there, place in rows.steps():
        state[there] = after_rows(rows.kind, state[there], rows.tenth[place], rows.code[place], floors[there])
    return np.asarray(np.isposinf(state).all(axis=1).reshape(len(rows.channels), rows.count))


def every(kind: str) -> int:
    """All colours of a kind as a set: a bit for each."""
    return (1 << len(COLOURS[kind])) - 1


@functools.cache
def steps(kind: str) -> Sets:
    """By code and set of colours the colours after a row, floors aside; shape (256, 256)."""
    found = np.zeros((256, 256), np.uint8)
    sets = np.arange(256)
    for code, table in MACHINES[kind].items():
        for colour, after in table.items():
            place, target = COLOURS[kind].index(colour), COLOURS[kind].index(after)
            found[code] |= (sets >> place & 1).astype(np.uint8) << target
    return found
