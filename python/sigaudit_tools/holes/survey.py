"""What a log has, hour by hour and channel by channel, before anything is judged: rows, repeats, silences."""

from __future__ import annotations

import dataclasses
from collections.abc import Mapping

import numpy as np
import numpy.typing as npt

from sigaudit_tools.events import Events
from sigaudit_tools.holes.log import Log
from sigaudit_tools.holes.spans import Span
from sigaudit_tools.signal.channels import CHANNELS, COORDINATION, NONE, Channel, by_channel, channel_ids
from sigaudit_tools.signal.config import Config
from sigaudit_tools.times import HOUR

RESTARTS = {173: "Unit Flash Status Change", 181: "Controller Clock Updated", 182: "Power Failure Detected",
            184: "Power Restored"}
NEARLY_EMPTY = 10   # times fewer rows than the median hour


@dataclasses.dataclass(frozen=True)
class HourRows:
    """An hour that is there.

    Attributes:
        hour: its first tenth.
        rows: of the log in it.
        repeats: so many of them the program leaves out.
        doubled: so many have the whole stamp, code and parameter of an earlier one.
        first, last: the tenths of its first and its last row; None of an hour without rows.
    """

    hour: int
    rows: int
    repeats: int
    doubled: int
    first: int | None
    last: int | None


@dataclasses.dataclass(frozen=True)
class Quiet:
    """The channels, by their names, that act in other hours and not in this one."""

    hour: int
    channels: tuple[str, ...]


@dataclasses.dataclass(frozen=True)
class Restart:
    """A row of power, flash or clock: something may be missing around it."""

    tenth: int
    code: int
    param: int


@dataclasses.dataclass(frozen=True)
class ChannelRows:
    """The rows of a channel in the log, and the longest time without one, from and up to."""

    name: str
    rows: int
    silence: Span


@dataclasses.dataclass(frozen=True)
class Survey:
    """What a log has.

    Attributes:
        hours: those that are there, in order.
        quiet: of the hours in which a channel doesn't act.
        restarts: in order.
        silences: the longest of each hour in which a time without a row ends, in order of the hours.
        channels: by kind and number.
        never: the names of the configuration's channels without a row.
    """

    hours: tuple[HourRows, ...]
    quiet: tuple[Quiet, ...]
    restarts: tuple[Restart, ...]
    silences: tuple[Span, ...]
    channels: tuple[ChannelRows, ...]
    never: tuple[str, ...]

    @property
    def missing(self) -> tuple[int, ...]:
        """The first tenths of the hours between others that aren't there."""
        starts = [one.hour for one in self.hours]
        return tuple(hour for before, after in zip(starts, starts[1:]) for hour in range(before + HOUR, after, HOUR))

    @property
    def median(self) -> int:
        """The rows of the median hour."""
        return sorted(one.rows for one in self.hours)[len(self.hours) // 2]

    @property
    def nearly_empty(self) -> tuple[HourRows, ...]:
        """The hours without rows, or with less than a tenth of the median hour's."""
        return tuple(one for one in self.hours if one.rows * NEARLY_EMPTY < self.median or not one.rows)


def survey_of(log: Log, config: Config | None, doubled: Mapping[int, int], top: int) -> Survey:
    """What a log has.

    Args:
        log: of one signal.
        config: what it should have.
        doubled: of hours, by their first tenths, how many rows stand doubled; 0 of those that aren't in it.
        top: so many silences of each hour.
    """
    events = log.events
    ids = channel_ids(events.code, events.param)
    channels = _channels(log)
    found = {one.name for one in channels}
    return Survey(
        tuple(_hours(log, doubled, is_repeat(events, ids))), tuple(_quiet(log, ids)),
        tuple(Restart(*row) for row in _rows(events.of(tuple(RESTARTS)))), tuple(_silences(log, top)), channels,
        tuple(channel.name for channel in configured(config) if channel.name not in found))


def is_repeat(events: Events, ids: npt.NDArray[np.int16]) -> npt.NDArray[np.bool_]:
    """Of each row whether the program leaves it out: the last row of its channel, or of its code and parameter where it
    is of none, at its tenth is the same."""
    pair = events.code.astype(np.int64) << 16 | events.param
    group = np.where(ids == NONE, pair + len(CHANNELS), ids)
    order = np.argsort(group, kind="stable")
    group, pair, tenth = group[order], pair[order], events.tenth[order]
    found = np.zeros(len(events), bool)
    found[order[1:]] = (group[1:] == group[:-1]) & (pair[1:] == pair[:-1]) & (tenth[1:] == tenth[:-1])
    return found


def configured(config: Config | None) -> list[Channel]:
    """The channels that a configuration has, but its overlaps' and preempts' inputs."""
    if config is None:
        return []
    found = [Channel("phase", phase.number) for phase in config.phases]
    found += [Channel("ped", ped.number) for ped in config.peds]
    found += [Channel("overlap", overlap.number) for overlap in config.overlaps]
    found += [Channel("preempt", preempt.number) for preempt in config.preempts]
    found += [Channel("detector", number) for approach in config.approaches
              for number in (approach.advance, approach.stop_bar) if number is not None]
    return list(dict.fromkeys(found)) + ([COORDINATION] if config.coordination else [])


def _hours(log: Log, doubled: Mapping[int, int], repeats: npt.NDArray[np.bool_]) -> list[HourRows]:
    tenth, found = log.events.tenth, []
    for hour in log.hours:
        low, high = np.searchsorted(tenth, [hour, hour + HOUR])
        ends = (int(tenth[low]), int(tenth[high - 1])) if low < high else (None, None)
        found.append(HourRows(hour, int(high - low), int(repeats[low:high].sum()), doubled.get(hour, 0), *ends))
    return found


def _quiet(log: Log, ids: npt.NDArray[np.int16]) -> list[Quiet]:
    acts = np.zeros((len(log.hours), len(CHANNELS)), bool)
    known = ids != NONE
    acts[np.searchsorted(log.hours, log.events.tenth[known] // HOUR * HOUR), ids[known]] = True
    every = sorted((CHANNELS[place], place) for place in np.flatnonzero(acts.any(axis=0)))
    found = [Quiet(hour, tuple(channel.name for channel, place in every if not here[place]))
             for hour, here in zip(log.hours, acts)]
    return [quiet for quiet in found if quiet.channels]


def _silences(log: Log, top: int) -> list[Span]:
    gaps = log.silences
    hour = (gaps.end - 1) // HOUR
    order = np.lexsort((gaps.begin, gaps.begin - gaps.end, hour))
    starts = np.flatnonzero(np.append(True, np.diff(hour[order]) > 0)) if len(order) else order
    rank = np.arange(len(order)) - np.repeat(starts, np.diff(np.append(starts, len(order))))
    return gaps.where(order[rank < top]).pairs()


def _channels(log: Log) -> tuple[ChannelRows, ...]:
    found = []
    for channel, places in by_channel(log.events).items():
        tenth = log.events.tenth[places]
        longest = 0, 0
        for begin, end in log.stretches:
            low, high = np.searchsorted(tenth, [begin, end])
            marks = np.concatenate([[begin], tenth[low:high], [end]])
            place = int(np.diff(marks).argmax())
            if marks[place + 1] - marks[place] > longest[1] - longest[0]:
                longest = int(marks[place]), int(marks[place + 1])
        found.append(ChannelRows(channel.name, len(places), longest))
    return tuple(found)


def _rows(events: Events) -> list[tuple[int, int, int]]:
    return list(zip(events.tenth.tolist(), events.code.tolist(), events.param.tolist()))
