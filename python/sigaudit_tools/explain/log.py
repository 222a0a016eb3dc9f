"""The rows of a log that an answer stands on, at one moment of its script."""

from __future__ import annotations

import dataclasses
from collections.abc import Iterator
from typing import NamedTuple

import numpy as np
import numpy.typing as npt

from sigaudit_tools.answer import Answer, Known
from sigaudit_tools.errors import InputError
from sigaudit_tools.events import Events
from sigaudit_tools.holes.spans import Span
from sigaudit_tools.holes.survey import is_repeat
from sigaudit_tools.signal.channels import CHANNELS, IDS, Channel, channel_ids
from sigaudit_tools.times import HOUR, hour_of

Places = npt.NDArray[np.intp]


class Row(NamedTuple):
    """A row of a log.

    Attributes:
        tenth, code, param: as of `Events`.
        file: the hour file that has it.
        place: its place among the rows of this file by their tenths, from 0, repeats too.
    """

    tenth: int
    code: int
    param: int
    file: str
    place: int


class Rows(NamedTuple):
    """Rows of a log that follow one another, shape (n,): the events, their files and places as of `Row`, and whether
    each is of one of some channels."""

    events: Events
    file: tuple[str, ...]
    place: Places
    own: npt.NDArray[np.bool_]

    def each(self) -> Iterator[Row]:
        """They one by one."""
        columns = (self.events.tenth.tolist(), self.events.code.tolist(), self.events.param.tolist())
        for tenth, code, param, file, place in zip(*columns, self.file, self.place.tolist()):
            yield Row(tenth, code, param, file, place)


@dataclasses.dataclass(frozen=True, eq=False)
class KnownLog:
    """The rows that the program knew: none at an unknown tenth, and no repeats.

    Attributes:
        answer: of the program.
        events: the known ones of the window.
        place: of each its place in its hour, repeats counted, shape (n,).
        channels: of each channel that has rows the places of these in `events`, rising.
        unknown: the stretches of the window that weren't known, in order.
        files: the file of each held hour, by the hour's number.
    """

    answer: Answer
    events: Events
    place: Places
    channels: dict[Channel, Places]
    unknown: list[Span]
    files: dict[int, str]

    @classmethod
    def at(cls, answer: Answer, events: Events, known: Known) -> KnownLog:
        """The log at a moment of an answer's script.

        Args:
            answer: of the program.
            events: of the log that it was given, in the order of its hour files, repeats too.
            known: what was known at that moment.

        Raises:
            InputError: an hour hasn't as many rows as it had when the answer was made.
        """
        start = answer.config.start_tenth
        inside = events.between(start, answer.config.end_tenth)
        hour = (inside.tenth - start) // HOUR
        ids = channel_ids(inside.code, inside.param)
        fresh = ~is_repeat(inside, ids)
        _check(answer, known, np.bincount(hour[fresh], minlength=answer.config.hours))
        place = np.arange(len(inside)) - np.searchsorted(hour, hour)
        unknown = answer.unknown(known)
        begins, ends = np.array(unknown, np.int64).reshape(-1, 2).T
        last = np.searchsorted(begins, inside.tenth, "right")
        kept = np.flatnonzero(fresh & ((last == 0) | (inside.tenth >= np.append(0, ends)[last])))
        order = np.argsort(ids[kept], kind="stable")
        every, starts = np.unique(ids[kept][order], return_index=True)
        channels = {CHANNELS[one]: mine for one, mine in zip(every.tolist(), np.split(order, starts[1:])) if one >= 0}
        files = {number: held.file for number, held in known.held.items()}
        return cls(answer, Events(inside.tenth[kept], inside.code[kept], inside.param[kept]), place[kept], channels,
                   unknown, files)

    def row(self, place: int) -> Row:
        """A row by its place in `events`."""
        tenth = int(self.events.tenth[place])
        return Row(tenth, int(self.events.code[place]), int(self.events.param[place]), self._file(tenth),
                   int(self.place[place]))

    def rows(self, low: int, high: int, channels: tuple[Channel, ...]) -> Rows:
        """The rows from a tenth up to another, with whether each is of one of some channels."""
        first, last = np.searchsorted(self.events.tenth, [low, high]).tolist()
        events = self.events.between(low, high)
        own = np.isin(channel_ids(events.code, events.param), [IDS[channel] for channel in channels])
        return Rows(events, tuple(map(self._file, events.tenth.tolist())), self.place[first:last], own)

    def of_channel(self, channel: Channel, low: int, high: int) -> Places:
        """The places of the rows of a channel from a tenth up to another."""
        mine = self.channels.get(channel, np.empty(0, np.intp))
        first, last = np.searchsorted(self.events.tenth[mine], [low, high])
        return mine[first:last]

    def unknown_in(self, low: int, high: int) -> list[Span]:
        """The unknown stretches, as far as they reach into the time from a tenth up to another."""
        return [(max(begin, low), min(end, high)) for begin, end in self.unknown if begin < high and low < end]

    def silence(self, low: int, high: int) -> Span | None:
        """The longest time from one tenth to another without a row, known to be so; None where nothing is known."""
        tenth, unknown = self.events.between(low, high + 1).tenth, self.unknown_in(low, high + 1)
        begins, ends = np.array([(low, low), *unknown, (high, high)], np.int64).T
        begins, ends = np.append(begins, tenth), np.append(ends, tenth)
        order = np.lexsort((ends, begins))
        before, after = ends[order][:-1], begins[order][1:]
        longest = int((after - before).argmax())
        if after[longest] <= before[longest] and unknown:
            return None
        return int(before[longest]), int(after[longest])

    def _file(self, tenth: int) -> str:
        return self.files[(tenth - self.answer.config.start_tenth) // HOUR]


def _check(answer: Answer, known: Known, rows: npt.NDArray[np.int64]) -> None:
    """Makes sure that hours have as many rows as the program said."""
    for number, held in known.held.items():
        if rows[number] != held.rows:
            hour = hour_of(answer.config.start_tenth + number * HOUR)
            raise InputError(f"the hour {hour} has {rows[number]} rows now, and had {held.rows} when the answer was "
                             "made", held.file, "give the log as it was, or let the program run again")
