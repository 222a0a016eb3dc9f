"""The rows of a log by groups: rows that follow one another from one cause.

The phases of a ring are one group, since they follow one another; a pedestrian signal, an overlap, a detector, a
preempt, the coordination, the calls of a phase are one each, and every other code is one by itself. What stands in one
tenth of a group is its mark: the last row of a detector, of the others all rows.
"""

from __future__ import annotations

import dataclasses
from collections.abc import Iterator, Mapping
from typing import NamedTuple

import numpy as np
import numpy.typing as npt

from sigaudit_tools.events import Events, Tenths
from sigaudit_tools.signal.channels import channel_of

Marks = npt.NDArray[np.int64]
Rows = npt.NDArray[np.int64]

RING_CODES = frozenset((0, 1, 3, 4, 5, 6, 7, 8, 9, 10, 11, 12))
CALLS = {43: "call", 44: "call", 45: "ped_detector"}
MOST_PHASES = 16


class GroupName(NamedTuple):
    """A group: its kind, and a ring, a phase, a detector, a code, as the kind says. Sorted by kind and number."""

    kind: str
    number: int

    def __str__(self) -> str:
        return self.kind if self.kind == "coordination" else f"{self.kind} {self.number}"


@dataclasses.dataclass(frozen=True, eq=False)
class Group:
    """The tenths at which a group has rows.

    Attributes:
        name: of the group.
        tenth: rising, shape (n,).
        mark: the mark of each, a number from 0 on, shape (n,).
        marks: how many marks there are.
    """

    name: GroupName
    tenth: Tenths
    mark: Marks
    marks: int


def group_of(code: int, param: int, rings: Mapping[int, int]) -> GroupName:
    """The group of a row; `rings` has the rings of the phases that are known to have one."""
    if code in RING_CODES and 1 <= param <= MOST_PHASES:
        return GroupName("ring", rings[param]) if param in rings else GroupName("phase", param)
    if code in CALLS and 1 <= param <= MOST_PHASES:
        return GroupName(CALLS[code], param)
    channel = channel_of(code, param)
    return GroupName(channel.kind, channel.number) if channel else GroupName("code", code)


def groups_of(events: Events, rings: Mapping[int, int]) -> list[Group]:
    """The groups of a log in order of their names."""
    pairs, pair = np.unique(events.code.astype(np.int64) << 16 | events.param, return_inverse=True)
    names = [group_of(one >> 16, one & 0xFFFF, rings) for one in pairs.tolist()]
    every = sorted(set(names))
    number = {name: place for place, name in enumerate(every)}
    group = np.array([number[name] for name in names], np.int16)[pair]
    order = np.argsort(group, kind="stable")
    ends = np.searchsorted(group[order], np.arange(len(every)), "right")
    return [_group(name, events.tenth[mine], pair[mine])
            for name, mine in zip(every, np.split(order, ends[:-1]))]


def marks_at(events: Events, name: GroupName, tenth: int, rings: Mapping[int, int]) -> list[tuple[int, int]]:
    """The rows, as code and parameter, of a group's mark at a tenth."""
    here = events.between(tenth, tenth + 1)
    rows = [row for row in zip(here.code.tolist(), here.param.tolist()) if group_of(*row, rings) == name]
    return rows[-1:] if name.kind == "detector" else sorted(set(rows))


def _group(name: GroupName, tenth: Tenths, pair: Rows) -> Group:
    """The group of some rows in order."""
    last = np.append(tenth[1:] != tenth[:-1], True)
    if name.kind == "detector":
        mark = pair[last]
    else:
        first = np.append(True, last[:-1])
        mark = _sets(np.cumsum(first) - 1, pair)
    known, mark = np.unique(mark, return_inverse=True)
    return Group(name, tenth[last], mark.astype(np.int64), len(known))


def _sets(cell: Rows, member: Rows) -> Marks:
    """A number for the set of members of each cell, the same for the same sets.

    Args:
        cell: numbers from 0 on, never falling, none left out, shape (n,).
        member: numbers from 0 on, shape (n,).
    """
    order = np.lexsort((member, cell))
    cell, member = cell[order], member[order]
    fresh = np.append(True, (cell[1:] != cell[:-1]) | (member[1:] != member[:-1]))
    cell, member = cell[fresh], member[fresh]
    found = np.zeros(cell[-1] + 1, np.int64)
    for cells, members in _by_place(cell, member):
        longer = found * (members.max() + 2)
        longer[cells] += members + 1
        found = np.unique(longer, return_inverse=True)[1]
    return found


def _by_place(cell: Rows, member: Rows) -> Iterator[tuple[Rows, Rows]]:
    """The first members of all cells, the second ones of those that have two, and so on."""
    starts = np.flatnonzero(np.append(True, cell[1:] != cell[:-1]))
    place = np.arange(len(cell)) - np.repeat(starts, np.diff(np.append(starts, len(cell))))
    for each in range(int(place.max()) + 1):
        there = place == each
        yield cell[there], member[there]
