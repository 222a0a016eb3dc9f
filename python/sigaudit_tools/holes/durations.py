"""How long the colours of a channel lasted, where its known rows tell."""

from __future__ import annotations

from typing import NamedTuple

import numpy as np
import numpy.typing as npt

from sigaudit_tools.events import Codes, Tenths
from sigaudit_tools.holes.machine_rows import Rows, Sets, every, steps, targets
from sigaudit_tools.holes.spans import Span, columns
from sigaudit_tools.signal.machines import COLOURS

Mask = npt.NDArray[np.bool_]


class Durations(NamedTuple):
    """Times for which a channel had a colour, in order of their ends; shape (n,).

    Attributes:
        colour: places in COLOURS.
        begin: the tenths of the rows with which it began.
        end: the tenths of the rows with which it ended.
    """

    colour: npt.NDArray[np.int64]
    begin: Tenths
    end: Tenths


def durations(rows: Rows, unknown: list[Span]) -> Durations:
    """The times of colours that begin and end with known rows and that no other course of the channel explains.

    Args:
        rows: the known ones of a channel; floors don't count.
        unknown: the stretches that aren't known, in order, none over another.
    """
    kind, count = rows.channel.kind, len(rows.tenth)
    fresh = np.ones(count, bool)
    fresh[1:] = np.diff(np.searchsorted(columns(unknown)[0], rows.tenth, "right")) > 0
    seen, left = _sets(kind, rows.code, fresh)
    parts = []
    for colour in range(len(COLOURS[kind])):
        begin = _begins(rows, colour, seen, fresh)
        ends = (seen == 1 << colour) & (left >> colour & 1 == 0) & (begin >= 0)
        places = np.flatnonzero(ends)
        parts.append((places, np.full(len(places), colour), rows.tenth[begin[places]]))
    places, colours, begins = (np.concatenate([part[side] for part in parts]) for side in range(3))
    order = np.argsort(places, kind="stable")
    return Durations(colours[order], begins[order], rows.tenth[places[order]])


def _sets(kind: str, code: Codes, fresh: Mask) -> tuple[Sets, Sets]:
    """The colours that are possible before each row and after it, by the rows before it and itself.

    Where nothing is known before a row, and after one that can't be, all are. Each pass carries what is known on by a
    row, until it changes nothing: what a row tells is carried on by few rows.
    """
    everything, after = every(kind), steps(kind)
    before = np.full(len(code), everything, np.uint8)
    while True:
        left = after[code, before]
        left[left == 0] = everything
        carried = np.append(np.uint8(everything), left[:-1])[:len(code)]
        carried[fresh] = everything
        if np.array_equal(carried, before):
            return before, left
        before = carried


def _begins(rows: Rows, colour: int, seen: Sets, fresh: Mask) -> npt.NDArray[np.intp]:
    """The place of the row with which a colour began that the channel may have before each row, at the earliest; -1
    where no known row tells."""
    kind = rows.channel.kind
    goes_on = (targets(kind)[rows.code, colour] == colour) & (seen >> colour & 1 == 1)
    lost, anew = fresh.copy(), fresh.copy()
    lost[1:] |= steps(kind)[rows.code, seen][:-1] == 0
    anew[1:] |= lost[1:] | ~goes_on[:-1]
    last = np.maximum.accumulate(np.where(anew, np.arange(len(seen)), 0))
    return np.where(lost[last], -1, last - 1)
