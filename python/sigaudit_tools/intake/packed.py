"""Packed hours, as the program writes them with --pack (docs/FORMATS.md, "Packed hours")."""

from __future__ import annotations

import numpy as np
import numpy.typing as npt

from sigaudit_tools.errors import InputError
from sigaudit_tools.events import Events
from sigaudit_tools.times import tenth_of_hour

Ints = npt.NDArray[np.int64]

MARK = b"\0SGP"
HOUR_BYTES, COUNT_BYTES = 13, 4
MORE = 0x80     # of a byte of a number behind which there is another
SEVEN = 7       # bits of a number in a byte
REMEDY = "pack the hour anew by sigaudit --pack"


def is_packed(data: bytes) -> bool:
    """Whether the bytes of a file are a packed hour's."""
    return data.startswith(MARK)


def read_packed(data: bytes, where: str) -> Events:
    """The rows of a packed hour, in order and without repeats.

    Raises:
        InputError: it isn't whole.
    """
    at = len(MARK) + 1 + data[len(MARK)] if len(data) > len(MARK) else len(data)
    head = data[at:at + HOUR_BYTES + COUNT_BYTES]
    if len(head) < HOUR_BYTES + COUNT_BYTES:
        raise _short(where)
    hour = tenth_of_hour(head[:HOUR_BYTES].decode("latin-1"))
    count, rows = int.from_bytes(head[HOUR_BYTES:], "big"), data[at + HOUR_BYTES + COUNT_BYTES:]
    buffer = np.frombuffer(rows + b"\0\0\0", np.uint8).astype(np.int64)
    # Where a number that begins at a byte ends; from the begin of a row that of its code, its parameter, the next row.
    ends = np.where(buffer < MORE, np.arange(len(buffer)), len(buffer) - 1)
    ends = np.minimum.accumulate(ends[::-1])[::-1]
    param = np.minimum(ends + 2, len(buffer) - 1)
    step = np.minimum(ends[param] + 1, len(buffer) - 1)
    starts = np.zeros(min(count, 1), np.int64)
    while len(starts) < count:
        starts, step = np.append(starts, step[starts]), step[step]
    starts = starts[:count]
    if count and ends[param[starts[-1]]] >= len(rows):
        raise _short(where)
    tenth = hour + np.cumsum(_numbers(buffer, starts, ends))
    return Events(tenth, buffer[ends[starts] + 1].astype(np.uint8),
                  _numbers(buffer, param[starts], ends).astype(np.uint16))


def _numbers(buffer: Ints, starts: Ints, ends: Ints) -> Ints:
    """The numbers that begin at some bytes, of one to three bytes, the lowest first."""
    found = np.zeros(len(starts), np.int64)
    for place in range(3):
        at = starts + place
        there = at <= ends[starts]
        found[there] += (buffer[at[there]] & MORE - 1) << SEVEN * place
    return found


def _short(where: str) -> InputError:
    return InputError("a packed hour that ends before its last row", where, REMEDY)
