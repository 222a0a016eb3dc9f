"""Which columns of an export are the signal, the stamp, the code and the parameter."""

from __future__ import annotations

import dataclasses
import re
from collections.abc import Sequence

import numpy as np
import numpy.typing as npt

from sigaudit_tools.intake.cells import Cells, Places

SIGNAL = frozenset({"signalid", "locationidentifier", "signal", "signalidentifier", "deviceid", "controllerid",
                    "intersectionid", "locationid"})
DATE = frozenset({"date", "eventdate"})
STAMP = frozenset({"timestamp", "datetime", "stamp", "eventtime", "eventtimestamp", "time"})
CODE = frozenset({"eventcode", "eventcodeid", "code", "eventid"})
PARAM = frozenset({"eventparam", "param", "parameter", "eventparameter", "eventparamid"})
SHORTEST_NAME = 4


@dataclasses.dataclass(frozen=True)
class Layout:
    """Where the columns stand, from 0; the date of the stamp may have a column of its own, the signal none."""

    signal: int | None
    stamp: int
    code: int
    param: int
    date: int | None = None

    @property
    def width(self) -> int:
        """How many fields a record has at least."""
        return 1 + max(self.stamp, self.code, self.param, self.signal or 0, self.date or 0)


WITHOUT_SIGNAL = Layout(None, 0, 1, 2)
WITH_SIGNAL = Layout(0, 1, 2, 3)
# The layout of a line before any header whose fields are neither three nor four.
UNKNOWN = -1


def layout_of(names: Sequence[str]) -> Layout | None:
    """The layout that the names of columns tell; None where they aren't names of these."""
    plain = [re.sub(r"[^a-z0-9]", "", name.lower()) for name in names]
    signal, stamp, code, param, date = (
        next((place for place, name in enumerate(plain) if name in known), None)
        for known in (SIGNAL, STAMP, CODE, PARAM, DATE))
    if stamp is None or code is None or param is None:
        return None
    return Layout(signal, stamp, code, param, date)


def layouts(cells: Cells) -> tuple[list[Layout], npt.NDArray[np.intp], Places]:
    """The layouts of a text, which of them each line has (UNKNOWN for none), and the lines that are headers."""
    found = [WITHOUT_SIGNAL, WITH_SIGNAL]
    which = np.where(cells.count == 3, 0, np.where(cells.count == 4, 1, UNKNOWN))
    headers: list[int] = []
    for place in _likely_headers(cells).tolist():
        fields = cells.fields(place)
        layout = None if any(field.isdigit() for field in fields) else layout_of(fields)
        if layout:
            headers.append(place)
            if layout not in found:
                found.append(layout)
            which[place:] = found.index(layout)
    return found, which, np.array(headers, np.int64)


def _likely_headers(cells: Cells) -> Places:
    """The lines of which three fields or more neither begin nor end with a digit, and are no shorter than a name."""
    ends = np.stack((cells.data[cells.start], cells.data[np.maximum(cells.end - 1, 0)]))
    named = ((ends < ord("0")) | (ends > ord("9"))).all(axis=0) & (cells.end - cells.start >= SHORTEST_NAME)
    before = np.concatenate(([0], np.cumsum(named)))
    return np.flatnonzero(before[cells.first + cells.count] - before[cells.first] >= 3)
