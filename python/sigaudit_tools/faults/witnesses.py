"""What tells that time goes on while a channel is silent: actuations, calls, greens, walks and force-offs."""

from __future__ import annotations

from typing import Literal

import numpy as np
import numpy.typing as npt

from sigaudit_tools.events import Tenths
from sigaudit_tools.faults.rows import Group, Log, Places, Span
from sigaudit_tools.faults.tracks import Hush, hushed
from sigaudit_tools.times import HOUR

Floats = npt.NDArray[np.float64]
Name = tuple[str, int | None]

INPUTS = ("detector", "detectors", "ped_detector", "ped_detectors")
CONTROLLER = ("call", "ped_call", "ped_calls", "green", "greens", "walk")
STEP = 600           # tenths: the mesh of time in which witnesses are chosen and chances told
_CLOCKS = {82: "detector", 90: "ped_detector", 43: "call", 45: "ped_call", 1: "green", 21: "walk", 6: "force_off"}
_TOTALS = {82: "detectors", 90: "ped_detectors", 45: "ped_calls", 1: "greens"}


class Witnesses:
    """The witnesses of a log, and the tenths at which each saw something.

    A witness is named by its kind and number, (`call`, 4), or by its kind alone where it stands for all of them. Places
    of witnesses are places in `names`, those that stand for all last.

    Attributes:
        names: the witnesses.
        moments: of each the tenths at which it saw something, never falling.
        mesh: the tenths of the log, STEP apart.
        dark: of some the stretches in which they tell nothing.
    """

    def __init__(self, log: Log, hush: Hush) -> None:
        found = _moments(log, hush)
        self.names = sorted(found, key=lambda name: (name[1] is None, name[0], name[1] or 0))
        self.moments = [found[name] for name in self.names]
        self.mesh = np.concatenate([np.arange(begin, end, STEP) for begin, end in log.spans])
        self._origin, self._stride = log.hours[0] - 1, log.hours[-1] + HOUR - log.hours[0] + 2
        self._sizes = np.array([*map(len, self.moments)], np.int64)
        self._offset = np.cumsum(self._sizes) - self._sizes
        self._flat = np.concatenate([moments - self._origin + place * self._stride
                                     for place, moments in enumerate(self.moments)] or [np.empty(0, np.int64)])
        self.columns = [np.searchsorted(moments, self.mesh) for moments in self.moments]
        flashes = log.flashes()
        self.dark: dict[int, list[Span]] = {place: flashes[:] for place, (kind, _) in enumerate(self.names)
                                            if kind not in INPUTS}

    def sizes(self, places: Places) -> Places:
        """How often witnesses saw something in all, shape (w,)."""
        return self._sizes[places]

    def before(self, places: Places, tenth: Places) -> Places:
        """How often witnesses saw something before some tenths, shape (w, n)."""
        return self._count(places, tenth, "left")

    def until(self, places: Places, tenth: Places) -> Places:
        """How often witnesses saw something up to some tenths and at them, shape (w, n)."""
        return self._count(places, tenth, "right")

    def _count(self, places: Places, tenth: Places, side: Literal["left", "right"]) -> Places:
        inside = np.minimum(np.maximum(tenth - self._origin, 0), self._stride - 1)
        found: Places = self._flat.searchsorted(inside + places[:, None] * self._stride, side)
        return np.subtract(found, self._offset[places][:, None])

    def seen(self, places: Places, begin: Places, end: Places) -> Places:
        """What witnesses saw after some tenths and before others, shape (w, n)."""
        return np.maximum(0, self.before(places, end) - self.until(places, begin))

    def others(self, group: Group) -> Places:
        """Which can tell of a channel: other detectors and inputs; where most are its own, the controller."""
        found = [place for place in range(len(self.names)) if self._is_other(place, group)]
        kinds = INPUTS if ("detectors", None) in [self.names[place] for place in found] else CONTROLLER
        return np.array([place for place in found if self.names[place][0] in kinds], np.int64)

    def _is_other(self, place: int, group: Group) -> bool:
        """Whether one isn't of the channel itself, nor the sum over inputs that are mostly its own."""
        kind, number = self.names[place]
        if number is not None:
            return kind != group.kind or number not in group.numbers
        own = kind == group.kind + "s"
        return not own or 2 * len(group.numbers) < [one for one, _ in self.names].count(group.kind)


def _moments(log: Log, hush: Hush) -> dict[Name, Tenths]:
    found: dict[Name, Tenths] = {}
    for (code, number), places in log.places.items():
        if code in _CLOCKS:
            found[_CLOCKS[code], number] = _heard(log, places, hush)
    for code, kind in _TOTALS.items():
        places = log.of((code,))
        if len(places):
            found[kind, None] = _heard(log, places, hush)
    return found


def _heard(log: Log, places: Places, hush: Hush) -> Tenths:
    """The tenths of rows, but for those of detectors that tell nothing."""
    tenth = log.tenth[places]
    if len(places) and log.code[places[0]] == 82:
        tenth = tenth[~hushed(tenth, log.param[places], hush)]
    return tenth
