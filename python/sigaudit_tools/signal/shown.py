"""What a log shows of its channels: which act, and how long their colours last."""

from __future__ import annotations

import dataclasses
import functools

import numpy as np
import numpy.typing as npt

from sigaudit_tools.events import Codes, Events, Tenths
from sigaudit_tools.signal.channels import Channel, by_channel
from sigaudit_tools.signal.machines import COLOURS, MACHINES, STRICT

Places = npt.NDArray[np.int8]
Mask = npt.NDArray[np.bool_]

_UNKNOWN = 0  # the place of no colour; those of COLOURS follow


@dataclasses.dataclass(frozen=True)
class Shown:
    """The channels that act, and of colours whose begin and end are known the least and the greatest duration, in
    tenths."""

    channels: frozenset[Channel]
    durations: dict[tuple[Channel, str], tuple[int, int]]


def shown(events: Events) -> Shown:
    """What the events show."""
    places = by_channel(events)
    durations: dict[tuple[Channel, str], tuple[int, int]] = {}
    for channel, rows in places.items():
        if channel.kind in STRICT:
            for colour, lasted in _durations(channel.kind, events.tenth[rows], events.code[rows]).items():
                durations[channel, colour] = int(lasted.min()), int(lasted.max())
    return Shown(frozenset(places), durations)


def _durations(kind: str, tenth: Tenths, code: Codes) -> dict[str, Tenths]:
    """By colour how long it lasted, in tenths, each time that its begin and its end are known."""
    legal, after = _tables(kind)
    colour = _colours(after, code)
    before = _before(colour)
    changes = np.flatnonzero(colour != before)
    began, ended = changes[:-1], changes[1:]
    begins_well = legal[code[began], before[began]] | (before[began] == _UNKNOWN)
    known = begins_well & legal[code[ended], colour[began]]
    lasted = tenth[ended] - tenth[began]
    return {name: lasted[mine] for place, name in enumerate(COLOURS[kind], 1)
            if (mine := known & (colour[began] == place)).any()}


def _colours(after: Places, code: Codes) -> Places:
    """The colour after each row. Most codes lead to one colour whatever was before, so that few rounds settle all."""
    found: Places = after[code, _UNKNOWN]
    while True:
        colour = after[code, _before(found)]
        if bool((colour == found).all()):
            return found
        found = colour


def _before(colour: Places) -> Places:
    """The colour before each row."""
    found: Places = np.insert(colour[:-1], 0, _UNKNOWN)
    return found


@functools.cache
def _tables(kind: str) -> tuple[Mask, Places]:
    """By code and colour whether the code is legal in it, and the colour after it: where it isn't legal the one to
    which the code always leads, if there is one."""
    places = {name: place for place, name in enumerate(COLOURS[kind], 1)}
    legal, after = np.zeros((256, len(places) + 1), bool), np.zeros((256, len(places) + 1), np.int8)
    for code, moves in MACHINES[kind].items():
        targets = set(moves.values())
        if len(targets) == 1:
            after[code] = places[targets.pop()]
        for colour, target in moves.items():
            legal[code, places[colour]] = True
            after[code, places[colour]] = places[target]
    return legal, after
