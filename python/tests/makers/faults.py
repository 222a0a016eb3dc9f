"""Faults of detectors and other channels, put into a log."""

from __future__ import annotations

import dataclasses
import random
from collections.abc import Iterable

import numpy as np

from sigaudit_tools.events import Events

Row = tuple[int, int, int]

COORDINATION = (131, 132, 150, 151, 152)
_CODES = {"ped": (89, 90, 45), "ped-rows": (89, 90), "coordination": COORDINATION}
_PULSES = {"chatter": ((1, 3), (1, 10)), "slow-chatter": ((1, 20), (5, 50))}  # tenths on, tenths off
_OFF, _ON = 81, 82


@dataclasses.dataclass(frozen=True)
class Fault:
    """A fault: one, card, all, ped, ped-rows, coordination, stuck-on, stuck-off, chatter or slow-chatter; the numbers
    of the detectors or inputs, and from which tenth to which."""

    kind: str
    numbers: tuple[int, ...]
    begin: int
    end: int

    def concerns(self, code: int, number: int) -> bool:
        """Whether it takes rows with this code and parameter."""
        return code in _CODES.get(self.kind, (_OFF, _ON)) and (self.kind == "coordination" or number in self.numbers)


def events_of(rows: Iterable[Row]) -> Events:
    """Rows of tenth, code and parameter, in order."""
    tenth, code, param = np.array(list(rows), np.int64).T
    return Events(tenth, code.astype(np.uint8), param.astype(np.uint16))


def rows_of(events: Events) -> list[Row]:
    """Tenth, code and parameter of each row."""
    return list(zip(events.tenth.tolist(), events.code.tolist(), events.param.tolist()))


def put(events: Events, faults: Iterable[Fault], rng: random.Random) -> Events:
    """The log with the faults in it."""
    rows = rows_of(events)
    for fault in faults:
        kept = [row for row in rows if not (fault.begin <= row[0] < fault.end and fault.concerns(*row[1:]))]
        rows = sorted(kept + _made(rows, fault, rng), key=lambda row: row[0])
    return events_of(rows)


def _made(rows: list[Row], fault: Fault, rng: random.Random) -> list[Row]:
    """The rows that a fault makes: a stuck or chattering detector goes on from its state and comes back to the true."""
    if not fault.kind.startswith("stuck") and fault.kind not in _PULSES:
        return []
    number, found = fault.numbers[0], []
    states = [(tenth, code) for tenth, code, param in rows if fault.concerns(code, param)]
    state = next((code for tenth, code in reversed(states) if tenth < fault.begin), _OFF)
    true = next((code for tenth, code in reversed(states) if tenth < fault.end), _OFF)
    if fault.kind in _PULSES:
        tenth = fault.begin
        while tenth < fault.end:
            state = _OFF + _ON - state
            found.append((tenth, state, number))
            tenth += rng.randint(*_PULSES[fault.kind][state == _OFF])
    elif state != (_ON if fault.kind == "stuck-on" else _OFF):
        state = _OFF + _ON - state
        found.append((fault.begin, state, number))
    return found + ([(fault.end, true, number)] if state != true else [])
