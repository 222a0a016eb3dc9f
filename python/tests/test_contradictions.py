"""Contradictions by columns are those of a second reader that goes row by row."""

from __future__ import annotations

import dataclasses
import random

import numpy as np
from hypothesis import given, settings
from hypothesis import strategies as st
from makers.machine_reader import MachineReader, Row

from sigaudit_tools.events import Events
from sigaudit_tools.holes.contradictions import contradictions
from sigaudit_tools.holes.durations import durations
from sigaudit_tools.holes.machine_rows import Rows, channel_rows, contradicted, strict_rows
from sigaudit_tools.holes.spans import merged
from sigaudit_tools.signal.channels import Channel
from sigaudit_tools.signal.machines import COLOURS, MACHINES, STRICT


def walk(rng: random.Random, kind: str, count: int, loss: float) -> list[Row]:
    """Rows of a channel that goes on by the book, some of which are lost."""
    colour, tenth, found = rng.choice(COLOURS[kind]), 0, []
    for _ in range(count):
        code = rng.choice([code for code, table in MACHINES[kind].items() if colour in table])
        tenth += rng.choice((0, 1, 4, 30, 200))
        colour = MACHINES[kind][code][colour]
        found.append((tenth, code))
    return [row for row in found if rng.random() >= loss]


def as_rows(kind: str, rows: list[Row], floors: dict[str, int]) -> Rows:
    return Rows(Channel(kind, 1), np.array([tenth for tenth, _ in rows], np.int64),
                np.array([code for _, code in rows], np.uint8), floors)


@settings(max_examples=150, deadline=None)
@given(st.integers(0, 1 << 30), st.sampled_from(STRICT))
def test_contradictions_are_those_of_the_row_reader(seed: int, kind: str) -> None:
    rng = random.Random(seed)
    rows = walk(rng, kind, rng.randrange(1, 60), rng.choice((0.0, 0.1, 0.4)))
    if not rows:
        return
    floors = {colour: rng.choice((1, 5, 40)) for colour in COLOURS[kind] if rng.random() < 0.4}
    starts = [rng.randrange(rows[-1][0] + 2) for _ in range(rng.randrange(4))]
    blanks = merged((low, low + rng.choice((1, 3, 50))) for low in starts)
    reader = MachineReader(kind, floors)
    wanted = sorted((rows[last][0] - rows[first][0], rows[first][0], rows[last][0], rows[last][1])
                    for first, last in reader.contradictions(rows, blanks))
    found = contradictions({Channel(kind, 1): as_rows(kind, rows, floors)}, blanks)
    assert [(one.tenths, one.low, one.high, one.code) for one in found] == wanted


@settings(max_examples=100, deadline=None)
@given(st.integers(0, 1 << 30), st.sampled_from(STRICT))
def test_gaps_contradict_where_the_row_reader_says_so(seed: int, kind: str) -> None:
    rng = random.Random(seed)
    rows = walk(rng, kind, 80, 0.0)
    floors = {colour: rng.choice((1, 5, 40)) for colour in COLOURS[kind] if rng.random() < 0.4}
    begin = np.array([rng.randrange(rows[-1][0] + 5) for _ in range(20)])
    end = begin + rng.choice((1, 10, 100))
    wanted = []
    for low, high in zip(begin, end):
        around = [row for row in rows if row[0] <= low][-8:] + [row for row in rows if row[0] >= high][:8]
        wanted.append(bool(around) and MachineReader(kind, floors).first_wrong(around, ()) is not None)
    assert contradicted([as_rows(kind, rows, floors)], begin, end, 8).tolist() == wanted


@settings(max_examples=100, deadline=None)
@given(st.integers(0, 1 << 30), st.sampled_from(("phase", "ped", "overlap", "preempt", "detector")))
def test_durations_are_those_of_the_row_reader(seed: int, kind: str) -> None:
    rng = random.Random(seed)
    rows = walk(rng, kind, 60, 0.2)
    low = rng.randrange(rows[-1][0] + 1)
    unknown = [(low, low + 40)]
    rows = [row for row in rows if not low <= row[0] < low + 40]
    reader, wanted, state, before = MachineReader(kind, {}), [], None, 0
    for tenth, code in rows:
        if state is None or before < low < tenth:
            state = reader.any
        after = reader.after_row(state, tenth, code) or reader.any
        if len(state) == 1:
            (colour, begin), = state.items()
            if colour not in after and begin >= 0:
                wanted.append((colour, begin, tenth))
        state, before = after, tenth
    found = durations(as_rows(kind, rows, {}), unknown)
    assert [(COLOURS[kind][colour], begin, end) for colour, begin, end in zip(*found)] == wanted


def test_repeats_are_no_rows() -> None:
    events = Events(np.array([5, 5, 5, 9, 9]), np.uint8([1, 1, 7, 7, 43]), np.uint16([2, 2, 2, 2, 2]))
    rows = strict_rows(events, None)
    assert list(rows) == [Channel("phase", 2)]
    assert rows[Channel("phase", 2)].code.tolist() == [1, 7, 7]
    other = channel_rows(events, Channel("phase", 3))
    assert len(other.tenth) == 0 and dataclasses.replace(other, floors={"Green": 3}).floors == {"Green": 3}
