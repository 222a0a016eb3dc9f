"""Packed hours are read back as they were packed, and refused where they are cut short."""

from __future__ import annotations

import lzma
from pathlib import Path

import numpy as np
import pytest
from click.testing import CliRunner
from hypothesis import given, settings
from hypothesis import strategies as st
from makers.days import INTERSECTION

from sigaudit_tools.cli import verbs
from sigaudit_tools.errors import InputError
from sigaudit_tools.events import Events
from sigaudit_tools.intake import read_export
from sigaudit_tools.intake.packed import MARK, is_packed, read_packed
from sigaudit_tools.times import HOUR, hour_of, tenth_of_hour

KEPT = Path(__file__).parent / "kept" / "outages"
FIRST = tenth_of_hour("2024-03-04T05")


def number(value: int) -> bytes:
    """A number as a packed hour has it."""
    found = []
    while value >= 128:
        found.append(value & 127 | 128)
        value >>= 7
    return bytes([*found, value])


def packed(events: Events, hour: int) -> bytes:
    head = MARK + b"\x045101" + hour_of(hour).encode() + len(events).to_bytes(4, "big")
    steps = np.diff(events.tenth, prepend=hour).tolist()
    rows = zip(steps, events.code.tolist(), events.param.tolist())
    return head + b"".join(number(step) + bytes([code]) + number(param) for step, code, param in rows)


@settings(max_examples=60, deadline=None)
@given(st.lists(st.tuples(st.integers(0, HOUR - 1), st.integers(0, 255), st.integers(0, 65535)), max_size=40))
def test_what_is_packed_is_read_back(rows: list[tuple[int, int, int]]) -> None:
    rows = sorted(rows)
    events = Events(*(np.array([row[side] for row in rows], kind) for side, kind in enumerate((int, "u1", "u2"))))
    events = Events(events.tenth + FIRST, events.code, events.param)
    data = packed(events, FIRST)
    found = read_packed(data, "h.sgp")
    assert is_packed(data)
    assert all(np.array_equal(getattr(found, name), getattr(events, name)) for name in ("tenth", "code", "param"))
    for cut in (3, 12, 20, len(data) - 1):
        if cut < len(data):
            with pytest.raises(InputError):
                read_packed(data[:cut], "h.sgp")


def test_verdicts_on_packed_hours_are_explained(tmp_path: Path) -> None:
    script = (KEPT / "session.txt").read_text()
    for path in sorted(INTERSECTION.glob("o0?.csv")):
        events = read_export(path).events
        hour = int(events.tenth[0]) // HOUR * HOUR
        (tmp_path / f"5101_{hour_of(hour)}.csv").write_bytes(packed(events, hour))
    (tmp_path / "session.txt").write_text(script)
    (tmp_path / "answer.txt").write_bytes(lzma.decompress((KEPT / "answer.txt.xz").read_bytes()))
    words = ["--config", str(INTERSECTION / "config.toml"), "--script", str(tmp_path / "session.txt"),
             "--answer", str(tmp_path / "answer.txt"), "--rule", "60"]
    answer = CliRunner().invoke(verbs, ["explain", *words])
    assert answer.exit_code == 0
    assert "began 2024-03-04T07:28:21.5 code 0 param 5 Phase On, line 3760 of 5101_2024-03-04T07.csv" in answer.output
