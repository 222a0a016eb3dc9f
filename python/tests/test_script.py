"""Scripts: as they were kept, and what isn't taken."""

from __future__ import annotations

import dataclasses
from pathlib import Path

import pytest
from hypothesis import given
from hypothesis import strategies as some
from makers.days import INTERSECTION

from sigaudit_tools import script
from sigaudit_tools.errors import InputError
from sigaudit_tools.signal.config import read_config
from sigaudit_tools.times import stamp_of

KEPT = Path(__file__).parent / "kept" / "outages" / "session.txt"
CONFIG = read_config(INTERSECTION / "config.toml")
NAMES = {hour: f"5101_2024-03-04T{5 + hour:02d}.csv" for hour in range(3)}


def test_the_script_of_hours_is_as_it_was() -> None:
    kept = KEPT.read_text()
    assert script.script_of_hours(CONFIG, NAMES, script.blanks_of(kept, "kept")) == kept


def test_edits_stand_as_they_are() -> None:
    edits = "".join(line + "\n" for line in KEPT.read_text().split("\n") if line.split(" ")[0] in script.EDITS)
    assert script.script_of_edits(CONFIG, edits) == KEPT.read_text() == script.script_of_edits(CONFIG, edits[:-1])
    assert script.edits_before_audit(KEPT.read_text()) == edits
    assert script.edits_before_audit(edits) == edits


def test_what_is_no_edit_is_named_by_its_line() -> None:
    with pytest.raises(InputError, match="edits.txt:2"):
        script.script_of_edits(CONFIG, "load 0 a.csv\nverdicts 1\n", "edits.txt")


@given(some.lists(some.tuples(some.integers(-50_000, 150_000), some.integers(0, 50_000)), max_size=5))
def test_blanks_are_cut_to_the_window(spans: list[tuple[int, int]]) -> None:
    blanks = [(CONFIG.start_tenth + low, CONFIG.start_tenth + low + long) for low, long in spans]
    text = script.script_of_hours(CONFIG, {}, blanks)
    known = set(range(CONFIG.start_tenth, CONFIG.end_tenth))
    wanted = [(min(inside), max(inside) + 1) for low, high in blanks if (inside := known & set(range(low, high)))]
    assert script.blanks_of(text, "script") == wanted


def test_hours_are_found_by_names(tmp_path: Path) -> None:
    paths = [tmp_path / name for name in (*NAMES.values(), "5101_2024-03-04T09.csv")]
    for path in paths:
        path.touch()
    assert script.hours_of_files(CONFIG, paths) == (dict(enumerate(paths[:3])), paths[3:])
    later = dataclasses.replace(CONFIG, start_tenth=CONFIG.start_tenth + 36_000)
    assert script.hours_of_files(later, paths[:1]) == ({}, paths[:1])
    (tmp_path / "day.csv").touch()
    (tmp_path / "other_2024-03-04T05.csv").touch()
    for more in ("day.csv", "other_2024-03-04T05.csv", "5101_2024-03-04T06x.csv"):
        with pytest.raises(InputError):
            script.hours_of_files(CONFIG, [*paths, tmp_path / more])
    with pytest.raises(InputError, match="no such file"):
        script.hours_of_files(CONFIG, [tmp_path / "5102_2024-03-04T07.csv"])


def test_a_blank_that_is_cut_short_is_refused() -> None:
    with pytest.raises(InputError, match="holes.txt:2"):
        script.blanks_of(f"proposed 1\nblank {stamp_of(0)}", "holes.txt")
