"""A corridor: late hours, what is done again, joined tables, the page."""

from __future__ import annotations

import shutil
from pathlib import Path

import pytest
from makers.days import INTERSECTION
from makers.runs import CONFIG, call, contents, needs_program

HOURS = ("5101_2024-03-04T05.csv", "5101_2024-03-04T06.csv")


def hour_file(folder: Path, name: str, source: str) -> Path:
    """An hour of the intersection under the name of its signal and hour."""
    return Path(shutil.copy(INTERSECTION / source, folder / name))


@pytest.fixture
def corridor(tmp_path: Path) -> Path:
    """Two signals with an hour each; the second is the first under another name."""
    folder = tmp_path / "main street"
    for signal in ("5101", "5102"):
        (folder / signal).mkdir(parents=True)
        (folder / signal / "config.toml").write_text(CONFIG.read_text().replace('"5101"', f'"{signal}"'))
        name = HOURS[0].replace("5101", signal)
        (tmp_path / name).write_text((INTERSECTION / "h05.csv").read_text().replace("\n5101,", f"\n{signal},"))
        assert call("corridor-arrive", folder / signal, tmp_path / name) == 0
    return folder


def test_hours_arrive_in_order(corridor: Path, tmp_path: Path, capfd: pytest.CaptureFixture[str]) -> None:
    signal = corridor / "5101"
    late = hour_file(tmp_path, HOURS[1], "o06.csv")
    assert call("corridor-arrive", signal, late, late) == 0
    assert "held already" in capfd.readouterr().err
    hour_file(tmp_path, HOURS[1], "h06.csv")
    assert call("corridor-arrive", signal, late) == 0
    assert (signal / "edits.txt").read_text().splitlines() == [
        f"load 0 {HOURS[0]}", f"load 1 {HOURS[1]}", "replace 1 5101_2024-03-04T06.2.csv"]
    outside = hour_file(tmp_path, "5101_2024-03-05T06.csv", "h06.csv")
    assert call("corridor-arrive", signal, outside) == 0
    assert "not in the window" in capfd.readouterr().err
    (signal / "edits.txt").write_text("load 0 a.csv")
    assert call("corridor-arrive", signal, late) == 3


@needs_program
def test_a_corridor_is_audited_and_joined(corridor: Path, tmp_path: Path, capfd: pytest.CaptureFixture[str],
                                          monkeypatch: pytest.MonkeyPatch) -> None:
    monkeypatch.setenv("SOURCE_DATE_EPOCH", "1733000000")
    assert call("corridor", corridor) == 0
    rules = (corridor / "all" / "rules.csv").read_text().splitlines()
    mine = [line for line in rules if line.startswith("5101,")]
    assert len(rules) == 1 + 2 * len(mine) and {line.replace("5101,", "5102,", 1) for line in mine} <= set(rules)
    page = (corridor / "index.html").read_text()
    assert 'href="5101/made/report.html"' in page and 'href="all/verdicts.csv"' in page
    before = contents(corridor)
    assert call("corridor", corridor, "--jobs", 2) == 0
    assert contents(corridor) == before
    late = [hour_file(tmp_path, HOURS[1], "o06.csv"), hour_file(tmp_path, "5101_2024-03-04T07.csv", "o07.csv")]
    assert call("corridor-arrive", corridor / "5101", *late) == 0
    capfd.readouterr()
    assert call("corridor", corridor) == 0
    now = contents(corridor)
    assert {name for name in now if name.startswith("5102") and now[name] != before[name]} == set()
    assert now["5101/made/answer.txt"] != before["5101/made/answer.txt"]


@needs_program
def test_a_signal_that_fails_stops_no_other(corridor: Path, capfd: pytest.CaptureFixture[str]) -> None:
    (corridor / "5102" / "edits.txt").write_text("verdicts 0\n")
    assert call("corridor", corridor) == 3
    assert "edits.txt:1: no edit" in capfd.readouterr().err
    page = (corridor / "index.html").read_text()
    assert "no answer" in page and "5101/made/report.html" in page
    assert call("corridor", corridor / "5101") == 3


@needs_program
def test_two_folders_of_one_signal_are_refused(corridor: Path, capfd: pytest.CaptureFixture[str]) -> None:
    shutil.copytree(corridor / "5101", corridor / "again")
    assert call("corridor", corridor) == 3
    assert "2 folders of signal 5101" in capfd.readouterr().err
