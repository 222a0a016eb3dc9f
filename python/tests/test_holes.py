"""Holes: what was found before is found again, to the printed digit; and read back."""

from __future__ import annotations

import lzma
from pathlib import Path

import numpy as np
import pytest
from click.testing import CliRunner
from makers.days import INTERSECTION, day, intersection
from makers.floors import intersection_with_floors

from sigaudit_tools.cli import verbs
from sigaudit_tools.errors import InputError
from sigaudit_tools.events import Events
from sigaudit_tools.holes import find_holes, read_holes
from sigaudit_tools.holes.explained import explain_gap
from sigaudit_tools.intake import read_export
from sigaudit_tools.signal.config import Config, read_config
from sigaudit_tools.times import DAY, HOUR, stamp_of, tenth_of_hour, tenth_of_stamp

KEPT = Path(__file__).parent / "kept" / "holes"
CONFIG = read_config(INTERSECTION / "config.toml")


def kept(name: str) -> list[str]:
    return lzma.decompress((KEPT / f"{name}.txt.xz").read_bytes()).decode().splitlines()


def outages() -> Events:
    """The three hours with their outages."""
    return read_export(sorted(INTERSECTION.glob("o0?.csv"))).events


@pytest.mark.parametrize("name", ["d1", "out", "d1-floors", "d3-floors", "inter-floors", "out-floors"])
def test_lines_are_as_they_were(name: str) -> None:
    log, _, floors = name.partition("-")
    events = {"inter": intersection, "out": outages}[log]() if log in ("inter", "out") else day(log)
    assert find_holes(intersection_with_floors() if floors else CONFIG, events).lines() == kept(name)


def test_lines_are_read_back(tmp_path: Path) -> None:
    events, gone = outages(), tenth_of_hour("2024-03-04T06")
    events = events.where((events.tenth < gone) | (events.tenth >= gone + HOUR))
    later = Events(np.append(events.tenth, [gone + 5 * HOUR] * 2), np.append(events.code, np.uint8([182, 0])),
                   np.append(events.param, np.uint16([1, 9])))
    found = find_holes(CONFIG, later, hours=[gone + 4 * HOUR], doubled={gone - HOUR: 3}, silence=40, chances=False)
    path = tmp_path / "holes.txt"
    path.write_text("".join(f"{line}\n" for line in found.lines()))
    read = read_holes(path)
    assert read.lines() == found.lines() and read.blanks == found.blanks and read.survey == found.survey
    assert {line.split(" ")[0] for line in found.lines()} >= {"hour", "nearly_empty", "quiet", "restart", "silence",
                                                              "channel", "hole", "proposed", "blank"}


@pytest.mark.parametrize("text", [
    b"", b"hole 1.0 2024", b"\xff\xfe\0\0", b"SignalID,Timestamp\n5101,2024-03-04 05:00:00.0,1,2\n", b"wait\n",
    b"hour 2024-03-04T05 rows 1 repeats 0 doubled 0 first - last -\n"])
def test_what_is_no_file_of_holes_is_refused(tmp_path: Path, text: bytes) -> None:
    path = tmp_path / "holes.txt"
    path.write_bytes(text)
    with pytest.raises(InputError) as error:
        read_holes(path)
    assert str(path) in str(error.value) and "holes" in error.value.remedy


def test_a_file_that_is_cut_short_is_refused(tmp_path: Path) -> None:
    whole = "\n".join(kept("out")) + "\n"
    path = tmp_path / "holes.txt"
    for cut in (300, len(whole) - 1, len(whole) - 30):
        path.write_text(whole[:cut])
        with pytest.raises(InputError):
            read_holes(path)
    with pytest.raises(InputError):
        read_holes(tmp_path / "none.txt")


def test_a_silence_is_a_hole_where_one_asks_for_it() -> None:
    found = find_holes(CONFIG, outages(), silence=35, certain=True)
    silences = [hole for hole in found.holes if hole.why == "silence"]
    assert len(silences) == 9 and all(hole.end - hole.begin >= 350 and hole.grade == "likely" for hole in silences)
    assert not found.chances and not found.suspects


def test_a_small_log_is_said_to_be_small() -> None:
    events = outages().between(tenth_of_hour("2024-03-04T05"), tenth_of_stamp("2024-03-04T05:05:00.0"))
    found = find_holes(CONFIG, events)
    assert [line for line in found.lines() if line.startswith("small")] == [
        "small 2024-03-04T05:00:00.0 2024-03-04T06:00:00.0 tenths 123"]


def test_a_log_without_a_row_is_refused() -> None:
    with pytest.raises(InputError):
        find_holes(CONFIG, Events.none())
    assert find_holes(None, Events.none(), hours=[0]).blanks == []


def test_a_long_log_is_learned_in_portions_alike_by_several_processes() -> None:
    actuations = intersection().of((81, 82))
    hours = [shifted(actuations.where(np.arange(len(actuations)) % 40 == days % 40), days) for days in range(60)]
    events = Events(*(np.concatenate([getattr(one, name) for one in hours]) for name in ("tenth", "code", "param")))
    found = find_holes(CONFIG, events, chances=False)
    assert found.lines() == find_holes(CONFIG, events, chances=False, jobs=2).lines()
    assert len(found.survey.hours) == 180 and len(found.survey.missing) == 59 * 21


def shifted(events: Events, days: int) -> Events:
    return Events(events.tenth + days * DAY, events.code, events.param)


def test_a_controller_that_leaves_a_code_out_is_a_misfit() -> None:
    events = intersection()
    found = find_holes(CONFIG, events.where(events.code != 10), certain=True)
    assert [(one.kind, one.code) for one in found.misfits] == [("phase", 11)]


@pytest.mark.parametrize("config", [CONFIG, None])
def test_why_a_gap_has_its_grade(config: Config | None) -> None:
    lines = explain_gap(config, outages(), tenth_of_stamp("2024-03-04T06:10:00.0"))
    assert lines[0].startswith("gap 72.7 2024-03-04T06:09:28.7 2024-03-04T06:10:41.4 sure ")
    assert ("channel detector 19 score 8.6 81 19 at 2024-03-04T06:09:09.7 then 81 19 after 126.6 s, usually after 1.2 "
            "to 103.4 s (of 108 rows), by such a row 0 times") in lines
    certain = explain_gap(config, outages(), tenth_of_stamp("2024-03-04T05:23:27.0"))
    assert certain[0] == ("certain phase 8 code 0 at 2024-03-04T05:23:56.0 after 2024-03-04T05:23:25.6"
                          if config else certain[0])


def test_a_stamp_in_no_gap_is_refused() -> None:
    with pytest.raises(InputError):
        explain_gap(CONFIG, outages(), tenth_of_stamp("2024-03-05T06:10:00.0"))
    with pytest.raises(InputError):
        explain_gap(CONFIG, Events.none(), 0)


def test_the_verb() -> None:
    files = [str(path) for path in sorted(INTERSECTION.glob("o0?.csv"))]
    answer = CliRunner().invoke(verbs, ["holes", "--config", str(CONFIG.path), *files])
    assert answer.exit_code == 0 and answer.output.splitlines() == kept("out")
    words = ["--config", str(CONFIG.path), "--explain", "2024-03-04T06:10:00.0"]
    answer = CliRunner().invoke(verbs, ["holes", *words, *files])
    assert answer.exit_code == 0 and stamp_of(tenth_of_stamp("2024-03-04T06:09:28.7")) in answer.output
