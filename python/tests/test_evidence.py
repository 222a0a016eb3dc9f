"""The rows on which verdicts stand, and what is said of holes and histories."""

from __future__ import annotations

import dataclasses

import numpy as np
import pytest
from makers import audits

from sigaudit_tools.answer import Answer, HeldHour, Known
from sigaudit_tools.events import Events
from sigaudit_tools.holes import Hole
from sigaudit_tools.holes.survey import Quiet
from sigaudit_tools.report.evidence import KnownLog, channels_of
from sigaudit_tools.report.remarks import histories, quiet_detectors, why, why_blank
from sigaudit_tools.signal.channels import Channel
from sigaudit_tools.signal.config import Overlap
from sigaudit_tools.times import HOUR, tenth_of_stamp

PHASE = (Channel("phase", 2),)


@pytest.fixture(scope="module")
def answer() -> Answer:
    return audits.intersection().answer


def log_of(answer: Answer, rows: list[tuple[int, int, int]], blanks: tuple[tuple[int, int], ...] = ()) -> KnownLog:
    """The log of rows (tenths since the window's start, code, parameter), of which only the first hour is held."""
    start = answer.config.start_tenth
    known = Known({0: HeldHour("h.csv", len(rows))}, tuple((start + low, start + high) for low, high in blanks))
    tenth, code, param = np.array(rows, np.int64).reshape(-1, 3).T
    events = Events(tenth + start, code.astype(np.uint8), param.astype(np.uint16))
    return KnownLog.of(dataclasses.replace(answer, known=known), events)


def test_repeats_are_left_out_and_lines_are_those_of_the_file(answer: Answer) -> None:
    rows = [(10, 1, 2), (10, 1, 2), (10, 82, 5), (10, 1, 2), (10, 7, 2), (10, 1, 2),
            (11, 1, 2), (11, 44, 3), (11, 44, 3)]
    log = log_of(answer, rows)
    assert log.line.tolist() == [2, 4, 6, 7, 8, 9]


def test_rows_at_unknown_tenths_are_left_out(answer: Answer) -> None:
    log = log_of(answer, [(10, 1, 2), (20, 7, 2), (29, 8, 2), (30, 9, 2)], ((20, 30),))
    start = answer.config.start_tenth
    assert (log.events.tenth - start).tolist() == [10, 30]
    assert log.unknown_in(start, start + 25) == [(start + 20, start + 25)]


def test_the_longest_silence_is_the_first_of_equal_ones(answer: Answer) -> None:
    start = answer.config.start_tenth
    log = log_of(answer, [(10, 1, 2), (20, 7, 2), (30, 8, 2)], ((40, 90),))
    assert log.silence(start + 10, start + 30) == (start + 10, start + 20)
    assert log.silence(start + 30, start + 100) == (start + 30, start + 40)
    assert log.silence(start + 45, start + 60) is None


def test_a_long_stretch_is_shown_by_its_own_rows_its_ends_and_around_its_silence(answer: Answer) -> None:
    start = answer.config.start_tenth
    rows = [(place + (500 if place >= 100 else 0), 82, 5) for place in range(200)]
    rows[50] = (50, 1, 2)
    lines = log_of(answer, rows).lines((start, start + 699), PHASE)
    assert sum(1 + line.left_out for line in lines) == 200
    assert [line.number for line in lines if line.own] == [52]
    assert {101, 102} <= {line.number for line in lines} and len(lines) < 60


def test_a_row_alone_between_shown_ones_is_shown(answer: Answer) -> None:
    start = answer.config.start_tenth
    rows = [(place, 82, 5) for place in range(100)]
    rows[13] = (13, 1, 2)
    numbers = [line.number for line in log_of(answer, rows).lines((start, start + 99), PHASE)]
    assert numbers[:14] == list(range(2, 16))


def test_files_of_lines_are_named_once(answer: Answer) -> None:
    log = KnownLog.of(answer, audits.intersection().events)
    start = answer.config.start_tenth
    lines = log.lines((start + HOUR - 20, start + HOUR + 20), PHASE)
    assert log.files_of(lines) == ["5101_2024-03-04T05.csv", "5101_2024-03-04T06.csv"]


def test_channels_of_rules(answer: Answer) -> None:
    config = dataclasses.replace(answer.config, overlaps=(Overlap(1, (2, 6)),))
    assert channels_of("conflict 4 5", config) == (Channel("phase", 4), Channel("phase", 5))
    assert channels_of("companion 2", config) == (Channel("ped", 2), Channel("phase", 2))
    assert channels_of("ped 6 DontWalk at most 3000", config) == (Channel("ped", 6),)
    assert channels_of("parents 1", config) == (Channel("overlap", 1), Channel("phase", 2), Channel("phase", 6))


@pytest.mark.parametrize("hole, said", [
    (Hole(0, 118, "certain", None, "phase 8 code 0 at 2024-03-04T05:23:56.0 after 2024-03-04T05:23:25.6"),
     "certainly a hole: phase 8 code 0 at 2024-03-04 05:23:56.0 can’t follow the rows before it"),
    (Hole(0, 9, "certain", None, "jump 3 phases: phase 8 code 0 at 2024-03-04T05:23:56.0 after 2024-03-04T05:23:25.6"),
     "the controller began anew: phase 8 code 0 at 2024-03-04 05:23:56.0 can’t follow the rows before it"),
    (Hole(0, 600, "likely", None, "edge"),
     "likely a hole: no row before the first, or after the last, for longer than ever at this time of day"),
    (Hole(0, 601, "likely", None, "silence"), "no row of any channel for 60.1 s"),
    (Hole(0, 727, "sure", 4.7, "detector 19 8.6, ring 1 8.3"),
     "surely a hole: what stands before and after goes badly together (detector 19, ring 1)")])
def test_a_hole_has_its_reason(hole: Hole, said: str) -> None:
    assert why(hole) == said


def test_a_blank_has_the_reasons_of_its_holes() -> None:
    holes = audits.intersection().holes
    first = holes.holes[0]
    assert why_blank(holes, *first.blank).startswith("certainly a hole")
    assert why_blank(holes, 0, 10) == why_blank(None, *first.blank) == "blanked by hand"


def test_a_detector_that_is_quiet_for_long_has_its_first_hours_named() -> None:
    made = audits.intersection()
    quiet = tuple(Quiet(made.config.start_tenth + place * HOUR, ("detector 7", "ped 2")) for place in range(8))
    survey = dataclasses.replace(made.holes.survey, quiet=quiet, never=())
    said = list(quiet_detectors(dataclasses.replace(made.holes, survey=survey)))
    assert len(said) == 1 and said[0].startswith("Detector 7 has no row in the hours from Mon 4 Mar 05:00, ")
    assert " and 2 more, though others have" in said[0]


def test_histories_are_those_of_the_fillings() -> None:
    found = histories(audits.intersection().fillings.splitlines())
    keeps, breaks = found[35, tenth_of_stamp("2024-03-04T06:10:59.5")]
    assert keeps.keeps and not breaks.keeps
    channel = keeps.channels[0]
    assert (channel.kind, channel.number, channel.colour, channel.age) == ("phase", "2", "Red", 36001)
    assert (channel.fills[0].code, channel.fills[0].param) == (1, 2)
