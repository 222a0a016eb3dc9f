"""Faults of channels: what is found in days with faults at known times, and in days without."""

from __future__ import annotations

import dataclasses
import random
import time
from pathlib import Path

import pytest
from makers import days, made_day
from makers.faults import Fault, put
from makers.made_day import at

from sigaudit_tools.errors import InputError
from sigaudit_tools.events import Events
from sigaudit_tools.faults import Faults, find_faults
from sigaudit_tools.signal.config import parse_config
from sigaudit_tools.times import DAY, HOUR, tenth_of_hour

KEPT = Path(__file__).parent / "kept" / "faults"
CONFIG = parse_config(made_day.CONFIG.encode(), Path("config.toml"))
ALL = (1, 2, 3, 4, 11, 12, 13, 14)
# Of each day of the made log its faults: kind, numbers, from, to.
FAULTS = (("one", (2,), "09:00:00", "09:40:00"), ("coordination", (0,), "10:30:00", "11:00:00"),
          ("card", (11, 12), "12:00:00", "12:30:00"), ("stuck-on", (13,), "14:00:00", "14:25:00"),
          ("chatter", (4,), "16:00:00", "16:20:00"), ("all", ALL, "18:00:00", "18:20:00"),
          ("stuck-off", (1,), "21:30:00", "23:59:59.9"))
# Of a true day: kind, numbers, the hour at which it begins and the one at which it ends.
DAY_FAULTS = (("one", (5,), 7.5, 8.2), ("card", (9, 10, 11, 12), 9.1, 9.6), ("ped", (2, 4, 6, 8), 11.0, 15.0),
              ("slow-chatter", (17,), 12.5, 13.0), ("stuck-on", (14,), 14.2, 15.0), ("chatter", (2,), 16.0, 16.1),
              ("coordination", (0,), 17.0, 17.6), ("stuck-off", (20,), 20.5, 23.9))


def kept(name: str) -> list[str]:
    return (KEPT / f"{name}.txt").read_text().splitlines()


@pytest.fixture(scope="module")
def made() -> Events:
    return made_day.made_day()


@pytest.fixture(scope="module")
def faulty(made: Events) -> Faults:
    faults = [Fault(kind, numbers, at(begin), at(end)) for kind, numbers, begin, end in FAULTS]
    return find_faults(CONFIG, put(made, faults, random.Random(7)), cards=[(11, 12)])


def day_with_faults(name: str) -> Events:
    events = days.day(name)
    begin = int(events.tenth[0]) // DAY * DAY
    faults = [Fault(kind, numbers, begin + round(first * HOUR), begin + round(last * HOUR))
              for kind, numbers, first, last in DAY_FAULTS]
    return put(events, faults, random.Random(11))


def test_a_day_without_faults_has_none(made: Events) -> None:
    assert find_faults(CONFIG, made).lines() == ["never detector 15", "learned 11 of 11 86400.0"]
    assert find_faults(CONFIG, made_day.late(made)).findings == ()


def test_flash_is_no_silence_of_the_coordination(made: Events) -> None:
    hour = made_day.flashed(made, at("10:00:00"), at("11:00:00"))
    assert find_faults(CONFIG, hour).findings == ()
    short = made_day.flashed(made, at("10:00:00"), at("10:10:00"))
    lost = put(short, [Fault("coordination", (0,), at("10:00:00"), at("11:00:00"))], random.Random(7))
    assert find_faults(CONFIG, lost).lines()[0] == (
        "silent coordination 2024-03-04T09:58:31.0 2024-03-04T11:00:00.0 sure 25.7")


def test_faults_are_found_at_their_times(faulty: Faults) -> None:
    assert faulty.lines() + faulty.chances() == kept("made")
    assert [finding.grade for finding in faulty.findings] == ["sure"] * 7


def test_a_silence_is_likely_before_it_is_over(faulty: Faults) -> None:
    for finding in faulty.findings:
        tenth = faulty.likely_at(finding)
        if finding.word == "chatter":
            assert tenth is None
        else:
            assert tenth is not None and finding.begin < tenth <= finding.end


def test_what_witnesses_saw_is_explained(faulty: Faults) -> None:
    asked = (("detector 2", "09:10:00"), ("detector 4", "16:10:00"), ("detector 3", "16:10:00"))
    assert [line for name, clock in asked for line in faulty.evidence(name, at(clock))] == kept("evidence")
    with pytest.raises(InputError, match="the log has no detector 99"):
        faulty.evidence("detector 99", at("16:10:00"))


def test_faulty_approaches_are_left_out(faulty: Faults) -> None:
    text = faulty.config_without(CONFIG)
    assert text is not None and text == (KEPT / "config-without.toml").read_text()
    assert faulty.hours_without(CONFIG) == kept("hours-without")
    assert faulty.faulty(CONFIG) == {"NB1", "NB2", "EB1", "EB2"}
    one_line = made_day.CONFIG.split("[[approach]]")[0].replace(
        "coordination", 'approach = [{name = "A", phase = 2, advance = 2}]\ncoordination', 1)
    with pytest.raises(InputError, match="leave out by hand: A"):
        faulty.config_without(parse_config(one_line.encode(), Path("c.toml")))
    no_fault = dataclasses.replace(faulty, findings=())
    assert no_fault.config_without(CONFIG) is None and no_fault.hours_without(CONFIG) == []


@pytest.mark.parametrize("name", ("d1", "d3"))
def test_true_days(name: str) -> None:
    events = days.day(name)
    began = time.process_time()
    faults = find_faults(None, events)
    assert time.process_time() - began < 2  # half of it on a quiet machine
    assert faults.lines() + faults.chances() == kept(name)


@pytest.mark.parametrize("name", ("d1", "d3"))
def test_true_days_with_faults(name: str) -> None:
    assert find_faults(None, day_with_faults(name)).lines() == kept(f"{name}-faults")


def test_three_hours_are_few() -> None:
    faults = find_faults(None, days.intersection())
    assert faults.lines() + faults.chances() == kept("intersection")
    assert faults.small


def test_a_log_too_small_to_learn_from(made: Events) -> None:
    hour = made.between(at("09:00:00"), at("09:10:00"))
    faults = find_faults(None, hour)
    assert faults.learned == 0 and faults.findings == ()
    with pytest.raises(InputError, match="no rows"):
        find_faults(None, Events.none())


def test_hours_without_a_row_count(made: Events) -> None:
    quiet = find_faults(None, made.between(at("06:00:00"), at("12:00:00")), hours=[tenth_of_hour("2024-03-04T12")])
    assert quiet.seconds == 7 * 3600
