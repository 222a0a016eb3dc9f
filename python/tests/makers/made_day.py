"""A made day: phases 2 and 4 of signal 7 in turn, 90 s a cycle; four lanes with an advance detector (1 to 4) and one at
the stop bar (11 to 14), at which vehicles queue; pedestrian inputs 2 and 4; coordination from 06 to 20 h."""

from __future__ import annotations

import random

from makers.faults import Row, events_of, rows_of

from sigaudit_tools.events import Events
from sigaudit_tools.times import DAY, HOUR, tenth_of_hour

BEGIN = tenth_of_hour("2024-03-04T00")
CYCLE, TRAVEL, HEADWAY = 900, 60, 20
GREENS = {2: (0, 450), 4: (500, 850)}
LANES = ((1, 11, 2, 1.0), (2, 12, 2, 0.7), (3, 13, 4, 0.6), (4, 14, 4, 0.4))
BY_HOUR = (6, 4, 3, 3, 8, 40, 110, 170, 160, 120, 110, 110, 120, 120, 130, 150, 180, 190, 150, 100, 60, 40, 25, 12)
FLASHING = {*range(13), 21, 22, 23, 24, 31, 43, 44, 45, 150, 151, 152}
BATCH = 50  # tenths
CONFIG = """signal = "7"
start = "2024-03-04T00"
hours = 24
coordination = true
[[phase]]
number = 2
ring = 1
side = 1
[[phase]]
number = 4
ring = 1
side = 2
[[approach]]
name = "NB1"
phase = 2
advance = 1
stop_bar = 11
[[approach]]
name = "NB2"
phase = 2
advance = 2
stop_bar = 12
[[interval]]
channel = "phase 2"
colour = "Green"
at_least = 100
[[approach]]
name = "EB1"
phase = 4
advance = 3
stop_bar = 13
[[approach]]
name = "EB2"
phase = 4
advance = 4
stop_bar = 15
"""


def _arrivals(draws: random.Random, share: float) -> list[int]:
    """The tenths at which somebody comes, by the hour's rate; never closer than the headway."""
    tenth, found, busiest = 0.0, [], max(BY_HOUR)
    while True:
        tenth += HEADWAY + draws.expovariate(busiest * share / HOUR)
        if tenth >= DAY:
            return found
        if draws.random() * busiest < BY_HOUR[int(tenth) // HOUR]:
            found.append(int(tenth))


def _leaves(phase: int, tenth: int) -> int:
    """When a vehicle at the stop bar may go: at once in green, else as green begins."""
    begin, end = GREENS[phase]
    cycle, at = divmod(tenth, CYCLE)
    if at < begin:
        return cycle * CYCLE + begin
    return tenth if at < end else (cycle + 1) * CYCLE + begin


def _lane(draws: random.Random, advance: int, stop_bar: int, phase: int, share: float) -> list[Row]:
    rows, free = [], 0
    for tenth in _arrivals(draws, share):
        rows += [(tenth, 82, advance), (tenth + 3, 81, advance)]
        comes = max(tenth + TRAVEL, free + 10)
        goes = _leaves(phase, max(comes + 5, free + HEADWAY))
        if goes > comes + 5:
            rows += [(comes, 43, phase), (goes, 44, phase)]
        rows += [(comes, 82, stop_bar), (goes, 81, stop_bar)]
        free = goes
    return rows


def made_day() -> Events:
    """The log of the day."""
    draws, rows = random.Random(7), []
    for cycle in range(0, DAY, CYCLE):
        for phase, (begin, end) in GREENS.items():
            rows += [(cycle + at, code, phase) for at, code in ((begin, 0), (begin, 1), (end - 50, 7), (end - 50, 8),
                                                                (end - 15, 9), (end - 15, 10), (end, 11), (end, 12))]
        if 6 * HOUR <= cycle < 20 * HOUR:
            rows += [(cycle, 150, 5), (cycle + 10, 150, 1)]
    rows += [(0, 131, 254), (0, 150, 0), (6 * HOUR - 1, 131, 1), (20 * HOUR, 131, 254), (20 * HOUR, 150, 0)]
    for advance, stop_bar, phase, share in LANES:
        rows += _lane(draws, advance, stop_bar, phase, share)
    for ped in GREENS:
        for tenth in _arrivals(draws, 0.1):
            rows += [(tenth, 90, ped), (tenth, 45, ped), (tenth + 4, 89, ped)]
    return events_of((BEGIN + tenth, code, number) for tenth, code, number in sorted(rows) if tenth < DAY)


def flashed(events: Events, begin: int, end: int) -> Events:
    """The log with flash: detectors go on, phases and the coordination don't."""
    rows = [row for row in rows_of(events) if not (begin <= row[0] < end and row[1] in FLASHING)]
    return events_of(sorted([*rows, (begin, 173, 4), (end, 173, 2)]))


def late(events: Events) -> Events:
    """The log with the stamps of batches of five seconds, the rows of each by their codes."""
    return events_of(sorted((tenth - (tenth - BEGIN) % BATCH, code, number) for tenth, code, number in rows_of(events)))


def at(clock: str) -> int:
    """The tenth of a time of the day, HH:MM:SS or with its tenth."""
    seconds, _, tenth = clock.partition(".")
    hour, minute, second = map(int, seconds.split(":"))
    return BEGIN + (hour * 3600 + minute * 60 + second) * 10 + int(tenth or 0)
