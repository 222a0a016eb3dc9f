"""The test of examples/detectors that bench/recipes runs: a made day with faults put into it at known times.

The day: phases 2 and 4 of signal 7 in turn, 90 s a cycle; four lanes with an advance detector (1 to 4) and one at
the stop bar (11 to 14), at which vehicles queue; pedestrian inputs 2 and 4; coordination from 06 to 20 h.
"""
import os
import random
import sys

HERE = os.path.dirname(os.path.dirname(os.path.abspath(__file__)))
sys.path[:0] = [os.path.join(HERE, "examples"), os.path.join(HERE, "bench")]
import detector_faults as faults
import loggers
import logs
import silences

DAY = logs.hour_of("2024-03-04T00")
CYCLE, TRAVEL, HEADWAY = 900, 60, 20
GREENS = {2: (0, 450), 4: (500, 850)}
LANES = ((1, 11, 2, 1.0), (2, 12, 2, 0.7), (3, 13, 4, 0.6), (4, 14, 4, 0.4))
BY_HOUR = (6, 4, 3, 3, 8, 40, 110, 170, 160, 120, 110, 110, 120, 120, 130, 150, 180, 190, 150, 100, 60, 40, 25, 12)
CONFIG = """signal = "7"
start = "2024-03-04T00"
hours = 24
coordination = true
[[phase]]
number = 2
ring = 1
side = 1
[[phase]]
number = 4
ring = 1
side = 2
[[approach]]
name = "NB1"
phase = 2
advance = 1
stop_bar = 11
[[approach]]
name = "NB2"
phase = 2
advance = 2
stop_bar = 12
[[interval]]
channel = "phase 2"
colour = "Green"
at_least = 100
[[approach]]
name = "EB1"
phase = 4
advance = 3
stop_bar = 13
[[approach]]
name = "EB2"
phase = 4
advance = 4
stop_bar = 15
"""


def arrivals(draws, share, busiest):
    """The tenths at which somebody comes, by the hour's rate; never closer than the headway."""
    tenth, found = 0.0, []
    while True:
        tenth += HEADWAY + draws.expovariate(busiest * share / logs.HOUR)
        if tenth >= silences.DAY:
            return found
        if draws.random() * busiest < BY_HOUR[int(tenth) // logs.HOUR]:
            found.append(int(tenth))


def leaves(phase, tenth):
    """When a vehicle at the stop bar may go: at once in green, else as green begins."""
    begin, end = GREENS[phase]
    cycle, at = divmod(tenth, CYCLE)
    if at < begin:
        return cycle * CYCLE + begin
    return tenth if at < end else (cycle + 1) * CYCLE + begin


def lane(draws, advance, stop_bar, phase, share):
    rows, free = [], 0
    for tenth in arrivals(draws, share, max(BY_HOUR)):
        rows += [(tenth, 82, advance), (tenth + 3, 81, advance)]
        comes = max(tenth + TRAVEL, free + 10)
        goes = leaves(phase, max(comes + 5, free + HEADWAY))
        if goes > comes + 5:
            rows += [(comes, 43, phase), (goes, 44, phase)]
        rows += [(comes, 82, stop_bar), (goes, 81, stop_bar)]
        free = goes
    return rows


def made_day():
    """The log of the day."""
    draws, rows = random.Random(7), []
    for cycle in range(0, silences.DAY, CYCLE):
        for phase, (begin, end) in GREENS.items():
            rows += [(cycle + at, code, phase) for at, code in ((begin, 0), (begin, 1), (end - 50, 7), (end - 50, 8),
                                                                (end - 15, 9), (end - 15, 10), (end, 11), (end, 12))]
        if 6 * logs.HOUR <= cycle < 20 * logs.HOUR:
            rows += [(cycle, 150, 5), (cycle + 10, 150, 1)]
    rows += [(0, 131, 254), (0, 150, 0), (6 * logs.HOUR - 1, 131, 1), (20 * logs.HOUR, 131, 254),
             (20 * logs.HOUR, 150, 0)]
    for each in LANES:
        rows += lane(draws, *each)
    for ped in GREENS:
        for tenth in arrivals(draws, 0.1, max(BY_HOUR)):
            rows += [(tenth, 90, ped), (tenth, 45, ped), (tenth + 4, 89, ped)]
    log = silences.Log()
    log.hours = set(range(DAY, DAY + silences.DAY, logs.HOUR))
    for tenth, code, number in sorted(rows):
        if tenth < silences.DAY:
            log.tenths.append(DAY + tenth)
            log.keys.append(code << 16 | number)
    return log


def at(text):
    return logs.parse_stamp("2024-03-04T" + text)[0]


FAULTS = (("one", (2,), "09:00:00", "09:40:00"), ("coordination", (0,), "10:30:00", "11:00:00"),
          ("card", (11, 12), "12:00:00", "12:30:00"), ("stuck-on", (13,), "14:00:00", "14:25:00"),
          ("chatter", (4,), "16:00:00", "16:20:00"), ("all", (1, 2, 3, 4, 11, 12, 13, 14), "18:00:00", "18:20:00"),
          ("stuck-off", (1,), "21:30:00", "23:59:59.9"))


def write(log, put):
    """The files of the hours as examples/hours writes them."""
    names, rows = [], {}
    for tenth, key in zip(log.tenths, log.keys):
        rows.setdefault(tenth // logs.HOUR * logs.HOUR, []).append(
            "7,%s,%d,%d\n" % (logs.show(tenth, " "), key >> 16, key & 65535))
    for hour in sorted(log.hours):
        names.append("7_%s.csv" % logs.show_hour(hour))
        put(names[-1], "SignalID,Timestamp,EventCode,EventParam\n" + "".join(rows.get(hour, ())))
    return names


def flashed(log, begin, end):
    """The log with flash: detectors go on, phases and the coordination don't."""
    found = silences.Log()
    found.hours = set(log.hours)
    rows = [(tenth, key) for tenth, key in zip(log.tenths, log.keys)
            if not (begin <= tenth < end and key >> 16 in loggers.FLASHING)]
    for tenth, key in sorted([*rows, (begin, 173 << 16 | 4), (end, 173 << 16 | 2)]):
        found.tenths.append(tenth)
        found.keys.append(key)
    return found


def late(log):
    """The log with the stamps of batches of five seconds, the rows of each by their codes."""
    move, _ = loggers.LOGGERS["batches of 5 s"]
    found = silences.Log()
    found.hours = set(log.hours)
    for tenth, key in sorted((move(tenth, DAY), key) for tenth, key in zip(log.tenths, log.keys)):
        found.tenths.append(tenth)
        found.keys.append(key)
    return found


def detectors(run, put, get):
    """The day as it is, in batches and with faults, with flash, and with a coordination that stays away after a flash;
    what is explained, what is left out, and a log too small to learn from."""
    log = made_day()
    put("config.toml", CONFIG)
    out = "as it is: " + run("detectors", "--config", "config.toml", *write(log, put))
    out += "in batches: " + run("detectors", "--config", "config.toml", *write(late(log), put))
    hour = flashed(log, at("10:00:00"), at("11:00:00"))
    out += "an hour of flash: " + run("detectors", "--config", "config.toml", *write(hour, put))
    short = flashed(log, at("10:00:00"), at("10:10:00"))
    short = faults.put(short, [faults.Fault("coordination", (0,), at("10:00:00"), at("11:00:00"))], random.Random(7))
    out += "ten minutes of flash: " + run("detectors", "--config", "config.toml", *write(short, put))
    drawn = [faults.Fault(kind, numbers, at(begin), at(end)) for kind, numbers, begin, end in FAULTS]
    names = write(faults.put(log, drawn, random.Random(7)), put)
    out += "with faults: " + run("detectors", "--config", "config.toml", "--card", "11,12", "--chances",
                                 "--out", "without", *names)
    out += get("without/config-without.toml") + get("without/hours-without.txt")
    for what in ("detector 2@2024-03-04T09:10:00.0", "detector 4@2024-03-04T16:10:00.0",
                 "detector 3@2024-03-04T16:10:00.0", "detector 99@2024-03-04T16:10:00.0"):
        out += run("detectors", "--explain", what, *names)
    out += "one hour: " + run("detectors", names[9]) + run("detectors", "--explain", "nothing", names[9])
    put("inline.toml", CONFIG.split("[[approach]]")[0].replace("coordination", "approach = [{name = \"A\", phase = 2, "
        "advance = 2}]\ncoordination", 1))
    inline = run("detectors", "--config", "inline.toml", "--out", "w", *names)
    return out + "in one line: " + inline.splitlines()[1] + "\n"
