"""A log as odd loggers would have written it, and what the verb holes makes of it. Of bench/holes; not proved.

Each logger is a pair: how it moves the tenth of a row, and what it does to the rows then. Logs are six hours of a day,
from PART on, without an outage and with OUTAGES of them; those are drawn before the logger has its way.
"""
import bisect

import outages
from outages import HOUR

PART = 6, 12            # hours of the day
OUTAGES = 4
STEP = 300              # tenths by which a clock is set
NOON = 3 * HOUR    # of the part: where clocks are set, the controller starts again, or flashes
DARK = 450              # tenths without a row at a restart
UNTOLD = {3, 4, 5, 6, 31, 43, 44, 45}    # codes that older firmware leaves out, of no machine
FLASHING = set(range(0, 13)) | {21, 22, 23, 24, 31, 43, 44, 45, 150, 151, 152}


def as_it_is(tenth, start):
    return tenth


def late_by(tenths):
    """Rows get the stamp of the batch with which they are written."""
    return lambda tenth, start: tenth - tenth % tenths


def set_forward(tenth, start):
    return tenth + STEP if tenth >= start + NOON else tenth


def set_back(tenth, start):
    return tenth - STEP if tenth >= start + NOON else tenth


def drift(tenth, start):
    """Two seconds an hour."""
    return tenth + (tenth - start) // 1800


def an_hour_on(tenth, start):
    """Clocks go from 02:59:59 to 04:00:00, as in spring."""
    return tenth + HOUR if tenth >= start + NOON else tenth


def same(rows, start):
    return rows


def doubled(rows, start):
    """Each row twice, as where two exports overlap."""
    return [row for row in rows for _ in range(2)]


def restarted(rows, start):
    """No row for DARK tenths, power codes, and the phases begin anew from red where they next begin."""
    low, high = start + NOON, start + NOON + DARK
    kept = [row for row in rows if not low <= row[0] < high]
    return sorted(kept + [(low, 182, 0), (high, 184, 0)], key=lambda row: row[0])


def untold(codes):
    return lambda rows, start: [row for row in rows if row[1] not in codes]


def flashed(rows, start):
    """An hour of flash: detectors go on, phases, walks and the coordination don't."""
    low, high = start + NOON, start + NOON + HOUR
    kept = [row for row in rows if not (low <= row[0] < high and row[1] in FLASHING)]
    return sorted(kept + [(low, 173, 4), (high, 173, 2)], key=lambda row: row[0])


LOGGERS = {
    "plain": (as_it_is, same),
    "seconds": (late_by(10), same),
    "batches of 5 s": (late_by(50), same),
    "set forward 30 s": (set_forward, same),
    "set back 30 s": (set_back, same),
    "drift": (drift, same),
    "spring": (an_hour_on, same),
    "doubled": (as_it_is, doubled),
    "restart": (as_it_is, restarted),
    "no calls": (as_it_is, untold(UNTOLD)),
    "no ends of yellow": (as_it_is, untold({9})),
    "no red clearance": (as_it_is, untold({10})),
    "flash": (as_it_is, flashed),
}
# What is blanked rightly, though no row was lost: where a clock was set, an hour that isn't there, a restart, flash.
EVENTS = {"set forward 30 s", "set back 30 s", "spring", "restart", "flash"}


class Part(outages.Day):
    """Some hours of a day, and the rows of a minute after them, which a clock may bring in."""

    def __init__(self, day, rows, after):
        self.day, self.name, self.signal, self.rows, self.after = day, day.name, day.signal, rows, after
        self.start = day.start + PART[0] * HOUR
        self.end = day.start + PART[1] * HOUR

    def of_rows(self, rows):
        return Part(self.day, rows, self.after)


def part_of(day):
    tenths = [row[0] for row in day.rows]
    low, high, after = (bisect.bisect_left(tenths, day.start + tenth) for tenth in (
        PART[0] * HOUR, PART[1] * HOUR, PART[1] * HOUR + 2 * STEP))
    return Part(day, day.rows[low:high], day.rows[high:after])


def written(part, name):
    """The part as the logger writes it."""
    move, then = LOGGERS[name]
    moved = [(move(tenth, part.start), code, param) for tenth, code, param in part.rows + part.after]
    rows = then(sorted(moved, key=lambda row: row[0]), part.start)
    end = part.end + HOUR if name == "spring" else part.end
    return part.of_rows([row for row in rows if row[0] < end])


def moved(outage, part, name):
    """An outage by the logger's clock."""
    move, _ = LOGGERS[name]
    return outages.Outage(outage.kind, move(outage.begin, part.start), move(outage.end, part.start),
                          [move(tenth, part.start) for tenth in outage.lost], outage.length)


def at_event(blank, part, name):
    """Whether a blank is at the event that the logger has in the middle."""
    low, high = part.start + NOON - STEP, part.start + NOON + max(STEP, DARK) + (
        HOUR if name in ("flash", "spring") else 0)
    return name in EVENTS and blank[0] <= high and low <= blank[1]
