"""Faults of channels, drawn by a seed: when they could be seen, and which findings tell of them. Of bench/detectors."""
import math
import os
import sys

HERE = os.path.dirname(os.path.dirname(os.path.abspath(__file__)))
sys.path[:0] = [os.path.join(HERE, "python"), os.path.join(HERE, "python", "tests")]
try:
    import numpy  # noqa: F401  the tools want it, and the first python3 on the path may lack it
except ImportError:
    sys.exit("it wants a python3 that has numpy and pandas: /usr/bin/python3 %s" % " ".join(sys.argv))
from makers.faults import COORDINATION, Fault, put, rows_of
from sigaudit_tools.times import DAY, HOUR, stamp_of

SHORTEST, LONGEST, STUCK = 10, 180, 15   # minutes
MINUTE = 600
APART = 18000                            # tenths between two faults of a day
KINDS = ("one", "card", "all", "ped", "ped-rows", "coordination", "stuck-on", "stuck-off", "chatter", "slow-chatter")
CHANNELS = {"ped": "ped_detector", "ped-rows": "ped_detector", "coordination": "coordination"}  # else detectors

__all__ = ["KINDS", "could_be_seen", "draw", "matches", "minutes", "put", "rows_in", "words_of"]


def minutes(fault):
    return (fault.end - fault.begin) / MINUTE


def words_of(fault):
    """A fault in words."""
    return "%s %s %s %.0f minutes" % (fault.kind, ",".join(map(str, fault.numbers)), stamp_of(fault.begin),
                                      minutes(fault))


def rows_in(fault, events, length):
    """How many rows its channel usually has in so long, from its begin on, and how many in all.

    At the rate from an hour before the fault to an hour after it in the log without it; of a detector those 82.
    """
    comes = [tenth for tenth, code, number in rows_of(events)
             if code in (82, 90, *COORDINATION) and fault.concerns(code, number)]
    low, high = fault.begin - HOUR, fault.end + HOUR
    return sum(low <= tenth < high for tenth in comes) * length / (high - low), len(comes)


def could_be_seen(fault, events, length, a_day):
    """Whether so long a silence of its channel, from its begin on, comes by chance at most so often a day.

    By the channel's own rows alone, as if they came independently of one another. A detector that stays on shows at
    once.
    """
    usual, count = rows_in(fault, events, length)
    return fault.kind == "stuck-on" or count * math.exp(-usual) <= a_day


def numbers_of(events, codes):
    """The parameters of rows with some codes, in order."""
    return tuple(sorted(set(events.of(codes).param.tolist())))


def draw_one(events, rng, kind, night):
    detectors, inputs = numbers_of(events, (81, 82)), numbers_of(events, (89, 90))
    shortest = STUCK if kind.startswith("stuck") else SHORTEST
    length = int(MINUTE * shortest * math.exp(rng.random() * math.log(LONGEST / shortest)))
    day = int(events.tenth[0]) // DAY * DAY
    begins = [(0, 5), (22, 24)] if night else [(5, 22)]
    begins = [(day + low * HOUR, day + high * HOUR - length) for low, high in begins]
    low, high = rng.choice([span for span in begins if span[0] < span[1]] or begins[:1])
    begin = rng.randrange(low, max(low + 1, high))
    if kind == "card":
        first = rng.randrange((len(detectors) + 3) // 4) * 4
        numbers = detectors[first:first + 4]
    elif kind == "coordination":
        numbers = (0,)
    else:
        numbers = {"all": detectors, "ped": inputs, "ped-rows": inputs}.get(kind, (rng.choice(detectors),))
    return Fault(kind, numbers, begin, begin + length)


def draw(events, rng, night=False, count=3):
    """Faults of different kinds, apart from one another, each of which takes a row or makes one."""
    drawn, rows = [], rows_of(events)
    for kind in rng.sample(KINDS, count):
        while True:
            fault = draw_one(events, rng, kind, night)
            apart = all(fault.begin > other.end + APART or other.begin > fault.end + APART for other in drawn)
            if apart and any(fault.begin <= tenth < fault.end and fault.concerns(code, number)
                             for tenth, code, number in rows):
                drawn.append(fault)
                break
    return drawn


def matches(fault, finding):
    """Whether a finding tells of the fault."""
    common = min(fault.end, finding.end) - max(fault.begin, finding.begin)
    return (finding.group.kind == CHANNELS.get(fault.kind, "detector")
            and set(fault.numbers) & set(finding.group.numbers)
            and 2 * common > min(fault.end - fault.begin, finding.end - finding.begin))
