"""What the machines of docs/FORMATS.md know: colours, codes and floors, and where rows contradict them. Not proved.

MACHINES[KIND][CODE] says in which colours a row of that code is legal and to which each leads; a colour that isn't
listed makes it illegal. (In the coordination, whose code is always 150, the parameter stands in the code's place.)
`bench/machines` runs the proved program over each entry, and wants the load accepted or refused as it says.
"""
import bisect
import math

COLOURS = {
    "phase": ("Red", "On", "Green", "Term", "Yellow", "YellowDone", "Clear", "ClearDone"),
    "ped": ("DontWalk", "Walk", "Clearance", "Dark"),
    "overlap": ("Off", "Green", "Trailing", "Yellow", "Clear", "Dark"),
    "preempt_input": ("Off", "On"),
    "preempt": ("Rest", "Entry", "Track", "Dwell"),
    "ped_detector": ("Off", "On"),
    "detector": ("Off", "On", "Fault"),
    "coordination": ("0", "1", "2", "3", "4", "5", "6"),
}


def to(colour, *before):
    """Legal in these colours, and leading from each to the one."""
    return dict.fromkeys(before, colour)


def to_from_any(kind, colour):
    return to(colour, *COLOURS[kind])


MACHINES = {
    "phase": {
        0: {**to("On", "Red", "YellowDone", "ClearDone"), "Green": "Green"},
        1: to("Green", "Red", "On", "Term", "YellowDone", "ClearDone"),
        7: {"Green": "Term", "Yellow": "Yellow"},
        8: to("Yellow", "Green", "Term"),
        9: {"Yellow": "YellowDone", "Clear": "Clear"},
        10: to("Clear", "Yellow", "YellowDone"),
        11: {"Clear": "ClearDone", "Red": "Red"},
        12: to("Red", "Term", "YellowDone", "Clear", "ClearDone", "Red"),
    },
    "ped": {
        21: to_from_any("ped", "Walk"),
        22: to("Clearance", "Walk"),
        23: to_from_any("ped", "DontWalk"),
        24: to_from_any("ped", "Dark"),
    },
    "overlap": {
        61: to("Green", "Off", "Green", "Trailing", "Clear", "Dark"),
        62: to("Trailing", "Green"),
        63: to("Yellow", "Green", "Trailing"),
        64: to("Clear", "Yellow"),
        65: to_from_any("overlap", "Off"),
        66: to_from_any("overlap", "Dark"),
    },
    "preempt_input": {104: to_from_any("preempt_input", "Off"), 102: to_from_any("preempt_input", "On")},
    "preempt": {
        105: to_from_any("preempt", "Entry"),
        106: to("Track", "Entry", "Track"),
        107: to("Dwell", "Entry", "Track", "Dwell"),
        111: to_from_any("preempt", "Rest"),
    },
    "ped_detector": {89: to_from_any("ped_detector", "Off"), 90: to_from_any("ped_detector", "On")},
    "detector": {
        81: to_from_any("detector", "Off"),
        82: to_from_any("detector", "On"),
        83: {"Off": "Off", "Fault": "Off", "On": "On"},
        **{code: to_from_any("detector", "Fault") for code in (84, 85, 86, 87, 88)},
    },
    "coordination": {state: to_from_any("coordination", str(state)) for state in range(7)},
}
# The kinds whose rows can contradict one another; of the others each row is legal after each.
STRICT = ("phase", "ped", "overlap", "preempt")


def floors_of(config):
    """The floors of a configuration: by channel, of each colour the tenths that it lasts at least."""
    found = {}
    for entry in (config or {}).get("floor", []):
        kind, number = entry["channel"].split(" ")
        found.setdefault((kind, int(number)), {})[entry["colour"]] = entry["tenths"]
    return found


class Machine:
    """A channel as sigaudit takes it. A state holds each colour that the channel may have, with the earliest tenth at
    which that may have begun; rows are (tenth, code) pairs in order, blanks (first tenth, first one not) in order."""

    def __init__(self, kind, floors=()):
        self.codes = MACHINES[kind]
        self.floors = dict(floors)
        self.moves = {move for table in self.codes.values() for move in table.items()}
        self.any = dict.fromkeys(COLOURS[kind], -math.inf)

    def after_blank(self, state, begin, end):
        """After unknown tenths: each colour that can be reached in them, as old as it can be."""
        state, moved = dict(state), True
        while moved:
            moved = False
            for colour, after in self.moves:
                if colour in state:
                    left = max(begin, state[colour] + self.floors.get(colour, 0))
                    if left < end and left < state.get(after, math.inf):
                        state[after], moved = left, True
        return state

    def after_row(self, state, tenth, code):
        """After a row: no colour at all where it can't be."""
        found = {}
        for colour, after in self.codes[code].items():
            if colour not in state:
                continue
            if after == colour:
                found[after] = min(found.get(after, math.inf), state[colour])
            elif tenth - state[colour] >= self.floors.get(colour, 0):
                found[after] = min(found.get(after, math.inf), tenth)
        return found

    def first_wrong(self, rows, blanks=(), begin=0, end=None):
        """The place of the first row from `begin` on that no history has after those before it, or None."""
        state = self.any
        k = bisect.bisect_left(blanks, (rows[begin][0],)) if begin < len(rows) else 0
        for place in range(begin, len(rows) if end is None else end):
            tenth, code = rows[place]
            while k < len(blanks) and blanks[k][0] <= tenth:
                state = self.after_blank(state, *blanks[k])
                k += 1
            if k and tenth < blanks[k - 1][1]:
                continue
            state = self.after_row(state, tenth, code)
            if not state:
                return place
        return None

    def contradictions(self, rows, blanks=()):
        """The shortest stretches of rows that no history has, as places of their first and last rows, in order."""
        found, at = [], 0
        while at < len(rows):
            last = self.first_wrong(rows, blanks, at)
            if last is None:
                break
            first = last
            while first > at and self.first_wrong(rows, blanks, first, last + 1) != last:
                first -= 1
            found.append((first, last))
            at = max(last, at + 1)
        return found
