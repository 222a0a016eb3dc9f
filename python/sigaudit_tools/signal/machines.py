"""What the machines of docs/FORMATS.md know: colours, codes and floors, and where rows contradict them.

MACHINES[kind][code] says in which colours a row of that code is legal and to which each leads; a colour that isn't
listed makes it illegal. (In the coordination, whose code is always 150, the parameter stands in the code's place.)
"""

from __future__ import annotations

Table = dict[str, str]

COLOURS: dict[str, tuple[str, ...]] = {
    "phase": ("Red", "On", "Green", "Term", "Yellow", "YellowDone", "Clear", "ClearDone"),
    "ped": ("DontWalk", "Walk", "Clearance", "Dark"),
    "overlap": ("Off", "Green", "Trailing", "Yellow", "Clear", "Dark"),
    "preempt_input": ("Off", "On"),
    "preempt": ("Rest", "Entry", "Track", "Dwell"),
    "ped_detector": ("Off", "On"),
    "detector": ("Off", "On", "Fault"),
    "coordination": ("0", "1", "2", "3", "4", "5", "6"),
}


def _to(colour: str, *before: str) -> Table:
    """Legal in these colours, and leading from each to the one."""
    return dict.fromkeys(before, colour)


def _from_any(kind: str, colour: str) -> Table:
    return _to(colour, *COLOURS[kind])


MACHINES: dict[str, dict[int, Table]] = {
    "phase": {
        0: {**_to("On", "Red", "YellowDone", "ClearDone"), "Green": "Green"},
        1: _to("Green", "Red", "On", "Term", "YellowDone", "ClearDone"),
        7: {"Green": "Term", "Yellow": "Yellow"},
        8: _to("Yellow", "Green", "Term"),
        9: {"Yellow": "YellowDone", "Clear": "Clear"},
        10: _to("Clear", "Yellow", "YellowDone"),
        11: {"Clear": "ClearDone", "Red": "Red"},
        12: _to("Red", "Term", "YellowDone", "Clear", "ClearDone", "Red"),
    },
    "ped": {
        21: _from_any("ped", "Walk"),
        22: _to("Clearance", "Walk"),
        23: _from_any("ped", "DontWalk"),
        24: _from_any("ped", "Dark"),
    },
    "overlap": {
        61: _to("Green", "Off", "Green", "Trailing", "Clear", "Dark"),
        62: _to("Trailing", "Green"),
        63: _to("Yellow", "Green", "Trailing"),
        64: _to("Clear", "Yellow"),
        65: _from_any("overlap", "Off"),
        66: _from_any("overlap", "Dark"),
    },
    "preempt_input": {104: _from_any("preempt_input", "Off"), 102: _from_any("preempt_input", "On")},
    "preempt": {
        105: _from_any("preempt", "Entry"),
        106: _to("Track", "Entry", "Track"),
        107: _to("Dwell", "Entry", "Track", "Dwell"),
        111: _from_any("preempt", "Rest"),
    },
    "ped_detector": {89: _from_any("ped_detector", "Off"), 90: _from_any("ped_detector", "On")},
    "detector": {
        81: _from_any("detector", "Off"),
        82: _from_any("detector", "On"),
        83: {"Off": "Off", "Fault": "Off", "On": "On"},
        **{code: _from_any("detector", "Fault") for code in (84, 85, 86, 87, 88)},
    },
    "coordination": {state: _from_any("coordination", str(state)) for state in range(7)},
}
# The kinds whose rows can contradict one another; of the others each row is legal after each.
STRICT = ("phase", "ped", "overlap", "preempt")
