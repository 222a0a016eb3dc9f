"""The names of rules, as the program prints them, in words: `phase 2 Green at least 130`, `conflict 2 3`."""

from __future__ import annotations

# Colours and channels that people call otherwise than the program does.
COLOURS = {"Term": "end of green", "YellowDone": "time after yellow", "Clear": "red clearance",
           "ClearDone": "time after red clearance", "DontWalk": "don't walk", "On": "time between on and green",
           "Clearance": "pedestrian clearance"}
CHANNELS = {"ped": "pedestrian signal", "preempt": "preempt service"}

_OF_CHANNELS = {
    "conflict": "phases {} and {} conflict and are not both served (on, in green, in yellow or in red clearance)",
    "companion": "pedestrian signal {0} shows walk only while phase {0} is on or green",
    "parents": "overlap {} is green only while one of its phases is served",
}


def colour_in_words(colour: str) -> str:
    """A colour of a machine as people call it: `red clearance` of `Clear`."""
    return COLOURS.get(colour, colour.lower())


def in_words(name: str) -> str:
    """The rule of this name as a sentence without its end; empty where the name is."""
    if not name:
        return ""
    kind, *rest = name.split(" ")
    if kind in _OF_CHANNELS:
        return _OF_CHANNELS[kind].format(*rest)
    number, colour, _, bound, tenths = rest
    return (f"the {colour_in_words(colour)} of {CHANNELS.get(kind, kind)} {number} lasts at {bound} "
            f"{int(tenths) / 10:.1f} s")


def in_short(name: str) -> str:
    """The name with its time in seconds: `phase 2 Green at least 13.0 s`."""
    words, _, tenths = name.rpartition(" ")
    return f"{words} {int(tenths) / 10:.1f} s" if " at " in words else name
