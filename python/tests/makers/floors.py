"""A configuration with floors, as a controller's least times: the intersection's has none."""

from __future__ import annotations

from makers.days import INTERSECTION
from sigaudit_tools.signal.config import Config, parse_config

PHASE = {"Green": 50, "Yellow": 30, "Clear": 15}
PED = {"Walk": 40}


def intersection_with_floors() -> Config:
    """The configuration of the intersection, with floors of its phases and pedestrian signals."""
    path = INTERSECTION / "config.toml"
    floors = [(f"phase {number}", colour, tenths) for number in range(1, 9) for colour, tenths in PHASE.items()]
    floors += [(f"ped {number}", colour, tenths) for number in (2, 4, 6, 8) for colour, tenths in PED.items()]
    text = "".join(f'\n[[floor]]\nchannel = "{channel}"\ncolour = "{colour}"\ntenths = {tenths}\n'
                   for channel, colour, tenths in floors)
    return parse_config(path.read_bytes() + text.encode(), path)
