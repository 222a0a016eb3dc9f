"""The names of the event codes, as docs/FORMATS.md has them; every other code is called Other."""

from __future__ import annotations

NAMES: dict[int, str] = {
    0: "Phase On",
    1: "Begin Green",
    2: "Phase Check",
    3: "Min Complete",
    4: "Gap Out",
    5: "Max Out",
    6: "Force Off",
    7: "Green Termination",
    8: "Begin Yellow Clearance",
    9: "End Yellow Clearance",
    10: "Begin Red Clearance",
    11: "End Red Clearance",
    12: "Phase Inactive",
    21: "Begin Walk",
    22: "Begin Clearance",
    23: "Begin Solid Don't Walk",
    24: "Dark",
    31: "Barrier Termination",
    43: "Phase Call Registered",
    44: "Phase Call Dropped",
    45: "Pedestrian Call Registered",
    61: "Overlap Begin Green",
    62: "Overlap Begin Trailing Green",
    63: "Overlap Begin Yellow",
    64: "Overlap Begin Red Clearance",
    65: "Overlap Off",
    66: "Overlap Dark",
    81: "Detector Off",
    82: "Detector On",
    83: "Detector Restored",
    84: "Detector Fault Other",
    85: "Watchdog Fault",
    86: "Open Loop Fault",
    87: "Shorted Loop Fault",
    88: "Excessive Change Fault",
    89: "Ped Detector Off",
    90: "Ped Detector On",
    102: "Preempt Call Input On",
    104: "Preempt Call Input Off",
    105: "Preempt Entry Started",
    106: "Begin Track Clearance",
    107: "Begin Dwell Service",
    111: "Begin Exit Interval",
    131: "Pattern Change",
    132: "Cycle Length Change",
    150: "Coord Cycle State Change",
    151: "Coordinated Phase Yield Point",
    152: "Coordinated Phase Begin",
}


def name_of(code: int) -> str:
    """The name of an event code, 0 to 255."""
    return NAMES.get(code, "Other")
