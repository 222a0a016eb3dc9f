"""The logs that the repository has: days of two signals, and three hours of an intersection."""

from __future__ import annotations

import functools
import tarfile
import tempfile
from pathlib import Path

from sigaudit_tools.events import Events
from sigaudit_tools.intake import read_export

TOP = Path(__file__).parents[3]
INTERSECTION = TOP / "examples" / "intersection"
HEADER = "SignalID,Timestamp,EventCode,EventParam\n"


@functools.cache
def day_text(name: str) -> str:
    """The log of a day as one CSV: d1 or d3."""
    hours = []
    with tarfile.open(TOP / "bench" / "days" / f"{name}.tar.xz") as archive:
        for member in sorted(archive.getmembers(), key=lambda member: member.name):
            file = archive.extractfile(member)
            if file is not None:
                hours.append(file.read().decode().removeprefix(HEADER))
    return HEADER + "".join(hours)


def write_day(name: str, folder: Path) -> Path:
    """Writes the log of a day as one CSV, and answers where."""
    path = folder / f"{name}.csv"
    path.write_text(day_text(name))
    return path


@functools.cache
def day(name: str) -> Events:
    """The events of a day: d1 or d3."""
    with tempfile.TemporaryDirectory() as folder:
        return read_export(write_day(name, Path(folder))).events


def intersection() -> Events:
    """The three hours of the intersection."""
    return read_export(sorted(INTERSECTION.glob("h0?.csv"))).events
