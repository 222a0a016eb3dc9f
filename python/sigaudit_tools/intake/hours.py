"""Hour files: the rows of an export as sigaudit reads them, a file an hour."""

from __future__ import annotations

import dataclasses
import re
from pathlib import Path

import numpy as np

from sigaudit_tools.errors import InputError, ResourceError, UsageError
from sigaudit_tools.events import Events
from sigaudit_tools.files import write_text
from sigaudit_tools.intake.read import Intake
from sigaudit_tools.times import HOUR, hour_of, stamp_of

HEADER = "SignalID,Timestamp,EventCode,EventParam\n"
MOST_ROWS = 400_000  # that sigaudit reads of an hour


@dataclasses.dataclass(frozen=True, eq=False)
class HourFile:
    """The rows of an hour of a signal, and the file that they go to."""

    path: Path
    signal: str
    start: int
    events: Events


def planned(intake: Intake, folder: Path) -> list[HourFile]:
    """The hour files of what was read, by signal and hour: FOLDER/ID_YYYY-MM-DDTHH.csv.

    Raises:
        InputError: two signals would have the same names.
    """
    found = []
    for signal, events in intake.signals.items():
        name = re.sub(r"[^A-Za-z0-9_.-]", "_", signal)
        for start in (np.unique(events.tenth // HOUR) * HOUR).tolist():
            path = folder / f"{name}_{hour_of(start)}.csv"
            found.append(HourFile(path, signal, start, events.between(start, start + HOUR)))
    if len({one.path for one in found}) < len(found):
        raise InputError("two signals would have the same file names", remedy="choose one by --signal")
    return found


def hour_files(intake: Intake, folder: Path, *, replace: bool = True) -> list[Path]:
    """Writes the hour files of what was read into a folder, which is made where it isn't there.

    Raises:
        InputError: two signals would have the same names.
        UsageError: a file is there already, and isn't to be replaced; nothing is then written.
        ResourceError: the folder can't be made, or takes no files.
    """
    plan = planned(intake, folder)
    there = [one.path for one in plan if one.path.exists()]
    if there and not replace:
        raise UsageError("is there already, nothing is written", str(there[0]), "--replace writes over it")
    try:
        folder.mkdir(parents=True, exist_ok=True)
    except OSError as error:
        raise ResourceError(f"no folder can be made: {error.strerror}", str(folder), "choose another") from error
    for one in plan:
        write_text(one.path, hour_text(one))
    return [one.path for one in plan]


def hour_text(file: HourFile) -> str:
    """The text of an hour file."""
    events = file.events
    head = f"{file.signal},{stamp_of(file.start, ' ')[:14]}"
    clock, at = np.unique(events.tenth - file.start, return_inverse=True)
    begins = [f"{head}{tenth // 600:02d}:{tenth // 10 % 60:02d}.{tenth % 10}," for tenth in clock.tolist()]
    key, which = np.unique(events.code.astype(np.int64) << 16 | events.param, return_inverse=True)
    ends = [f"{one >> 16},{one & 65535}\n" for one in key.tolist()]
    rows = np.array(begins, object)[at] + np.array(ends, object)[which]
    return HEADER + "".join(rows.tolist())


def written_words(plan: list[HourFile], folder: Path) -> str:
    """In words what was written: how many files and rows, and the first and the last hour."""
    rows, starts = sum(len(one.events) for one in plan), [one.start for one in plan]
    return (f"files written {len(plan)} rows {rows} to {folder}, hours {hour_of(min(starts))} to "
            f"{hour_of(max(starts))}")
