"""Tenths of a second as numbers, by the clock as it is written.

A tenth is a whole number: tenths of a second since 1970-01-01T00:00:00.0 by the clock of the log. There is no time
zone in it and no change of clocks; what an export says of zones is settled when it is read.
"""

from __future__ import annotations

import datetime
import re

from sigaudit_tools.errors import InputError

HOUR = 36_000
DAY = 24 * HOUR
EPOCH = datetime.date(1970, 1, 1).toordinal()

_HOUR = re.compile(r"(\d{4}-\d\d-\d\d)T([01]\d|2[0-3])", re.ASCII)
_STAMP = re.compile(r"(\d{4}-\d\d-\d\d)[T ]([01]\d|2[0-3]):([0-5]\d):([0-5]\d)\.(\d)", re.ASCII)


def tenth_of_hour(text: str) -> int:
    """The tenth at which the hour YYYY-MM-DDTHH begins.

    Raises:
        InputError: it isn't such an hour.
    """
    found = _HOUR.fullmatch(text)
    day = _day(found[1]) if found else None
    if found is None or day is None:
        raise InputError(f"{text!r} is no hour", remedy="write it as YYYY-MM-DDTHH")
    return day * DAY + int(found[2]) * HOUR


def tenth_of_stamp(text: str) -> int:
    """The tenth of a stamp YYYY-MM-DDTHH:MM:SS.t, as the program prints it.

    Raises:
        InputError: it isn't such a stamp.
    """
    found = _STAMP.fullmatch(text)
    day = _day(found[1]) if found else None
    if found is None or day is None:
        raise InputError(f"{text!r} is no stamp", remedy="write it as YYYY-MM-DDTHH:MM:SS.t")
    hour, minute, second, tenth = (int(part) for part in found.groups()[1:])
    return day * DAY + ((hour * 60 + minute) * 60 + second) * 10 + tenth


def stamp_of(tenth: int, separator: str = "T") -> str:
    """A tenth as the program prints it: YYYY-MM-DDTHH:MM:SS.t."""
    seconds, tenths = divmod(int(tenth), 10)
    day, second = divmod(seconds, 86_400)
    date = datetime.date.fromordinal(day + EPOCH).isoformat()
    return f"{date}{separator}{second // 3600:02d}:{second // 60 % 60:02d}:{second % 60:02d}.{tenths}"


def hour_of(tenth: int) -> str:
    """The hour of a tenth: YYYY-MM-DDTHH."""
    return stamp_of(tenth)[:13]


def _day(text: str) -> int | None:
    try:
        return datetime.date.fromisoformat(text).toordinal() - EPOCH
    except ValueError:
        return None
