"""Stamps of exports as tenths: dates and times in all usual forms, by columns of bytes.

Stamps are read by their shapes, in which each digit is a 0: a log has few of them, and in each shape the digits of the
year, the hour and so on stand at the same places.
"""

from __future__ import annotations

import dataclasses
import re

import numpy as np
import numpy.typing as npt

from sigaudit_tools.events import Tenths
from sigaudit_tools.intake.cells import Bytes, Mask, Places, distinct
from sigaudit_tools.times import DAY

Zones = npt.NDArray[np.intp]

FINEST = 18  # digits of a second after the tenth that count
NO_ZONE = 0
_SHAPE = re.compile(
    r"(?:(\d{4})([-/])(\d{1,2})\2(\d{1,2})|(\d{1,2})([-/.])(\d{1,2})\6(\d{4}))(?: +|T)"
    r"(\d{1,2}):(\d\d):(\d\d)(?:[.,](\d+))? *([AaPp]\.?[Mm]\.?)? *(Z|[+-]\d\d:?\d\d)?", re.ASCII)
_YEAR, _MONTH, _DAY = 1, 3, 4
_SHORT_FIRST, _SHORT_MARK, _SHORT_SECOND, _SHORT_YEAR = 5, 6, 7, 8
_HOUR, _MINUTE, _SECOND, _FRACTION, _HALF, _ZONE = 9, 10, 11, 12, 13, 14


@dataclasses.dataclass(frozen=True, eq=False)
class Stamps:
    """Stamps as numbers, shapes (n,).

    Attributes:
        good: whether it is a stamp; the others tell nothing where it isn't.
        tenth: its tenth (`times`) by the clock as it is written.
        rest: the digits of its second after the tenth, as so many of 10 ** -(FINEST + 1) s.
        zone: which of the zones is written with it.
        zones: the zones; NO_ZONE is none.
    """

    good: Mask
    tenth: Tenths
    rest: Tenths
    zone: Zones
    zones: tuple[str, ...]

    @classmethod
    def none(cls, size: int) -> Stamps:
        """Of so many texts none is a stamp."""
        whole = np.zeros(size, np.int64)
        return cls(np.zeros(size, bool), whole, whole.copy(), np.zeros(size, np.intp), ("",))


def read_stamps(chars: Bytes, day_first: bool = False) -> Stamps:
    """The stamps of texts.

    Args:
        chars: their bytes, shape (width, n), zeros after their ends.
        day_first: whether 3/4/2024 is the third of April; 4.3.2024 always is the fourth of March.
    """
    found = Stamps.none(chars.shape[1])
    shapes, which = distinct(np.where(_is_digit(chars), np.uint8(ord("0")), chars))
    for number, shape in enumerate(shapes):
        match = _SHAPE.fullmatch(shape.decode("latin-1"))
        if match:
            every = len(shapes) == 1
            found = _with_shape(found, chars if every else chars[:, which == number], match,
                                np.flatnonzero(which == number), day_first)
    return found


def _is_digit(chars: Bytes) -> Mask:
    return (chars >= ord("0")) & (chars <= ord("9"))


def _with_shape(found: Stamps, chars: Bytes, match: re.Match[str], rows: Places, day_first: bool) -> Stamps:
    """With the stamps of one shape read; rows are the places of these."""
    day, good = _days(chars, match, day_first)
    hour, minute, second = (_number(chars, match, group) for group in (_HOUR, _MINUTE, _SECOND))
    half = match[_HALF]
    if half:
        good &= (hour >= 1) & (hour <= 12)
        hour = hour % 12 + (12 if half[0] in "Pp" else 0)
    good &= (hour <= 23) & (minute <= 59) & (second <= 59)
    tenth, rest = _fraction(chars, match)
    found.good[rows] = good
    found.tenth[rows] = day * DAY + ((hour * 60 + minute) * 60 + second) * 10 + tenth
    found.rest[rows] = rest
    return _with_zone(found, chars, match, rows) if match[_ZONE] else found


def _number(chars: Bytes, match: re.Match[str], group: int) -> Places:
    """The numbers that stand at a group's places."""
    begin, end = match.span(group)
    return _digits(chars, begin, end)


def _digits(chars: Bytes, begin: int, end: int) -> Places:
    value = np.zeros(chars.shape[1], np.int64)
    for place in range(begin, end):
        value = value * 10 + (chars[place] - np.uint8(ord("0")))
    return value


def _days(chars: Bytes, match: re.Match[str], day_first: bool) -> tuple[Places, Mask]:
    """The days since 1970-01-01, and whether the calendar has them."""
    if match[_YEAR]:
        groups = _YEAR, _MONTH, _DAY
    elif day_first or match[_SHORT_MARK] == ".":
        groups = _SHORT_YEAR, _SHORT_SECOND, _SHORT_FIRST
    else:
        groups = _SHORT_YEAR, _SHORT_FIRST, _SHORT_SECOND
    year, month, day = (_number(chars, match, group) for group in groups)
    months = (year - 1970) * 12 + month - 1
    days = months.astype("datetime64[M]").astype("datetime64[D]") + (day - 1)
    good = (year >= 1) & (month >= 1) & (month <= 12) & (days.astype("datetime64[M]").astype(np.int64) == months)
    return days.astype(np.int64), good


def _fraction(chars: Bytes, match: re.Match[str]) -> tuple[Places, Places]:
    """The tenth of the second, and what comes after it."""
    begin, end = match.span(_FRACTION)
    if begin < 0:
        nothing = np.zeros(chars.shape[1], np.int64)
        return nothing, nothing
    last = min(end, begin + 1 + FINEST)
    return _digits(chars, begin, begin + 1), _digits(chars, begin + 1, last) * 10 ** (FINEST - (last - begin - 1))


def _with_zone(found: Stamps, chars: Bytes, match: re.Match[str], rows: Places) -> Stamps:
    texts, which = distinct(chars[slice(*match.span(_ZONE))])
    zones = list(found.zones)
    for number, text in enumerate(texts):
        name = text.decode("ascii")
        if name not in zones:
            zones.append(name)
        found.zone[rows[which == number]] = zones.index(name)
    return dataclasses.replace(found, zones=tuple(zones))
