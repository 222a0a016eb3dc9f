"""The lines of an answer as columns: verdicts, diagrams, shifts.

An answer of a month has millions of lines of a fixed form, so they are read as bytes by numpy.
"""

from __future__ import annotations

import dataclasses
from collections.abc import Sequence
from typing import NamedTuple

import numpy as np
import numpy.typing as npt
import pandas as pd

from sigaudit_tools.errors import InputError, ProgramError
from sigaudit_tools.events import Tenths
from sigaudit_tools.times import DAY

Bytes = npt.NDArray[np.uint8]
Ints = npt.NDArray[np.int64]

VERDICTS = ("kept", "broken", "undecided")
NONE = -1 << 62
"""The tenth that stands where there is none."""
STAMP = len("2024-03-04T05:00:00.0")
_WINDOW = len(" from ") + STAMP + len(" to ") + STAMP
_MOST_DIGITS = 6
_YEARS_OF_PANDAS = (1678, 2262)


def line_bounds(text: bytes | memoryview) -> tuple[Ints, Ints]:
    """Where each line begins, and where the LF at its end stands."""
    ends = np.flatnonzero(np.frombuffer(text, np.uint8) == ord("\n"))
    return np.concatenate((np.zeros(1, np.int64), ends[:-1] + 1)) if len(ends) else ends, ends


def datetimes(tenth: Tenths) -> npt.NDArray[np.datetime64]:
    """Tenths as stamps of milliseconds; NaT for NONE.

    Raises:
        InputError: a year that pandas doesn't hold.
    """
    stamps = (tenth * 100).astype("datetime64[ms]")
    stamps[tenth == NONE] = np.datetime64("NaT")
    years = stamps.astype("datetime64[Y]").astype(np.int64) + 1970
    here = tenth != NONE
    if here.any() and not (_YEARS_OF_PANDAS[0] <= years[here].min() and years[here].max() < _YEARS_OF_PANDAS[1]):
        raise InputError("a year that tables don't hold", "the window", "take one from 1678 to 2261")
    return stamps


def tenths_at(buffer: Bytes, starts: Ints) -> Tenths:
    """The tenths of the stamps that begin at these places.

    Raises:
        ProgramError: no stamp stands there.
    """
    if not len(starts):
        return np.empty(0, np.int64)
    letters = buffer[starts[:, None] + np.arange(STAMP)]
    marks = {4: "-", 7: "-", 10: "T", 13: ":", 16: ":", 19: "."}
    digits = letters[:, [place for place in range(STAMP) if place not in marks]].astype(np.int64) - ord("0")
    if ((digits < 0) | (digits > 9)).any() or any((letters[:, at] != ord(mark)).any() for at, mark in marks.items()):
        raise _other_version()
    century, year, month, day, hour, minute, second = (digits[:, at] * 10 + digits[:, at + 1] for at in range(0, 14, 2))
    months = (century * 100 + year - 1970) * 12 + month - 1
    days = months.astype("datetime64[M]").astype("datetime64[D]").astype(np.int64) + day - 1
    tenth: Tenths = days * DAY + ((hour * 60 + minute) * 60 + second) * 10 + digits[:, 14]
    return tenth


@dataclasses.dataclass(frozen=True, eq=False)
class Verdicts:
    """Lines of verdicts as columns of one shape (n,), in the order of the lines.

    Attributes:
        verdict: the place in VERDICTS.
        rule: the rule's number.
        tenth: the tenth at which it is judged.
        begin, end: of a broken one the first and the last tenth of its decisive stretch, else NONE.
    """

    verdict: Ints
    rule: Ints
    tenth: Tenths
    begin: Tenths
    end: Tenths

    @classmethod
    def joined(cls, parts: Sequence[Verdicts]) -> Verdicts:
        """One after another."""
        columns = [field.name for field in dataclasses.fields(cls)]
        none = np.empty(0, np.int64)
        return cls(*(np.concatenate([none, *(getattr(part, name) for part in parts)]) for name in columns))


def verdicts(text: bytes | memoryview) -> Verdicts:
    """The lines `kept K STAMP`, `undecided K STAMP`, `broken K STAMP from STAMP to STAMP` of a section.

    Raises:
        ProgramError: a line that begins so has another form.
    """
    buffer = np.frombuffer(text, np.uint8)
    starts, ends = line_bounds(text)
    first = buffer[starts]
    kind = np.full(len(starts), -1)
    for place, word in enumerate(VERDICTS):
        kind[first == ord(word[0])] = place
    starts, ends, kind = starts[kind >= 0], ends[kind >= 0], kind[kind >= 0]
    is_broken = kind == VERDICTS.index("broken")
    stamps = ends - STAMP - np.where(is_broken, _WINDOW, 0)
    numbers = starts + np.array([len(word) + 1 for word in VERDICTS])[kind]
    begin = np.full(len(starts), NONE)
    end = begin.copy()
    end[is_broken] = tenths_at(buffer, ends[is_broken] - STAMP)
    begin[is_broken] = tenths_at(buffer, ends[is_broken] - 2 * STAMP - len(" to "))
    return Verdicts(kind, _numbers(buffer, numbers, stamps - 1), tenths_at(buffer, stamps), begin, end)


def _numbers(buffer: Bytes, starts: Ints, stops: Ints) -> Ints:
    """The numbers of one to six digits between these places."""
    if len(starts) and not 1 <= (stops - starts).min() <= (stops - starts).max() <= _MOST_DIGITS:
        raise _other_version()
    value = np.zeros(len(starts), np.int64)
    for power in range(_MOST_DIGITS):
        at = stops - 1 - power
        digit = buffer[np.maximum(at, 0)].astype(np.int64) - ord("0")
        here = at >= starts
        if (here & ((digit < 0) | (digit > 9))).any():
            raise _other_version()
        value += np.where(here, digit * 10 ** power, 0)
    return value


class Rule(NamedTuple):
    """A rule of an audit: its number, its name, and how often it was kept, broken and undecided in the window."""

    number: int
    name: str
    kept: int
    broken: int
    undecided: int


def rules(text: bytes | memoryview) -> list[Rule]:
    """The lines `rule K NAME kept A broken B undecided C` of an audit, in order.

    Raises:
        ProgramError: such a line has another form.
    """
    found = []
    for line in bytes(text).decode("latin-1").split("\n"):
        words = line.split()
        if not words or words[0] != "rule":
            break
        if words[-6::2] != list(VERDICTS):
            raise _other_version()
        found.append(Rule(int(words[1]), " ".join(words[2:-6]), *map(int, words[-5::2])))
    return found


def no_cycles() -> pd.DataFrame:
    """`diagram`'s first table without a row."""
    return diagram(b"", 0)[0]


def no_points() -> pd.DataFrame:
    """`diagram`'s second table without a row."""
    return diagram(b"", 0)[1]


def diagram(text: bytes | memoryview, phase: int) -> tuple[pd.DataFrame, pd.DataFrame]:
    """The cycles and the arrivals of a section of points, as `Answer.cycles` and `Answer.points` have them.

    Raises:
        ProgramError: a line has another form.
    """
    buffer = np.frombuffer(text, np.uint8)
    starts, ends = line_bounds(text)
    is_cycle = buffer[starts] == ord("c")
    if not ((buffer[starts] == ord("p")) | is_cycle).all() or (len(is_cycle) and not is_cycle[0]):
        raise _other_version()
    words = np.array(bytes(text).split())
    first = np.concatenate((np.zeros(1, np.int64), np.cumsum(np.where(is_cycle, 8, 3))))
    if first[-1] != len(words):
        raise _other_version()
    cycle_words, point_words = first[:-1][is_cycle], first[:-1][~is_cycle]
    tenth = tenths_at(buffer, starts[is_cycle] + len("cycle "))
    length, green, yellow = (words[cycle_words + at].astype(np.int64) for at in (3, 5, 7))
    cycles = pd.DataFrame({"phase": np.full(len(tenth), phase), "stamp": datetimes(tenth), "tenth": tenth,
                           "length_s": length / 10, "green_s": green / 10, "yellow_s": yellow / 10})
    of = (np.cumsum(is_cycle) - 1)[~is_cycle]
    offset = words[point_words + 2].astype(np.int64)
    points = pd.DataFrame({
        "phase": np.full(len(offset), phase),
        "approach": pd.Series(words[point_words + 1].astype(str), dtype=object),
        "stamp": datetimes(tenth[of] + offset), "tenth": tenth[of] + offset, "cycle_tenth": tenth[of],
        "offset_s": offset / 10, "is_green": (green[of] <= offset) & (offset < yellow[of]),
    })
    return cycles, points


def shifts(lines: Sequence[Sequence[str]], approach: str) -> pd.DataFrame:
    """The lines of a section of offsets, as `Answer.shifts` has them."""
    best = next((line for line in lines if line[0] == "best"), ("best", "-"))
    counts = [(int(line[1]), int(line[3])) for line in lines if line[0] == "shift"]
    shift = np.array([at for at, _ in counts], np.int64)
    arrivals = int(best[5]) if len(best) > 5 else 0
    return pd.DataFrame({
        "approach": pd.Series([approach] * len(counts), dtype=object), "shift_s": shift,
        "green": np.array([count for _, count in counts], np.int64), "arrivals": np.full(len(counts), arrivals),
        "is_best": shift == (int(best[1]) if best[1] != "-" else -1)})


def _other_version() -> ProgramError:
    return ProgramError("lines of another form than these tools read", "the answer",
                        "take the program of the version of the tools: sigaudit-tools --version names both")
