"""The lines of `measures` as tables with units.

docs/FORMATS.md, "Measures", says what each number is and what it can't tell.
"""

from __future__ import annotations

from collections.abc import Iterator, Sequence
from typing import NamedTuple

import numpy as np
import numpy.typing as npt
import pandas as pd

from sigaudit_tools.errors import ProgramError

Lines = Sequence[Sequence[str]]


class Column(NamedTuple):
    """A column of a table: its name, the word before the number in the line, and what the number is.

    kind: `count`, `tenths` (shown in seconds) or `fraction`.
    """

    name: str
    word: str
    kind: str


def _counts(text: str) -> tuple[Column, ...]:
    """Columns of counts, `name` or `name=word`."""
    return tuple(Column(one.split("=")[0], one.split("=")[-1], "count") for one in text.split())


def _seconds(text: str) -> tuple[Column, ...]:
    """Columns of seconds, `name=word`."""
    return tuple(Column(name, word, "tenths") for name, word in (one.split("=") for one in text.split()))


COLUMNS: dict[str, tuple[Column, ...]] = {
    "phases": (
        *_counts("services"),
        *_seconds("split_least_s=least split_greatest_s=greatest split_sum_s=sum"),
        *_counts("gap_out=gap max_out=max force_off=force unlogged cycles"), *_seconds("cycle_sum_s=cycle_sum")),
    "peds": (
        *_counts("walks delays"), *_seconds("delay_sum_s=sum delay_greatest_s=greatest"), *_counts("uncalled partial"),
        *_seconds("detector_on_s=detector_on detector_undecided_s=detector_undecided")),
    "preempts": (
        *_counts("entries delays"), *_seconds("delay_sum_s=sum"), *_counts("partial dwells"),
        *_seconds("dwell_sum_s=dwell_sum"), *_counts("dwell_partial"),
        *_seconds("input_on_s=input_on input_undecided_s=input_undecided rest_s=rest entry_s=entry track_s=track "
                  "dwell_s=dwell undecided_s=undecided")),
    "coordination": (
        *_seconds("free_s=0 in_step_s=1 add_s=2 subtract_s=3 dwell_s=4 local_zero_s=5 begin_pickup_s=6 "
                  "undecided_s=undecided"),
        *_counts("patterns cycle_changes yields begins")),
    "arrivals": (
        *_counts("arrivals green not_green=not undecided unseen fault"), Column("share", "share", "fraction"),
        Column("platoon_ratio", "platoon", "fraction")),
    "actuations": _counts("actuations red not_red=not undecided fault"),
    "splits": _counts("splits split_fail=fail split_pass=pass split_undecided=undecided split_open=open "
                      "split_fault=fault"),
}
"""The columns of each kind after what names the row."""

_NAMED_BY = {"phases": "phase", "peds": "ped", "preempts": "preempt", "coordination": "coordination",
             "arrivals": "approach", "actuations": "approach", "splits": "approach"}


def table(kind: str, sections: Sequence[Lines], hours: npt.NDArray[np.datetime64] | None = None) -> pd.DataFrame:
    """The measures of one kind of one or more sections.

    Args:
        kind: a key of COLUMNS.
        sections: the words of the lines of each section, its `held` line too.
        hours: the begin of the hour of each section, shape (len(sections),); none over the window.

    Raises:
        KeyError: there is no such kind.
        ProgramError: a line has another form.
    """
    columns, named_by = COLUMNS[kind], _NAMED_BY[kind]
    rows = [(place, _known(lines), line) for place, lines in enumerate(sections) for line in _of_kind(lines, kind)]
    made: dict[str, pd.Series] = {}
    if hours is not None:
        made["hour"] = pd.Series(hours[np.array([place for place, _, _ in rows], np.int64)])
    made["known_s"] = pd.Series([known for _, known, _ in rows], dtype=np.float64) / 10
    if named_by != "coordination":
        is_text = named_by == "approach"
        made[named_by] = pd.Series([line[1] if is_text else int(line[1]) for _, _, line in rows],
                                   dtype=object if is_text else np.int64)
    fields = [_fields(line, 1 if named_by == "coordination" else 2) for _, _, line in rows]
    for column in columns:
        made[column.name] = _column(column, [_field(one, column.word) for one in fields])
    return pd.DataFrame(made)


def _of_kind(lines: Lines, kind: str) -> Iterator[Sequence[str]]:
    word = _NAMED_BY[kind]
    return (line for line in lines if line[0] == word and (word != "approach" or line[2] == kind))


def _known(lines: Lines) -> int:
    """The known tenths of a section, by its line `held H rows R known T`."""
    if not lines or len(lines[0]) != 6 or lines[0][0] != "held":
        raise _other_version("held")
    return int(lines[0][5])


def _fields(line: Sequence[str], first: int) -> dict[str, str]:
    return dict(zip(line[first::2], line[first + 1::2]))


def _field(fields: dict[str, str], word: str) -> str:
    if word not in fields:
        raise _other_version(word)
    return fields[word]


def _column(column: Column, texts: Sequence[str]) -> pd.Series:
    if column.kind == "count":
        return pd.Series([int(text) for text in texts], dtype=np.int64)
    if column.kind == "tenths":
        return pd.Series([np.nan if text == "-" else int(text) / 10 for text in texts], dtype=np.float64)
    return pd.Series([_fraction(text) for text in texts], dtype=np.float64)


def _fraction(text: str) -> float:
    numerator, slash, denominator = text.partition("/")
    return int(numerator) / int(denominator) if slash else np.nan


def _other_version(word: str) -> ProgramError:
    return ProgramError(f"the measures have no `{word}`: the program is of another version than these tools",
                        "the answer", "sigaudit-tools --version names both")
