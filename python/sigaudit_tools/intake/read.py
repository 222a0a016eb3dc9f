"""An export read into events, and the record of what was read and how."""

from __future__ import annotations

import collections
import dataclasses
import re
from collections.abc import Sequence
from pathlib import Path
from typing import TYPE_CHECKING

import numpy as np

from sigaudit_tools.errors import InputError
from sigaudit_tools.events import Events, Tenths
from sigaudit_tools.intake import files, order, records, tables
from sigaudit_tools.intake.order import SteppedBack
from sigaudit_tools.intake.records import Dropped, Records, Rows, Wanted
from sigaudit_tools.signal.config import Config
from sigaudit_tools.times import HOUR, tenth_of_hour

if TYPE_CHECKING:
    import pandas as pd

TABLE = "the table"
_NAMED = re.compile(r"_(\d{4}-\d\d-\d\dT\d\d)\.csv")


@dataclasses.dataclass(frozen=True)
class Source:
    """A file that was read: its path, its SHA-256 as 64 digits (empty of a table), its records without headers, and
    how many of them are rows."""

    path: Path
    digest: str
    records: int
    kept: int


@dataclasses.dataclass(frozen=True, eq=False)
class Intake:
    """What was read of an export.

    Attributes:
        signals: the events of each signal, by their whole stamps, those of one stamp in the order of the files.
        sources: the files, in the order in which they were given.
        dropped: the records that are no rows, by their cause, with the first of each.
        overlapping: rows that were dropped since they stand in an earlier file.
        doubled: rows that were dropped since they stand there twice; None where that wasn't asked for.
        doubled_by_hour: of each hour (its first tenth) how many of its rows stand there before with the same whole
            stamp, code and parameter; hours without one are left out.
        zones: how many stamps had a zone, which was cut off; the clock is kept as it is written.
        stepped_back: rows that stand in their file after a later one, or None.
        hours: the first tenths of the hours that have a row, or a file that is named by them, rising.
    """

    signals: dict[str, Events]
    sources: tuple[Source, ...] = ()
    dropped: dict[str, Dropped] = dataclasses.field(default_factory=dict)
    overlapping: int = 0
    doubled: int | None = None
    doubled_by_hour: dict[int, int] = dataclasses.field(default_factory=dict)
    zones: dict[str, int] = dataclasses.field(default_factory=dict)
    stepped_back: SteppedBack | None = None
    hours: tuple[int, ...] = ()

    @classmethod
    def of_events(cls, events: Events, signal: str) -> Intake:
        """Of events of one signal that were not read from files."""
        return cls({signal: events}, hours=tuple((np.unique(events.tenth // HOUR) * HOUR).tolist()))

    @property
    def signal(self) -> str:
        """The only signal.

        Raises:
            InputError: there is none, or several.
        """
        if len(self.signals) > 1:
            raise InputError(f"rows of several signals: {' '.join(list(self.signals)[:20])}", self._place(),
                             "choose one by --signal")
        if not self.signals:
            raise InputError("no row is kept", self._place(), "; ".join(self.dropped_lines()) or "the export is empty")
        return next(iter(self.signals))

    @property
    def events(self) -> Events:
        """The events of the only signal.

        Raises:
            InputError: there is none, or several.
        """
        return self.signals[self.signal]

    def lines(self) -> list[str]:
        """What is said of it, in lines."""
        found = [f"read {one.path} sha256 {one.digest} records {one.records} rows {one.kept}" for one in self.sources]
        found += self.dropped_lines()
        found += [f"zone {zone} cut off {count} stamps, the clock is kept as it is written"
                  for zone, count in sorted(self.zones.items())]
        if self.stepped_back:
            back = self.stepped_back
            where = f", {back.words}" if back.words else ""
            found.append(f"out of order {back.count}, the furthest step back {back.furthest / 10:.1f} s{where}")
        if self.overlapping:
            found.append(f"dropped {self.overlapping}: in an earlier file already")
        if self.doubled is not None:
            found.append(f"dropped {self.doubled}: doubled")
        if not self.signals:
            found.append("no row is kept, nothing is written; look at the causes above, or at --signal and --config")
        return found

    def dropped_lines(self) -> list[str]:
        """What is said of the records that are no rows, a line for each cause."""
        return [f"dropped {one.count}: {why}; first {one.first}" for why, one in sorted(self.dropped.items())]

    def _place(self) -> str:
        return ", ".join(str(source.path) for source in self.sources[:3])


def read_export(export: Path | str | Sequence[Path | str] | pd.DataFrame, *, signal: str | None = None,
                config: Config | None = None, begin: int | None = None, end: int | None = None,
                day_first: bool = False, backward: bool = False, once: bool = False) -> Intake:
    """Reads an export: files in any usual form and cut, or a table.

    Args:
        export: files, or a DataFrame (its columns: `tables.read_table`).
        signal: takes the rows of this signal alone; wanted where the records have none.
        config: takes signal, begin and end of the window from a configuration, where they aren't given.
        begin, end: takes the rows from a tenth up to but without another alone.
        day_first: 3/4/2024 is the third of April.
        backward: the files have their last row first.
        once: of rows with the same whole stamp, code and parameter keeps one.

    Raises:
        InputError: there is no such file, it is no text, or its records want a signal.
        ResourceError: a file can't be read.
    """
    if config is not None:
        signal = signal or config.signal
        begin, end = (config.start_tenth, config.end_tenth) if begin is None or end is None else (begin, end)
    wanted = Wanted(signal, begin, end, day_first)
    if isinstance(export, (str, Path)):
        export = [export]
    if isinstance(export, Sequence):
        paths = [Path(path) for path in export]
        read = [_read_file(path, wanted) for path in paths]
    else:
        paths = []
        read = [(Source(Path(TABLE), "", len(export), 0), tables.read_table(export, TABLE, wanted))]
    return _intake(read, _named_hours(paths, wanted), backward, once)


def _read_file(path: Path, wanted: Wanted) -> tuple[Source, Records]:
    file = files.read_file(path)
    if file.is_parquet:
        found = tables.read_table(tables.read_parquet(file.data, str(path)), str(path), wanted)
    else:
        found = records.read_text(files.text_of(file.data), str(path), wanted)
    return Source(path, file.digest, found.count, len(found.rows)), found


def _named_hours(paths: Sequence[Path], wanted: Wanted) -> set[int]:
    """The hours that the names of files tell, in the window: a file may have no row."""
    named = (_NAMED.search(path.name) for path in paths)
    hours = {tenth_of_hour(found[1]) for found in named if found and found.end() == len(found.string)}
    return {hour for hour in hours if wanted.begin is None or wanted.end is None or wanted.begin <= hour < wanted.end}


def _intake(read: list[tuple[Source, Records]], hours: set[int], backward: bool, once: bool) -> Intake:
    parts = [found.rows[::-1] if backward else found.rows for _, found in read]
    back = order.stepped_back([(str(source.path), rows) for (source, _), rows in zip(read, parts)])
    rows = order.without_overlap(parts)
    overlapping = sum(map(len, parts)) - len(rows)
    doubled = order.doubled(rows)
    by_hour, dropped = _counts(rows.tenth[doubled] // HOUR * HOUR), None
    if once:
        dropped, by_hour, rows = int(doubled.sum()), {}, rows[~doubled]
    rows = order.in_order(rows)
    return Intake(_by_signal(rows), tuple(dataclasses.replace(source, kept=len(found.rows)) for source, found in read),
                  _first_of_each([found for _, found in read]), overlapping, dropped, by_hour,
                  _sum([found.zones for _, found in read]), back,
                  tuple(sorted(hours | set((np.unique(rows.tenth // HOUR) * HOUR).tolist()))))


def _by_signal(rows: Rows) -> dict[str, Events]:
    """The events of each signal, by their names."""
    found = {}
    for name, place in sorted((name, place) for place, name in enumerate(rows.names)):
        mine = rows.signal == place
        if mine.any():
            some = rows if mine.all() else rows[mine]
            found[name] = Events(some.tenth, some.code, some.param)
    return found


def _counts(hours: Tenths) -> dict[int, int]:
    return dict(zip(*(column.tolist() for column in np.unique(hours, return_counts=True))))


def _first_of_each(read: Sequence[Records]) -> dict[str, Dropped]:
    """By cause how many were dropped of all files, and the first of them."""
    found: dict[str, Dropped] = {}
    for one in read:
        for why, dropped in one.dropped.items():
            before = found.get(why, Dropped(0, dropped.first))
            found[why] = Dropped(before.count + dropped.count, before.first)
    return found


def _sum(counts: Sequence[dict[str, int]]) -> dict[str, int]:
    return dict(sum((collections.Counter(one) for one in counts), collections.Counter[str]()))
