"""The pictures of a signal's page, of its tables and its answer."""

from __future__ import annotations

import dataclasses
from collections.abc import Sequence

import numpy as np
import pandas as pd

from sigaudit_tools.answer import Answer
from sigaudit_tools.report import charts
from sigaudit_tools.report.audit import Audit
from sigaudit_tools.report.charts import Band, Diagram, Known
from sigaudit_tools.report.lookup import Row
from sigaudit_tools.report.svg import BLUE, BROKEN, DOTTED, HALF, SKY, STRIPED, WIDE, Chart, Key, Rows, Stretch
from sigaudit_tools.signal.config import Config
from sigaudit_tools.signal.rule_words import in_short
from sigaudit_tools.times import stamp_of

# What bars are made of, from below: the column, and its key.
TERMINATIONS = (("gap_out", Key(SKY, "gap out")), ("max_out", Key(STRIPED, "max out")),
                ("force_off", Key(BLUE, "force off")), ("unlogged", Key("#fff", "not logged")))
SERVICES = (("split_fail", Key(BROKEN, "failed")), ("split_undecided", Key(DOTTED, "undecided")),
            ("split_pass", Key(SKY, "passed")), ("split_open", Key("#fff", "open")),
            ("split_fault", Key("#c4cad0", "fault")))


def overview(audit: Audit, narrow: bool = False) -> Chart:
    """The window with its broken and undecided verdicts in lanes; narrow for a telephone."""
    title = "Broken and undecided verdicts over the window"
    return charts.overview(title, audit.known, audit.marks, *((HALF - 100,) if narrow else ()))


def timeline(audit: Audit, shown: Stretch | None = None) -> Chart:
    """A line for each rule with broken or undecided verdicts, those with the most weight above; of the window, or of a
    time in it, from and up to."""
    low, high = shown or (audit.known.start, audit.known.end)
    marks = [mark for mark in audit.marks if low <= mark.tenth < high]
    there = {mark.rule for mark in marks}
    names = audit.answer.rules
    rules = [(rule, f"{rule}  {in_short(names.get(rule, ''))}") for rule in audit.rules if rule in there]
    return charts.timeline("Time line: rules with broken or undecided verdicts",
                           dataclasses.replace(audit.known, start=low, end=high),
                           [(one.begin, one.end) for one in audit.holes.suspects] if audit.holes else (), rules, marks)


def splits(audit: Audit, name: str, rows: Sequence[Row]) -> Chart:
    """The splits of a phase by hour."""
    bands = [Band(row.hour, row.number("split_least_s"), row.number("split_mean_s"), row.number("split_greatest_s"))
             for row in rows if row["split_greatest_s"]]
    return charts.hours_band(f"{name}: least, mean and greatest split by hour", audit.known, bands, "split, seconds")


def arrivals(audit: Audit, name: str, rows: Sequence[Row]) -> Chart:
    """The share of arrivals on green of an approach by hour."""
    bands = [Band(row.hour, 100 * row.number("least"), None, 100 * row.number("greatest"))
             for row in rows if row["greatest"]]
    return charts.hours_band(f"{name}: share of arrivals on green by hour", audit.known, bands, "% on green",
                             percent=True)


def delays(audit: Audit, name: str, rows: Sequence[Row]) -> Chart:
    """The delays of a pedestrian signal by hour, from the mean to the greatest."""
    bands = [Band(row.hour, row.number("delay_mean_s"), None, row.number("delay_greatest_s"))
             for row in rows if row["delay_greatest_s"]]
    return charts.hours_band(f"{name}: mean and greatest delay by hour", audit.known, bands, "delay, seconds")


def terminations(audit: Audit, name: str, rows: Sequence[Row]) -> Chart:
    """Why the greens of a phase ended, by hour."""
    parts = [(key, {row.hour: row.count(column) for row in rows}) for column, key in TERMINATIONS]
    return charts.hours_bars(f"{name}: why its greens ended, by hour", audit.known, parts, "greens")


def services(known: Known, name: str, rows: Sequence[Row], width: int = HALF) -> Chart:
    """The services of an approach by hour: failed, undecided, passed, open at the end, with a fault."""
    parts = [(key, {row.hour: row.count(column) for row in rows}) for column, key in SERVICES]
    return charts.hours_bars(f"{name}: services by hour, failed, undecided, passed", known, parts, "services", width)


def failures(audit: Audit) -> Chart | None:
    """The services of each approach by hour, one approach above another; None where no approach has a service."""
    rows = [row for row in audit.tables.rows("approaches") if row["splits"]]
    names = dict.fromkeys(row["approach"] for row in rows)
    found = [services(audit.known, f"Approach {name}", [row for row in rows if row["approach"] == name], WIDE)
             for name in names]
    return charts.one_above_another("Services by hour", found) if found else None


@dataclasses.dataclass(frozen=True)
class Shifts:
    """How many arrivals of an approach would have met green at each shift: the chart, and the numbers of the answer."""

    chart: Chart
    best: int
    count: int
    of: int
    logged: int


def shifts(answer: Answer, approach: str) -> Shifts | None:
    """That of an approach; None where the script doesn't ask for it, or no cycle is whole."""
    found = answer.shifts
    found = found[found["approach"] == approach]
    if not len(found):
        return None
    counts = found["green"].tolist()
    best = int(found["shift_s"][found["is_best"]].iloc[0])
    title = f"Approach {approach}: arrivals on green at each shift"
    return Shifts(charts.shifts(title, counts, best), best, counts[best], int(found["arrivals"].iloc[0]), counts[0])


def diagram(answer: Answer, phase: int, shown: Stretch | None = None) -> Diagram | None:
    """The coordination diagram of a phase; None where the script doesn't ask for it, or no whole cycle begins there.

    Args:
        answer: the answer.
        phase: the phase.
        shown: the time in which the cycles begin that are drawn, from and up to; the window without it.
    """
    section = answer.last("points", phase)
    low, high = shown or (answer.config.start_tenth, answer.config.end_tenth)
    cycles = _tenths(answer.cycles, phase, ("tenth", "length_s", "green_s", "yellow_s"))
    cycles = cycles[(low <= cycles[:, 0]) & (cycles[:, 0] < high)]
    if section is None or not len(cycles):
        return None
    points = _tenths(answer.points, phase, ("cycle_tenth", "offset_s"))
    points = points[(low <= points[:, 0]) & (points[:, 0] < high)]
    known = Known(low, high, answer.missing(section.known), answer.blanked(section.known))
    return charts.diagram(f"Coordination diagram of phase {phase}", known, cycles, points)


def about(config: Config, shown: Stretch | None = None, more: str = "") -> str:
    """The line about a picture in a file of its own: the signal, from when to when, and more."""
    low, high = shown or (config.start_tenth, config.end_tenth)
    return f"Signal {config.signal}, {stamp_of(low, ' ')[:16]} to {stamp_of(high, ' ')[:16]}{more}"


def about_diagram(config: Config, found: Diagram, shown: Stretch | None = None) -> str:
    """That about a coordination diagram."""
    more = f": {found.cycles} cycles, {found.arrivals} arrivals"
    if found.cut:
        more += f"; longer than {found.highest_s} s and cut: {found.cut} cycles; not shown: {found.hidden} arrivals"
    return about(config, shown, more + (f"; one dot in {found.every}" if found.every > 1 else ""))


def about_shifts(config: Config, found: Shifts) -> str:
    """That about a picture of shifts."""
    return about(config, more=f": {found.of} arrivals, {found.logged} on green, {found.count} at {found.best} s")


def _tenths(table: pd.DataFrame, phase: int, columns: Sequence[str]) -> Rows:
    """Columns of the rows of a phase in tenths, shape (n, columns)."""
    table = table[table["phase"] == phase]
    return np.column_stack([np.rint(table[name].to_numpy() * (10 if name.endswith("_s") else 1)).astype(np.int64)
                            for name in columns])
