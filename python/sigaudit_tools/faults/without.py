"""A configuration without the approaches of faulty detectors: sigaudit can't blank a detector."""

from __future__ import annotations

import re
from collections.abc import Collection, Iterable

from sigaudit_tools.errors import InputError
from sigaudit_tools.faults.find import Finding
from sigaudit_tools.faults.scores import LIKELY
from sigaudit_tools.intake.files import text_of
from sigaudit_tools.signal import document
from sigaudit_tools.signal.config import Approach, Config
from sigaudit_tools.times import HOUR, hour_of


def faulty_hours(config: Config, findings: Iterable[Finding]) -> dict[int, set[str]]:
    """By hour of the window, from 0, the approaches of which a finding that is sure or likely names a detector."""
    found: dict[int, set[str]] = {}
    for finding in findings:
        if finding.group.kind != "detector" or finding.score < LIKELY:
            continue
        names = {approach.name for approach in config.approaches if _detectors(approach) & set(finding.group.numbers)}
        first, last = (at // HOUR - config.start_tenth // HOUR for at in (finding.begin, finding.end - 1))
        for hour in range(max(first, 0), min(last + 1, config.hours)) if names else ():
            found.setdefault(hour, set()).update(names)
    return found


def faulty_approaches(config: Config, findings: Iterable[Finding]) -> set[str]:
    """The approaches of which a finding that is sure or likely names a detector, in the window or not."""
    numbers = {number for finding in findings if finding.group.kind == "detector" and finding.score >= LIKELY
               for number in finding.group.numbers}
    return {approach.name for approach in config.approaches if _detectors(approach) & numbers}


def hour_lines(config: Config, hours: dict[int, set[str]]) -> list[str]:
    """The hours in which approaches are faulty, a line each: its number from the window's start, itself, and these."""
    return [f"hour {number} {hour_of(config.start_tenth + number * HOUR)} {' '.join(sorted(names))}"
            for number, names in sorted(hours.items())]


def without_approaches(config: Config, names: Collection[str]) -> str:
    """The text of a configuration without some of its approaches; all else stays as it is written.

    Raises:
        InputError: its approaches aren't tables of their own.
    """
    wanted = document.parse(config.text)
    wanted["approach"] = [entry for entry in document.entries(wanted, "approach") if entry["name"] not in names]
    try:
        tables = re.split(r"(?m)^(?=[ \t]*\[)", text_of(config.text).decode("utf-8"))
        made = "".join(table for table in tables if not _is_of(table, names))
        found = document.parse(made.encode())
    except document.NotToml:
        found = {}
    found["approach"] = [*document.entries(found, "approach")]
    if found != wanted:
        raise InputError("its approaches aren't tables of their own", str(config.path),
                         f"leave out by hand: {' '.join(sorted(names))}")
    return made


def _is_of(table: str, names: Collection[str]) -> bool:
    """Whether a table is that of one of some approaches."""
    if not re.match(r"[ \t]*\[\[[ \t]*approach[ \t]*\]\]", table):
        return False
    return any(entry["name"] in names for entry in document.entries(document.parse(table.encode()), "approach"))


def _detectors(approach: Approach) -> set[int]:
    return {number for number in (approach.advance, approach.stop_bar) if number is not None}
