"""From an answer and what was found beside it to its tables, pictures and page, all of the same values."""

from __future__ import annotations

from collections.abc import Iterable, Iterator
from pathlib import Path

import pandas as pd

from sigaudit_tools import explain
from sigaudit_tools._version import VERSION
from sigaudit_tools.answer import Answer
from sigaudit_tools.errors import ResourceError
from sigaudit_tools.events import Events
from sigaudit_tools.files import digest
from sigaudit_tools.holes import Holes
from sigaudit_tools.holes.doubts import Blanked, Doubts, find_doubts
from sigaudit_tools.holes.spans import length, merged
from sigaudit_tools.report import figures
from sigaudit_tools.report.audit import Audit
from sigaudit_tools.report.evidence import KnownLog
from sigaudit_tools.report.page import made_now
from sigaudit_tools.report.remarks import faults_said, histories
from sigaudit_tools.report.tables import Source, tables
from sigaudit_tools.times import HOUR


def audit_of(answer: Answer, events: Events, folder: Path, holes: Holes | None = None,
             faults: Iterable[str] | None = None, fillings: str = "") -> Audit:
    """What a page is made of.

    Args:
        answer: the answer.
        events: the rows of the hours that it holds, each hour's as its file has them.
        folder: where the hour files lie.
        holes: what was found of holes; None where they weren't looked for.
        faults: what was found of faults, as lines (`Faults.lines`); None where they weren't looked for.
        fillings: histories of undecided verdicts, as the program prints them.
    """
    doubts = find_doubts(answer, events, holes) if holes else None
    found = tables(answer, _sources(answer), _files(answer, folder), doubts.blanked if doubts else _blanked(answer),
                   _in_words(answer, doubts) if doubts else None, explain.figures(answer, events))
    return Audit(answer, found, made_now(), VERSION, KnownLog.of(answer, events), holes,
                 None if faults is None else faults_said(faults), histories(fillings.splitlines()))


def pictures(audit: Audit) -> Iterator[tuple[str, str]]:
    """The pictures of an audit, each as the name of its file and the text of an SVG."""
    answer, config = audit.answer, audit.answer.config
    if answer.last("audit"):
        yield "audit.svg", figures.timeline(audit).file(figures.about(config))
    services = figures.failures(audit)
    if services:
        yield "failures.svg", services.file(figures.about(config))
    for phase in dict.fromkeys(section.of for section in answer.sections if section.kind == "points"):
        diagram = figures.diagram(answer, int(phase))
        if diagram:
            yield f"phase-{phase}.svg", diagram.chart.file(figures.about_diagram(config, diagram))
    for approach in dict.fromkeys(section.of for section in answer.sections if section.kind == "offsets"):
        shifts = figures.shifts(answer, approach)
        if shifts:
            yield f"shifts-{approach}.svg", shifts.chart.file(figures.about_shifts(config, shifts))


def _sources(answer: Answer) -> list[Source]:
    """The configuration, the script and the answer."""
    config = answer.config
    return [Source("config", str(config.path), config.digest),
            Source("script", answer.script_name, answer.script_digest), Source("answer", answer.name, answer.digest)]


def _files(answer: Answer, folder: Path) -> dict[str, str]:
    """The SHA-256 of each file that the script loads, as it is now; those that aren't there are left out."""
    found = {}
    for name in {edit.words[2] for edit in answer.edits if edit.words[0] in ("load", "replace")}:
        try:
            found[name] = digest(folder / name)
        except ResourceError:
            continue
    return found


def _blanked(answer: Answer) -> Blanked:
    """How much of the held hours is blanked, where nobody looked for holes."""
    start = answer.config.start_tenth
    hours = [(start + hour * HOUR, start + (hour + 1) * HOUR) for hour in answer.known.held]
    inside = [(max(low, begin), min(high, end)) for begin, end in hours for low, high in answer.known.blanks]
    return Blanked(len(hours) * HOUR, length(merged(span for span in inside if span[0] < span[1])), {})


def _in_words(answer: Answer, doubts: Doubts) -> list[str]:
    """Of each row of `Answer.verdicts` the strongest doubt; of undecided ones none."""
    stretches = answer.verdicts[["from_tenth", "to_tenth"]].itertuples(index=False)
    return ["" if begin is pd.NA else doubts.of(int(begin), int(end)).in_words() for begin, end in stretches]
