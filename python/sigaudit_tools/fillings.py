"""The two histories of an undecided verdict, shown among the known rows around them.

The program fills unknown tenths so that a rule is kept, and so that it is broken (docs/FORMATS.md, "Undecided lines").
A filling shows what the log leaves open, by the tables of channels alone; that a controller would do so isn't said.
"""

from __future__ import annotations

from collections.abc import Iterator, Sequence

from sigaudit_tools.events import Events
from sigaudit_tools.report.evidence import KnownLog
from sigaudit_tools.report.remarks import ChannelHistory, History
from sigaudit_tools.signal.channels import IDS, Channel
from sigaudit_tools.times import stamp_of


def shown(rule: int, tenth: int, histories: Sequence[History], log: KnownLog, before_s: float = 120.0) -> Iterator[str]:
    """The histories in lines, channel by channel: its known rows of the last seconds, and with `+` what is filled in.

    Args:
        rule: the rule's number.
        tenth: the tenth at which it is judged.
        histories: one that keeps the rule and one that breaks it.
        log: the known rows.
        before_s: of how many seconds before the verdict known rows are shown.
    """
    yield f"undecided {rule} {stamp_of(tenth)}"
    for history in histories:
        for one in history.channels:
            yield (f"{'keeps' if history.keeps else 'breaks'}: {one.kind} {one.number}, {one.colour} for "
                   f"{one.age / 10:.1f} s before the window")
            yield from _rows(one, _known(log, one).between(tenth - round(10 * before_s) + 1, tenth + 1), tenth)
            yield from faults(one, log)


def faults(one: ChannelHistory, log: KnownLog) -> list[str]:
    """What is wrong with the fills of a channel: those out of order, or at a known tenth; none of a sound program."""
    tenths = [fill.tenth for fill in one.fills]
    found = ["  a fill is out of order"] if tenths != sorted(tenths) else []
    return found + [f"  a fill at a known tenth: {stamp_of(tenth)}" for tenth in tenths
                    if not any(low <= tenth < high for low, high in log.unknown)]


def _known(log: KnownLog, one: ChannelHistory) -> Events:
    return log.events.where(log.channel == IDS[Channel(one.kind, int(one.number))])


def _rows(one: ChannelHistory, known: Events, last: int) -> Iterator[str]:
    """The known rows and those that are filled in up to the tenth `last`, by their tenths."""
    rows: list[tuple[int, int, int, str]] = [
        (*row, " ") for row in zip(known.tenth.tolist(), known.code.tolist(), known.param.tolist())]
    rows += [(*fill, "+") for fill in one.fills if fill.tenth <= last]
    for tenth, code, param, mark in sorted(rows, key=lambda row: row[0]):
        yield f"{mark} {stamp_of(tenth)} code {code} param {param}"
