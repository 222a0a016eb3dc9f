"""Explanations as lines of text."""

from __future__ import annotations

from collections.abc import Callable, Iterator
from pathlib import Path

from sigaudit_tools.explain.explanation import Explanation, in_seconds
from sigaudit_tools.explain.finder import Finder, Line
from sigaudit_tools.explain.log import Row
from sigaudit_tools.explain.rules import bound_of, channels_of
from sigaudit_tools.holes.doubts import Suspicions
from sigaudit_tools.holes.spans import Span
from sigaudit_tools.signal.codes import name_of
from sigaudit_tools.signal.rule_words import in_short
from sigaudit_tools.times import HOUR, stamp_of

LineOf = Callable[[Row], int]    # the number of a row's line in its file


def lines_of(found: Explanation, line_of: LineOf, suspicions: Suspicions | None = None,
             rows: bool = False) -> Iterator[str]:
    """The lines of an explanation; with the strongest suspicion in its stretch, and with the rows of it, where these
    are wanted."""
    yield f"{found.verdict} {found.rule} {stamp_of(found.stamp)} {found.in_short}"
    yield f"  says {found.sentence()}"
    if found.instead:
        yield f"  or it had another colour before this row: {', '.join(found.instead)}"
    if found.verdict != found.shown:
        yield f"  floors of the configuration make it {found.verdict}, where the rows leave it {found.shown}"
    for word, row in (("began", found.begin), ("ended", found.end)):
        if row:
            yield f"  {word} {_row(row, line_of)}"
    for stretch in found.unknown:
        yield f"  unknown {_span(stretch)}"
    if found.stretch:
        yield from _stretch(found, found.stretch, line_of, suspicions, rows)


def _stretch(found: Explanation, stretch: Span, line_of: LineOf, suspicions: Suspicions | None,
             rows: bool) -> Iterator[str]:
    """The lines of the stretch that decides a verdict."""
    inside = found.log.rows(stretch[0], stretch[1] + 1, found.channels)
    yield (f"  decided {_span(stretch)}: {len(inside.events)} rows, {inside.own.sum()} of the rule's channels")
    if found.silence:
        yield f"  silent {_span(found.silence)}"
    if suspicions:
        yield f"  doubt {suspicions.of(*stretch).in_words()}"
    for row, own in zip(inside.each(), inside.own.tolist()) if rows else ():
        yield f"  row {'*' if own else ' '} {_row(row, line_of)}"


def lines_at(finder: Finder, rule: int, stamp: int, show: Callable[[Line], Iterator[str]]) -> list[str]:
    """What a rule says at a tenth: its lines there; or why there is none, and the verdicts of the rule before and after
    it."""
    found = finder.find(rule, stamp)
    if found:
        return [told for line in found for told in show(line)]
    why, hour = why_none(finder, rule, stamp), (stamp - finder.answer.config.start_tenth) // HOUR
    asked = hour in finder.answer.by_hour("verdicts")
    verdict = "none" if why or asked else "kept or none"
    why = why or ("it isn't judged here" if asked
                  else f"neither broken nor undecided; a script with `verdicts {hour}` tells")
    return [f"{verdict} {rule} {stamp_of(stamp)} {in_short(finder.names[rule])}", f"  says {why}",
            *_neighbours(finder, rule, stamp)]


def why_none(finder: Finder, rule: int, stamp: int) -> str | None:
    """Why a tenth has no verdict of a rule, as far as the window and the rows tell."""
    config = finder.answer.config
    log, name = finder.log(finder.answer.judging[-1]), finder.names[rule]
    if not config.start_tenth <= stamp < config.end_tenth:
        return "it isn't in the window"
    if (stamp - config.start_tenth) // HOUR not in log.files:
        return "its hour isn't held"
    if log.unknown_in(stamp, stamp + 1):
        return "this tenth is blanked"
    channels, bound = channels_of(name, config), bound_of(name)
    if not any(len(log.of_channel(channel, stamp, stamp + 1)) for channel in channels):
        names = " or ".join(f"{channel.kind} {channel.number}" for channel in channels)
        return f"no row of {names} stands at this tenth"
    if bound and not finder.course(log, bound.channel, stamp, 1).ends_at(bound.colour, stamp):
        return f"no row of this tenth can end the {bound.colour} of {bound.channel.name}"
    return None


def _neighbours(finder: Finder, rule: int, stamp: int) -> Iterator[str]:
    """The verdicts of the rule next to a tenth, before and after it."""
    others = [line for line in finder.every_line() if line.rule == rule and line.stamp != stamp]
    before = [line for line in others if line.stamp < stamp]
    after = [line for line in others if line.stamp > stamp]
    nearest = (("before", max(before, key=lambda line: line.stamp, default=None)),
               ("after", min(after, key=lambda line: line.stamp, default=None)))
    for side, line in nearest:
        if line:
            yield f"  {side} it {line.verdict} {rule} {stamp_of(line.stamp)}"


def _span(span: Span) -> str:
    return f"{in_seconds(span[1] - span[0])} from {stamp_of(span[0])} to {stamp_of(span[1])}"


def _row(row: Row, line_of: LineOf) -> str:
    return (f"{stamp_of(row.tenth)} code {row.code} param {row.param} {name_of(row.code)}, "
            f"line {line_of(row)} of {Path(row.file).name}")
