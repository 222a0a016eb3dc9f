"""What is odd in a configuration though it is accepted: what looks like a slip, and what doesn't fit a log."""

from __future__ import annotations

import dataclasses
from collections.abc import Callable, Iterable, Iterator, Sequence

import numpy as np

from sigaudit_tools.events import Events
from sigaudit_tools.signal import document, shown
from sigaudit_tools.signal.channels import COORDINATION, Channel
from sigaudit_tools.signal.config import Config, Pair, Phase
from sigaudit_tools.times import HOUR, stamp_of

# Colours of which a bound of less than a second is a slip: seconds, or a digit lost. A red clearance may be as short.
LONG = ("Green", "Yellow", "Red", "Walk", "Clearance", "DontWalk", "Trailing", "Dwell", "Track")
# A bound that is so many times less than all that the log shows, or more, tests nothing: a slip of seconds and
# tenths is ten times, and plans of one signal seldom differ by four.
FAR = 4
SECOND = 10
# An entry of a table (its number from 0), and what is odd of it; of the top the number is 0.
Found = Iterator[tuple[str, int, str]]


@dataclasses.dataclass(frozen=True)
class Oddity:
    """Something that is accepted and looks like a slip: its line, None where it has none of its own, and in words."""

    line: int | None
    words: str


@dataclasses.dataclass(frozen=True)
class Others:
    """Rows of other signals that a log has: how many, and the first of them with its place, in words."""

    count: int = 0
    first: str = ""


def oddities(config: Config, events: Events | None = None, others: Others = Others()) -> list[Oddity]:
    """What is odd in a configuration, and in how it fits a log.

    Args:
        config: the configuration.
        events: the log, in or outside of the configuration's window; without it the configuration alone is looked at.
        others: what the log has of other signals.
    """
    lines = document.lines_of(config.text)
    finds: tuple[Callable[[Config], Found], ...] = (_phases, _pairs, _intervals, _approaches)
    found = [Oddity(lines.get((table, index)) or lines.get(("top", 0, table)), words)
             for find in finds for table, index, words in find(config)]
    return found if events is None else found + list(_of_log(config, events, others, lines))


def worded(config: Config, found: Iterable[Oddity]) -> list[str]:
    """Oddities as lines, by the lines of the configuration, and how many there are."""
    lines = [f"{config.path}:{one.line or '-'}: odd: {one.words}"
             for one in sorted(found, key=lambda one: one.line or 0)]
    return [*lines, f"check: accepted, {len(lines)} odd"]


# ---- the configuration alone


def usual_place(number: int) -> tuple[int, int] | None:
    """The ring and the side of the barrier that a phase of this number mostly has; None for phases over 8."""
    return (1 if number <= 4 else 2, 1 if number in (1, 2, 5, 6) else 2) if number <= 8 else None


def conflicting(phases: Iterable[Phase]) -> set[frozenset[int]]:
    """The pairs of phases that conflict by rings and barrier."""
    phases = tuple(phases)
    return {frozenset((a.number, b.number)) for a in phases for b in phases
            if a.number < b.number and (a.ring == b.ring or a.side != b.side)}


def _phases(config: Config) -> Found:
    for index, phase in enumerate(config.phases):
        usual = usual_place(phase.number)
        if usual and (phase.ring, phase.side) != usual:
            yield "phase", index, (f"phase {phase.number} in ring {phase.ring}, side {phase.side}: it is mostly in "
                                   f"ring {usual[0]}, side {usual[1]}")


def _pairs(config: Config) -> Found:
    pairs = conflicting(config.phases)
    tables: tuple[tuple[str, Sequence[Pair], str], ...] = (("conflict", config.conflicts, "conflict"),
                                                           ("allow", config.allows, "don't conflict"))
    for table, entries, words in tables:
        for index, pair in enumerate(entries):
            if (frozenset((pair.a, pair.b)) in pairs) == (table == "conflict"):
                yield table, index, f"phases {pair.a} and {pair.b} {words} by rings and barrier anyway"


def _intervals(config: Config) -> Found:
    floors = {(floor.channel, floor.colour): floor.tenths for floor in config.floors}
    least: dict[tuple[Channel, str], int] = {}
    most: dict[tuple[Channel, str], int] = {}
    for index, interval in enumerate(config.intervals):
        limit = interval.channel, interval.colour
        name, bound = f"{interval.channel.name} {interval.colour}", interval.at_least or interval.at_most or 0
        if bound < SECOND and interval.colour in LONG:
            side = "at most" if interval.at_least is None else "at least"
            yield "interval", index, f"{name} {side} {bound / 10:.1f} s: are these tenths?"
        if interval.at_least is not None and floors.get(limit):
            yield "interval", index, (f"{name} has a floor of {floors[limit] / 10:.1f} s too: what is assumed can't be "
                                      "tested")
        first = config.intervals.index(interval)
        if first < index:
            yield "interval", index, f"{name}: the same was there before, in interval[{first}]"
        if interval.at_least is not None:
            least[limit] = max(least.get(limit, bound), bound)
        else:
            most[limit] = min(most.get(limit, bound), bound)
        if limit in least and limit in most and least[limit] > most[limit]:
            yield "interval", index, (f"{name} has to last at least {least[limit] / 10:.1f} s and at most "
                                      f"{most[limit] / 10:.1f} s")


def _approaches(config: Config) -> Found:
    for index, approach in enumerate(config.approaches):
        if approach.advance is None and approach.stop_bar is None:
            yield "approach", index, f"approach {approach.name} has no detector, so nothing is measured of it"
        elif approach.advance == approach.stop_bar:
            yield "approach", index, f"approach {approach.name} has one detector for both places"
    if not (config.intervals or config.peds or config.overlaps or conflicting(config.phases)):
        yield "top", 0, "no rule follows from it: an audit has nothing to judge"


# ---- beside a log


def _of_log(config: Config, events: Events, others: Others, lines: document.Lines) -> Iterator[Oddity]:
    inside = events.between(config.start_tenth, config.end_tenth)
    start = lines.get(("top", 0, "start"))
    if others.count:
        yield Oddity(lines.get(("top", 0, "signal")), f"{others.count} rows are of another signal than "
                     f"{config.signal}: {others.first}")
    if len(inside) < len(events):
        yield Oddity(start, f"{len(events) - len(inside)} of {len(events)} rows lie outside the window, "
                     f"{stamp_of(config.start_tenth)} to {stamp_of(config.end_tenth)}")
    if not len(inside):
        yield Oddity(start, "no row lies in the window")
        return
    empty = config.hours - len(np.unique(inside.tenth // HOUR))
    if empty:
        yield Oddity(lines.get(("top", 0, "hours")), f"{empty} of the {config.hours} hours of the window have no row")
    seen = shown.shown(inside)
    for table, index, words in (*_bounds(config, seen), *_channels(config, seen)):
        yield Oddity(lines.get((table, index)), words)


def _bounds(config: Config, seen: shown.Shown) -> Found:
    for index, interval in enumerate(config.intervals):
        if (interval.channel, interval.colour) not in seen.durations:
            continue
        least, greatest = seen.durations[interval.channel, interval.colour]
        bound = interval.at_least or interval.at_most or 0
        at_least = interval.at_least is not None
        words = (f"{interval.channel.name} {interval.colour} at {'least' if at_least else 'most'} {bound / 10:.1f} s: "
                 f"the log shows from {least / 10:.1f} to {greatest / 10:.1f} s")
        if (bound * FAR < least) if at_least else (bound > greatest * FAR):
            yield "interval", index, words + ", so it tests nothing"
        if (bound > greatest) if at_least else (bound < least):
            yield "interval", index, words + ", so it is never kept"


def _channels(config: Config, seen: shown.Shown) -> Found:
    """Channels and detectors that only one of the two has."""
    has = _configured(config)
    for channel, table, index in has:
        if channel not in seen.channels:
            yield table, index, f"{channel.kind} {channel.number} never acts in the log"
    known = {channel for channel, _, _ in has}
    known |= {Channel("ped_detector", number) for kind, number in known if kind == "ped"}
    known |= {Channel("preempt_input", number) for kind, number in known if kind == "preempt"}
    lacking: dict[str, list[str]] = {}
    for kind, number in sorted(seen.channels - known - {COORDINATION}):
        lacking.setdefault(kind, []).append(str(number))
    for kind, numbers in lacking.items():
        yield "top", 0, f"the log has {kind.replace('_', ' ')} {', '.join(numbers)}, the configuration hasn't"
    if COORDINATION in seen.channels and not config.coordination:
        yield "top", 0, "the log has rows of the coordination (code 150), and coordination isn't true"


def _configured(config: Config) -> list[tuple[Channel, str, int]]:
    """The channels and detectors that a configuration names, with the entries that do."""
    found = [(Channel(kind, number), kind, index) for kind, numbers in config.numbers().items()
             for index, number in enumerate(numbers)]
    return found + [(Channel("detector", number), "approach", index)
                    for index, approach in enumerate(config.approaches)
                    for number in (approach.advance, approach.stop_bar) if number is not None]
