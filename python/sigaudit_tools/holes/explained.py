"""Why a gap of a log has its grade."""

from __future__ import annotations

from collections.abc import Iterable, Iterator

import numpy as np

from sigaudit_tools.errors import InputError
from sigaudit_tools.events import Events
from sigaudit_tools.holes.groups import marks_at
from sigaudit_tools.holes.log import Log, log_of
from sigaudit_tools.holes.model import LIKELY, Model, grade_of
from sigaudit_tools.holes.proposals import model_of
from sigaudit_tools.holes.renewal import Gaps, Near, Renewal, Sides
from sigaudit_tools.holes.spans import Span
from sigaudit_tools.holes.usual import bin_of
from sigaudit_tools.signal.config import Config
from sigaudit_tools.times import stamp_of

TENTH_PART = 10     # of the times, left out at both ends, is told what is usual


def explain_gap(config: Config | None, events: Events, tenth: int, *, hours: Iterable[int] = ()) -> list[str]:
    """Why the gap at a tenth has its grade: a contradiction over it; its score, and how many gaps around this time of
    day last as long; and by group, those that go together worst first, the score (a logarithm; 0 tells nothing), the
    rows on both sides, and what is usual. The scores are those with which it was found: with the holes known that were
    taken before it.

    Args:
        config, events, hours: as of `find_holes`.
        tenth: in the gap, or of the row before it.

    Raises:
        InputError: there is no gap between two rows of the log, or the log is too small to learn from.
    """
    log = log_of(events, tuple(hours))
    log = next((portion for portion, end in log.portions() if tenth < end), log) if log.hours else log
    found = model_of(log, config) if log.hours else None
    place = int(np.searchsorted(log.tenth, tenth, "right"))
    if found is None or not 0 < place < len(log.tenth):
        raise InputError(f"no gap at {stamp_of(tenth)} between two rows of the log, or the log is too small to learn "
                         "from", remedy="take a stamp between two rows, and more hours")
    model, certain = found
    rings = {phase.number: phase.ring for phase in config.phases} if config else {}
    gap = int(log.tenth[place - 1]), int(log.tenth[place])
    _take_those_before(model, gap)
    lines = [f"certain {hole.why}" for hole in certain if hole.begin < gap[1] and gap[0] < hole.end]
    return lines + list(_lines(model, log, rings, gap))


def _take_those_before(model: Model, gap: Span) -> None:
    """Leaves to the model the holes with which a gap was found, all of them where it wasn't."""
    known = list(model.holes)
    for score, place in model.find():
        if model.gap(place) == gap:
            model.holes = sorted(known)
            return
        if score >= LIKELY:
            known.append(model.gap(place))


def _lines(model: Model, log: Log, rings: dict[int, int], gap: Span) -> Iterator[str]:
    gaps = Gaps.of([gap])
    scored = model.features.scored(gaps)
    score = float(model.scores(gaps)[0])
    count, whole = model.features.stillness.rank(gaps)
    yield (f"gap {(gap[1] - gap[0]) / 10:.1f} {stamp_of(gap[0])} {stamp_of(gap[1])} {grade_of(score)} {score:.1f} "
           f"silence {count[0]} of {whole[0]} gaps around this time of day last as long")
    told = {}
    for renewal in model.features.renewals:
        sides = renewal.sides(gaps)
        near = Near(renewal, sides, bin_of(gaps.begin[sides.gap]))
        for place, group in enumerate(sides.group.tolist()):
            told[renewal.groups[group]] = _usual(renewal, log, rings, sides, near, place)
    for name, fit in model.by_group(scored)[0]:
        if name in told:
            yield f"channel {name.kind} {name.number} score {fit:.1f} {told[name]}"


def _usual(renewal: Renewal, log: Log, rings: dict[int, int], sides: Sides, near: Near, place: int) -> str:
    """The rows of a group on both sides of a gap, and what usually follows such a row."""
    name = renewal.groups[sides.group[place]]
    before, behind = (int(renewal.tenth[side[place]]) for side in (sides.before, sides.behind))
    x, y = (" and ".join(f"{code} {param}" for code, param in marks_at(log.events, name, tenth, rings))
            for tenth in (before, behind))
    time, after = behind - before, near.after.times(near.nx[place])
    own = int(sides.behind[place] == sides.before[place] + 1 and time in after)
    told = f"{x} at {stamp_of(before)} then {y} after {time / 10:.1f} s"
    if len(after) <= own:
        return f"{told}, the only such row around this time of day"
    low, high = after[len(after) // TENTH_PART] / 10, after[-1 - len(after) // TENTH_PART] / 10
    times = max(0, len(near.pair.times(near.nxy[place])) - own)
    return (f"{told}, usually after {low:.1f} to {high:.1f} s (of {len(after) - own} rows), "
            f"by such a row {times} times")
