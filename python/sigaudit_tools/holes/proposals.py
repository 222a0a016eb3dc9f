"""Which gaps of a log are proposed as holes, with grades.

First what the machines and the configuration's floors contradict: a hole lies between the two rows, and is put over the
likeliest gaps there. Then, these known, the gaps that the model finds likely.
"""

from __future__ import annotations

import dataclasses
import multiprocessing
from collections.abc import Mapping
from concurrent.futures import ProcessPoolExecutor

import numpy as np
import numpy.typing as npt

from sigaudit_tools.holes.contradictions import Contradiction, contradictions
from sigaudit_tools.holes.features import Scored
from sigaudit_tools.holes.log import Log
from sigaudit_tools.holes.machine_rows import Rows, contradicted, strict_rows
from sigaudit_tools.holes.model import LEAST, LIKELY, Chance, Model, Source, grade_of
from sigaudit_tools.holes.renewal import Gaps
from sigaudit_tools.holes.spans import Span, merged
from sigaudit_tools.holes.values import Hole, Misfit, Small, Suspect
from sigaudit_tools.signal.channels import Channel
from sigaudit_tools.signal.config import Config
from sigaudit_tools.times import stamp_of

EDGE = 9.0      # a silence at the log's begin or end is a hole where one in 8,000 (e^9) at this time of day is as long
# A contradiction's hole is put over the likeliest gaps that have so much of the odds together. In the wrong gap it
# makes false lines: with 0.95 three in eighteen days, with 0.99 none in 36, for a quarter more of blanked seconds.
SHARE = 0.99
# Where so many phases and more begin anew in one tenth, over a gap shorter than LEAST, which has no room for a yellow
# and a red, the controller jumped, as at a restart.
JUMPING, BEGINS = 2, (0, 1)
REACH = 8       # rows of a channel that tell its colour, and show whether it goes on from there: two services
# So many contradictions by one code of a kind, and of so large a share of its rows, are the controller's way, no holes.
MISFIT_LEAST, MISFIT_SHARE = 10, 0.05
WORST = 3       # groups that are named with a gap

Channels = Mapping[Channel, Rows]


@dataclasses.dataclass
class Found:
    """What was found in a log, or in a portion of it."""

    holes: list[Hole] = dataclasses.field(default_factory=list)
    suspects: list[Suspect] = dataclasses.field(default_factory=list)
    chances: list[Chance] = dataclasses.field(default_factory=list)
    misfits: list[Misfit] = dataclasses.field(default_factory=list)
    small: list[Small] = dataclasses.field(default_factory=list)

    def blanks(self) -> list[Span]:
        """The blanks of all holes."""
        return merged(hole.blank for hole in self.holes)


@dataclasses.dataclass(frozen=True)
class Wish:
    """What is looked for.

    Attributes:
        silence: silences of so many tenths are holes too.
        chances: whether fresh cuts are tried.
        certain: whether nothing but contradictions is looked for.
    """

    silence: int | None = None
    chances: bool = True
    certain: bool = False


def propose(log: Log, config: Config | None, wish: Wish, jobs: int = 1) -> Found:
    """What is found in a whole log, by so many processes at a time."""
    portions = [] if wish.certain else log.portions()
    edges = {edge for stretch in log.stretches for edge in stretch}
    tasks = [(portion, end, edges, config, wish) for portion, end in portions]
    if jobs > 1 and len(tasks) > 1:
        with ProcessPoolExecutor(jobs, multiprocessing.get_context("fork")) as pool:
            parts = list(pool.map(_in_portion, *zip(*tasks)))
    else:
        parts = [_in_portion(*task) for task in tasks]
    found = Found(*([entry for part in parts for entry in getattr(part, field.name)]
                    for field in dataclasses.fields(Found)))
    found.chances = _summed(found.chances)
    if wish.silence:
        known = {hole.begin for hole in found.holes}
        found.holes += [Hole(begin, end, "likely", None, "silence") for begin, end in log.silences.pairs()
                        if end - begin >= wish.silence and begin not in known]
    settle(log, config, found, None)
    found.holes.sort(key=lambda hole: (hole.begin, hole.end))
    blanks = found.blanks()
    found.suspects = sorted((one for one in found.suspects
                             if not any(low < one.end and one.begin < high for low, high in blanks)),
                            key=lambda one: (-one.score, -one.begin))
    return found


def model_of(log: Log, config: Config | None) -> tuple[Model, list[Hole]] | None:
    """The model of a log, learned, and the holes that the contradictions in it want; None where the log is too small.

    With these known it is learned anew: which rows follow one another over a hole isn't usual.
    """
    rows = strict_rows(log.events, config)
    wrong = contradictions(rows, log.missing)
    odd = {misfit.kind for misfit in misfits(rows, wrong)}
    strict = [mine for channel, mine in rows.items() if channel.kind not in odd]
    stretches = [(one.low, one.high) for one in wrong if one.channel.kind not in odd]
    rings = {phase.number: phase.ring for phase in config.phases} if config else {}

    def contradicts(gaps: Gaps) -> npt.NDArray[np.bool_]:
        return contradicted(strict, gaps.begin, gaps.end, REACH)

    source = Source(log.events, rings, log.stretches, contradicts)

    def learned(known: list[Span]) -> Model | None:
        model = Model(source, known)
        return model if model.learn(stretches) else None

    model, found = learned([]), Found()
    if model:
        settle(log, config, found, model)
        if found.holes:
            model = None    # two of a long log would be too much memory
            model = learned(found.blanks())
    return (model, found.holes) if model else None


def misfits(rows: Channels, wrong: list[Contradiction]) -> list[Misfit]:
    """The codes of a kind that contradict so often that it is the controller's way."""
    tenths: dict[tuple[str, int], list[int]] = {}
    for one in wrong:
        tenths.setdefault((one.channel.kind, one.code), []).append(one.high)
    found = []
    for (kind, code), mine in sorted(tenths.items()):
        every = sum(int((one.code == code).sum()) for channel, one in rows.items() if channel.kind == kind)
        if len(mine) >= MISFIT_LEAST and len(mine) >= MISFIT_SHARE * every:
            found.append(Misfit(kind, code, len(mine), every, min(mine)))
    return found


def settle(log: Log, config: Config | None, found: Found, model: Model | None) -> None:
    """Adds holes for what still contradicts, the shortest stretches first, until nothing does."""
    rows = strict_rows(log.events, config)
    found.misfits = misfits(rows, contradictions(rows, log.missing))
    odd = {(misfit.kind, misfit.code) for misfit in found.misfits}
    while rows:
        blanks = merged(found.blanks() + log.missing)
        wrong = [one for one in contradictions(rows, blanks) if (one.channel.kind, one.code) not in odd]
        rows = {one.channel: rows[one.channel] for one in wrong}
        taken: list[Span] = []
        for one, (begin, end) in zip(wrong, _spans(wrong, log, blanks, model)):
            if not any(one.low <= high and low <= one.high for low, high in taken):
                taken.append((begin, end))
                found.holes.append(Hole(begin, end, "certain", None, _why(one, wrong, end - begin)))


def _why(one: Contradiction, wrong: list[Contradiction], tenths: int) -> str:
    """What contradicts in a hole of so many tenths, in words."""
    why = f"{one.channel.name} code {one.code} at {stamp_of(one.high)} after {stamp_of(one.low)}"
    jumped = {other.channel for other in wrong
              if other.high == one.high and other.channel.kind == "phase" and other.code in BEGINS}
    if tenths < LEAST and len(jumped) >= JUMPING:
        return f"jump of {', '.join(channel.name for channel in sorted(jumped))}: {why}"
    return why


def _spans(wrong: list[Contradiction], log: Log, blanks: list[Span], model: Model | None) -> list[Span]:
    """Where the hole of each contradiction goes: the row before and the row behind."""
    found, inside = [], []
    for one in wrong:
        near = [blank for blank in blanks if blank[0] <= one.high and one.low < blank[1]]
        low, high = np.searchsorted(log.tenth, [one.low, one.high])
        gaps = Gaps(log.tenth[low:high], log.tenth[low + 1:high + 1])
        gaps = gaps.where(gaps.end - gaps.begin > 1)
        # A blank that is there already is too small for the floors: it grows.
        found.append((near[0][0], one.high) if near else (one.low, one.high))
        inside.append(gaps.where(slice(0, 0)) if near else gaps)
    likeliest = _likeliest(inside, model)
    return [(int(gaps.begin.min()), int(gaps.end.max())) if len(gaps) else span
            for span, gaps in zip(found, likeliest)]


def _likeliest(inside: list[Gaps], model: Model | None) -> list[Gaps]:
    """Of some gaps those that have the hole together for nearly sure; all of them where there is no model."""
    if model is None or not any(map(len, inside)):
        return inside
    odds = model.odds(Gaps(*(np.concatenate([getattr(gaps, side) for gaps in inside]) for side in ("begin", "end"))))
    found = []
    for gaps, mine in zip(inside, np.split(odds, np.cumsum([len(gaps) for gaps in inside[:-1]]))):
        order = np.lexsort((-gaps.begin, -mine))
        shares = np.exp(mine[order]) / max(np.exp(mine).sum(), np.finfo(float).tiny)
        found.append(gaps.where(order[:1 + int(np.searchsorted(np.cumsum(shares), SHARE))]))
    return found


def _in_portion(log: Log, end: float, edges: set[int], config: Config | None, wish: Wish) -> Found:
    """What is found in a portion up to a tenth; edges are the begins and ends of the whole log's stretches."""
    learned, found = model_of(log, config), Found()
    if learned is None:
        found.small.append(Small(log.stretches[0][0], log.stretches[-1][1], len(log.tenth)))
        return found
    model, found.holes = learned
    likely = model.find()
    words = _in_words(model, model.scored.where([place for _, place in likely]))
    for (score, place), why in zip(likely, words):
        if score >= LIKELY:
            found.holes.append(Hole(*model.gap(place), grade_of(score), score, why))
        else:
            found.suspects.append(Suspect(*model.gap(place), score, why))
    found.holes += [Hole(*silence, "likely", None, "edge") for silence in _edge_silences(log, edges, model)]
    if wish.chances:
        found.chances = list(model.chances())
    found.holes = [hole for hole in found.holes if hole.begin < end]
    found.suspects = [one for one in found.suspects if one.begin < end]
    return found


def _edge_silences(log: Log, edges: set[int], model: Model) -> list[Span]:
    """The silences at the begins and the ends of a log that are longer than ever at their time of day."""
    at_edge = [silence for silence in log.silences.pairs()
               if (silence[0] in edges or silence[1] in edges) and silence[1] - silence[0] >= LEAST]
    return [silence for silence, odd in zip(at_edge, model.silent(Gaps.of(at_edge)) > EDGE) if odd]


def _in_words(model: Model, scored: Scored) -> list[str]:
    """The groups whose rows on both sides of each gap go together worst."""
    return [", ".join(f"{name} {score:.1f}" for name, score in groups[:WORST]) for groups in model.by_group(scored)]


def _summed(chances: list[Chance]) -> list[Chance]:
    """The chances of all portions together."""
    whole: dict[tuple[int, int, int, int], tuple[int, int]] = {}
    for one in chances:
        key = one.first, one.last, one.shortest, one.longest
        found, cuts = whole.get(key, (0, 0))
        whole[key] = found + one.found, cuts + one.cuts
    return [Chance(*key, *counts) for key, counts in sorted(whole.items())]
