"""How likely each gap of a log hides lost rows.

A gap is a stretch between two rows of the log with no row between. If all rows of a stretch of time were lost, it lies
in one gap. The model in one sentence: **of each group of rows it asks how much likelier the rows on both sides of the
gap follow one another with a hole between than without, by what this very log shows at this time of day; and it learns
what these scores are worth together by telling gaps that it cuts into the log itself from the log's own.**

1. A group's score (`renewal`): lengths of yellow, least greens, walks, and that a detector goes on and off in turns
   come out of the counts; none stands here as a rule.
2. What scores are worth together. Groups depend on one another, so their scores don't just add. Rows of one tenth have
   one cause, as a vehicle on its loop and its call, or both rings at the barrier: of groups whose last rows before the
   gap stand in one tenth, or whose first ones after it, that which fits worst counts alone (`features`). CUTS stretches
   are cut out of the log at random places, of those that leave no contradiction (the others are found without a model),
   and a logistic regression over the features tells the gaps that so come from the log's own, but those where the log
   contradicts itself. These may hide holes too: the regression is fitted again without those that would be blanked,
   and no others, since what is left out has nothing against it any more (the case of learning from positive and
   unlabelled examples: C. Elkan and K. Noto, Learning Classifiers from Only Positive and Unlabeled Data, 2008). What
   speaks for a hole never counts against one: without that bound a gap in which all groups are odder than in any cut
   could be told from a hole. Where the log contradicts itself, all is learned again with these holes known
   (`proposals`), since what follows a row over a hole isn't usual, and gaps beside it look odd.
3. Best first. The likeliest gap is taken as a hole, and rows on both sides of it count together no longer; so it
   explains its neighbours away. Then the next.
4. Other cuts, which the regression hasn't seen, tell which outages are found in this log, and which aren't.

All draws have fixed seeds: the same log gives the same scores.
"""

from __future__ import annotations

import bisect
import dataclasses
import heapq
import math
from collections.abc import Iterator

import numpy as np
import numpy.typing as npt

from sigaudit_tools.events import Events, Tenths
from sigaudit_tools.holes.cuts import Cutter, Examples, Kind, Test
from sigaudit_tools.holes.features import RISING, Features, Scored
from sigaudit_tools.holes.groups import GroupName, groups_of
from sigaudit_tools.holes.log import distinct
from sigaudit_tools.holes.regression import regression
from sigaudit_tools.holes.renewal import Gaps
from sigaudit_tools.holes.spans import Span, overlapped
from sigaudit_tools.holes.usual import Floats
from sigaudit_tools.times import DAY

LEAST = 50          # tenths: a shorter gap loses some ten rows of a busy signal, and can't be told from the others
CUTS = 500          # for learning: 25 and more for each feature
CUT = Kind(50, 18_000)    # tenths: five seconds to half an hour
TRIES = 20          # draws for a cut
FEW_CUTS = CUTS // 5
FEW_GAPS, FEW_TENTHS = 100, 1_000    # with fewer a log is too small to learn from
MOST_GAPS = 4_000   # of the log's own, to learn from
ROUNDS = 4          # of learning without the gaps that would be blanked
# Of the regression: before the log is seen, a number of spread 1 is held to weigh some 10 or less. Of cuts of 5 to 15 s
# by day, fresh ones in seven logs of four signals, 69, 70 and 71 in 100 are found with 1, 0.1 and 0.01, and of longer
# ones no fewer; the log's own stand out as seldom.
RIDGE = 0.01
# Grades by a gap's score: the logarithm of the odds of a hole, were there one cut a day that doesn't contradict, for a
# gap of a minute (PLAIN, in tenths). Blanked in vain a gap costs its seconds, so twice as long it wants twice the odds:
# of five made signals without a hole that blanks 150 s a day and not 1,200, and by day no fewer cuts are found.
SURE, LIKELY, WEAK = 0.0, -2.5, -5.0
PLAIN = 600
# The lengths and the parts of the day of the chances, in tenths and hours; CHANCE_CUTS draws for each of both.
LENGTHS = (50, 150, 600, 3_000, 18_000)
PARTS = (0, 5, 9, 15, 19, 22, 24)
CHANCE_CUTS, CHANCE_TRIES = 20, 40


@dataclasses.dataclass(frozen=True)
class Chance:
    """How many random outages of some lengths, cut into the log between some hours, get a blank.

    Attributes:
        first, last: the hours of the day, from and up to.
        shortest, longest: tenths.
        found, cuts: so many, of so many.
    """

    first: int
    last: int
    shortest: int
    longest: int
    found: int
    cuts: int


def grade_of(score: float) -> str:
    """sure, likely, weak or solid."""
    return "sure" if score >= SURE else "likely" if score >= LIKELY else "weak" if score >= WEAK else "solid"


class Source:
    """What models of a log learn from, whatever holes of it they know.

    Attributes:
        stretches: from where to where the log goes without a missing hour, in order.
        contradicts: says of gaps whether the machines find a hole in each by themselves, were there a hole.
        tenth: the tenths with rows, rising.
        groups: the rows by groups.
        least: the tenths of the shortest gap that is looked at.
        examples: cuts that don't contradict.
    """

    def __init__(self, events: Events, rings: dict[int, int], stretches: list[Span], contradicts: Test) -> None:
        """Takes the events of a log, of each phase that is known to be in a ring its number, and as of the class."""
        self.stretches, self.contradicts = stretches, contradicts
        self.tenth, self.groups = distinct(events.tenth), groups_of(events, rings)
        self.least = max(LEAST, 3 * usual_step(self.tenth) // 2)
        self.examples = Examples(self.cutter(1), CUT, CUTS * TRIES, lambda gaps: ~contradicts(gaps))

    def cutter(self, seed: int) -> Cutter:
        """Cuts the log, by a seed."""
        return Cutter(seed, self.stretches, self.tenth, self.least)


class Model:
    """The gaps of a log, each with its score.

    Attributes:
        tenth: the tenths with rows, rising.
        holes: those that are known or were taken, as the last row before and the first row behind, in order.
        own: the log's own gaps that may be holes.
    """

    def __init__(self, source: Source, known: list[Span]) -> None:
        """Takes a log, and holes that are known before, none over another, in order."""
        self.source, self.known = source, known
        self.holes = [(begin, end - 1) for begin, end in known]
        missing = sorted([(a[1], b[0]) for a, b in zip(source.stretches, source.stretches[1:])] + known)
        self.days = sum(end - begin for begin, end in source.stretches) / DAY
        self.tenth = source.tenth
        gaps = Gaps(self.tenth[:-1], self.tenth[1:])
        gaps = gaps.where(gaps.end - gaps.begin >= source.least)
        self.own = gaps.where(~overlapped(gaps.begin, gaps.end, missing))
        self.features = Features(source.groups, self.tenth, self.own.begin, source.stretches, missing)

    def learn(self, wrong: list[Span]) -> bool:
        """Learns the weights: the log's own gaps against cuts, again without those that would be blanked.

        Args:
            wrong: the first and the last tenth of each stretch in which the machines find a hole by themselves.

        Returns:
            Whether there was enough to learn from.
        """
        examples = np.flatnonzero(~overlapped(self.own.begin, self.own.end, wrong))
        if len(examples) < FEW_GAPS or len(self.tenth) < FEW_TENTHS:
            return False
        cuts = self.source.examples.take(CUTS, self.known)
        if len(cuts) < FEW_CUTS:
            return False
        scored = self.features.scored(Gaps(np.append(self.own.begin, cuts.begin), np.append(self.own.end, cuts.end)))
        vectors = scored.vectors(self.holes)
        self.scored = scored.where(slice(len(self.own)))
        self.vectors, made = vectors[:len(self.own)], vectors[len(self.own):]
        step = max(1, len(examples) // MOST_GAPS)
        examples = examples[::step]
        own, kept = self.vectors[examples], self.vectors[examples]
        self.base = math.log(len(made) / self.days)
        self.weights = regression(kept, made, step, RIDGE, RISING)
        for _ in range(ROUNDS):
            before, kept = len(kept), own[self._scores(self.own.where(examples), own) < LIKELY]
            if len(kept) == before:
                break
            self.weights = regression(kept, made, step, RIDGE, RISING, self.weights)
        return True

    def odds(self, gaps: Gaps) -> Floats:
        """The logarithm of the odds of a hole in each gap, were there one cut a day in the place of all of them."""
        return self._odds(self.features.scored(gaps).vectors(self.holes))

    def scores(self, gaps: Gaps) -> Floats:
        """What each gap is graded by: its odds, for one twice as long half of them."""
        return self._scores(gaps, self.features.scored(gaps).vectors(self.holes))

    def find(self) -> list[tuple[float, int]]:
        """The likeliest gaps one after another, each from LIKELY on held for a hole before the next: scores and places
        in `own`."""
        scores = self._scores(self.own, self.vectors)
        free = ~overlapped(self.own.begin, self.own.end, self.holes)
        likely = np.flatnonzero(free & (scores >= WEAK)).tolist()
        heap = [(-float(scores[place]), place, len(self.holes)) for place in likely]
        heapq.heapify(heap)
        found = []
        while heap:
            score, place, known = heapq.heappop(heap)
            if known == len(self.holes):
                found.append((-score, place))
                if -score >= LIKELY:
                    bisect.insort(self.holes, self.gap(place))
                continue
            which = slice(place, place + 1)
            now = float(self._scores(self.own.where(which), self.scored.where(which).vectors(self.holes))[0])
            if now >= WEAK:
                heapq.heappush(heap, (-now, place, len(self.holes)))
        return found

    def gap(self, place: int) -> Span:
        """The log's own gap at a place."""
        return int(self.own.begin[place]), int(self.own.end[place])

    def chances(self) -> Iterator[Chance]:
        """How many fresh cuts get a blank."""
        cutter, drawn = self.source.cutter(2), []
        for first, last in zip(PARTS, PARTS[1:]):
            for shortest, longest in zip(LENGTHS, LENGTHS[1:]):
                kind = Kind(shortest, longest, (first, last))
                drawn.append((kind, cutter.take(CHANCE_CUTS, CHANCE_CUTS * CHANCE_TRIES, kind, self._is_free)))
        gaps = Gaps(*(np.concatenate([getattr(cuts, side) for _, cuts in drawn]) for side in ("begin", "end")))
        found = self.source.contradicts(gaps)
        found[~found] = self.scores(gaps.where(~found)) >= LIKELY
        for (kind, cuts), blanked in zip(drawn, np.split(found, np.cumsum([len(cuts) for _, cuts in drawn[:-1]]))):
            if len(cuts):
                yield Chance(*kind.hours, kind.shortest, kind.longest, int(blanked.sum()), len(cuts))

    def silent(self, gaps: Gaps) -> Floats:
        """Minus the logarithm of the share of gaps around this time of day that last as long."""
        return self.features.stillness.silent(gaps)

    def by_group(self, scored: Scored) -> list[list[tuple[GroupName, float]]]:
        """Of each gap the groups with their scores, those whose rows on both sides go together worst first."""
        return [[(self.features.groups[place], float(scores[place])) for place in np.argsort(-scores, kind="stable")]
                for scores in scored.told(self.holes)]

    def _is_free(self, gaps: Gaps) -> npt.NDArray[np.bool_]:
        taken = overlapped(gaps.begin, gaps.end, self.holes) | overlapped(gaps.begin, gaps.end, self.known)
        return np.asarray(~taken)

    def _odds(self, vectors: Floats) -> Floats:
        return np.asarray((vectors * self.weights[1:]).sum(axis=1) + self.weights[0] - self.base)

    def _scores(self, gaps: Gaps, vectors: Floats) -> Floats:
        return np.asarray(self._odds(vectors) - np.log((gaps.end - gaps.begin) / PLAIN))


def usual_step(tenth: Tenths) -> int:
    """The most usual time from one stamp to the next, 1 of less than two.

    A logger that writes in batches and stamps by these has its own; then a gap needs half of it more to lack one.
    """
    steps, first, counts = np.unique(np.diff(tenth), return_index=True, return_counts=True)
    if not len(steps):
        return 1
    most = np.flatnonzero(counts == counts.max())
    return int(steps[most[first[most].argmin()]])
