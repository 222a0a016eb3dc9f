"""What the regression is told of a gap: numbers that speak for a hole, and how long it is and how busy the signal."""

from __future__ import annotations

import dataclasses
from collections.abc import Iterator

import numpy as np
import numpy.typing as npt

from sigaudit_tools.events import Tenths
from sigaudit_tools.holes.groups import Group, GroupName
from sigaudit_tools.holes.renewal import NOWHERE, Gaps, Renewal
from sigaudit_tools.holes.silence import Stillness
from sigaudit_tools.holes.spans import Span
from sigaudit_tools.holes.usual import BIN, BINS, Floats, Ints, bin_of
from sigaudit_tools.times import HOUR

NOTHING = 0.01      # a group's score that isn't told: one in a hundred likelier
FULL = 40.0         # no number is more: what ten groups say that fit worst is enough
SUMMED = ("ring", "detector", "ped", "ped_detector", "call", "other")
ODD = 3             # from such a score on, 20 times worse, a group's fit is odd
BATCH = 1 << 15     # rows of groups that are scored together: more don't fit a processor's cache
RISING = 13         # numbers that only speak for a hole: none of their weights is below 0


@dataclasses.dataclass(frozen=True, eq=False)
class Scored:
    """Gaps with the scores of all groups, each as if no other hole were known.

    Attributes:
        gaps: n of them.
        score: of k groups, 0 where a group tells nothing; shape (n, k).
        before, behind: the tenths of each group's last row before the gap and of its first one behind it, NOWHERE where
            it has none; shape (n, k).
        kind: of each group its place in SUMMED, shape (k,).
        silent, near, busy: of each gap how odd it is that no group has a row, and how busy it is ten minutes and an
            hour around it; shape (n,).
    """

    gaps: Gaps
    score: Floats
    before: Tenths
    behind: Tenths
    kind: Ints
    silent: Floats
    near: Floats
    busy: Floats

    def where(self, which: slice | list[int]) -> Scored:
        """Some of the gaps."""
        return dataclasses.replace(
            self, gaps=self.gaps.where(which), score=self.score[which], before=self.before[which],
            behind=self.behind[which], silent=self.silent[which], near=self.near[which], busy=self.busy[which])

    def told(self, holes: list[Span]) -> Floats:
        """The scores, 0 where another hole than that of the gap lies between a group's rows, or begins or ends there;
        shape (n, k)."""
        if not holes:
            return self.score
        return np.where(self._across(holes), 0.0, self.score)

    def vectors(self, holes: list[Span]) -> Floats:
        """The numbers of each gap, shape (n, 19): RISING that speak for a hole; then how long it is and how busy the
        signal, and products where one bends with another."""
        scores, kinds = self._apart(self.told(holes))
        sums = [np.where(kinds == kind, scores, 0.0).sum(axis=1) for kind in range(len(SUMMED))]
        worst = -np.sort(-np.pad(scores, ((0, 0), (0, 3))), axis=1)[:, :3]
        odd = np.minimum(FULL, np.where(scores > ODD, scores - ODD, 0.0).sum(axis=1))
        length = np.log(self.gaps.end - self.gaps.begin)
        told = [np.minimum(FULL, number)
                for number in (*sums, self.silent, worst[:, 0], worst[:, 1] + worst[:, 2], odd)]
        told += [worst[:, 0] * self.busy, np.log(0.01 + self.silent), np.log1p(odd)]
        return np.column_stack([*told, length, self.near, self.busy, length * self.busy, self.busy * self.busy,
                                length * length])

    def _across(self, holes: list[Span]) -> npt.NDArray[np.bool_]:
        """Whether another hole than that of the gap lies between two rows of a group, or begins or ends there: one that
        is put over several gaps has rows in it, and what follows such a row may be lost."""
        begins, ends = np.array(holes, np.int64).T
        first = np.searchsorted(begins, self.before)
        first -= (first > 0) & (ends[first - 1] > self.before)
        between = np.searchsorted(begins, self.behind) - first
        over = np.searchsorted(begins, self.gaps.begin, "right") - 1
        is_own = (over >= 0) & (ends[over] >= self.gaps.end)
        across: npt.NDArray[np.bool_] = between > is_own[:, None]
        return across

    def _apart(self, told: Floats) -> tuple[Floats, Ints]:
        """The scores of the groups that say something, the worst first, 0 for the others; and their kinds.

        Of groups whose last rows stand in one tenth, or whose next ones do, the first alone counts.
        """
        ranks = max(1, int((told > NOTHING).sum(axis=1).max(initial=0)))
        order = np.argsort(-told, axis=1, kind="stable")[:, :ranks]
        scores, before, behind = (np.take_along_axis(table, order, 1) for table in (told, self.before, self.behind))
        for rank in range(ranks):
            clash = ((before[:, :rank] == before[:, rank:rank + 1])
                     | (behind[:, :rank] == behind[:, rank:rank + 1])).any(axis=1)
            left_out = clash | (scores[:, rank] <= NOTHING)
            scores[left_out, rank], before[left_out, rank], behind[left_out, rank] = 0.0, NOWHERE, NOWHERE
        return np.asarray(scores, float), self.kind[order]


class Features:
    """The groups of a log, and how still and busy it is."""

    def __init__(self, groups: list[Group], tenth: Tenths, begins: Tenths, stretches: list[Span],
                 missing: list[Span]) -> None:
        """Takes the log's rows by groups and its tenths with rows, where its own gaps begin, from where to where it
        goes, and what of it is missing."""
        known = np.zeros(BINS, np.int64)
        for begin, end in stretches:
            np.add.at(known, bin_of(np.arange(begin, end, BIN)), BIN)
        self.stillness = Stillness(tenth, missing)
        self.renewals = [Renewal(batch, known, missing, begins) for batch in _batches(groups)]
        self.groups = [name for renewal in self.renewals for name in renewal.groups]
        self.kind = np.array([_place(name) for name in self.groups])

    def scored(self, gaps: Gaps) -> Scored:
        """Gaps with the scores of all groups."""
        shape = len(gaps), len(self.groups)
        score, before, behind = np.zeros(shape), np.full(shape, NOWHERE), np.full(shape, NOWHERE)
        first = 0
        for renewal in self.renewals:
            sides = renewal.sides(gaps)
            where = sides.gap, first + sides.group
            before[where], behind[where] = renewal.tenth[sides.before], renewal.tenth[sides.behind]
            score[where] = renewal.scores(gaps, sides)
            first += len(renewal.groups)
        return Scored(gaps, score, before, behind, self.kind, self.stillness.silent(gaps),
                      self.stillness.busy(gaps, HOUR // 12), self.stillness.busy(gaps, HOUR // 2))


def _batches(groups: list[Group]) -> Iterator[list[Group]]:
    """The groups in their order, some BATCH rows together."""
    batch: list[Group] = []
    for group in groups:
        if batch and sum(len(one.tenth) for one in batch) + len(group.tenth) > BATCH:
            yield batch
            batch = []
        batch.append(group)
    if batch:
        yield batch


def _place(name: GroupName) -> int:
    """The place of a group's kind in SUMMED; a phase whose ring isn't known is with the rings."""
    kind = "ring" if name.kind == "phase" else name.kind
    return SUMMED.index(kind if kind in SUMMED else "other")
