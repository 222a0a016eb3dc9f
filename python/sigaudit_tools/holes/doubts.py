"""Which verdicts of the program stand on log that may lack rows.

A verdict is decided by a stretch of log; nothing outside matters, whatever rows are missing there. Within, a gap
between rows is a doubt as it is graded by `find_holes`, unless it is blanked: what was in a blank can't undo a verdict.
Two doubts are left then, both weak. A hole of which only the contradiction is certain may lie elsewhere between the two
rows that contradict. And where a blank leaves out the tenths of the rows at its ends, other rows of these may be lost,
so that a stretch which begins or ends there is off by a tenth. Where the log was too small to learn from, no gap has a
grade: a stretch there without another doubt is `unlearned` and not `solid`.
"""

from __future__ import annotations

import bisect
import dataclasses
from collections import Counter
from collections.abc import Iterable, Iterator, Mapping
from typing import NamedTuple

import numpy as np
import numpy.typing as npt

from sigaudit_tools.answer import Answer, Known
from sigaudit_tools.answer_lines import VERDICTS, Verdicts, verdicts
from sigaudit_tools.errors import InputError
from sigaudit_tools.events import Events, Tenths
from sigaudit_tools.holes.durations import durations
from sigaudit_tools.holes.found import Holes
from sigaudit_tools.holes.known import known_events
from sigaudit_tools.holes.machine_rows import channel_rows
from sigaudit_tools.holes.spans import Span, columns, length, merged, outside
from sigaudit_tools.holes.usual import Ints
from sigaudit_tools.holes.values import Hole, Suspect
from sigaudit_tools.signal.config import Interval
from sigaudit_tools.signal.machines import COLOURS
from sigaudit_tools.times import HOUR, stamp_of, tenth_of_stamp

GRADES = ("certain", "sure", "likely", "weak", "unlearned", "solid")
NEAR = 10    # a line is kept by little where it is within a tenth of its bound
KEPT, BROKEN = "kept", "broken"
IN_WORDS = {"solid": "on solid log", "unlearned": "on log too small to learn from", "weak": "weak",
            "likely": "likely a hole", "sure": "surely a hole", "certain": "over a certain hole"}


@dataclasses.dataclass(frozen=True)
class Doubt:
    """The strongest suspicion in a stretch.

    Attributes:
        grade: one of GRADES.
        odds: their logarithm, to a tenth; None where it has none.
        gap: the row before and the row behind; None where it is solid or unlearned.
        why: in words; empty where it is solid or unlearned.
    """

    grade: str
    odds: float | None = None
    gap: Span | None = None
    why: str = ""

    @property
    def rank(self) -> tuple[int, float]:
        """Less of a stronger one."""
        return GRADES.index(self.grade), -(self.odds or 0.0)

    def in_words(self) -> str:
        """As a table has it."""
        if self.gap is None:
            return self.grade
        begin, end = self.gap
        return f"{self.grade}: {(end - begin) / 10:.1f} s from {stamp_of(begin)} to {stamp_of(end)}, {self.why}"


SOLID, UNLEARNED = Doubt("solid"), Doubt("unlearned")


@dataclasses.dataclass(frozen=True, eq=False)
class Doubted:
    """Lines of an answer with their doubts, the most doubtful first; shape (n,).

    Attributes:
        verdict: of all of them, broken or kept.
        rule: the rules' numbers.
        tenth: at which each is judged.
        begin, end: the first and the last tenth of the stretch that decides it.
        doubts: the strongest suspicion in there.
    """

    verdict: str
    rule: Ints
    tenth: Tenths
    begin: Tenths
    end: Tenths
    doubts: tuple[Doubt, ...]

    @classmethod
    def of(cls, verdict: str, lines: Lines, doubts: list[Doubt]) -> Doubted:
        """Lines in any order with their doubts."""
        ranks = {rank: place for place, rank in enumerate(sorted({doubt.rank for doubt in doubts}))}
        rank = np.array([ranks[doubt.rank] for doubt in doubts], np.int64)
        order = np.lexsort((lines.rule, lines.tenth, rank))
        return cls(verdict, lines.rule[order], lines.tenth[order], lines.begin[order], lines.end[order],
                   tuple(doubts[place] for place in order.tolist()))

    def lines(self, every: bool) -> Iterator[str]:
        """As text, those with a suspicion or every one."""
        columns = (self.rule.tolist(), self.tenth.tolist(), self.begin.tolist(), self.end.tolist())
        for doubt, rule, tenth, begin, end in zip(self.doubts, *columns):
            if every or doubt.gap:
                odds = "-" if doubt.odds is None else f"{doubt.odds:.1f}"
                gap = f" gap {_gap(doubt.gap)} {doubt.why}" if doubt.gap else ""
                yield (f"{doubt.grade} {odds} {self.verdict} {rule} {stamp_of(tenth)} "
                       f"from {stamp_of(begin)} to {stamp_of(end)}{gap}")

    def counts(self) -> Counter[str]:
        """How many lines there are by grade."""
        return Counter(doubt.grade for doubt in self.doubts)


class Lines(NamedTuple):
    """Lines of an answer: the rule's number, the tenth at which it is judged, the stretch that decides it; (n,)."""

    rule: Ints
    tenth: Tenths
    begin: Tenths
    end: Tenths


def _gap(gap: Span) -> str:
    return f"{(gap[1] - gap[0]) / 10:.1f} {stamp_of(gap[0])} {stamp_of(gap[1])}"


class Blanked(NamedTuple):
    """The tenths of the held hours, those of them that are blanked, and these by the strongest grade of the hole that
    they were blanked for; `by hand` for others."""

    held: int
    blanked: int
    by_grade: Mapping[str, int]

    def in_words(self) -> str:
        """What share of the held hours was blanked, and by which grades."""
        told = ", ".join(f"{grade} {tenths / 10:.1f}" for grade, tenths in self.by_grade.items())
        share = 100 * self.blanked / max(1, self.held)
        return f"blanked {self.blanked / 10:.1f} of {self.held / 10:.1f} s, {share:.2f} %{': ' * bool(told)}{told}"


class Suspicions:
    """The holes and the suspects of a log, less what blanks cover."""

    def __init__(self, holes: Holes, blanks: list[Span]) -> None:
        """Takes what was found, and the stretches that weren't known, in order."""
        self.blanks, self.small = blanks, holes.small
        self.edges: dict[int, Doubt] = {}
        self.gaps: list[Doubt] = []
        for hole in holes.holes:
            self._take(hole)
        for suspect in holes.suspects:
            self._take(suspect)
        self.gaps.sort(key=lambda doubt: doubt.gap or (0, 0))
        spans = [doubt.gap for doubt in self.gaps if doubt.gap]
        self.begins = [begin for begin, _ in spans]
        self.longest = max((end - begin for begin, end in spans), default=0)

    def _take(self, one: Hole | Suspect) -> None:
        grade, gap = one.grade, (one.begin, one.end)
        if not self._is_blanked(one.begin + 1, one.end):
            odds = None if one.score is None else round(one.score, 1)
            self.gaps.append(Doubt(grade, odds, gap, one.why))
        else:
            for edge in gap:
                if not self._is_blanked(edge, edge + 1):
                    self.edges[edge] = Doubt("weak", None, gap, "at the end of a blanked hole")
        if grade == "certain":
            for part in outside(contradicting(one.why), self.blanks):
                self.gaps.append(Doubt("weak", None, part, f"may hold the hole of {one.why}"))

    def _is_blanked(self, low: int, high: int) -> bool:
        return any(begin <= low and high <= end for begin, end in self.blanks)

    def of(self, begin: int, end: int) -> Doubt:
        """The strongest doubt of a stretch, given by its first and its last tenth."""
        near = self.gaps[bisect.bisect_left(self.begins, begin - self.longest):bisect.bisect_left(self.begins, end)]
        found = [doubt for doubt in near if doubt.gap and doubt.gap[1] > begin]
        found += [self.edges[tenth] for tenth in (begin, end) if tenth in self.edges]
        is_learned = not any(small.begin <= end and begin < small.end for small in self.small)
        return min(found, key=lambda doubt: doubt.rank, default=SOLID if is_learned else UNLEARNED)

    def of_each(self, begin: Tenths, end: Tenths) -> list[Doubt]:
        """The strongest doubt of each stretch, shape (n,)."""
        spans = [doubt.gap for doubt in self.gaps if doubt.gap] + [(edge, edge) for edge in self.edges]
        spans += [(small.begin, small.end) for small in self.small]
        begins, ends = columns(spans)
        near = np.searchsorted(begins, end, "right") > np.searchsorted(ends, begin, "left")
        found = [SOLID] * len(begin)
        for place in np.flatnonzero(near).tolist():
            found[place] = self.of(int(begin[place]), int(end[place]))
        return found


@dataclasses.dataclass(frozen=True, eq=False)
class Doubts:
    """How solid the log is on which the verdicts of an answer stand.

    Attributes:
        suspicions: what is suspected of the log.
        broken: the broken lines.
        kept: the lines that are kept by little.
        blanked: how much of the held hours was blanked, and for what.
    """

    suspicions: Suspicions
    broken: Doubted
    kept: Doubted
    blanked: Blanked

    def of(self, begin: int, end: int) -> Doubt:
        """The strongest doubt of a stretch, given by its first and its last tenth."""
        return self.suspicions.of(begin, end)

    def lines(self, every: bool = False) -> list[str]:
        """As text: broken lines, and those kept by little where a gap is suspected, or `every` one; then counts."""
        found = [*self.broken.lines(True), *self.kept.lines(every)]
        for lines in (self.broken, self.kept):
            counts = lines.counts()
            found += [f"count {lines.verdict} {grade} {counts[grade]}" for grade in GRADES]
        return [*found, self.summary(), self.blanked.in_words()]

    def summary(self) -> str:
        """How many lines are broken, and of them by grade."""
        counts = self.broken.counts()
        told = ", ".join(f"{counts[grade]} {words}" for grade, words in IN_WORDS.items()
                         if counts[grade] or grade == "solid")
        return f"broken {sum(counts.values())}, of them {told}"


def find_doubts(answer: Answer, events: Events, holes: Holes) -> Doubts:
    """On how solid log each broken verdict of an answer stands, and each that is kept by little.

    Args:
        answer: of the program. Kept lines are looked at where its script asks for `verdicts H`.
        events: of the log that it was given; those of other hours don't matter.
        holes: what was found in this log.
    """
    suspicions = Suspicions(holes, answer.unknown())
    broken, kept = (Doubted.of(verdict, lines, suspicions.of_each(lines.begin, lines.end))
                    for verdict, lines in ((BROKEN, _broken(answer)), (KEPT, _kept_by_little(answer, events))))
    return Doubts(suspicions, broken, kept, _blanked(answer.known, answer.config.start_tenth, holes.holes))


def contradicting(why: str) -> Span:
    """The two rows between which a certain hole lies, by its reason, `.. at STAMP after STAMP`.

    Raises:
        InputError: it is no such reason.
    """
    words = why.split(" ")
    if len(words) < 4 or words[-2] != "after":
        raise InputError(f"no contradiction: {why}", remedy="look for the holes anew by sigaudit-tools holes")
    return tenth_of_stamp(words[-1]), tenth_of_stamp(words[-3])


def _broken(answer: Answer) -> Lines:
    """The broken lines that hold, each once."""
    lines = Verdicts.joined([verdicts(section.text) for section in answer.judging])
    is_broken = lines.verdict == VERDICTS.index(BROKEN)
    found = np.array([lines.rule, lines.tenth, lines.begin, lines.end])[:, is_broken]
    return Lines(*np.unique(found, axis=1))


def _kept_by_little(answer: Answer, events: Events) -> Lines:
    """The kept lines of duration rules whose colour lasted within a tenth of the bound, on its right side."""
    lines = Verdicts.joined([verdicts(section.text) for section in answer.by_hour("verdicts").values()])
    is_kept = lines.verdict == VERDICTS.index(KEPT)
    found = [Lines(*np.empty((4, 0), np.int64))]
    known, unknown = known_events(events, answer), answer.unknown()
    for channel in dict.fromkeys(interval.channel for interval in answer.config.intervals if is_kept.any()):
        times = durations(channel_rows(known, channel), unknown)
        for rule, interval in enumerate(answer.config.intervals, 1):
            if interval.channel == channel:
                is_near = times.colour == COLOURS[channel.kind].index(interval.colour)
                is_near &= _by_little(times.end - times.begin, interval)
                is_near &= np.isin(times.end, lines.tenth[is_kept & (lines.rule == rule)])
                begin, end = times.begin[is_near], times.end[is_near]
                found.append(Lines(np.full(len(end), rule), end, begin, end))
    return Lines(*(np.concatenate(column) for column in zip(*found)))


def _by_little(lasted: Tenths, interval: Interval) -> npt.NDArray[np.bool_]:
    """Whether times keep a bound, and are within a tenth of it."""
    if interval.at_least is not None:
        low, high = interval.at_least, interval.at_least + interval.at_least // NEAR
    else:
        most = interval.at_most or 0
        low, high = most - most // NEAR, most
    return np.asarray((low <= lasted) & (lasted <= high))


def _blanked(known: Known, start: int, holes: Iterable[Hole]) -> Blanked:
    """What of the held hours was blanked at a moment, and for which holes."""
    hours = [(start + hour * HOUR, start + (hour + 1) * HOUR) for hour in sorted(known.held)]
    inside = [(max(low, begin), min(high, end)) for begin, end in hours for low, high in known.blanks]
    left = merged(span for span in inside if span[0] < span[1])
    whole = length(left)
    by_grade: dict[str, int] = {}
    for hole in sorted(holes, key=lambda hole: (GRADES.index(hole.grade), *hole.blank)):
        rest = [part for span in left for part in outside(span, [hole.blank])]
        if length(rest) < length(left):
            by_grade[hole.grade] = by_grade.get(hole.grade, 0) + length(left) - length(rest)
        left = rest
    if left:
        by_grade["by hand"] = length(left)
    return Blanked(len(hours) * HOUR, whole, by_grade)
