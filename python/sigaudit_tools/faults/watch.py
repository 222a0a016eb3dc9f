"""The channels of a log with their silences, and what is learned of them.

A channel's silences run from one of its rows to the next. Each is measured by what the rest of the signal did
meanwhile, its witnesses: actuations of another detector or of all, or calls, greens and walks of a phase. By how many
rows the channel had for each of theirs from two hours before the silence to two hours after, what they saw is taken at
the usual pace: as much as it would be if that share were always the mean one. So silences of the busiest hour and of
the early morning compare. Clock time counts for nothing: at night, and where the whole log is lost, the witnesses stand
still too.

The witnesses of a channel are three of the other detectors and inputs; where most detectors are of the channel itself,
of what the controller did. The second best of them counts, so that no fault of one detector accuses another; or the one
that sees a silence soonest by the whole log, say another loop of the lane, which is believed to have seen no more than
the pace of one of the others bears out. What is itself silent for a cause of its own tells nothing.

What chance may do is shared out alike among the kinds of channels, one detector, several, one input, several, the
coordination, and then among those of a kind: all inputs together fail no more rarely than a detector, and are one
channel beside many.
"""

from __future__ import annotations

import dataclasses
import math
from collections.abc import Iterable, Sequence

import numpy as np
import numpy.typing as npt

from sigaudit_tools.faults.answers import BOUNCE, Answer, Answers
from sigaudit_tools.faults.rows import Group, Log, Places
from sigaudit_tools.faults.scores import LIKELY, score_of
from sigaudit_tools.faults.tails import ENOUGH, Amounts, fault_size, tail_size
from sigaudit_tools.faults.tracks import BOTH, END, NOTHING, OFF, ON, Hush, Marks, Mask, Spans, Track, track_of
from sigaudit_tools.faults.witnesses import Floats, Witnesses

LEAST = 3000         # tenths: a shorter silence isn't judged; queues stand on a loop for minutes
MEASURED = 3         # times as many silences as the tail holds are measured
MOST = 20            # natural logarithm: so much more than usual is never seen
WITNESSES = 3        # of a channel: where one of three is faulty, there is still one and a second
PATIENCE = 240       # steps: a silence that isn't seen by then isn't seen
STARTS, APART = 100, 30  # times of a log, steps apart: by so many witnesses are chosen
NOBODY = -1          # where no witness counts
_LOGARITHMS = np.array([-math.inf, *map(math.log, range(1, PATIENCE + 1))])


@dataclasses.dataclass(frozen=True)
class Silence:
    """A silence of a channel: the mark that it follows and the one that ends it (END where the log does), from, to,
    its score, and the place of the witness that counts, or NOBODY."""

    group: Group
    mark: int
    begin: int
    end: int
    next: int
    score: float = -math.inf
    witness: int = NOBODY

    @property
    def counted(self) -> bool:
        """Whether it is one of those from which was learned what is usual."""
        return self.mark != NOTHING and self.next != END


@dataclasses.dataclass(eq=False)
class Usual:
    """The silences of a channel after one kind of row: how many there are, what those saw of each witness that are
    measured, among how many channels chance is shared out (the decimal logarithm), the witnesses that are chosen, the
    one first that sees a silence soonest, and what each has to see for a likely silence."""

    count: int
    amounts: dict[int, Amounts]
    tests: float = 0.0
    chosen: tuple[int, ...] = ()
    needs: dict[int, int] = dataclasses.field(default_factory=dict)


class Watch:
    """The channels of a log, and what is learned of them.

    Args:
        log: the log.
        groups: channels of several numbers.
        hush: from when to when the rows of which detector tell nothing.
    """

    def __init__(self, log: Log, groups: Sequence[Group], hush: Hush) -> None:
        self.log, self.hush, self.days = log, hush, log.days
        self.witnesses, self.flashes = Witnesses(log, hush), log.flashes()
        self.answers_of = Answers(log, self.witnesses)
        self.tracks: dict[Group, Track] = {}
        self.answers: dict[Group, dict[int, list[Answer]]] = {}
        self.learned: dict[tuple[Group, int], Usual] = {}
        self.add([*log.channels(), *groups])

    def add(self, groups: Iterable[Group]) -> None:
        """Takes in channels: their rows, what is usual in their silences, and the witnesses that count."""
        new = list(groups)
        for group in new:
            self.tracks[group] = track_of(self.log, group, self.hush)
            self.answers[group] = self.answers_of.of(group, self.tracks[group])
            self._learn(group)
        kinds: dict[tuple[str, bool], int] = {}
        for group, _ in self.learned:
            kinds[_kind(group)] = kinds.get(_kind(group), 0) + 1
        for (group, _), usual in self.learned.items():
            if group in new:
                usual.tests = math.log10(len(kinds) * kinds[_kind(group)])
                if any(amounts.times for amounts in usual.amounts.values()):
                    self._choose(group, usual)

    # ---- what is usual

    def _learn(self, group: Group) -> None:
        """Learns the silences after each kind of row that is there often enough.

        Of the coordination, which is silent for hours after a rare row, answers alone are asked after such a one.
        """
        mark, begin, end, following = self.tracks[group].silences()
        known = (mark != NOTHING) & (following != END)
        others = self.witnesses.others(group)
        for each in self.tracks[group].marks():
            mine = known & (mark == each)
            if mine.sum() >= ENOUGH:
                self.learned[group, each] = self._usual(group, others, begin[mine], end[mine])
            elif group.kind == "coordination" and known.sum() >= ENOUGH and any(self.answers[group].values()):
                self.learned[group, each] = Usual(int(known.sum()), {})

    def _usual(self, group: Group, others: Places, begin: Places, end: Places) -> Usual:
        """What is usual in such silences. The longest for their time of day are measured, more than the tail holds."""
        count, spans = len(begin), self.tracks[group].spans(begin, end)
        top, faults = tail_size(count, self.days), fault_size(count, self.days)
        longest = np.lexsort((begin, spans.rows * (end - begin) / spans.width))[-MEASURED * top:]
        amounts = self.amounts(group, others, spans[longest], end[longest])
        return Usual(count, {witness: Amounts(seen, count, top, faults)
                             for witness, seen in zip(others.tolist(), amounts.tolist())})

    def amounts(self, group: Group, places: Places, spans: Spans, until: Places) -> Places:
        """What witnesses saw in silences up to some tenths, at the pace of the whole log, shape (w, n).

        That is, as much as it would be if channel and witness always kept the pace that they have in the mean.
        """
        seen = self.witnesses
        first = seen.until(places, spans.begin)
        inside = seen.before(places, until) - first
        others = (first - seen.before(places, spans.begin - spans.width)
                  + seen.before(places, spans.end + spans.width) - seen.before(places, spans.end))
        rows = np.maximum(0, spans.rows - self._dark(group, places, spans))
        pace = self._pace(group, places)[:, None]
        amount = np.rint(pace * rows * np.log1p(np.maximum(0, inside) / np.maximum(1, others)))
        return np.where(inside > 0, amount, 0).astype(np.int64)

    def _dark(self, group: Group, places: Places, spans: Spans) -> Places:
        """The rows of the channel around silences at which witnesses tell nothing, shape (w, n)."""
        found = np.zeros((len(places), len(spans)), np.int64)
        dark_spans = self.witnesses.dark
        for row, place in enumerate(places.tolist()):
            for dark, light in dark_spans[place] if place in dark_spans else ():
                found[row] += self.tracks[group].count(np.maximum(spans.begin - spans.width, dark),
                                                       np.minimum(spans.end + spans.width, light))
        return found

    def _pace(self, group: Group, places: Places) -> Floats:
        """How often witnesses see something for each row of a channel, shape (w,)."""
        return self.witnesses.sizes(places) / len(self.tracks[group].rows)

    def _choose(self, group: Group, usual: Usual) -> None:
        """The witnesses for silences of a channel, and what each has to see for a likely one."""
        mesh, others = self.witnesses.mesh, np.array(list(usual.amounts), np.int64)
        starts = np.arange(0, len(mesh), max(APART, len(mesh) // STARTS))
        wanted = math.log(self.days) - math.log(10) * (LIKELY + usual.tests)
        usual.needs = {witness: amounts.need(wanted) for witness, amounts in usual.amounts.items()}
        waits = self._waits(group, others, np.array(list(usual.needs.values())), starts)
        usual.chosen = _soonest(others, _LOGARITHMS[waits])

    def _waits(self, group: Group, places: Places, needs: Places, starts: Places) -> Places:
        """The steps of the mesh from some on until witnesses have seen as much as they need, shape (w, n)."""
        seen, mesh = self.witnesses, self.witnesses.mesh
        spans = self.tracks[group].spans(mesh[starts], mesh[starts])
        others = (seen.before(places, spans.end + spans.width) - seen.before(places, spans.end)
                  + seen.before(places, spans.begin) - seen.before(places, spans.begin - spans.width))
        more = np.minimum(needs[:, None] / (self._pace(group, places)[:, None] * spans.rows), MOST)
        columns = [seen.columns[place] for place in places.tolist()]
        wanted = np.array([column[starts] for column in columns]) + np.expm1(more) * np.maximum(1, others)
        stop = np.minimum(len(mesh), starts + PATIENCE)
        found = np.array([column.searchsorted(want) for column, want in zip(columns, wanted)])
        found = np.minimum(np.maximum(found, starts), stop)
        return np.where(found == stop, PATIENCE, np.maximum(1, found - starts))

    # ---- scores

    def scores(self, group: Group, mark: int, spans: Spans, until: Places, counted: Mask,
               answers: bool = True) -> tuple[Floats, Places]:
        """The scores of silences up to some tenths, and the witnesses that count; counted are those of the usual.

        It is the second best of its witnesses, or that of the one chosen first, which is believed to have seen no more
        than another bears out; and what answers add.
        """
        size, usual = len(spans), self.learned.get((group, mark))
        if usual is None:
            return np.full(size, -np.inf), np.full(size, NOBODY)
        score = np.full(size, score_of(self.days, math.log(usual.count + 1), usual.tests))
        counts = np.full(size, NOBODY)
        if len(usual.chosen) > 1:
            score, counts = self._by_witnesses(group, usual, spans, until, counted)
        if answers:
            score = score + self.unanswered(group, mark, spans.begin, until)
        return score, counts

    def _by_witnesses(self, group: Group, usual: Usual, spans: Spans, until: Places,
                      counted: Mask) -> tuple[Floats, Places]:
        chosen = np.array(usual.chosen)
        amounts, pace = self.amounts(group, chosen, spans, until), self._pace(group, chosen)
        by_witness = np.array([self._score_seen(usual, witness, amount, amount, counted)
                               for witness, amount in zip(usual.chosen, amounts)])
        order = np.lexsort((np.broadcast_to(chosen[:, None], by_witness.shape), by_witness), axis=0)
        second, every = order[-2], np.arange(len(spans))
        score, counts = by_witness[second, every], chosen[second]
        borne_out = (amounts[1:] / pace[1:, None]).max(axis=0)
        believed = np.minimum(amounts[0], np.rint(borne_out * pace[0]).astype(np.int64))
        first = self._score_seen(usual, usual.chosen[0], believed, amounts[0], counted)
        better = (first > score) | (first == score) & (chosen[0] > counts)
        return np.where(better, first, score), np.where(better, chosen[0], counts)

    def _score_seen(self, usual: Usual, witness: int, believed: Places, amount: Places, counted: Mask) -> Floats:
        """The scores of silences in which a witness is believed to have seen so much, and saw an amount."""
        without = np.where(counted, amount, -1)
        least = int(without.max(initial=0)) + 2
        keys, which = np.unique(believed * least + without + 1, return_inverse=True)
        tails = usual.amounts[witness]
        expected = np.array([tails.expected(key // least, key % least - 1 if key % least else None)
                             for key in keys.tolist()])
        found: Floats = score_of(self.days, expected, usual.tests)[which]
        return found

    def unanswered(self, group: Group, mark: int, begin: Places, until: Places) -> Floats:
        """What the answers add that come in silences: the most that one of them does."""
        answers = self.answers[group].get(mark, [])
        if not answers:
            return np.zeros(len(begin))
        seen = self.witnesses.seen(np.array([answer.witness for answer in answers]), begin + BOUNCE, until)
        worth = [answer.worth * np.maximum(0, amount - answer.before) for answer, amount in zip(answers, seen)]
        most: Floats = np.max(worth, axis=0)
        return most

    # ---- silences

    def marks(self, group: Group, mark: int, following: int) -> list[int]:
        """The rows that a silence may follow.

        For one that is too rare to be learned stands one of both, where these are learned, as in batches.
        """
        both, single = (group, BOTH) in self.learned, len(group.numbers) == 1
        lacks_row = single and mark in (ON, OFF) and mark == following
        marks = [mark]
        if mark == NOTHING or lacks_row or mark == BOTH and not both:
            marks = [each for each in self.tracks[group].marks() if each != BOTH]
        return [BOTH if both and (group, each) not in self.learned else each for each in marks]

    def judged(self, least: float, groups: Iterable[Group] | None = None) -> list[Silence]:
        """The silences whose score is at least so much, the highest first; of all channels, or of some."""
        found = [silence for group in (self.tracks if groups is None else groups)
                 for silence in self._judged(group, least)]
        return sorted(found, key=lambda each: (-each.score, each.begin, each.group))

    def _judged(self, group: Group, least: float) -> list[Silence]:
        mark, begin, end, following = self.tracks[group].silences()
        long = np.flatnonzero(end - begin >= LEAST)
        mark, begin, end, following = mark[long], begin[long], end[long], following[long]
        score, witness = self._scores(group, mark, begin, end, following)
        told = np.flatnonzero(score >= least)
        return [Silence(group, int(mark[place]), int(begin[place]), int(end[place]), int(following[place]),
                        float(score[place]), int(witness[place])) for place in told.tolist()]

    def _scores(self, group: Group, mark: Marks, begin: Places, end: Places,
                following: Marks) -> tuple[Floats, Places]:
        """The scores of silences, and the witnesses that count.

        Where it isn't known what one follows, or a row between two on or two off is lost, it gets the least. Of the
        coordination none counts over most of which the signal flashes.
        """
        score, witness = np.full(len(mark), np.inf), np.full(len(mark), NOBODY)
        spans = self.tracks[group].spans(begin, end)
        counted = (mark != NOTHING) & (following != END)
        kinds, which = np.unique(np.stack((mark, following)), axis=1, return_inverse=True)
        for number, kind in enumerate(kinds.T.tolist()):
            mine = np.flatnonzero(which == number)
            for each in self.marks(group, *kind):
                some, counts = self.scores(group, each, spans[mine], end[mine], counted[mine])
                less = some < score[mine]
                score[mine[less]], witness[mine[less]] = some[less], counts[less]
        score[np.isposinf(score)] = -np.inf
        if group.kind == "coordination":
            score[self._flashing(begin, end) * 2 > end - begin] = -np.inf
        return score, witness

    def _flashing(self, begin: Places, end: Places) -> Places:
        """The tenths of silences over which the signal flashes."""
        found = np.zeros(len(begin), np.int64)
        for dark, light in self.flashes:
            found += np.maximum(0, np.minimum(light, end) - np.maximum(dark, begin))
        return found

    def distrust(self, silences: Iterable[Silence]) -> None:
        """Where a detector or input is silent for a cause of its own, it tells nothing as a witness of others."""
        for silence in silences:
            kind, numbers = silence.group
            concerned: set[tuple[str, int | None]] = {(kind, number) for number in numbers}
            if 2 * len(numbers) >= len(self.log.numbers(kind)):
                concerned.add((kind + "s", None))
            for place, name in enumerate(self.witnesses.names):
                if name in concerned:
                    self.witnesses.dark.setdefault(place, []).append((silence.begin, silence.end))

    def judged_channels(self) -> set[Group]:
        """The channels that can be judged."""
        return {group for (group, _), usual in self.learned.items()
                if len(usual.chosen) > 1 or any(self.answers[group].values())}


def _kind(group: Group) -> tuple[str, bool]:
    return group.kind, len(group.numbers) > 1


def _soonest(places: Places, waits: Floats) -> tuple[int, ...]:
    """The witness that sees a silence soonest, in the geometric mean, and those that bear it out soonest.

    Args:
        places: the witnesses, shape (w,).
        waits: the logarithms of how long each waits at some times, shape (w, n).
    """
    chosen: list[int] = []
    best, second = (np.full(waits.shape[1], math.log(PATIENCE)) for _ in range(2))
    total = _sums(waits)
    while len(chosen) < min(WITNESSES, len(places)):
        both = _sums(np.minimum(second, np.maximum(best, waits)))
        both[chosen] = np.inf
        row = int(np.lexsort((places, total, both))[0])
        chosen.append(row)
        best, second = np.minimum(best, waits[row]), np.minimum(second, np.maximum(best, waits[row]))
    return tuple(int(places[row]) for row in chosen)


def _sums(waits: Floats) -> Floats:
    """The sums of rows, each added up from its begin, so that equal waits have equal sums."""
    found: npt.NDArray[np.float64] = np.add.accumulate(waits, axis=1)[:, -1]
    return found
