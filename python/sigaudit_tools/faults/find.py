"""What falls silent while the rest of a signal goes on, and detectors that are stuck or chatter.

Learned from the log itself: how much silence of a channel is usual (`watch`), and how many actuations (`chatter`).
"""

from __future__ import annotations

import dataclasses
import math
from collections.abc import Iterable, Sequence

from sigaudit_tools.faults.chatter import chattering
from sigaudit_tools.faults.rows import Group, Log, Span
from sigaudit_tools.faults.scores import SURE, WEAK, grade_of
from sigaudit_tools.faults.tracks import BOTH, END, OFF, ON
from sigaudit_tools.faults.watch import Silence, Watch
from sigaudit_tools.times import stamp_of

SPARE = 1.5          # of the score: what a silence may lack and still belong to a common one
COMMON = 0.5         # of their time: what two silences share that are told as one
BEFORE = 600         # tenths: from so long before a fault on its codes in the log are told with it
_STUCK = {ON: "stuck on", OFF: "stuck off"}


@dataclasses.dataclass(frozen=True)
class Finding:
    """A fault of a channel.

    Attributes:
        word: silent, stuck on, stuck off or chatter.
        group: its channel.
        name: the channel as it is printed: `detector 5`, `detector 1,2`, `ped_detector all`, `coordination`.
        begin, end: from which tenth to which.
        score: the decimal logarithm of the days until chance alone made such a one.
        logged: the codes 84 to 88 that the log has of its detectors from a minute before it on.
        actuations: how many a chattering detector had; None for others.
    """

    word: str
    group: Group
    name: str
    begin: int
    end: int
    score: float
    logged: tuple[int, ...]
    actuations: int | None = None

    @property
    def grade(self) -> str:
        """sure, likely or weak."""
        return grade_of(self.score)

    def line(self) -> str:
        """The finding as it is printed."""
        text = f"{self.word} {self.name} {stamp_of(self.begin)} {stamp_of(self.end)} {self.grade} {self.score:.1f}"
        if self.actuations is not None:
            text += f" actuations {self.actuations}"
        return text + "".join(f" logged {code}" for code in self.logged)


def name_of(group: Group, log: Log) -> str:
    """A channel as it is printed; `all` where it is all of its kind that the log has."""
    if group.kind == "coordination":
        return group.kind
    if len(group.numbers) > 1 and group.numbers == log.numbers(group.kind):
        return f"{group.kind} all"
    return f"{group.kind} {','.join(map(str, group.numbers))}"


def find(log: Log, cards: Iterable[tuple[int, ...]] = ()) -> tuple[list[Finding], Watch]:
    """The findings by time that have a grade, and the watch that the silences among them are from.

    cards are the numbers of the detectors of each card, where they are known.
    """
    chatters = chattering(log, WEAK)
    hush: dict[int, list[Span]] = {}
    for each in chatters:
        hush.setdefault(each.detector, []).append((each.begin, each.end))
    groups = [Group("detector", tuple(card)) for card in cards]
    groups += [Group(kind, log.numbers(kind)) for kind in ("detector", "ped_detector")]
    groups = [group for group in dict.fromkeys(groups) if len(group.numbers) > 1]
    watch = Watch(log, groups, hush)
    silences = watch.judged(WEAK - SPARE)
    sure = [silence for silence in silences if silence.score >= SURE]
    if sure:
        watch.distrust(sure)
        silences = watch.judged(WEAK - SPARE)
    told, rest = _known_groups(silences, groups)
    told += _bundles(watch, rest)
    found = [_finding(log, "chatter", Group("detector", (each.detector,)), each.begin, each.end, each.score, each.count)
             for each in chatters]
    found += [_finding(log, _word(silence), silence.group, silence.begin, silence.end, silence.score)
              for silence in told if silence.score >= WEAK]
    return sorted(found, key=lambda each: (each.begin, each.end, each.group.numbers)), watch


def _finding(log: Log, word: str, group: Group, begin: int, end: int, score: float,
             actuations: int | None = None) -> Finding:
    logged = log.faults_logged(group.numbers, begin - BEFORE, end) if group.kind == "detector" else ()
    return Finding(word, group, name_of(group, log), begin, end, score, logged, actuations)


def _word(silence: Silence) -> str:
    """A detector alone is stuck, where its rows before and after don't lack one between."""
    other = {ON: OFF, OFF: ON}
    if silence.group.kind == "detector" and len(silence.group.numbers) == 1:
        before = silence.mark if silence.mark in other else other.get(silence.next)
        if before is not None and silence.next in (END, BOTH, other[before]):
            return _STUCK[before]
    return "silent"


def _overlap(one: Silence, other: Silence) -> float:
    """What two silences have in common, as a share of the time that either lasts; 0 for other kinds of channels."""
    if one.group.kind != other.group.kind:
        return 0
    return (min(one.end, other.end) - max(one.begin, other.begin)) / (max(one.end, other.end)
                                                                      - min(one.begin, other.begin))


def _known_groups(silences: Sequence[Silence], groups: Sequence[Group]) -> tuple[list[Silence], list[Silence]]:
    """The silences of groups that are told, larger groups first, and those of single channels outside them."""
    told: list[Silence] = []
    rest = [silence for silence in silences if silence.group not in groups]
    for silence in sorted(silences, key=lambda each: -len(each.group.numbers)):
        if silence.group not in groups or silence.score < WEAK:
            continue
        mine = set(silence.group.numbers)
        if all(_overlap(silence, other) < COMMON for other in told if mine <= set(other.group.numbers)):
            told.append(silence)
            rest = [other for other in rest
                    if _overlap(silence, other) < COMMON or not set(other.group.numbers) <= mine]
    return told, rest


def _bundles(watch: Watch, silences: Sequence[Silence]) -> list[Silence]:
    """Silences of single channels, those at the same time as one of all their channels together."""
    alone: list[Silence] = []
    several: list[list[Silence]] = []
    rest = list(silences)
    while rest:
        first = rest[0]
        same = [other for other in rest if other is first or _overlap(first, other) >= COMMON]
        rest = [other for other in rest if other not in same]
        if len(same) > 1:
            several.append(same)
        else:
            alone += same
    watch.add(sorted({_together(same) for same in several} - set(watch.tracks)))
    return alone + [silence for same in several for silence in _bundle(watch, same)]


def _together(silences: Sequence[Silence]) -> Group:
    """The channel of the numbers of several."""
    return Group(silences[0].group.kind, tuple(sorted(silence.group.numbers[0] for silence in silences)))


def _bundle(watch: Watch, same: list[Silence]) -> list[Silence]:
    """Silences at the same time as one, or as they are where their channels together have none.

    Since they are put together after they were seen, such a one is likelier by the number of ways to do so.
    """
    group = _together(same)
    common = [silence for silence in watch.judged(-math.inf, [group]) if _overlap(silence, same[0]) > 0]
    if not common:
        return same
    longest = max(common, key=lambda silence: silence.end - silence.begin)
    ways = math.comb(len(watch.log.numbers(group.kind)), len(group.numbers))
    return [dataclasses.replace(longest, score=max(longest.score - math.log10(ways), same[0].score))]
