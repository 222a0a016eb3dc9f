"""Calls, greens and walks that come only as a channel goes on.

The log has no more silences in which one came unanswered than may be faults, and ten times as many were it left to
chance, had each come ten minutes to half an hour later. So where the rows of a detector are lost and its calls and
services aren't, each adds to the score the logarithm of how much rarer than by chance such a one came unanswered,
whatever other detectors see. So does each force-off for the coordination.
"""

from __future__ import annotations

import dataclasses
import math

import numpy as np

from sigaudit_tools.events import Tenths
from sigaudit_tools.faults.rows import Group, Log
from sigaudit_tools.faults.tails import ENOUGH, FAULTS
from sigaudit_tools.faults.tracks import BOTH, END, EVERY, NOTHING, ON, Track
from sigaudit_tools.faults.witnesses import Witnesses

ANSWERED = ("call", "ped_call", "ped_calls", "green", "walk")
BOUNCE = 5           # tenths: so soon before a call comes what it answers
CAUSE = 10           # times as many would be unanswered by chance: a call that is worth less has other causes beside
LATER = 6000, 18000  # tenths: what chance answers is tried so much later, at the same time of day all the same
STRIDE = 7417        # tenths: the delay from one to the next grows by it in this span, so that no cycle is kept
SAMPLE = 200         # calls of a log, or up to twice as many: by so many it is tried


@dataclasses.dataclass(frozen=True)
class Answer:
    """What a channel answers: the witness's place, what one that comes unanswered adds to a score, and how many of a
    silence a row before it may have answered."""

    witness: int
    worth: float
    before: int


@dataclasses.dataclass(frozen=True, eq=False)
class Asked:
    """From when to when each has to be answered, shapes (n,), and those tried later, shapes (m,)."""

    since: Tenths
    at: Tenths
    later_since: Tenths
    later_at: Tenths


class Answers:
    """Finds what channels answer.

    One is answered where the channel goes on within half a second before it, or is on, as it can't be after going off;
    else where the channel has had a row since the one before, but for a loop that may just stay on. So is a force-off
    by the coordination.
    """

    def __init__(self, log: Log, witnesses: Witnesses) -> None:
        self.witnesses = witnesses
        self.most = max(1, round(FAULTS * log.days))
        often = [place for place, moments in enumerate(witnesses.moments) if len(moments) >= ENOUGH]
        self.calls = [place for place in often if witnesses.names[place][0] in ANSWERED]
        self.force_offs = [place for place in often if witnesses.names[place][0] == "force_off"]
        self.asked = {(place, before): _asked(witnesses.moments[place], before)
                      for place in self.calls + self.force_offs for before in (0, 1)}

    def of(self, group: Group, track: Track) -> dict[int, list[Answer]]:
        """By mark what a channel answers after such a row."""
        marks = track.marks()
        if group.kind == "coordination":
            every = [Answer(place, worth, 1) for place in self.force_offs
                     for worth in [self._worth(track, track.goes_on(), [EVERY], place, 1)[EVERY]] if worth]
            return {mark: every for mark in (*marks, NOTHING, END)}
        found: dict[int, dict[int, Answer]] = {mark: {} for mark in marks}
        goes_on = track.goes_on()
        for place in self.calls:
            for before in (0, 1):
                wanted = [mark for mark in marks if place not in found[mark]
                          and not (before and mark == ON and len(group.numbers) == 1)]
                for mark, worth in self._worth(track, goes_on, wanted, place, before).items():
                    if worth:
                        found[mark][place] = Answer(place, worth, before)
        return {mark: list(answers.values()) for mark, answers in found.items()}

    def _worth(self, track: Track, goes_on: Tenths, marks: list[int], place: int, before: int) -> dict[int, float]:
        """By mark what one that comes unanswered adds, or 0: where more do than may be faults, or where chance does as
        well. In quiet hours chance answers few, so it is compared with chance and not with how often one is answered.
        """
        asked, size = self.asked[place, before], len(self.witnesses.moments[place])
        found = dict.fromkeys(marks, 0.0)
        if not marks:
            return found
        alone = _alone(track, goes_on, asked.since, asked.at, marks)
        later = [size] * len(marks)
        if min(alone) > self.most:
            return found
        if marks != [EVERY]:
            later = _alone(track, goes_on, asked.later_since, asked.later_at, marks)
        for mark, count, chance in zip(marks, alone, later):
            most, by_chance = self.most, size
            if mark != EVERY:
                by_chance = min(size, chance * size // len(asked.later_at))
                most = min(most, by_chance // CAUSE - 1)
            if most >= 0 and count <= most:
                found[mark] = math.log10((by_chance + 1) / (count + 1))
        return found


def _asked(moments: Tenths, before: int) -> Asked:
    """Within half a second, or since the one before; some of these later, each by another time."""
    since, at = (moments[:-1], moments[1:]) if before else (moments - BOUNCE, moments)
    few = slice(0, None, max(1, len(moments) // SAMPLE))
    shift = LATER[0] + np.arange(len(at[few])) * STRIDE % (LATER[1] - LATER[0])
    return Asked(since, at, since[few] + shift, at[few] + shift)


def _alone(track: Track, goes_on: Tenths, since: Tenths, at: Tenths, marks: list[int]) -> list[int]:
    """In how many silences after rows of each mark a channel hasn't gone on from one tenth to another."""
    row = goes_on.searchsorted(at, "right")
    alone = row == 0
    alone[~alone] = goes_on[row[~alone] - 1] < since[~alone]
    silence = track.tenth.searchsorted(at[alone], "right")
    silence.sort()
    different = np.concatenate((silence[:1], silence[1:][silence[1:] != silence[:-1]]))
    if marks == [EVERY]:
        return [len(different)]
    after = np.bincount(track.mark[different[different > 0] - 1], minlength=BOTH + 1)
    return [int(after[mark]) for mark in marks]
