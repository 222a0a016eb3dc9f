"""What was found in a log beside its audit, as a page says it: holes, faults of detectors, histories of verdicts."""

from __future__ import annotations

import dataclasses
from collections.abc import Iterable, Iterator
from typing import NamedTuple

from sigaudit_tools.holes import Hole, Holes
from sigaudit_tools.report.svg import clock, day_of
from sigaudit_tools.times import tenth_of_stamp

# Of a detector without rows so many hours are named.
MOST_HOURS = 6
FAULTS = {
    "silent": "no row, while the rest goes on",
    "stuck on": "on without a change",
    "stuck off": "off without a change",
    "chatter": "comes on {} times, more often than vehicles make it",
}
_GRADES = {"sure": "surely", "likely": "likely"}


class FaultSaid(NamedTuple):
    """What was found of a channel (`detector 5`, `detector 1,2`, `detector all`, `coordination`): its grade, what,
    from and to (tenths), and whether the log has a code of the fault."""

    grade: str
    channel: str
    what: str
    low: int
    high: int
    logged: bool

    def in_words(self) -> str:
        """What is wrong with the channel: `Detector 5: on without a change`."""
        kind, _, numbers = self.channel.replace("ped_detector", "pedestrian detector").rpartition(" ")
        channel = f"all {kind}s" if numbers == "all" else f"{kind} {numbers.replace(',', ', ')}".strip()
        return f"{channel.capitalize()}: {self.what}"


class Fill(NamedTuple):
    """A row that a history puts into an unknown tenth."""

    tenth: int
    code: int
    param: int


@dataclasses.dataclass(frozen=True)
class ChannelHistory:
    """A channel in a history: how it comes into the window, for how many tenths it was so, and what is put in."""

    kind: str
    number: str
    colour: str
    age: int
    fills: tuple[Fill, ...]


@dataclasses.dataclass(frozen=True)
class History:
    """A history of an undecided verdict, which keeps the rule or breaks it."""

    keeps: bool
    channels: tuple[ChannelHistory, ...]


def why_blank(holes: Holes | None, low: int, high: int) -> str:
    """Why a stretch was blanked, from and up to, by the holes in it."""
    found = [why(hole) for hole in holes.holes if hole.begin < high and low < hole.end] if holes else []
    return "; ".join(found) or "blanked by hand"


def why(hole: Hole) -> str:
    """Why a gap is a hole, in words."""
    if hole.why == "edge":
        return "likely a hole: no row before the first, or after the last, for longer than ever at this time of day"
    if hole.why == "silence":
        return f"no row of any channel for {(hole.end - hole.begin) / 10:.1f} s"
    if hole.grade == "certain":
        row = hole.why.split(" after ")[0].split(": ")[-1].replace("T", " ")
        what = "the controller began anew" if hole.why.startswith("jump ") else "certainly a hole"
        return f"{what}: {row} can’t follow the rows before it"
    channels = ", ".join(channel.rsplit(" ", 1)[0] for channel in hole.why.split(", "))
    return f"{_GRADES[hole.grade]} a hole: what stands before and after goes badly together ({channels})"


def quiet_detectors(holes: Holes) -> Iterator[str]:
    """Sentences on detectors without a row in the log, or in hours in which others have rows."""
    for channel in holes.survey.never:
        yield f"{channel.capitalize()} of the configuration has no row in the whole log."
    quiet: dict[str, list[int]] = {}
    for one in holes.survey.quiet:
        for channel in one.channels:
            if channel.startswith("detector "):
                quiet.setdefault(channel, []).append(one.hour)
    for channel, hours in sorted(quiet.items(), key=lambda found: int(found[0].split()[1])):
        named = ", ".join(f"{day_of(hour)} {clock(hour)}" for hour in hours[:MOST_HOURS])
        more = f" and {len(hours) - MOST_HOURS} more" if len(hours) > MOST_HOURS else ""
        yield (f"{channel.capitalize()} has no row in the hour{'s' if len(hours) > 1 else ''} from {named}{more}, "
               "though others have: it was silent, or nobody came.")


def faults_said(lines: Iterable[str]) -> tuple[FaultSaid, ...]:
    """What the lines of `Faults.lines` say: `stuck on CHANNEL FROM TO GRADE ..`, `silent ..`, `chatter ..`."""
    found = []
    for words in map(str.split, lines):
        if words[:1] not in (["silent"], ["stuck"], ["chatter"]):
            continue
        name = 2 if words[0] == "stuck" else 1
        place = next(place for place, word in enumerate(words) if len(word) == 21 and word[10] == "T")
        what = FAULTS[" ".join(words[:name])]
        if words[0] == "chatter":
            what = what.format(words[words.index("actuations") + 1])
        found.append(FaultSaid(words[place + 2], " ".join(words[name:place]), what, tenth_of_stamp(words[place]),
                               tenth_of_stamp(words[place + 1]), "logged" in words))
    return tuple(found)


def histories(lines: Iterable[str]) -> dict[tuple[int, int], tuple[History, ...]]:
    """The histories of undecided verdicts by rule and tenth, of the lines of fillings."""
    found: dict[tuple[int, int], list[tuple[bool, list[tuple[list[str], list[Fill]]]]]] = {}
    sides: list[tuple[bool, list[tuple[list[str], list[Fill]]]]] = []
    for words in map(str.split, lines):
        if words[:1] == ["undecided"]:
            sides = found.setdefault((int(words[1]), tenth_of_stamp(words[2])), [])
        elif words[:1] in (["keeps"], ["breaks"]):
            sides.append((words[0] == "keeps", []))
        elif words[:1] == ["channel"]:
            sides[-1][1].append((words[1:], []))
        elif words[:1] == ["fill"]:
            sides[-1][1][-1][1].append(Fill(tenth_of_stamp(words[1]), int(words[3]), int(words[5])))
    return {key: tuple(History(keeps, tuple(ChannelHistory(words[0], words[1], words[3], int(words[4]), tuple(fills))
                                            for words, fills in channels))
                       for keeps, channels in sides) for key, sides in found.items()}
