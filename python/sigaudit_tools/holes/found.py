"""Holes of a log: what is looked for and found, as values and as text."""

from __future__ import annotations

import dataclasses
from collections.abc import Iterable, Mapping
from pathlib import Path

from sigaudit_tools.errors import InputError
from sigaudit_tools.events import Events
from sigaudit_tools.holes.log import log_of
from sigaudit_tools.holes.model import Chance
from sigaudit_tools.holes.proposals import Wish, propose
from sigaudit_tools.holes.spans import Span, length, merged
from sigaudit_tools.holes.survey import Survey, survey_of
from sigaudit_tools.holes.values import Hole, Misfit, Small, Suspect
from sigaudit_tools.signal.config import Config
from sigaudit_tools.times import HOUR

TOP = 5     # silences of an hour that are told


@dataclasses.dataclass(frozen=True)
class Holes:
    """What was found in a log. Tenths as in `times`.

    Attributes:
        survey: what the log has, by hours and channels.
        small: the portions that are too small to learn from: there only what contradicts is proposed.
        misfits: rows that contradict by the controller's way.
        holes: the gaps for which a blank is proposed, in order.
        suspects: the gaps that may be holes and get no blank, the likeliest first.
        chances: which random outages get a blank in this log, by hours of the day and length.
    """

    survey: Survey
    small: tuple[Small, ...]
    misfits: tuple[Misfit, ...]
    holes: tuple[Hole, ...]
    suspects: tuple[Suspect, ...]
    chances: tuple[Chance, ...]

    @property
    def blanks(self) -> list[Span]:
        """From the first tenth up to the first that isn't blanked, in order; those that overlap or touch as one."""
        end = self.survey.hours[-1].hour + HOUR
        return [(low, min(high, end)) for low, high in merged(hole.blank for hole in self.holes)]

    @property
    def blanked_tenths(self) -> int:
        """The tenths that the blanks have together."""
        return length(self.blanks)

    def lines(self) -> list[str]:
        """All of it as lines of text, times in seconds; `read_holes` reads them."""
        from sigaudit_tools.holes.text import lines_of
        return list(lines_of(self))


def find_holes(config: Config | None, events: Events, *, hours: Iterable[int] = (),
               doubled: Mapping[int, int] | None = None, silence: float | None = None, jobs: int = 1,
               chances: bool = True, certain: bool = False, top: int = TOP) -> Holes:
    """Looks for gaps of a log that hide lost rows. A proposal is a guess; how it is made `model` says.

    Args:
        config: of the signal; without one only rows tell which channels there are, and rings aren't known.
        events: of one signal, of any length; one of more than a week is learned in portions.
        hours: the first tenths of hours that are there, though they may have no event.
        doubled: of hours, by their first tenths, how many rows stand doubled.
        silence: silences of all channels for so many seconds are holes too.
        jobs: so many processes at a time, for a log of more than a week.
        chances: whether it is tried which outages would be found; takes a fifth of the time.
        certain: whether nothing but contradictions is looked for.
        top: so many silences of each hour are told.

    Raises:
        InputError: there is no event, and no hour.
    """
    log = log_of(events, tuple(hours))
    if not log.hours:
        raise InputError("the log has no row", remedy="give the hours of a signal that logs")
    tenths = None if silence is None else round(silence * 10)
    found = propose(log, config, Wish(tenths, chances, certain), jobs)
    return Holes(survey_of(log, config, doubled or {}, top), tuple(found.small), tuple(found.misfits),
                 tuple(found.holes), tuple(found.suspects), tuple(found.chances))


def read_holes(path: Path) -> Holes:
    """Reads what `Holes.lines` wrote.

    Raises:
        InputError: it isn't that, or isn't whole.
        ResourceError: it can't be read.
    """
    from sigaudit_tools.holes.text import parse
    return parse(path)
