"""Lines of an answer, looked up in the rows of the log."""

from __future__ import annotations

from collections.abc import Iterator, Sequence
from typing import NamedTuple

from sigaudit_tools.answer import Answer, Section
from sigaudit_tools.answer_lines import NONE, VERDICTS, verdicts
from sigaudit_tools.errors import InputError
from sigaudit_tools.events import Events
from sigaudit_tools.explain.course import Course, Test
from sigaudit_tools.explain.explanation import Explanation, verdict_of
from sigaudit_tools.explain.log import KnownLog
from sigaudit_tools.explain.rules import Bound, bound_of, forbidden, names_of
from sigaudit_tools.holes.spans import Span
from sigaudit_tools.signal.channels import Channel
from sigaudit_tools.signal.machines import COLOURS
from sigaudit_tools.times import HOUR, stamp_of

# So many hours before and after that of a verdict are looked at, until begin and end are found: most are in its own
# hour, and few rules ask for a colour of hours. Of an undecided conflict, companion or parents line the first two
# suffice, since some channel may never have told what it shows.
REACHES = (0, 1, 2, 6, 24)
REACHES_OF_UNDECIDED = (0, 1)


class Line(NamedTuple):
    """A line of an answer: its verdict, rule and tenth, the stretch that decides it (broken lines have one), the place
    that it has among equal lines, from 0, and the section in which it stands."""

    verdict: str
    rule: int
    stamp: int
    stretch: Span | None
    place: int
    section: Section


class Figures(NamedTuple):
    """What is measured of a line; as of `Explanation`, rows by their places in the log."""

    limit: Bound | None
    least: int
    greatest: int | None
    begin: int | None
    end: int | None
    unknown: tuple[Span, ...]
    instead: tuple[str, ...] = ()


def lines_of(sections: Sequence[Section], wanted: Sequence[str]) -> Iterator[Line]:
    """The lines of some verdicts that stand in some sections, in their order."""
    for section in sections:
        found = verdicts(section.text)
        places: dict[tuple[int, int, int], int] = {}
        columns = (found.verdict, found.rule, found.tenth, found.begin, found.end)
        for verdict, rule, stamp, begin, end in zip(*(column.tolist() for column in columns)):
            if VERDICTS[verdict] in wanted:
                key = verdict, rule, stamp
                place = places[key] = places.get(key, -1) + 1
                yield Line(VERDICTS[verdict], rule, stamp, None if begin == NONE else (begin, end), place, section)


class Finder:
    """Explains lines of one answer; the courses of channels are kept for the next.

    Attributes:
        answer: of the program.
        names: of its configuration's rules, by their numbers.
    """

    def __init__(self, answer: Answer, events: Events) -> None:
        """Takes an answer, and the events of the log that it was given, in the order of its hour files, repeats too."""
        self.answer, self.names = answer, names_of(answer.config)
        self._events = events
        self._logs: dict[int, KnownLog] = {}
        self._courses: dict[tuple[int, Channel, int, int], Course] = {}

    def lines(self, wanted: Sequence[str] = ("broken",)) -> Iterator[Line]:
        """The lines of some verdicts, of the last audit, without one of the answers to `verdicts H`."""
        return lines_of(self.answer.judging, wanted)

    def every_line(self) -> Iterator[Line]:
        """All lines that the answer has, kept ones too where it has them."""
        hours = tuple(self.answer.by_hour("verdicts").values())
        return lines_of(hours or self.answer.judging, VERDICTS)

    def find(self, rule: int, stamp: int) -> list[Line]:
        """The lines of a rule at a tenth, kept ones too where the answer has them."""
        hour = self.answer.by_hour("verdicts").get((stamp - self.answer.config.start_tenth) // HOUR)
        judging = self.answer.judging
        sections = judging if hour is None or hour.known != judging[-1].known else (hour,)
        return [line for line in lines_of(sections, VERDICTS) if (line.rule, line.stamp) == (rule, stamp)]

    def log(self, section: Section) -> KnownLog:
        """The log as it was known at a section.

        Raises:
            InputError: the log isn't as it was when the answer was made.
        """
        key = id(section.known)
        if key not in self._logs:
            self._logs[key] = KnownLog.at(self.answer, self._events, section.known)
        return self._logs[key]

    def course(self, log: KnownLog, channel: Channel, stamp: int, reach: int) -> Course:
        """The course of a channel in the hour of a tenth and so many hours around it, as far as the window goes."""
        config = self.answer.config
        hour = (stamp - config.start_tenth) // HOUR
        key = id(log), channel, hour, reach
        if key not in self._courses:
            low = config.start_tenth + max(hour - reach, 0) * HOUR
            high = config.start_tenth + min(hour + reach + 1, config.hours) * HOUR
            self._courses[key] = Course(log, channel, low, high)
        return self._courses[key]

    def explain(self, line: Line) -> Explanation:
        """The figures of a line.

        Raises:
            InputError: the answer is of another configuration, or the log isn't as it was when it was made.
        """
        name = self.names.get(line.rule, "")
        if not name or name != self.answer.rules.get(line.rule, name):
            raise InputError(f"rule {line.rule} isn't one of {self.answer.config.path}", self.answer.name,
                             "name the configuration with which it was made")
        log, bound = self.log(line.section), bound_of(name)
        found = self._duration(log, bound, line) if bound else self._together(log, name, line)
        begin, end = (None if place is None else log.row(place) for place in (found.begin, found.end))
        return Explanation(line.verdict, line.rule, name, line.stamp, found.limit, found.least, found.greatest, begin,
                           end, line.stretch, found.unknown, found.instead, log)

    def _duration(self, log: KnownLog, bound: Bound, line: Line) -> Figures:
        """Of a duration rule: the time from the begin of the colour to the row that ended it."""
        for reach in REACHES:
            course = self.course(log, bound.channel, line.stamp, reach)
            ends = course.ends_at(bound.colour, line.stamp)
            begins = [course.begin_of(place, bound.colour) for place in ends]
            told = all(one.earliest == one.latest and course.colours(place) == (bound.colour,)
                       for place, one in zip(ends, begins))
            in_holes = all(one.earliest is not None and one.holes for one in begins)
            if told or reach and (in_holes or course.low == self.answer.config.start_tenth):
                break
        if not ends:
            raise InputError(f"no row ends the {bound.colour} of {bound.channel.name} at {stamp_of(line.stamp)}",
                             self.answer.name, "give the log as it was when the answer was made")
        figures = [Figures(bound, line.stamp - one.latest,
                           None if one.earliest is None else line.stamp - one.earliest, one.row,
                           int(course.rows[place]), () if one.earliest == one.latest else one.holes,
                           tuple(colour for colour in course.colours(place) if colour != bound.colour))
                   for place, one in zip(ends, begins)]
        fitting = [one for one in figures
                   if line.verdict == verdict_of(bound, one.least, one.greatest, one.instead)] or figures
        return fitting[min(line.place, len(fitting) - 1)]

    def _together(self, log: KnownLog, name: str, line: Line) -> Figures:
        """Of another rule: the time around the stamp for which what it forbids was so."""
        config = self.answer.config
        pairs = forbidden(name, config)
        for reach in REACHES_OF_UNDECIDED if line.verdict == "undecided" else REACHES:
            courses = [self.course(log, channel, line.stamp, reach) for channel, _ in pairs]
            low, high = courses[0].low, courses[0].high
            tests = [[(course, Test(_set(course.kind, colours), sure)) for course, (_, colours) in zip(courses, pairs)]
                     for sure in (True, False)]
            sure, may = (_common([course.run(line.stamp, test) for course, test in one]) for one in tests)
            inside = [run is None or low < run[0] and run[1] < high for run in (sure, may)]
            if sure == may and all(inside) or (low, high) == (config.start_tenth, config.end_tenth):
                break
        begin, end = _turns(tests[0], sure) if sure else (None, None)
        unknown = () if sure == may or may is None else tuple(log.unknown_in(may[0], may[1] + 1))
        greatest = 0 if may is None else may[1] - may[0] if inside[1] else None
        return Figures(None, sure[1] - sure[0] if sure else 0, greatest, begin, end, unknown)


def _turns(tests: list[tuple[Course, Test]], sure: Span) -> tuple[int | None, int | None]:
    """The places of the rows with which the time began for which all is so that a rule forbids, and with which it
    ended."""
    runs = [(course, test, course.run(sure[0], test)) for course, test in tests]
    begins = [course.turn(sure[0], test) for course, test, run in runs if run and run[0] == sure[0]]
    ends = [course.turn(sure[1], test, passes=False) for course, test, _ in runs]
    return next((one for one in begins if one is not None), None), next((one for one in ends if one is not None), None)


def _common(runs: list[Span | None]) -> Span | None:
    """What some times have in common; None where one isn't there."""
    found = [run for run in runs if run is not None]
    return (max(run[0] for run in found), min(run[1] for run in found)) if len(found) == len(runs) else None


def _set(kind: str, colours: frozenset[str]) -> int:
    """Colours of a kind as bits."""
    return sum(1 << COLOURS[kind].index(colour) for colour in colours)
