"""What a verdict of sigaudit is in figures, looked up in the rows of the log. Not proved.

    session = answers.Session(config, script, answer)
    for explanation in explain_lines(session):          # the broken lines of the last audit, in its order
        print(explanation.sentence(), explanation.least, explanation.greatest)

explain_lines(session, verdicts=("broken",))  an Explanation for each line of these verdicts; of the last `audit`, or of
                            the answers to `verdicts H` where there is no audit. Give ("broken", "undecided") for both
Finder(session).explain(line)  that of one line; Finder(session).find(rule, stamp) the lines of a rule at a stamp

Times are tenths, as logs.py counts them (logs.show prints a stamp). What is said agrees with every history of the
log: where rows are missing, a duration has a least and a greatest value, which are equal where the rows tell. Floors
of the configuration aren't used: with them less may be possible, and never more.
"""
import bisect
import dataclasses
import functools
from typing import NamedTuple

import answers
import held
import logs
import machines

SERVED = frozenset(("On", "Green", "Term", "Yellow", "Clear"))
# So many hours before and after that of a verdict are read, until begin and end are found: most in its own hour, and
# few rules ask for a colour of hours. Of an undecided conflict, companion or parents line the first two suffice, since
# some channel may never have told what it shows.
REACHES = (0, 1, 2, 6, 24)


class Line(NamedTuple):
    """A line of an answer: its verdict, rule and stamp, the stretch that decides it (broken lines have one), and the
    place that it has among equal lines, from 0."""

    verdict: str
    rule: int
    stamp: int
    stretch: tuple | None
    place: int


@dataclasses.dataclass(frozen=True)
class Explanation:
    """A line of an answer in figures."""

    verdict: str            # broken, undecided or kept
    rule: int               # the rule's number
    name: tuple             # its name, word by word: ("phase", "2", "Green", "at", "least", "130")
    stamp: int              # the tenth at which it is judged
    bound: int | None       # of a duration rule, its tenths; else None
    at: str | None          # of a duration rule, "least" or "most"; else None
    least: int              # the tenths that the colour lasted, or that what the rule forbids lasted; at least so many
    greatest: int | None    # and at most so many; None where no end of it is known
    begin: held.Row | None  # the row with which that began, where one is known
    end: held.Row | None    # the row with which it ended, where one is known
    stretch: tuple | None   # the stretch that decides it, its first and its last tenth; None where none is printed
    silence: tuple | None   # the longest time without a row in that stretch, its ends; None where there is none
    unknown: tuple          # the unknown stretches that leave least and greatest apart, each from and up to
    instead: tuple          # of a duration rule, the other colours that the channel may have had before the row
    log: held.HeldLog = dataclasses.field(repr=False, compare=False)

    @property
    def in_words(self):
        return answers.in_words(list(self.name))

    @property
    def kind(self):
        """interval, conflict, companion or parents."""
        return "interval" if self.at else self.name[0]

    @property
    def channels(self):
        """The channels of the rule, as kind and number."""
        return channels_of(self.name, self.log.session.config)

    @property
    def excess(self):
        """By how many tenths a duration misses its bound, where it is told; else None."""
        if self.at is None or self.least != self.greatest:
            return None
        return self.bound - self.least if self.at == "least" else self.least - self.bound

    @property
    def shown(self):
        """The verdict that the figures show by themselves; the floors may make more of it, and never another."""
        if self.at is None:
            return "broken" if self.least else "kept" if self.greatest == 0 else "undecided"
        return verdict_of(self.at, self.bound, self.least, self.greatest, self.instead)

    def rows(self):
        """All known rows in the deciding stretch, its ends among them; none where there is no stretch."""
        return self.log.rows(self.stretch[0], self.stretch[1] + 1) if self.stretch else []

    def is_own(self, row):
        """Whether the row is one of the rule's channels."""
        return row.channel in self.channels

    def measured(self):
        """The duration in words: `12.0 s`, `from 2.0 to 3.5 s`, `at least 9.0 s`, `at most 2.1 s`, `an unknown
        time`."""
        if self.least == self.greatest:
            return in_seconds(self.least)
        if self.greatest is None:
            return "at least " + in_seconds(self.least) if self.least else "an unknown time"
        if self.least == 0:
            return "at most " + in_seconds(self.greatest)
        return "from %.1f to %s" % (self.least / 10, in_seconds(self.greatest))

    def sentence(self):
        """What was measured beside what the rule wants, in words."""
        if self.at is None:
            return self.sentence_of_both()
        kind, number, colour = self.name[:3]
        ended = "would have lasted, had it ended here," if self.verdict == "undecided" else "lasted"
        text = "the %s of %s %s %s %s, and has to last at %s %s" % (
            answers.COLOURS.get(colour, colour.lower()), answers.CHANNELS.get(kind, kind), number, ended,
            self.measured(), self.at, in_seconds(self.bound))
        if self.excess is not None and self.excess > 0:
            text += ": %s too %s" % (in_seconds(self.excess), "short" if self.at == "least" else "long")
        return text


    def sentence_of_both(self):
        """The sentence of a conflict, companion or parents rule."""
        kind, numbers = self.name[0], self.name[1:]
        if self.verdict == "kept":
            return {"conflict": "phases %s and %s were not both served",
                    "parents": "one of the phases of overlap %s was served, or the overlap not green",
                    "companion": "phase %s was on or green, or its pedestrian signal showed no walk"}[kind] % numbers
        known = self.verdict == "broken"
        what = {"conflict": "phases %s and %s " + ("were both" if known else "may both have been") + " served",
                "companion": "pedestrian signal %s " + ("showed" if known else "may have shown") +
                             " walk while its phase was neither on nor green",
                "parents": "overlap %s " + ("was" if known else "may have been") +
                           " green while none of its phases was served"}[kind]
        return "%s%s for %s" % (what % numbers, "" if known else ",", self.measured())


def in_seconds(tenths):
    return "%d.%d s" % divmod(tenths, 10)


def rules_of(config):
    """The names of all rules of a configuration, in their order, each as its words."""
    found = [tuple(entry["channel"].split()) + (entry["colour"], "at", bound, str(entry["at_" + bound]))
             for entry in config.get("interval", []) for bound in ("least", "most") if "at_" + bound in entry]
    named = {table: {frozenset((entry["a"], entry["b"])) for entry in config.get(table, [])}
             for table in ("conflict", "allow")}
    phases = sorted(config.get("phase", []), key=lambda entry: entry["number"])
    for a in phases:
        for b in phases:
            pair = frozenset((a["number"], b["number"]))
            by_ring = a["ring"] == b["ring"] or a["side"] != b["side"]
            if a["number"] < b["number"] and (pair in named["conflict"] or by_ring and pair not in named["allow"]):
                found.append(("conflict", str(a["number"]), str(b["number"])))
    for word, table in (("companion", "ped"), ("parents", "overlap")):
        found += [(word, str(number)) for number in sorted(entry["number"] for entry in config.get(table, []))]
    return found


def channels_of(name, config):
    """The channels that a rule looks at."""
    if name[0] == "conflict":
        return ("phase", int(name[1])), ("phase", int(name[2]))
    if name[0] == "companion":
        return ("ped", int(name[1])), ("phase", int(name[1]))
    if name[0] == "parents":
        entry = next(entry for entry in config["overlap"] if entry["number"] == int(name[1]))
        return (("overlap", int(name[1])),) + tuple(("phase", number) for number in entry["parents"])
    return ((name[0], int(name[1])),)


def forbidden(name, config):
    """The colours of each channel that a rule forbids together; of a conflict, companion or parents rule."""
    channels = channels_of(name, config)
    phase = frozenset(machines.COLOURS["phase"])
    if name[0] == "conflict":
        return list(zip(channels, (SERVED, SERVED)))
    if name[0] == "companion":
        return list(zip(channels, (frozenset(("Walk",)), phase - {"On", "Green"})))
    return [(channels[0], frozenset(("Green",)))] + [(channel, phase - SERVED) for channel in channels[1:]]


@functools.cache
def after_row(kind, code, colours):
    """The colours to which a row leads from some."""
    table = machines.MACHINES[kind][code]
    return frozenset(table[colour] for colour in colours if colour in table)


@functools.cache
def before_row(kind, code, colours):
    """The colours from which a row leads to one of some."""
    table = machines.MACHINES[kind][code]
    return frozenset(colour for colour in table if table[colour] in colours)


class Course:
    """The colours that a channel can have had over some time, by its known rows there and nothing else.

    An event is a row, or an unknown stretch, in which every colour can be reached. before[i] and after[i] are the
    colours that the events before event i, and those from it on, leave at the moment before it.
    """

    def __init__(self, log, channel, low, high):
        self.log, self.channel, self.low, self.high = log, channel, low, high
        self.every = frozenset(machines.COLOURS[channel[0]])
        events = [(row.tenth, row) for row in log.channel_rows(channel, low, high)]
        events += [(stretch[0], stretch) for stretch in log.unknown_in(low, high)]
        self.events = [event for _, event in sorted(events, key=lambda event: event[0])]
        self.before = [self.every]
        for event in self.events:
            self.before.append(after_row(channel[0], event.code, self.before[-1]) if isinstance(event, held.Row)
                               else self.every)
        after = [self.every]
        for event in reversed(self.events):
            after.append(before_row(channel[0], event.code, after[-1]) if isinstance(event, held.Row) else self.every)
        self.after = after[::-1]
        self.starts = [self.start_of(event) for event in self.events]
        self.pieces = self.cut()
        self.piece_starts = [piece[0] for piece in self.pieces]

    @staticmethod
    def start_of(event):
        return event.tenth if isinstance(event, held.Row) else event[0]

    def table(self, event):
        """Where a row leads from each colour; None of an unknown stretch."""
        return machines.MACHINES[self.channel[0]][event.code] if isinstance(event, held.Row) else None

    def colours(self, place):
        """The colours that are possible between an event and the one before it; after the last one where it is none."""
        return self.before[place] & self.after[place]

    def begin(self, place, colour):
        """When the colour began that the channel has before an event: earliest (None: before this time), latest, and
        the row if it was one for certain; and whether an unknown stretch makes the difference."""
        latest, earliest, row, holes = None, None, None, []
        while place > 0:
            place -= 1
            table = self.table(self.events[place])
            if table is None:
                low, high = self.events[place]
                holes.append((low, high))
                latest = high - 1 if latest is None else latest
                earliest = low
                if colour not in self.before[place]:
                    return earliest, latest, None, holes
                continue
            came = {before for before in self.before[place] if table.get(before) == colour}
            if came - {colour}:
                earliest = self.events[place].tenth
                row = self.events[place] if latest is None else None
                latest = earliest if latest is None else latest
            if colour not in came:
                return earliest, latest, row, holes
        return None, self.low if latest is None else latest, None, holes

    def ends_at(self, colour, tenth):
        """The places of the rows of a tenth that can end the colour, in order."""
        return [place for place in self.rows_at(tenth)
                if colour in self.colours(place) and self.table(self.events[place])[colour] != colour]

    def rows_at(self, tenth):
        """The places of the rows of a tenth."""
        places = range(bisect.bisect_left(self.starts, tenth), bisect.bisect_right(self.starts, tenth))
        return [place for place in places if isinstance(self.events[place], held.Row)]

    def cut(self):
        """The time as pieces, each with the colours that are possible at the ends of its tenths."""
        found, begin = [], self.low
        for place, event in enumerate(self.events):
            low = self.start_of(event)
            if begin < low:
                found.append((begin, low, self.colours(place)))
            begin = low
            if not isinstance(event, held.Row):
                begin = event[1] - 1
                if low < begin:
                    found.append((low, begin, self.every))
        found.append((begin, self.high, self.colours(len(self.events))))
        return found

    def run(self, tenth, holds):
        """The longest time around a tenth in which the colours pass a test, as its ends; None where not there."""
        pieces, place = self.pieces, bisect.bisect_right(self.piece_starts, tenth) - 1
        if not holds(pieces[place][2]):
            return None
        first = last = place
        while first > 0 and holds(pieces[first - 1][2]):
            first -= 1
        while last + 1 < len(pieces) and holds(pieces[last + 1][2]):
            last += 1
        return pieces[first][0], pieces[last][1]

    def turn(self, tenth, holds):
        """The first row of a tenth after which the possible colours pass a test, or None."""
        return next((self.events[place] for place in self.rows_at(tenth) if holds(self.colours(place + 1))), None)


class Finder:
    """Explains lines of one session; hours that were read and the courses of their channels are kept for the next."""

    def __init__(self, session):
        self.session, self.names = session, dict(enumerate(rules_of(session.config), 1))
        self.told_names = session.names()
        audit = session.last("audit")
        self.sections = [audit] if audit else [section for _, section in session.by_hour("verdicts")]
        self.logs, self.courses = [], {}

    def lines(self, verdicts=("broken",)):
        """The lines of these verdicts, each with the section that it stands in."""
        return lines_of(self.sections, verdicts)

    def all_lines(self):
        """All lines that the answer has, kept ones too where it has them."""
        hours = [section for _, section in self.session.by_hour("verdicts")]
        return lines_of(hours or self.sections, ("kept", "broken", "undecided"))

    def find(self, rule, stamp):
        """The lines of a rule at a stamp, kept ones too where the answer has them, each with its section."""
        hour = dict(self.session.by_hour("verdicts")).get((stamp - self.session.start) // logs.HOUR)
        sections = self.sections if hour is None or hour.known != self.sections[-1].known else [hour]
        return [(line, section) for line, section in lines_of(sections, ("kept", "broken", "undecided"))
                if (line.rule, line.stamp) == (rule, stamp)]

    def log(self, section):
        """The log as it was known at a section."""
        for known, log in self.logs:
            if known == section.known:
                return log
        self.logs.append((section.known, held.HeldLog(self.session, section)))
        return self.logs[-1][1]

    def course(self, log, channel, hour, reach):
        """The course of a channel in the hour and so many hours around it, as far as the window goes."""
        key = id(log), channel, hour, reach
        if key not in self.courses:
            if len(self.courses) > 2000:
                self.courses.clear()
            low = max(hour - reach, 0) * logs.HOUR + self.session.start
            high = min(hour + reach + 1, self.session.config["hours"]) * logs.HOUR + self.session.start
            self.courses[key] = Course(log, channel, low, high)
        return self.courses[key]

    def explain(self, line, section=None):
        """The figures of a line of a section; of the last one that has verdicts where none is given."""
        section = section or self.sections[-1]
        name = self.names.get(line.rule)
        if not name or name != tuple(self.told_names.get(line.rule, name)):
            config, _, answer = self.session.paths
            raise held.OtherFile("%s: rule %d isn't one of %s" % (answer, line.rule, config))
        log = self.log(section)
        figures = self.duration(log, name, line) if name[3:4] == ("at",) else self.together(log, name, line)
        low, high = line.stretch or (None, None)
        return Explanation(verdict=line.verdict, rule=line.rule, name=name, stamp=line.stamp, stretch=line.stretch,
                           silence=log.silence(low, high) if line.stretch else None, log=log, **figures)

    def duration(self, log, name, line):
        """Of a duration rule: the time from the begin of the colour to the row that ended it."""
        channel, colour, bound = (name[0], int(name[1])), name[2], int(name[5])
        for reach in REACHES:
            course = self.course(log, channel, (line.stamp - self.session.start) // logs.HOUR, reach)
            found = [(place,) + course.begin(place, colour) for place in course.ends_at(colour, line.stamp)]
            told = all(low == high and course.colours(place) == {colour} for place, low, high, *_ in found)
            if told or reach and all(low is not None and holes for _, low, _, _, holes in found):
                break
            if reach and course.low == self.session.start:
                break
        if not found:
            raise held.OtherFile("%s: no row ends the %s of %s %d there: are the files as they were?" % (
                logs.show(line.stamp), colour, *channel))
        figures = [{"bound": bound, "at": name[4], "least": line.stamp - high,
                    "greatest": None if low is None else line.stamp - low, "begin": begin, "end": course.events[place],
                    "unknown": () if low == high else tuple(holes[::-1]),
                    "instead": tuple(one for one in machines.COLOURS[name[0]]
                                     if one in course.colours(place) and one != colour)}
                   for place, low, high, begin, holes in found]
        fitting = [one for one in figures if line.verdict == verdict_of(
            name[4], bound, one["least"], one["greatest"], one["instead"])] or figures
        return fitting[min(line.place, len(fitting) - 1)]

    def together(self, log, name, line):
        """Of another rule: the time around the stamp for which what it forbids was so."""
        pairs = forbidden(name, self.session.config)
        for reach in REACHES[:2] if line.verdict == "undecided" else REACHES:
            courses = [self.course(log, channel, (line.stamp - self.session.start) // logs.HOUR, reach)
                       for channel, _ in pairs]
            sure, may = (overlap([course.run(line.stamp, lambda seen, bad=bad: test(seen, bad))
                                  for course, (_, bad) in zip(courses, pairs)])
                         for test in (frozenset.issubset, lambda seen, bad: bool(seen & bad)))
            inside = [run is None or courses[0].low < run[0] and run[1] < courses[0].high for run in (sure, may)]
            if sure == may and all(inside):
                break
            if courses[0].low == self.session.start and courses[0].high == self.session.end:
                break
        begin, end = self.turns(courses, pairs, sure) if sure else (None, None)
        unknown = () if sure == may else tuple(log.unknown_in(may[0], may[1] + 1))
        greatest = 0 if may is None else may[1] - may[0] if inside[1] else None
        return {"bound": None, "at": None, "least": sure[1] - sure[0] if sure else 0, "greatest": greatest,
                "begin": begin, "end": end, "unknown": unknown, "instead": ()}

    @staticmethod
    def turns(courses, pairs, sure):
        """The rows with which the time began for which all is so that a rule forbids, and with which it ended."""
        begins = [course.turn(sure[0], lambda seen, bad=bad: seen <= bad) for course, (_, bad) in zip(courses, pairs)
                  if course.run(sure[0], lambda seen, bad=bad: seen <= bad)[0] == sure[0]]
        ends = [course.turn(sure[1], lambda seen, bad=bad: not seen <= bad) for course, (_, bad) in zip(courses, pairs)]
        return next(filter(None, begins), None), next(filter(None, ends), None)


def overlap(runs):
    """What some times have in common; None where one isn't there."""
    return None if None in runs else (max(run[0] for run in runs), min(run[1] for run in runs))


def verdict_of(at, bound, least, greatest, instead):
    """The verdict of a duration from least to greatest (None: of any length), where another colour may have been."""
    long = float("inf") if greatest is None else greatest
    if least >= bound if at == "least" else long <= bound:
        return "kept"
    breaks = long < bound if at == "least" else least > bound
    return "broken" if breaks and not instead else "undecided"


def lines_of(sections, verdicts):
    """The lines of these verdicts that stand in some sections, each with its section."""
    for section in sections:
        places = {}
        for words in section.lines:
            if words[0] not in verdicts:
                continue
            stamp = logs.parse_stamp(words[2])[0]
            stretch = None
            if words[3::2] == ["from", "to"]:
                stretch = tuple(logs.parse_stamp(word)[0] for word in words[4::2])
            key = tuple(words[:3])
            yield Line(words[0], int(words[1]), stamp, stretch, places.get(key, 0)), section
            places[key] = places.get(key, 0) + 1


def explain_lines(session, verdicts=("broken",)):
    """An Explanation for each line of these verdicts, in the order of the answer."""
    finder = Finder(session)
    for line, section in finder.lines(verdicts):
        yield finder.explain(line, section)
