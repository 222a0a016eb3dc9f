"""What the page of a signal is made of: a session, its tables and verdicts, what was found of holes. Not proved."""
import functools

import drawings
import explanations
import held
import logs
import pages

GRADES = ("certain", "sure", "likely", "weak", "unlearned", "solid")
ON_LOG = {"solid": "on solid log", "unlearned": "on log too small to learn from"}
FAULTS = {
    "silent": "no row, while the rest goes on",
    "stuck on": "on without a change",
    "stuck off": "off without a change",
    "chatter": "comes on %d times, more often than vehicles make it",
}
# Of a detector without rows so many hours are named.
MOST_HOURS = 6


class Verdict:
    """A broken or undecided line: its place in verdicts.csv, its figures, how far the log below it is trusted."""

    def __init__(self, finder, line, section, row):
        self.finder, self.line, self.section, self.row = finder, line, section, row
        self.verdict, self.rule, self.at = line.verdict, line.rule, line.stamp

    @functools.cached_property
    def explained(self):
        """What it is in figures; None where the hour files aren't there as they were, or no audit names the rule."""
        try:
            return self.finder.explain(self.line, self.section)
        except (held.OtherFile, OSError, ValueError):
            return None

    @property
    def grade(self):
        """The grade of the strongest suspicion of lost rows; empty where none was looked for."""
        return self.row.get("doubt").split(":")[0]

    @property
    def id(self):
        return "line-%d" % self.row.place

    def severity(self):
        """How far from the bound, in seconds; of a rule without one, for how long it was broken."""
        least, bound = self.row.get("least_s"), self.row.get("bound_s")
        return abs(float(bound) - float(least)) if bound and least else float(least or 0)


class Audit:
    """The session, its tables and verdicts, fillings by rule and stamp; the holes' and detectors' files as words."""

    def __init__(self, session, tables, holes, detectors, pairs, made):
        self.session, self.tables, self.made = session, tables, made
        self.holes, self.detectors, self.pairs = lines_of(holes), lines_of(detectors), pairs_of(pairs)
        finder = explanations.Finder(session)
        self.verdicts = [Verdict(finder, line, section, row) for (line, section), row in zip(
            finder.lines(("broken", "undecided")), tables.rows("verdicts"), strict=True)]
        self.graded = any(verdict.grade for verdict in self.verdicts)

    def of(self, rule, kind):
        return [verdict for verdict in self.verdicts if verdict.rule == int(rule) and verdict.verdict == kind]

    def name(self, rule):
        """The name of a rule as words; none where no audit names it."""
        return self.session.names().get(rule, [])

    def rules(self):
        """The numbers of the rules with a broken or undecided verdict."""
        return sorted({verdict.rule for verdict in self.verdicts})

    def count(self, kind, **wanted):
        """How many verdicts are of a kind, and of a rule or a grade, as HTML."""
        found = [verdict for verdict in self.verdicts if verdict.verdict == kind
                 and wanted.get("rule") in (None, str(verdict.rule)) and wanted.get("doubt") in (None, verdict.grade)]
        tests = "".join(" %s=%s" % test for test in wanted.items())
        return pages.element("span", len(found), data_of="count verdicts verdict=%s%s" % (kind, tests))

    def grades(self):
        """How many broken verdicts stand on log of which grade, as the end of a sentence."""
        there = {verdict.grade for verdict in self.verdicts if verdict.verdict == "broken"}
        said = ["%s %s" % (self.count("broken", doubt=grade), ON_LOG.get(grade, grade))
                for grade in reversed(GRADES) if grade in there]
        return ", of them " + ", ".join(said) if said else ""

    def suspected(self):
        """The weak suspicions of holes, which weren't blanked: from and to."""
        return [tenths(words) for words in self.holes if words[0] == "suspect"]

    def why_blank(self, low, high):
        """Why a stretch was blanked, by what the holes' file says of it."""
        found = [why(words) for words in self.holes if words[0] == "hole" and tenths(words)[0] < high
                 and low < tenths(words)[1]]
        return "; ".join(found) or "blanked by hand"

    def quiet_detectors(self):
        """Sentences on detectors that have no row in the log, or in hours in which others have, by the holes' file."""
        quiet = {}
        for words in self.holes:
            if words[0] == "never":
                yield "%s of the configuration has no row in the whole log." % " ".join(words[1:]).capitalize()
            elif words[0] == "quiet":
                for channel in " ".join(words[2:]).split(", "):
                    if channel.startswith("detector "):
                        quiet.setdefault(channel, []).append(logs.hour_of(words[1]))
        for channel, hours in sorted(quiet.items(), key=lambda found: int(found[0].split()[1])):
            named = ", ".join("%s %s" % (drawings.day_of(hour), drawings.clock(hour)) for hour in hours[:MOST_HOURS])
            more = " and %d more" % (len(hours) - MOST_HOURS) if len(hours) > MOST_HOURS else ""
            yield "%s has no row in the hour%s from %s%s, though others have: it was silent, or nobody came." % (
                channel.capitalize(), "s" if len(hours) > 1 else "", named, more)

    def faulty(self):
        """What the detectors' file found: (grade, channel, what, from, to, whether the log has a code of the fault)."""
        for words in self.detectors:
            if words[0] not in ("silent", "stuck", "chatter"):
                continue
            place = next(place for place, word in enumerate(words) if logs.parse_stamp(word))
            low, high = (logs.parse_stamp(word)[0] for word in words[place:place + 2])
            name = 2 if words[0] == "stuck" else 1
            what = FAULTS[" ".join(words[:name])]
            if words[0] == "chatter":
                what %= int(words[words.index("actuations") + 1])
            yield words[place + 2], " ".join(words[name:place]), what, low, high, "logged" in words

    def approaches_of(self, channel):
        """The approaches that use a detector of a channel: `detector 5`, `detector 1,2`, `detector all`."""
        kind, _, numbers = channel.partition(" ")
        if kind != "detector":
            return []
        uses = lambda entry, key: key in entry and (numbers == "all" or str(entry[key]) in numbers.split(","))
        return [entry["name"] for entry in self.session.config.get("approach", [])
                if uses(entry, "advance") or uses(entry, "stop_bar")]

    def chances(self):
        """What outages would have been found: (hours of the day, seconds, found, of), as the holes' file has them."""
        return [(words[1], words[2], int(words[3]), int(words[5])) for words in self.holes if words[0] == "chance"]


def tenths(words):
    """The two stamps of a hole or suspect: `hole S FROM TO ..`."""
    return logs.parse_stamp(words[2])[0], logs.parse_stamp(words[3])[0]


def why(words):
    """Why there is a hole, in words: `hole S FROM TO GRADE X WHY ..`."""
    grade, because = words[4], words[6:]
    if because == ["edge"]:
        return "likely a hole: no row before the first, or after the last, for longer than ever at this time of day"
    if because == ["silence"]:
        return "no row of any channel for %s s" % words[1]
    if grade == "certain":
        row = " ".join(because).split(" after ")[0].split(": ")[-1].replace("T", " ")
        return "%s: %s can’t follow the rows before it" % (
            "the controller began anew" if because[0] == "jump" else "certainly a hole", row)
    channels = [channel.rsplit(" ", 1)[0] for channel in " ".join(because).split(", ")]
    return "%s a hole: what stands before and after goes badly together (%s)" % (
        {"sure": "surely", "likely": "likely"}[grade], ", ".join(channels))


def lines_of(path):
    """The lines of a file as words; none where there is no file."""
    if not path:
        return []
    with open(path, encoding="utf-8", errors="replace") as file:
        return [line.split() for line in file if line.strip()]


def pairs_of(path):
    """The fillings of undecided verdicts by rule and stamp: each side as its name and its channels with their fills."""
    found, sides = {}, None
    for words in lines_of(path):
        if words[0] == "undecided":
            sides = found.setdefault((int(words[1]), logs.parse_stamp(words[2])[0]), [])
        elif words[0] in ("keeps", "breaks"):
            sides.append((words[0], []))
        elif words[0] == "channel":
            sides[-1][1].append((words[1:], []))
        elif words[0] == "fill":
            sides[-1][1][-1][1].append((logs.parse_stamp(words[1])[0], int(words[3]), int(words[5])))
    return found
