"""What is wrong with a configuration of sigaudit, all at once, and what is odd in it though it is accepted. Not proved.

    text = open(path, "rb").read()
    mistakes(text)      all mistakes, in the order in which sigaudit looks; the first is the one that it names
    oddities(text)      what is accepted and looks like a slip
    log_oddities(text, paths)   what doesn't fit the rows of some hour files, or of any export that examples/hours reads

`bench/check` runs sigaudit and this over configurations made at random, and wants the same refusals of both.
"""
import bisect
import calendar
import dataclasses
import datetime
import difflib
import re
import tomllib

import logs
import machines

# The tables in the order in which sigaudit reads them: how many entries each may have, and its keys in order.
TABLES = {
    "phase": (16, ("number", "ring", "side")),
    "ped": (16, ("number",)),
    "overlap": (16, ("number", "parents")),
    "preempt": (16, ("number",)),
    "conflict": (120, ("a", "b")),
    "allow": (120, ("a", "b")),
    "floor": (512, ("channel", "colour", "tenths")),
    "interval": (256, ("channel", "colour", "at_least", "at_most")),
    "approach": (64, ("name", "phase", "advance", "stop_bar", "travel", "high_num", "high_den")),
}
TOP = ("signal", "start", "hours", "coordination") + tuple(TABLES)
KINDS = ("phase", "ped", "overlap", "preempt")  # of the channels that floors and intervals may name
SIGNAL = re.compile(r"[!#-+\--~]{1,32}")
NAME = re.compile(r"[A-Za-z0-9_-]{1,32}", re.ASCII)
HOUR = re.compile(r"(\d{4})-(\d\d)-(\d\d)T([01]\d|2[0-3])", re.ASCII)


@dataclasses.dataclass(frozen=True)
class Mistake:
    """One thing that is wrong: the reason and the place as sigaudit words them, the line, and in words what it is."""

    reason: str             # not toml, unknown, missing, bad value, repeated, too many
    place: str              # top.hours, interval[2].channel; empty where the text isn't TOML
    line: int | None
    words: str

    def refusal(self):
        """The line that sigaudit prints where this is the first mistake."""
        return "config refused: " + " ".join(word for word in (self.reason, self.place) if word)


@dataclasses.dataclass(frozen=True)
class Oddity:
    """Something that is accepted and looks like a slip."""

    line: int | None
    words: str


# ---- where things stand in the text


def skip_value(text, at):
    """The end of the value at a place, and the places of the braces of an array's own inline tables."""
    depth, braces = 0, []
    while at < len(text):
        char = text[at]
        if text.startswith(('"""', "'''"), at):
            mark, end = text[at:at + 3], at + 3
            while end < len(text) and not text.startswith(mark, end):
                end += 2 if text[end] == "\\" and char == '"' else 1
            at = end + 3
        elif char in "\"'":
            end = at + 1
            while end < len(text) and text[end] not in (char, "\n"):
                end += 2 if text[end] == "\\" and char == '"' else 1
            at = end + 1
        elif char == "#":
            at = (text + "\n").index("\n", at)
        elif char == "\n" and depth == 0:
            break
        else:
            if char == "{" and depth == 1:
                braces.append(at)
            depth += (char in "[{") - (char in "]}")
            at += 1
    return at, braces


def path_of(key):
    """The parts of a key as it stands in a text."""
    try:
        table, parts = tomllib.loads(older(key + " = 0")), []
    except ValueError:
        return [key.strip()]
    while isinstance(table, dict):
        name, table = next(iter(table.items()))
        parts.append(name)
    return parts


# A line without anything, the head of a table, or a key up to its =.
STATEMENT = re.compile(r"[ \t\r\n]*(?:#[^\n]*)?(?:\n|$)|[ \t]*(\[\[?)([^\n]*?)\]|"
                       r"[ \t]*((?:\"(?:\\.|[^\"\\\n])*\"|'[^'\n]*'|[^=\"'\n])+)=")


def lines_of(text):
    """The line of each key of the top, of each entry of a table and of each of its keys, in a text that is TOML."""
    lines, counts, here, at = {}, {}, ("top", 0), 0
    ends = [found.start() for found in re.finditer("\n", text)]

    def line(place):
        return 1 + bisect.bisect_left(ends, place)

    while at < len(text):
        found = STATEMENT.match(text, at)
        if not found or found.end() == at:
            at += 1
        elif found[1]:
            name = path_of(found[2])[0]
            here = name, counts.get(name, 0)
            counts[name] = counts.get(name, 0) + 1
            lines.setdefault(here, line(found.start(1)))
            lines.setdefault(("top", 0, name), line(found.start(1)))
            at = (text + "\n").index("\n", found.end())
        elif found[3]:
            name, start = path_of(found[3])[0], line(found.start(3) + len(found[3]) - len(found[3].lstrip()))
            lines.setdefault(here + (name,), start)
            at, braces = skip_value(text, found.end())
            for place, brace in enumerate(braces) if here[0] == "top" else ():
                lines.setdefault((name, place), line(brace))
        else:
            at = found.end()
    return lines


# ---- values


def shown(value):
    """A value as it may stand in the file, cut where it is long."""
    if isinstance(value, bool):
        text = "true" if value else "false"
    elif isinstance(value, str):
        text = '"%s"' % value
    else:
        text = str(value)
    return text if len(text) <= 40 else text[:37] + "..."


def is_whole(value, low, high):
    return isinstance(value, int) and not isinstance(value, bool) and low <= value <= high


def near(word, known):
    """The known word that a misspelt one is nearest to, or None."""
    by_lower = {name.lower(): name for name in known}
    found = difflib.get_close_matches(str(word).lower().replace("-", "_"), by_lower, 1, 0.6)
    return by_lower[found[0]] if found else None


def whole_number(value, low, high, tenths=False):
    """What is wrong with a value that has to be a whole number of a range, in words; None where nothing is."""
    if is_whole(value, low, high):
        return None
    text = "a whole number from %d to %d" % (low, high)
    if tenths:
        text += ", in tenths of a second"
    if tenths and isinstance(value, float) and low <= value * 10 <= high:
        text += "; %s s are %d" % (value, round(value * 10))
    if isinstance(value, str) and value.isdecimal() and value.isascii():
        text += ", without quotes"
    return text


def day_of(text):
    """The year, month, day and hour of a text `YYYY-MM-DDTHH`, or None."""
    found = HOUR.fullmatch(text) if isinstance(text, str) else None
    if not found:
        return None
    year, month, day, hour = map(int, found.groups())
    if not 1 <= month <= 12:
        return None
    days = 29 if month == 2 and calendar.isleap(year) else (31, 28, 31, 30, 31, 30, 31, 31, 30, 31, 30, 31)[month - 1]
    return (year, month, day, hour) if 1 <= day <= days else None


def ends_in_time(start, hours):
    """Whether a window's last day is at most 9999-12-31."""
    year, month, day, hour = start
    if year < 9999:
        return True
    return datetime.datetime(year, month, day, hour) <= datetime.datetime(9999, 12, 31, 23) - datetime.timedelta(
        hours=hours - 1)


class Checker:
    """Goes through a configuration in sigaudit's order, and collects."""

    def __init__(self, document, lines):
        self.document, self.lines, self.found = document, lines, []
        self.phases, self.channels = [], []

    def line(self, table, index, key=None):
        places = (table, index, key), (table, index), ("top", 0, table)
        return next((self.lines[place] for place in places if place in self.lines), None)

    def add(self, reason, table, index, key, words, at=None):
        """Notes a mistake; key is the one that sigaudit names, at the one whose line it is."""
        place = "top.%s" % key if table == "top" else "%s[%d].%s" % (table, index, key)
        self.found.append(Mistake(reason, place, self.line(table, index, at or key), words))

    def bad(self, table, index, entry, key, expected):
        self.add("bad value", table, index, key, "%s = %s: expected %s" % (key, shown(entry[key]), expected))

    def known_keys(self, table, index, entry, keys):
        """The entry under the keys that it has to have: one that is misspelt counts as the one that is near."""
        good, unknown = {key: entry[key] for key in keys if key in entry}, [key for key in entry if key not in keys]
        for key in unknown:
            other = near(key, keys)
            words = "%s: no such key" % key
            if other:
                words += ", perhaps %s" % other
                good.setdefault(other, entry[key])
                self.lines.setdefault((table, index, other), self.line(table, index, key))
            elif table != "top" and key in TOP:
                words += " of %s: it belongs above the first table" % table
            else:
                words += " of %s: expected %s" % ("the top" if table == "top" else table, ", ".join(keys))
            self.add("unknown", table, index, "?", words, key)
        return good

    def missing(self, table, index, entry, key, expected):
        """Whether a required key isn't there."""
        if key not in entry:
            self.add("missing", table, index, key, "%s is missing: expected %s" % (key, expected), "")
        return key not in entry

    def whole(self, table, index, entry, key, low, high, required=True, tenths=False):
        """The number at a key; None where it isn't good or isn't there."""
        expected = whole_number(None, low, high, tenths)
        if required and self.missing(table, index, entry, key, expected) or key not in entry:
            return None
        wrong = whole_number(entry[key], low, high, tenths)
        if wrong:
            self.bad(table, index, entry, key, wrong)
        return None if wrong else entry[key]

    def phase(self, table, index, entry, key):
        """The configured phase at a key, or None."""
        expected = "a phase of this configuration (%s)" % (", ".join(map(str, sorted(self.phases))) or "it has none")
        if self.missing(table, index, entry, key, expected):
            return None
        if not is_whole(entry[key], 1, 16) or entry[key] not in self.phases:
            self.bad(table, index, entry, key, expected)
            return None
        return entry[key]

    # ---- the tables

    def run(self):
        top = self.known_keys("top", 0, self.document, TOP)
        self.top(top)
        for table, (limit, keys) in TABLES.items():
            entries = top.get(table, [])
            if not isinstance(entries, list) or not all(isinstance(entry, dict) for entry in entries):
                continue
            if len(entries) > limit:
                words = "a table of at most %d has %d entries" % (limit, len(entries))
                self.add("too many", table, limit, "?", words, "")
            read, seen = getattr(self, "read_" + table), []
            for index, entry in enumerate(entries):
                value = read(table, index, self.known_keys(table, index, entry, keys))
                if value is not None and table != "interval":
                    key = {"conflict": "a", "allow": "a", "floor": "channel", "approach": "name"}.get(table, "number")
                    if value in seen:
                        self.add("repeated", table, index, key, "%s %s was there before, in %s[%d]" % (
                            table, self.worded(value), table, seen.index(value)))
                seen.append(value)
            if table in KINDS:
                self.channels += ["%s %d" % (table, number) for number in sorted(set(filter(None, seen)))]
            setattr(self, "seen_" + table, seen)
        return self.found

    @staticmethod
    def worded(value):
        if isinstance(value, frozenset):
            return " ".join(map(str, sorted(value)))
        return " ".join(value) if isinstance(value, tuple) else str(value)

    def top(self, top):
        expected = "a text of 1 to 32 signs without space, comma and double quote"
        if not self.missing("top", 0, top, "signal", expected):
            if not isinstance(top["signal"], str) or not SIGNAL.fullmatch(top["signal"]):
                self.bad("top", 0, top, "signal", expected)
        start, expected = None, 'a text like "2024-03-04T05", an hour of the calendar'
        if not self.missing("top", 0, top, "start", expected):
            start = day_of(top["start"])
            if start is None:
                self.bad("top", 0, top, "start", expected)
        hours = self.whole("top", 0, top, "hours", 1, 744)
        if hours and start and not ends_in_time(start, hours):
            self.bad("top", 0, top, "hours", "a window that ends by 9999-12-31")
        if not isinstance(top.get("coordination", False), bool):
            self.bad("top", 0, top, "coordination", "true or false, without quotes")
        for table in TABLES:
            entries = top.get(table, [])
            if not isinstance(entries, list) or not all(isinstance(entry, dict) for entry in entries):
                self.bad("top", 0, top, table, "entries that each begin with [[%s]]" % table)
            elif table == "phase":
                numbers = [entry.get("number") for entry in entries]
                self.phases = [number for number in numbers if is_whole(number, 1, 16)]

    def read_phase(self, table, index, entry):
        number = self.whole(table, index, entry, "number", 1, 16)
        self.whole(table, index, entry, "ring", 1, 4)
        self.whole(table, index, entry, "side", 1, 4)
        return number

    def read_ped(self, table, index, entry):
        return self.phase(table, index, entry, "number")

    def read_overlap(self, table, index, entry):
        number = self.whole(table, index, entry, "number", 1, 16)
        expected = "an array of 1 to 8 different phases of this configuration (%s)" % ", ".join(
            map(str, sorted(self.phases)))
        if not self.missing(table, index, entry, "parents", expected):
            parents = entry["parents"]
            good = isinstance(parents, list) and 1 <= len(parents) <= 8 and all(
                is_whole(parent, 1, 16) and parent in self.phases for parent in parents)
            if not good or len(set(parents)) < len(parents):
                self.bad(table, index, entry, "parents", expected)
        return number

    def read_preempt(self, table, index, entry):
        return self.whole(table, index, entry, "number", 1, 16)

    def pair(self, table, index, entry, barred):
        a = self.phase(table, index, entry, "a")
        b = self.phase(table, index, entry, "b")
        if b is not None and a == b:
            self.bad(table, index, entry, "b", "another phase than a")
        elif a and b and frozenset((a, b)) in barred:
            self.bad(table, index, entry, "b", "a pair that isn't in [[conflict]] too")
        return frozenset((a, b)) if a and b and a != b else None

    def read_conflict(self, table, index, entry):
        return self.pair(table, index, entry, ())

    def read_allow(self, table, index, entry):
        return self.pair(table, index, entry, self.seen_conflict)

    def colour(self, table, index, entry):
        """The channel and colour of an entry; None where they aren't good."""
        expected, kind = "a channel of this configuration, like %s" % shown((self.channels or ["phase 2"])[0]), None
        if not self.missing(table, index, entry, "channel", expected):
            channel = entry["channel"]
            if channel in self.channels:
                kind = channel.split(" ")[0]
            else:
                other = near(channel, self.channels) if isinstance(channel, str) else None
                self.bad(table, index, entry, "channel", expected + ("; perhaps %s" % shown(other) if other else ""))
                kind = other and other.split(" ")[0]
        expected = ", ".join(machines.COLOURS[kind]) if kind else "a colour of the channel"
        if self.missing(table, index, entry, "colour", expected):
            return None
        if kind and entry["colour"] not in machines.COLOURS[kind]:
            other = near(entry["colour"], machines.COLOURS[kind])
            self.bad(table, index, entry, "colour", expected + ("; perhaps %s" % other if other else ""))
            return None
        return (entry["channel"], entry["colour"]) if entry.get("channel") in self.channels else None

    def read_floor(self, table, index, entry):
        found = self.colour(table, index, entry)
        self.whole(table, index, entry, "tenths", 0, 36000, tenths=True)
        return found

    def read_interval(self, table, index, entry):
        found = self.colour(table, index, entry)
        bounds = [key for key in ("at_least", "at_most") if key in entry]
        if not bounds:
            self.add("missing", table, index, "at_least", "a bound is missing: expected at_least or at_most", "")
        if bounds:
            self.whole(table, index, entry, bounds[0], 1, 36000, tenths=True)
        if len(bounds) == 2:
            self.bad(table, index, entry, "at_most", "one bound in an entry; for both write two entries")
        return found

    def read_approach(self, table, index, entry):
        expected = "a text of 1 to 32 letters, digits, _ and -"
        name = entry.get("name")
        good = isinstance(name, str) and NAME.fullmatch(name)
        if not self.missing(table, index, entry, "name", expected) and not good:
            self.bad(table, index, entry, "name", expected)
            name = None
        self.phase(table, index, entry, "phase")
        for key in ("advance", "stop_bar"):
            self.whole(table, index, entry, key, 1, 128, required=False)
        if "travel" in entry and "advance" not in entry:
            self.bad(table, index, entry, "travel", "an advance detector beside it, from which vehicles travel")
        else:
            self.whole(table, index, entry, "travel", 0, 300, required=False, tenths=True)
        self.share(table, index, entry)
        return name

    def share(self, table, index, entry):
        """high_num over high_den: both or neither."""
        if "high_num" not in entry and "high_den" not in entry:
            return
        high = entry.get("high_den")
        if not self.missing(table, index, entry, "high_num", "both of high_num and high_den, or neither"):
            wrong = whole_number(entry["high_num"], 1, 1000)
            if not wrong and isinstance(high, int) and not isinstance(high, bool) and entry["high_num"] > high:
                wrong = "at most high_den, which is %s" % high
            if wrong:
                self.bad(table, index, entry, "high_num", wrong)
        self.whole(table, index, entry, "high_den", 1, 1000)


# sigaudit reads TOML 1.1, Python's tomllib TOML 1.0; and sigaudit's reader has limits of its own.
DEEPEST = 80
TOKEN = re.compile(r"""\"{3}(?:\\.|[^\\])*?\"{3,5}|'{3}.*?'{3,5}|"(?:\\.|[^"\\\n])*"|'[^'\n]*'|"""
                   r"""\#[^\n]*|[^"'#\n,{}\[\]]+|.""", re.S)
ESCAPE = re.compile(r"(\\\\)|\\e|\\x([0-9A-Fa-f]{2})")


def older(text):
    """The text in TOML 1.0, where it is in 1.1: escapes, times without seconds, inline tables over several lines."""
    found, open_brackets = [], []
    for token in TOKEN.findall(text.removeprefix("\ufeff")):
        if token[0] == '"':
            token = ESCAPE.sub(lambda part: part[1] or "\\u00" + (part[2] or "1b"), token)
        elif token in "[{":
            open_brackets.append(token)
        elif token in "]}" and open_brackets:
            open_brackets.pop()
            last = len(found) - 1
            while token == "}" and last > 1 and found[last].isspace():
                last -= 1
            if token == "}" and found[last:last + 1] == [","] and "".join(found[:last]).rstrip()[-1:] not in "{,":
                found[last] = " "
        elif open_brackets[-1:] == ["{"] and (token == "\n" or token[0] == "#"):
            token = " "
        elif token[0] not in "'#":
            token = re.sub(r"(?<![\d:])(\d\d:\d\d)(?![\d:])", r"\1:00", token).replace(":60", ":59")
            token = re.sub(r"(?<!\d)0000-", "0004-", token)
        found.append(token)
    return "".join(found)


def finite(text):
    """A number with a point, as sigaudit's reader takes it: none so great that it would be infinite."""
    value = float(text)
    if value in (float("inf"), -float("inf")) and "inf" not in text:
        raise ValueError("a number that is too great")
    return value


def too_much(value, depth=0):
    """What sigaudit's reader doesn't take in a document that is TOML, in words, or None."""
    if isinstance(value, int) and not -2 ** 63 <= value < 2 ** 63:
        return "a number that doesn't fit 64 bits"
    if isinstance(value, (dict, list)):
        if depth >= DEEPEST:
            return "brackets too deep in one another"
        inner = value.values() if isinstance(value, dict) else value
        return next(filter(None, (too_much(one, depth + 1) for one in inner)), None)
    return None


def read(text):
    """The document of a configuration's bytes, or the Mistake that it isn't TOML."""
    try:
        decoded = text.decode("utf-8")
    except UnicodeDecodeError as error:
        line = text[:error.start].count(b"\n") + 1
        return Mistake("not toml", "", line, "a byte that isn't UTF-8: save the file as UTF-8")
    try:
        document = tomllib.loads(decoded, parse_float=finite)
    except (ValueError, RecursionError) as error:
        try:
            document = tomllib.loads(older(decoded), parse_float=finite)
        except (ValueError, RecursionError):
            found = re.search(r"\(at line (\d+)", str(error))
            line = int(found[1]) if found else text.count(b"\n") + 1
            return Mistake("not toml", "", line, "not TOML: " + str(error).split(" (at ")[0].lower())
    for key, value in document.items():
        wrong = too_much(value)
        if wrong:
            line = lines_of(decoded.removeprefix("\ufeff")).get(("top", 0, key))
            return Mistake("not toml", "", line, "%s: %s" % (key, wrong))
    return document


def mistakes(text):
    """All mistakes of a configuration, in the order in which sigaudit looks."""
    document = read(text)
    if isinstance(document, Mistake):
        return [document]
    return Checker(document, lines_of(text.decode("utf-8").removeprefix("\ufeff"))).run()


# ---- what is odd though it is accepted

# Colours of which a bound of less than a second is a slip: seconds, or a digit lost. A red clearance may be as short.
LONG = ("Green", "Yellow", "Red", "Walk", "Clearance", "DontWalk", "Trailing", "Dwell", "Track")
# A bound that is so many times less than all that the log shows, or more, tests nothing: a slip of seconds and
# tenths is ten times, and plans of one signal seldom differ by four.
FAR = 4


def by_number(number):
    """The ring and the side of the barrier that a phase of this number mostly has; None for phases over 8."""
    return (1 if number <= 4 else 2, 1 if number in (1, 2, 5, 6) else 2) if number <= 8 else None


def conflicting(config):
    """The pairs of phases that conflict by rings and barrier."""
    phases = config.get("phase", [])
    return {frozenset((a["number"], b["number"])) for a in phases for b in phases
            if a["number"] < b["number"] and (a["ring"] == b["ring"] or a["side"] != b["side"])}


def phase_oddities(config):
    for index, entry in enumerate(config.get("phase", [])):
        usual = by_number(entry["number"])
        if usual and (entry["ring"], entry["side"]) != usual:
            yield "phase", index, "phase %d in ring %d, side %d: it is mostly in ring %d, side %d" % (
                entry["number"], entry["ring"], entry["side"], *usual)
    pairs = conflicting(config)
    for table in ("conflict", "allow"):
        for index, entry in enumerate(config.get(table, [])):
            if (frozenset((entry["a"], entry["b"])) in pairs) == (table == "conflict"):
                yield table, index, "phases %d and %d %s by rings and barrier anyway" % (
                    entry["a"], entry["b"], "conflict" if table == "conflict" else "don't conflict")


def interval_oddities(config):
    floors = {(entry["channel"], entry["colour"]): entry["tenths"] for entry in config.get("floor", [])}
    least, most, seen = {}, {}, {}
    for index, entry in enumerate(config.get("interval", [])):
        limit = entry["channel"], entry["colour"]
        words, bound = "%s %s" % limit, entry.get("at_least") or entry.get("at_most")
        if bound < 10 and limit[1] in LONG:
            yield "interval", index, "%s %s %.1f s: are these tenths?" % (
                words, "at least" if "at_least" in entry else "at most", bound / 10)
        if "at_least" in entry and floors.get(limit):
            yield "interval", index, "%s has a floor of %.1f s too: what is assumed can't be tested" % (
                words, floors[limit] / 10)
        first = seen.setdefault(tuple(entry.items()), index)
        if first < index:
            yield "interval", index, "%s: the same was there before, in interval[%d]" % (words, first)
        side = least if "at_least" in entry else most
        side[limit] = (max if side is least else min)(side.get(limit, bound), bound)
        if limit in least and limit in most and least[limit] > most[limit]:
            yield "interval", index, "%s has to last at least %.1f s and at most %.1f s" % (
                words, least[limit] / 10, most[limit] / 10)


def approach_oddities(config):
    for index, entry in enumerate(config.get("approach", [])):
        if "advance" not in entry and "stop_bar" not in entry:
            yield "approach", index, "approach %s has no detector, so nothing is measured of it" % entry["name"]
        elif entry.get("advance") == entry.get("stop_bar"):
            yield "approach", index, "approach %s has one detector for both places" % entry["name"]
    if not any(config.get(table) for table in ("interval", "ped", "overlap")) and not conflicting(config):
        yield "top", 0, "no rule follows from it: an audit has nothing to judge"


def oddities(text):
    """What is odd in a configuration that is accepted."""
    config, lines = read(text), lines_of(text.decode("utf-8").removeprefix("\ufeff"))
    return [Oddity(lines.get((table, index)) or lines.get(("top", 0, table)), words)
            for find in (phase_oddities, interval_oddities, approach_oddities) for table, index, words in find(config)]


class Shown:
    """What a log shows: the channels that act, and of each channel's colours the least and the greatest duration."""

    def __init__(self, rows):
        self.channels, self.durations, state = set(), {}, {}
        for row in rows:
            channel = logs.channel_of(row.code, row.param)
            if not channel:
                continue
            self.channels.add(channel)
            if channel[0] in KINDS:
                self.step(state, channel, row)

    def step(self, state, channel, row):
        """One row of a channel: what ends with it, where it is known when that began."""
        colour, begin = state.get(channel, (None, None))
        table = machines.MACHINES[channel[0]][row.code]
        after = table.get(colour) or (set(table.values()).pop() if len(set(table.values())) == 1 else None)
        if after != colour:
            if begin is not None and colour in table:
                least, greatest = self.durations.get(channel + (colour,), (row.tenth - begin,) * 2)
                self.durations[channel + (colour,)] = min(least, row.tenth - begin), max(greatest, row.tenth - begin)
            state[channel] = after, row.tenth if colour is None or colour in table else None


def bound_oddities(config, shown):
    for index, entry in enumerate(config.get("interval", [])):
        kind, number = entry["channel"].split(" ")
        durations = shown.durations.get((kind, int(number), entry["colour"]))
        if not durations:
            continue
        least, greatest = durations
        bound, at = (entry["at_least"], "least") if "at_least" in entry else (entry["at_most"], "most")
        words = "%s %s at %s %.1f s" % (entry["channel"], entry["colour"], at, bound / 10)
        seen = ": the log shows from %.1f to %.1f s" % (least / 10, greatest / 10)
        if at == "least" and bound * FAR < least or at == "most" and bound > greatest * FAR:
            yield "interval", index, words + seen + ", so it tests nothing"
        if at == "least" and bound > greatest or at == "most" and bound < least:
            yield "interval", index, words + seen + ", so it is never kept"


def channel_oddities(config, shown):
    """Channels and detectors that only one of the two has."""
    has = [((kind, entry["number"]), kind, index) for kind in KINDS for index, entry in enumerate(config.get(kind, []))]
    has += [(("detector", entry[key]), "approach", index) for index, entry in enumerate(config.get("approach", []))
            for key in ("advance", "stop_bar") if key in entry]
    for channel, table, index in has:
        if channel not in shown.channels:
            yield table, index, "%s %d never acts in the log" % channel
    known = {channel for channel, _, _ in has}
    known |= {("ped_detector", number) for kind, number in known if kind == "ped"}
    known |= {("preempt_input", number) for kind, number in known if kind == "preempt"}
    lacking = {}
    for kind, number in sorted(shown.channels - known - {("coordination", 0)}):
        lacking.setdefault(kind, []).append(str(number))
    for kind, numbers in lacking.items():
        yield "top", 0, "the log has %s %s, the configuration hasn't" % (kind.replace("_", " "), ", ".join(numbers))
    if ("coordination", 0) in shown.channels and not config.get("coordination"):
        yield "top", 0, "the log has rows of the coordination (code 150), and coordination isn't true"


def log_oddities(text, paths):
    """What doesn't fit the rows of some files, which any export may be that examples/hours reads."""
    config, lines = read(text), lines_of(text.decode("utf-8").removeprefix("\ufeff"))
    start = logs.hour_of(config["start"])
    end = start + config["hours"] * logs.HOUR
    reader = logs.Reader(config["signal"])
    rows = sorted((row for path in paths for row in reader.rows(path)), key=lambda row: row.tenth)
    inside = [row for row in rows if start <= row.tenth < end]
    others = reader.left_out.get("other signal")
    if others:
        yield Oddity(lines.get(("top", 0, "signal")), "%d rows are of another signal than %s: %s" % (
            others[0], config["signal"], others[1]))
    if len(inside) < len(rows):
        yield Oddity(lines.get(("top", 0, "start")), "%d of %d rows lie outside the window, %s to %s" % (
            len(rows) - len(inside), len(rows), logs.show(start), logs.show(end)))
    hours = {row.tenth // logs.HOUR for row in inside}
    if inside and len(hours) < config["hours"]:
        yield Oddity(lines.get(("top", 0, "hours")), "%d of the %d hours of the window have no row" % (
            config["hours"] - len(hours), config["hours"]))
    if not inside:
        yield Oddity(lines.get(("top", 0, "start")), "no row lies in the window")
        return
    shown = Shown(inside)
    for find in (bound_oddities, channel_oddities):
        for table, index, words in find(config, shown):
            yield Oddity(lines.get((table, index)), words)
