"""What the recipes share: a session of sigaudit read back from its script and its answer. Not proved."""
import hashlib
import os
import re
import sys

import logs


class Section:
    """The answer to a line that asks: the line's words, the lines of the answer, what was known then."""

    def __init__(self, words, known):
        self.words, self.lines, self.known = words, [], known


class Session:
    """The configuration, script and answer; edits are (line number, words, answer) in order. What is known at the
    end, and at a section: the held hours, each with its file and rows, and the blanks."""

    def __init__(self, config, script, answer):
        self.config = logs.read_config(config)
        self.paths = config, script, answer
        self.start = logs.hour_of(self.config["start"])
        self.end = self.start + self.config["hours"] * logs.HOUR
        self.edits, self.sections = [], []
        try:
            with open(script, encoding="latin-1", newline="\n") as file:
                lines = {number: line.split() for number, line in enumerate(file.read().split("\n"), 1)}
            with open(answer, encoding="latin-1") as file:
                answers = file.read().split("\n")
        except OSError as error:
            sys.exit("%s: %s" % (error.filename, error.strerror))
        asked = {number for number, words in lines.items() if words and words[0][0] != "#"}
        held, blanks, answered = {}, [], set()
        for line in answers:
            found = re.match(r"(\d+) ([a-z]+)\b(.*)", line)
            if not found:
                if line and not self.sections:
                    sys.exit("%s: not an answer of a session: %s" % (answer, line[:60]))
                if line:
                    self.sections[-1].lines.append(line.split())
                continue
            number, what = int(found[1]), found[2]
            words = lines.get(number, [])
            if not words or (what not in ("ok", "refused") and words[0] != what):
                sys.exit("%s: line %d of %s doesn't ask for this: %s" % (answer, number, script, line[:60]))
            answered.add(number)
            if what in ("ok", "refused"):
                self.edits.append((number, words, what + found[3]))
                if what == "ok":
                    self.edit(words, found[3].split(), held, blanks)
            else:
                self.sections.append(Section(words, (dict(held), list(blanks))))
        if answered != asked or answers[-1]:
            sys.exit("%s: not the whole answer to %s" % (answer, script))
        self.known = held, blanks

    def edit(self, words, said, held, blanks):
        """Carries out an edit that the answer took: held has the file and the rows of each hour, by its number."""
        if words[0] in ("load", "replace"):
            held[int(words[1])] = words[2], int(said[1])
        elif words[0] == "withdraw":
            held.pop(int(words[1]), None)
        else:
            low, high = (logs.parse_stamp(word)[0] for word in words[1:3])
            if words[0] == "blank":
                blanks.append((low, high))
            else:
                blanks[:] = [part for a, b in blanks for part in ((a, min(b, low)), (max(a, high), b))
                             if part[0] < part[1]]

    def hour(self, number):
        return logs.show_hour(self.start + int(number) * logs.HOUR)

    def last(self, kind, number=None):
        """The last section of the kind, of this number or name where one is given, or None."""
        wanted = [] if number is None else [number]
        for section in reversed(self.sections):
            if section.words[0] == kind:
                rest = section.words[1:]
                if (rest if kind == "offsets" else [str(int(word)) for word in rest]) == wanted:
                    return section
        return None

    def by_hour(self, kind):
        """The last section of the kind for each hour, by the hour."""
        found = {int(s.words[1]): s for s in self.sections if s.words[0] == kind and len(s.words) == 2}
        return sorted(found.items())

    def unknown(self, section=None):
        """The stretches of the window that weren't known at a section, or at the end: from and up to, in order."""
        return merged(self.missing(section) + self.blanked(section))

    def missing(self, section=None):
        """The stretches of the window of which no file was held at a section, or at the end."""
        held = (section or self).known[0]
        return merged([(self.start + h * logs.HOUR, self.start + (h + 1) * logs.HOUR)
                       for h in range(self.config["hours"]) if h not in held])

    def blanked(self, section=None):
        """The stretches that were blanked at a section, or at the end."""
        return merged((section or self).known[1])

    def names(self):
        """The name of each rule by its number, by the audits of the answer."""
        found = {}
        for section in self.sections:
            for line in section.lines:
                if line[0] == "rule":
                    found[int(line[1])] = line[2:line.index("kept")]
        return found


def merged(stretches):
    """Stretches of time in order, those that touch or overlap as one."""
    found = []
    for low, high in sorted(stretches):
        if found and low <= found[-1][1]:
            found[-1] = found[-1][0], max(high, found[-1][1])
        else:
            found.append((low, high))
    return found


COLOURS = {"Term": "end of green", "YellowDone": "time after yellow", "Clear": "red clearance",
           "ClearDone": "time after red clearance", "DontWalk": "don't walk", "On": "time between on and green",
           "Clearance": "pedestrian clearance"}
CHANNELS = {"ped": "pedestrian signal", "preempt": "preempt service"}


def in_words(name):
    """The rule with this name (a list of words) as a sentence."""
    if not name:
        return ""
    if name[0] == "conflict":
        return ("phases %s and %s conflict and are not both served (on, in green, in yellow or in red clearance)"
                % tuple(name[1:3]))
    if name[0] == "companion":
        return "pedestrian signal %s shows walk only while phase %s is on or green" % (name[1], name[1])
    if name[0] == "parents":
        return "overlap %s is green only while one of its phases is served" % name[1]
    kind, number, colour, _, bound, tenths = name
    channel = CHANNELS.get(kind, kind)
    return "the %s of %s %s lasts at %s %.1f s" % (
        COLOURS.get(colour, colour.lower()), channel, number, bound, int(tenths) / 10)


def in_short(name):
    """The name of a rule with its time in seconds."""
    if len(name) == 6 and name[3] == "at":
        return "%s %.1f s" % (" ".join(name[:5]), int(name[5]) / 10)
    return " ".join(name)


def digest(path):
    """The SHA-256 of a file as it stands now, or - where it isn't there."""
    try:
        with open(path, "rb") as file:
            return hashlib.sha256(file.read()).hexdigest()
    except OSError:
        return "-"


def find(path, script):
    """A file that a script names: in the folder in which the program was called, else beside the script."""
    beside = os.path.join(os.path.dirname(script), path)
    return path if os.path.exists(path) else beside


def seconds(tenth):
    """A tenth as gnuplot's time axes have it: seconds since 1970."""
    epoch = logs.hour_of("1970-01-01T00")
    return "%d.%d" % divmod(tenth - epoch, 10)


def add_shown(parser):
    parser.add_argument("--from")
    parser.add_argument("--hours", type=int)


def shown(parser, given, session):
    """The stretch of time that a picture shows: that of the words, or the window. An hour is a number from 0, as in
    `verdicts 7`, or YYYY-MM-DDTHH; --from alone is that hour, --hours alone the first hours of the window."""
    start = getattr(given, "from")
    if start is None and given.hours is None:
        return session.start, session.end
    try:
        is_number = start is None or start.isdecimal()
        begin = session.start + int(start or 0) * logs.HOUR if is_number else logs.hour_of(start)
    except ValueError as error:
        parser.error("%s, or a number from 0" % error)
    end = begin + (1 if given.hours is None else given.hours) * logs.HOUR
    if not session.start <= begin < end <= session.end:
        parser.error("not in the window: hours 0 to %d are, from %s on" % (
            session.config["hours"] - 1, logs.show_hour(session.start)))
    return begin, end


def title(session, what, start, end):
    """The title of a picture: the signal, from when to when, and what is in it."""
    return 'set title "Signal %s, %s to %s%s" noenhanced' % (
        session.config["signal"].replace("\\", "\\\\"), logs.show(start, " ")[:16], logs.show(end, " ")[:16], what)


def axis(start, end):
    """The time axis of a picture, with the clock, and the day where there is more than one."""
    hours = (end - start) // logs.HOUR
    step = next((step for step in (0.5, 1, 2, 6, 12, 24) if hours / step <= 16), 48)
    return ["set xrange [%s:%s]" % (seconds(start), seconds(end)),
            'set xtics %d time format "%s"' % (step * 3600, "%m-%d\\n%H:%M" if hours > 24 else "%H:%M")]


# Stretches that aren't known are grey with an edge, so that one of seconds shows in a day.
UNKNOWN_KEY = ' NaN with boxes fillstyle solid border rgb "#909090" linecolor rgb "#e0e0e0" title "not known"'


def shades(session, section):
    """Shades the stretches that weren't known at a section."""
    return ['set object rectangle from %s, graph 0 to %s, graph 1 behind fillcolor rgb "#e0e0e0" fillstyle solid '
            'border rgb "#909090"' % (seconds(low), seconds(high)) for low, high in session.unknown(section)]


def block(name, rows):
    """A block of data; one that has no rows gets one that isn't drawn."""
    return ["$%s << EOD" % name] + (list(rows) or ["NaN NaN NaN NaN"]) + ["EOD"]


def gnuplot(text, out):
    """Draws: writes the text to the standard output where out is -, else has gnuplot make the SVG."""
    import shutil
    import subprocess
    if out == "-":
        sys.stdout.write(text)
        return
    if not shutil.which("gnuplot"):
        sys.exit("this picture wants gnuplot: install the package gnuplot-nox (Debian, Ubuntu: "
                 "apt-get install gnuplot-nox) or gnuplot (Fedora, Homebrew), version 5.2 or later")
    made = subprocess.run(["gnuplot"], input=text, text=True, capture_output=True)
    if made.returncode or not made.stdout:
        sys.exit("gnuplot failed with %d\n%s" % (made.returncode, made.stderr))
    with open(out, "w") as file:
        file.write(made.stdout)
