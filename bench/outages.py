"""Whole days of a log, outages drawn into them by seed, and how well the verb holes finds them. Of bench/holes.

A day is a list of rows (tenth, code, parameter) in order. Nothing here is proved.
"""
import bisect
import io
import os
import random
import subprocess
import sys
import tarfile

HERE = os.path.dirname(os.path.dirname(os.path.abspath(__file__)))
TOOLS = os.path.join(HERE, "sigaudit-tools")
sys.path.insert(0, os.path.join(HERE, "python"))
import simulation
from sigaudit_tools.times import DAY as TENTHS_OF_DAY
from sigaudit_tools.times import HOUR, hour_of, stamp_of, tenth_of_stamp

# The lengths by which is counted, and the parts of the day, in tenths and hours.
LENGTHS = ((50, 150), (150, 600), (600, 3000), (3000, 18001))
DAY = range(5, 22)
A_DAY = 12               # outages that are drawn into a day
APART = 1200             # tenths between two of them: two nearer ones are one to who looks
BATCH = 10, 1000         # rows that a lost batch has


class Day:
    """A day of a signal: its name, signal, first tenth and rows; its configuration, where that isn't the example's."""

    config = None

    def __init__(self, name, signal, rows, config=None):
        self.name, self.signal, self.rows, self.config = name, signal, rows, config
        self.start = rows[0][0] // TENTHS_OF_DAY * TENTHS_OF_DAY

    def of_rows(self, rows):
        """The same day with other rows."""
        other = Day.__new__(Day)
        other.name, other.signal, other.start, other.rows, other.config = (
            self.name, self.signal, self.start, rows, self.config)
        return other

    def hours(self):
        """The rows by hour, those without one too, from the first to the last that has any."""
        found = {}
        first, last = self.rows[0][0] // HOUR, self.rows[-1][0] // HOUR
        for hour in range(first, last + 1):
            found[hour * HOUR] = []
        for row in self.rows:
            found[row[0] // HOUR * HOUR].append(row)
        return found

    def write(self, folder):
        """An hour a file; their names."""
        names = []
        for start, rows in self.hours().items():
            names.append("%s_%s.csv" % (self.signal, hour_of(start)))
            with open(os.path.join(folder, names[-1]), "w") as file:
                file.write("SignalID,Timestamp,EventCode,EventParam\n")
                file.writelines("%s,%s,%d,%d\n" % (self.signal, stamp_of(tenth, " "), code, param)
                                for tenth, code, param in rows)
        return names


def read_day(path):
    """The day of an archive with one CSV file an hour."""
    rows = []
    with tarfile.open(path) as archive:
        for member in sorted(archive.getmembers(), key=lambda member: member.name):
            if member.name.endswith(".csv"):
                text = io.TextIOWrapper(archive.extractfile(member), encoding="utf-8").read()
                for line in text.splitlines()[1:]:
                    signal, stamp, code, param = line.split(",")
                    rows.append((tenth_of_stamp(stamp), int(code), int(param)))
    rows.sort(key=lambda row: row[0])
    return Day(os.path.basename(path).split(".")[0], signal, rows)


def made_day(seed, count=1):
    """A day of a signal that bench/simulation.py makes, or several."""
    made = simulation.Signal(seed)
    return Day(made.name, made.number, made.days(count), made.config(24 * count))


class Outage:
    """Lost rows: the row before and the one after them, the tenths that went, and how long it was."""

    def __init__(self, kind, begin, end, lost, length):
        self.kind, self.begin, self.end, self.lost, self.length = kind, begin, end, lost, length

    def size(self):
        return next(i for i, (_, longest) in enumerate(LENGTHS) if self.length < longest)

    def by_day(self):
        return self.begin // HOUR % 24 in DAY

    def blank(self):
        """The tenths from the row before to the one after, and those of these two where they lost a row."""
        return min(self.begin + 1, self.lost[0]), max(self.end, self.lost[-1] + 1)

    def is_found(self, blanks):
        """Whether each lost tenth that lies in the gap is blanked."""
        inside = [tenth for tenth in self.lost if self.begin < tenth < self.end]
        return bool(inside) and all(any(low <= tenth < high for low, high in blanks) for tenth in inside)


def draw(day, seed, count=A_DAY):
    """The day with outages, and these: half of them stretches, a quarter tails of files, a quarter batches of rows."""
    rng, taken = random.Random("%s %s" % (day.name, seed)), []
    tenths = [row[0] for row in day.rows]
    shortest, longest = LENGTHS[0][0], LENGTHS[-1][1] - 1
    while len(taken) < count:
        kind = rng.choice(("stretch", "stretch", "tail", "batch"))
        length = int(shortest * (longest / shortest) ** rng.random())
        if kind == "batch":
            first = rng.randrange(len(tenths))
            last = first + int(BATCH[0] * (BATCH[1] / BATCH[0]) ** rng.random())
            length = tenths[min(last, len(tenths)) - 1] - tenths[first] + 1
        else:
            low = rng.randrange(tenths[0], tenths[-1])
            if kind == "tail":
                low = low // HOUR * HOUR + HOUR - length
            first, last = bisect.bisect_left(tenths, low), bisect.bisect_left(tenths, low + length)
        if not 0 < first < last < len(tenths) or not shortest <= length <= longest:
            continue
        if all(tenths[last] + APART < tenths[a - 1] or tenths[b] + APART < tenths[first - 1] for _, a, b, _ in taken):
            taken.append((kind, first, last, length))
    outages = [Outage(kind, tenths[a - 1], tenths[b], tenths[a:b], length) for kind, a, b, length in sorted(
        taken, key=lambda entry: entry[1])]
    gone = {place for _, a, b, _ in taken for place in range(a, b)}
    return day.of_rows([row for place, row in enumerate(day.rows) if place not in gone]), outages


def run(words, folder):
    """The output of a command, its status, and the seconds of processor time that it took."""
    before = os.times()
    made = subprocess.run(words, cwd=folder, stdin=subprocess.DEVNULL, capture_output=True, text=True)
    after = os.times()
    if made.stderr:
        print("%s: %s" % (words[0], made.stderr.strip()), file=sys.stderr)
    return made.stdout, made.returncode, sum(after[2:4]) - sum(before[2:4])


def put(folder, name, text):
    with open(os.path.join(folder, name), "w") as file:
        file.write(text)


def blanks_of(text):
    return [(tenth_of_stamp(words[1]), tenth_of_stamp(words[2])) for words in map(str.split, text.splitlines())
            if words[:1] == ["blank"]]


def seconds_outside(blanks, outages):
    """The blanked seconds that no outage covers."""
    total = 0
    for low, high in blanks:
        total += high - low - sum(max(0, min(high, o.end + 1) - max(low, o.begin)) for o in outages)
    return total / 10


def idle(blanks, outages):
    """The blanks that have no lost row."""
    return [(low, high) for low, high in blanks if not any(low <= tenth < high for o in outages for tenth in o.lost)]


def config_text(day, text):
    """The configuration of the example, for the day's window."""
    first, last = day.rows[0][0] // HOUR, day.rows[-1][0] // HOUR
    lines = ['signal = "%s"' % day.signal, 'start = "%s"' % hour_of(first * HOUR),
             "hours = %d" % (last - first + 1)]
    return "\n".join(lines + text.splitlines()[3:]) + "\n"


def audit(program, folder, names, blanks):
    """The audit of the files with these blanks: the broken lines, the count of undecided ones, the hours refused."""
    script = ["blank %s %s" % (stamp_of(low), stamp_of(high)) for low, high in blanks]
    script += ["load %d %s" % load for load in enumerate(names)] + ["audit"]
    put(folder, "script.txt", "\n".join(script) + "\n")
    answer, _, _ = run([program, "--config", "config.toml", "--script", "script.txt"], folder)
    put(folder, "answer.txt", answer)
    lines = answer.splitlines()
    broken = [line for line in lines if line.startswith("broken ")]
    return broken, sum(line.startswith("undecided ") for line in lines), sum(" refused " in line for line in lines)
