"""Tests of examples/explain, for bench/recipes: its figures once more, from the plain rows and from the proved program.

plain(..) reads the files of a session as text and finds begin and end of each broken line by going through the rows,
with no table of machines. by_program(..) makes small logs at random, with blanks and hours that aren't held, and wants
that the figures of each verdict show just the verdict that the program gives.
"""
import os
import random
import subprocess
import sys

HERE = os.path.dirname(os.path.dirname(os.path.abspath(__file__)))
sys.path[:0] = [os.path.join(HERE, "examples"), os.path.join(HERE, "bench")]
import answers
import explanations
import hostile_data
import logs

# The code with which a colour begins, and those with which it ends, in logs whose rows are all there.
BEGINS = {"Green": (1,), "Yellow": (8,), "Clear": (10,), "Red": (12,), "Walk": (21,), "Clearance": (22,),
          "DontWalk": (23,)}
ENDS = {"Green": (7, 8), "Yellow": (9, 10), "Clear": (11, 12), "Red": (0, 1), "Walk": (22, 23, 24),
        "Clearance": (21, 23, 24), "DontWalk": (21, 24)}
# So many random sessions are made, and so many verdicts of each are explained.
SESSIONS = 12
LINES = 400
CODES = {"phase": (0, 1, 7, 8, 9, 10, 11, 12), "ped": (21, 22, 23, 24)}


def plain_rows(paths):
    """All rows of some files as (stamp, code, parameter), in order."""
    found = []
    for path in paths:
        with open(path) as file:
            for line in file:
                fields = line.strip().split(",")
                if fields[1][:1].isdigit():
                    found.append((fields[1].replace(" ", "T"), int(fields[2]), int(fields[3])))
    return sorted(found, key=lambda row: row[0])


def tenths(text):
    """A stamp's tenths of its day, and more for days after the first of the month."""
    day, clock = text.split("T")
    hour, minute, second = clock.split(":")
    whole, tenth = second.split(".")
    return ((int(day[-2:]) * 24 + int(hour)) * 60 + int(minute)) * 600 + int(whole) * 10 + int(tenth)


def duration(rows, kind, number, colour, stamp):
    """How long a colour that ended at a stamp had lasted: back from there to the row with which it began."""
    own = [row for row in rows if row[2] == number and row[1] in CODES[kind]]
    last = max(i for i, row in enumerate(own) if row[0] == stamp and row[1] in ENDS[colour])
    ends = [i for i in range(last + 1) if own[i][0] == stamp and own[i][1] in ENDS[colour]]
    for begin in range(ends[0] - 1, -1, -1):
        if own[begin][1] in BEGINS[colour]:
            return tenths(stamp) - tenths(own[begin][0])
    return None


def both_served(rows, a, b, stamp):
    """For how many tenths around a stamp both phases were served, by the rows 0, 1, 11 and 12 alone."""
    on, since, spans = {a: False, b: False}, None, []
    for at, code, number in rows:
        if number not in on or code not in (0, 1, 11, 12):
            continue
        on[number] = code in (0, 1)
        if all(on.values()) and since is None:
            since = at
        elif not all(on.values()) and since is not None:
            spans.append((since, at))
            since = None
    return next(tenths(end) - tenths(begin) for begin, end in spans if begin <= stamp < end)


def plain(config, script, answer, paths):
    """Of each broken line the figures of explain, against the plain rows; how many agree, and those that don't."""
    rows, right, wrong = plain_rows(paths), 0, []
    for found in explanations.explain_lines(answers.Session(config, script, answer)):
        stamp = logs.show(found.stamp)
        if found.at:
            by_hand = duration(rows, found.name[0], int(found.name[1]), found.name[2], stamp)
        else:
            by_hand = both_served(rows, int(found.name[1]), int(found.name[2]), stamp)
        first, last = map(logs.show, found.stretch)
        in_stretch = [row for row in rows if first <= row[0] <= last]
        gaps = [tenths(after[0]) - tenths(before[0]) for before, after in zip(in_stretch, in_stretch[1:])]
        low, high = found.silence
        if (found.least, found.greatest) == (by_hand, by_hand) and high - low == max(gaps) and len(in_stretch) == len(
                found.rows()) and found.shown == "broken":
            right += 1
        else:
            wrong.append("%d %s: %s to %s, by hand %s" % (found.rule, stamp, found.least, found.greatest, by_hand))
    return right, wrong


def pack(program, name, signal, hour):
    """Packs an hour file, in its place."""
    words = [program, "--pack", name, "--signal=" + signal, "--hour", hour]
    made = subprocess.run(words, capture_output=True, check=True)
    with open(name, "wb") as file:
        file.write(made.stdout)


def random_session(seed, program):
    """A signal, of every third seed with floors, its hours and a script with blanks, and what the program answers; in
    the folder here. Whether it has floors."""
    rng = random.Random("explain %d" % seed)
    signal = hostile_data.Signal(rng)
    signal.floors = signal.floors if seed % 3 == 2 else {}
    rows, end = hostile_data.legal_rows(rng, signal), signal.hours * logs.HOUR
    lines = []
    for _ in range(rng.choice([0, 1, 3, 6])):
        low = rng.randrange(end)
        high = min(end, low + rng.choice([1, 2, 10, 300, 5000, 40000]))
        lines.append("blank %s %s" % (signal.stamp(low), signal.stamp(high)))
    for hour in range(signal.hours):
        here = hostile_data.of_hour(rows, hour)
        with open("h%d" % hour, "wb") as file:
            file.write(rng.choice([hostile_data.plain_log(signal, here), hostile_data.spelled_log(rng, signal, here)]))
        if rng.random() < 0.3:
            pack(program, "h%d" % hour, signal.name, signal.hour_word(hour))
        if rng.random() < 0.85:
            lines.append("load %d h%d" % (hour, hour))
    lines += ["audit"] + ["verdicts %d" % hour for hour in range(signal.hours)]
    for name, data in (("config.toml", signal.toml()), ("script.txt", ("\n".join(lines) + "\n").encode())):
        with open(name, "wb") as file:
            file.write(data)
    with open("answer.txt", "wb") as file:
        subprocess.run([program, "--config", "config.toml", "--script", "script.txt"], stdout=file, check=True)
    return bool(signal.floors)


def by_program(program, count):
    """Of each verdict of random sessions, kept ones too, the verdict that the figures show; how many, and the others.
    With floors, of which the figures don't know, they may leave more undecided."""
    counts, wrong = {}, []
    for seed in range(count):
        with_floors = random_session(seed, program)
        finder = explanations.Finder(answers.Session("config.toml", "script.txt", "answer.txt"))
        lines = list(finder.all_lines())
        for line, section in random.Random(seed).sample(lines, min(len(lines), LINES)):
            found = finder.explain(line, section)
            counts[line.verdict] = counts.get(line.verdict, 0) + 1
            if found.shown != line.verdict and not (with_floors and found.shown == "undecided"):
                wrong.append("%d: %s %d %s %s %s to %s, shows %s" % (
                    seed, line.verdict, line.rule, logs.show(line.stamp), " ".join(found.name), found.least,
                    found.greatest, found.shown))
    return counts, wrong


def explain(run):
    """What explain says of lines of the example, one by one, and all its broken lines once more from the plain rows."""
    folder = os.path.join(HERE, "examples", "intersection")
    paths = [os.path.join(folder, name) for name in ("config.toml", "audit.txt", "audit-out.txt")]
    words = [word for pair in zip(("--config", "--script", "--answer"), paths) for word in pair]
    out = ""
    for rule, stamp in ((34, "05:03:39.8"), (52, "06:53:30.7"), (47, "05:02:38.0"), (34, "05:03:39.9"),
                        (34, "05:03:27.8"), (34, "05:03:08.9"), (68, "05:00:00.0"), (34, "09:00:00.0"),
                        (99, "05:00:00.0")):
        out += run("explain", *words, "--rule", str(rule), "--at", "2024-03-04T" + stamp)
    out += run("explain", *words, "--rule", "60", "--rows") + run("explain", *words, "--rule", "1")
    right, wrong = plain(*paths, [os.path.join(folder, "h%02d.csv" % hour) for hour in (5, 6, 7)])
    return out + "from the plain rows: %d as explained, %d not\n%s" % (right, len(wrong), "".join(
        line + "\n" for line in wrong))


def explain_random(program):
    """Verdicts of random sessions, explained."""
    counts, wrong = by_program(os.path.abspath(program), SESSIONS)
    told = ", ".join("%s %d" % one for one in sorted(counts.items()))
    return "%s\nshown otherwise: %d\n%s" % (told, len(wrong), "".join(line + "\n" for line in wrong[:20]))
