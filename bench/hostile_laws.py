"""What the outputs of runs must keep, whatever the files hold; for bench/hostile. Most calls answer the faults."""
import re
from collections import Counter

FILE_TEXT = r"(too many rows|row \d+ (fields|wrong signal|stamp|outside hour|code|param)" \
            r"|packed (short|wrong signal|wrong hour|extra|row \d+))"
STAMP = r"\d{4}-\d\d-\d\dT\d\d:[0-5]\d:[0-5]\d\.\d"
REFUSAL = r"(bad line|out of window|missing file|file too long|already held|not held|empty range|too many held rows" \
          r"|too many blanks|contradiction " + STAMP + r" code \d+ param \d+|" + FILE_TEXT + ")"
HEAD = re.compile(r"(\d+) (ok (rows \d+ repeats \d+ )?moved \d+ \d+|refused " + REFUSAL
                  + r"|measures( \d+)?|audit|verdicts \d+|points \d+|offsets [A-Za-z0-9_-]+)")
NUMBERS = r"( \w+ (\d+(/\d+)?|-))+"
WINDOW = r" from " + STAMP + r" to " + STAMP
VERDICT = r"(kept|undecided) \d+ " + STAMP + r"|broken \d+ " + STAMP + WINDOW
BODY = {
    "measures": r"held \d+ rows \d+ known \d+|((phase|ped|preempt) \d+|coordination|approach [A-Za-z0-9_-]+)" + NUMBERS,
    "audit": r"rule \d+ (.* at (least|most) \d+|conflict \d+ \d+|companion \d+|parents \d+)"
             r" kept \d+ broken \d+ undecided \d+|" + VERDICT,
    "verdicts": VERDICT,
    "points": r"cycle " + STAMP + r" length \d+ green \d+ yellow \d+|point [A-Za-z0-9_-]+ \d+",
    "offsets": r"best (-|\d+ count \d+ of \d+)|shift \d+ count \d+",
}
BODY = {kind: re.compile(text) for kind, text in BODY.items()}
TABLE = "phase|ped|overlap|preempt|conflict|allow|floor|interval|approach"
KEY = r"(signal|start|hours|coordination|" + TABLE + r"|number|ring|side|parents|a|b|channel|colour|tenths|at_least" \
      r"|at_most|name|advance|stop_bar|high_num|high_den|\?)"
CONFIG = re.compile(r"config refused: (not toml|(missing|bad value|unknown|repeated|too many) (top|(" + TABLE
                    + r")\[\d+\])\." + KEY + r")\n")
USAGE = ("usage: sigaudit --config C --script S [--rule K --at T] | --count F --signal ID --hour H | --pack F --signal ID --hour H"
         " | --demo N\n")
COUNT = re.compile(r"rows \d+ repeats \d+\n(code \d+ [^\n]* \d+\n)*|refused " + FILE_TEXT + "\n")
REFUSED_FILE = re.compile("refused " + FILE_TEXT + "\n")


def answers(text):
    """The answer to each line by its number: the first line without the number, and the others."""
    found, number = {}, None
    for line in text.splitlines():
        word, _, rest = line.partition(" ")
        if word.isdigit():
            number = int(word)
            found[number] = [rest]
        else:
            found[number].append(line)
    return found


def lines_answered(script):
    """The numbers of the lines of a script that aren't skipped."""
    *whole, last = script.split(b"\n")
    lines = [line[:-1] if line.endswith(b"\r") else line for line in whole] + [last]
    return [number for number, line in enumerate(lines, 1) if line.strip(b" ") and line.strip(b" ")[:1] != b"#"]


def session_faults(script, status, text):
    """An answer to each line and to nothing else, in lines of docs/FORMATS.md, and the status by the refusals."""
    if status == 3:
        return [] if CONFIG.fullmatch(text) else ["no refusal of a configuration: " + text[:80]]
    if status not in (0, 1):
        return ["status %d" % status]
    if text and not text.endswith("\n"):
        return ["no line end at the end"]
    kind, numbers, refused = None, [], False
    for line in text.splitlines():
        if line[:1].isdigit():
            head = HEAD.fullmatch(line)
            if not head:
                return ["no line of an answer: " + line[:80]]
            numbers.append(int(head[1]))
            kind = head[2].split(" ")[0]
            refused = refused or kind == "refused"
        elif kind not in BODY or not BODY[kind].fullmatch(line):
            return ["no line of %s: %s" % (kind, line[:80])]
    faults = [] if refused == (status == 1) else ["status %d, refusals: %s" % (status, refused)]
    return faults if numbers == lines_answered(script) else faults + ["lines answered: %s" % numbers[:20]]


def pairs(line):
    """The words of a measure's line before its first number, and its values by name."""
    words = line.split(" ")
    start = {"held": 0, "coordination": 1}.get(words[0], 2)
    return " ".join(words[:start]), dict(zip(words[start::2], words[start + 1::2]))


def added(values):
    """What the total has of a key, by its values of all hours."""
    return str(sum(int(value) for value in values))


def total_faults(total, hours):
    """The measures of the window are the sums of its hours', a least the least of them, a greatest the greatest."""
    faults = []
    for lines in zip(total, *hours):
        name, wanted = pairs(lines[0])
        parts = [pairs(line)[1] for line in lines[1:]]
        for key, value in wanted.items():
            values = [part[key] for part in parts]
            if key in ("least", "greatest"):
                there = [int(one) for one in values if one != "-"]
                made = str((min if key == "least" else max)(there)) if there else "-"
                made = "0" if value == "0" and made == "-" else made
            elif key == "share":
                seen = int(wanted["arrivals"]) - int(wanted["unseen"])
                made = "%s/%d" % (wanted["green"], seen) if seen > 0 else "-"
            elif key == "platoon":
                made = value
            else:
                made = added(values)
            if made != value:
                faults.append("%s: %s is %s, and of the hours %s" % (name, key, value, made))
    return faults


def audit_faults(audit, verdicts):
    """The audit counts the verdicts of the hours, and lists those that aren't kept in their order."""
    lines = [line for hour in verdicts for line in hour]
    counts = Counter(tuple(line.split(" ")[1::-1]) for line in lines)
    counted = Counter()
    for line in audit:
        words = line.split(" ")
        if words[0] == "rule":
            counted.update({(words[1], words[i]): int(words[i + 1]) for i in (-6, -4, -2)})
    faults = [] if +counts == +counted else ["the audit counts other verdicts than the hours have"]
    listed, wanted = [line for line in audit if line[0] != "r"], [line for line in lines if line[0] != "k"]
    return faults if listed == wanted else faults + ["the audit lists other verdicts"]


def diagrams(points):
    """The cycles of a diagram: (length, green, yellow) and the arrivals (name, offset)."""
    found = []
    for line in points:
        words = line.split(" ")
        if words[0] == "cycle":
            found.append((int(words[3]), int(words[5]), int(words[7]), []))
        else:
            found[-1][3].append((words[1], int(words[2])))
    return found


def points_faults(points, measure):
    """A diagram has as many cycles as the measures count, of their length, and no point outside its cycle."""
    cycles, values = diagrams(points), pairs(measure)[1]
    made = [str(len(cycles)), str(sum(cycle[0] for cycle in cycles))]
    same = made == [values["cycles"], values["cycle_sum"]]
    faults = [] if same else ["%s cycles of %s tenths in the diagram" % tuple(made)]
    outside = [offset for length, _, _, arrivals in cycles for _, offset in arrivals if not 0 <= offset < length]
    return faults + ["a point outside its cycle: %d" % offset for offset in outside[:1]]


def shifts_faults(name, offsets, points):
    """The shifts of an approach are those that its diagram gives."""
    taken = [cycle for cycle in diagrams(points) if 0 < cycle[0] <= 3000 and cycle[1] <= cycle[2]]
    arrivals = [cycle[:3] + (offset,) for cycle in taken for who, offset in cycle[3] if who == name]
    longest = max([one[0] for one in arrivals], default=0)
    counts = [sum(green <= (offset + 10 * shift) % length < yellow for length, green, yellow, offset in arrivals)
              for shift in range((longest + 9) // 10)]
    best = max(counts, default=0)
    made = ["best %d count %d of %d" % (counts.index(best), best, len(arrivals)) if arrivals else "best -"]
    made += ["shift %d count %d" % one for one in enumerate(counts)]
    return [] if made == offsets else ["the shifts of %s differ from those of its diagram" % name]


def report_faults(signal, blocks):
    """One report, asked for by the lines of Signal.report, agrees with itself."""
    hours = signal.hours
    measures, each = blocks[0][1:], [block[1:] for block in blocks[1:hours + 1]]
    audit, verdicts = blocks[hours + 1][1:], [block[1:] for block in blocks[hours + 2:2 * hours + 2]]
    faults = total_faults(measures, each) + audit_faults(audit, verdicts)
    rest = blocks[2 * hours + 2:]
    points = dict(zip(signal.phases, (block[1:] for block in rest)))
    for n, lines in points.items():
        faults += points_faults(lines, next(line for line in measures if line.startswith("phase %d " % n)))
    for approach, block in zip([a for a in signal.approaches if a[2]], rest[len(points):]):
        faults += shifts_faults(approach[0], block[1:], points[approach[1]])
    return faults


def hour_answers(signal, blocks, hour):
    """The measures and the verdicts of an hour, these without their windows, in two such reports alike."""
    verdicts = [" ".join(line.split(" ")[:3]) for line in blocks[signal.hours + 2 + hour][1:]]
    return blocks[1 + hour][1:], verdicts


def moved_faults(signal, touched, head, before, after):
    """An edit moves the hours that it touches, a range of them, and leaves the answers of the hours that it doesn't move."""
    first, end = (int(word) for word in head.split(" ")[-2:])
    whole = first <= touched[0] and touched[1] <= end <= signal.hours
    faults = [] if whole else ["it touches the hours %d to %d, and %d to %d move" % (touched + (first, end))]
    others = [hour for hour in range(signal.hours) if not first <= hour < end]
    changed = [hour for hour in others if hour_answers(signal, before, hour) != hour_answers(signal, after, hour)]
    return faults + ["the answers of hour %d change, which doesn't move" % hour for hour in changed]


def broken_intervals(signal, blocks):
    """The broken verdicts of interval rules, which come before all other rules; without their windows."""
    audit = blocks[signal.hours + 1][1:]
    broken = [line for line in audit if line.startswith("broken")]
    broken = [line.split(" ") for line in broken]
    return Counter(" ".join(words[:3]) for words in broken if int(words[1]) <= len(signal.intervals))


def lost(fewer, more):
    """What is broken with less known and isn't with more."""
    return ["%s isn't broken where more is known" % line for line in (fewer - more)][:1]
