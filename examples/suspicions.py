"""Which verdicts of sigaudit stand on log that may lack rows: what `doubts` and `tables` share. Not proved.

    session = answers.Session(config, script, answer)
    suspicions = Suspicions("holes.txt", session.unknown())    # what examples/holes said of the same log
    doubt = suspicions.of(begin, end)                           # the strongest in a stretch: its first and last tenth
    print(doubt.grade, doubt.in_words())

    for line in doubted_lines(session, suspicions): ...         # each broken line, and each that is kept by little

A verdict is decided by a stretch of log; nothing outside matters, whatever rows are missing there. Within, a gap
between rows is a doubt as `holes` grades it, unless it is blanked: what was in a blank can't undo a verdict. Two doubts
are left then, both `weak`. A hole of which only the contradiction is certain may lie elsewhere between the two rows
that contradict. And where a blank leaves out the tenths of the rows at its ends, other rows of these may be lost, so
that a stretch which begins or ends there is off by a tenth. Where the log was too small to learn from, no gap has a
grade: a stretch there without another doubt is `unlearned` and not `solid`.
"""
import bisect
import collections
import dataclasses

import held
import logs
import machines

GRADES = ("certain", "sure", "likely", "weak", "unlearned", "solid")
NEAR = 10    # a line is kept by little where it is within a tenth of its bound


@dataclasses.dataclass(frozen=True)
class Doubt:
    """The strongest suspicion in a stretch: its grade, the logarithm of its odds (None where it has none), the row
    before the gap and the row after it, and why; None and an empty text where it is solid or unlearned."""

    grade: str
    odds: float | None = None
    begin: int | None = None
    end: int | None = None
    why: str = ""

    def rank(self):
        return GRADES.index(self.grade), -(self.odds or 0.0)

    def gap(self):
        return "%.1f %s %s" % ((self.end - self.begin) / 10, logs.show(self.begin), logs.show(self.end))

    def in_words(self):
        """As a table has it."""
        if self.begin is None:
            return self.grade
        return "%s: %.1f s from %s to %s, %s" % (
            self.grade, (self.end - self.begin) / 10, logs.show(self.begin), logs.show(self.end), self.why)


SOLID, UNLEARNED = Doubt("solid"), Doubt("unlearned")


@dataclasses.dataclass(frozen=True)
class Doubted:
    """A line of an answer with its doubt: the verdict, the rule's number, the stamp, the stretch that decides it."""

    verdict: str
    rule: int
    stamp: int
    begin: int
    end: int
    doubt: Doubt


def tenth(word):
    return logs.parse_stamp(word)[0]


class Suspicions:
    """The holes and suspects of a file of examples/holes, less what blanks cover (first tenth, first one not)."""

    def __init__(self, path, blanks=()):
        self.blanks = sorted(blanks)
        self.gaps, self.edges, self.holes, self.small = [], {}, [], []
        with open(path, encoding="latin-1") as file:
            for line in file:
                words = line.split()
                if words[:1] in (["hole"], ["suspect"]):
                    self.take(words)
                elif words[:1] == ["small"]:
                    self.small.append((tenth(words[1]), tenth(words[2])))
        self.gaps.sort(key=lambda doubt: doubt.begin)
        self.begins = [doubt.begin for doubt in self.gaps]
        self.longest = max((doubt.end - doubt.begin for doubt in self.gaps), default=0)

    def take(self, words):
        """A line `hole S FROM TO GRADE X WHY` or `suspect S FROM TO weak X WHY`."""
        begin, end, grade, why = tenth(words[2]), tenth(words[3]), words[4], " ".join(words[6:])
        odds = None if words[5] == "-" else float(words[5])
        if words[0] == "hole":
            self.holes.append((GRADES.index(grade), begin, end + 1))
        if not self.is_blanked(begin + 1, end):
            self.gaps.append(Doubt(grade, odds, begin, end, why))
        else:
            for edge in (begin, end):
                if not self.is_blanked(edge, edge + 1):
                    self.edges[edge] = Doubt("weak", None, begin, end, "at the end of a blanked hole")
        if grade == "certain":
            # WHY is `CHANNEL code C at STAMP after STAMP`: the hole is somewhere between the two.
            low, high = tenth(words[-1]), tenth(words[-3])
            for first, last in self.outside(low, high):
                self.gaps.append(Doubt("weak", None, first, last, "may hold the hole of " + why))

    def is_blanked(self, low, high):
        return any(a <= low and high <= b for a, b in self.blanks)

    def outside(self, low, high):
        """What no blank covers of a stretch between two rows."""
        for a, b in self.blanks:
            if low < b and a < high:
                if low < a:
                    yield low, a
                low = max(low, b)
        if low < high:
            yield low, high

    def of(self, begin, end):
        """The strongest doubt of a stretch, given by its first and its last tenth."""
        near = self.gaps[bisect.bisect_left(self.begins, begin - self.longest):bisect.bisect_left(self.begins, end)]
        found = [doubt for doubt in near if doubt.end > begin] + [
            self.edges[tenth] for tenth in (begin, end) if tenth in self.edges]
        is_learned = not any(low <= end and begin < high for low, high in self.small)
        return min(found, key=Doubt.rank, default=SOLID if is_learned else UNLEARNED)


def doubted_lines(session, suspicions):
    """Each broken line of the last audit (of the answers to `verdicts H` where there is none), and each that is kept by
    little by the answers to `verdicts H`."""
    audit = session.last("audit")
    by_hour = [section for _, section in session.by_hour("verdicts")]
    lines = [line for section in ([audit] if audit else by_hour) for line in section.lines]
    for words in dict.fromkeys(tuple(line) for line in lines if line[0] == "broken"):
        begin, end = tenth(words[4]), tenth(words[6])
        yield Doubted("broken", int(words[1]), tenth(words[2]), begin, end, suspicions.of(begin, end))
    kept = {(int(line[1]), line[2]) for section in by_hour for line in section.lines if line[0] == "kept"}
    for rule, begin, end in kept_by_little(session) if kept else ():
        if (rule, logs.show(end)) in kept:
            yield Doubted("kept", rule, end, begin, end, suspicions.of(begin, end))


def kept_by_little(session):
    """The times of a colour within a tenth of an interval's bound, on its right side: (rule, begin, end)."""
    intervals = collections.defaultdict(list)
    for rule, entry in enumerate(session.config.get("interval", []), 1):
        kind, number = entry["channel"].split(" ")
        intervals[kind, int(number), entry["colour"]].append((rule, entry.get("at_least"), entry.get("at_most")))
    for kind, number, colour, begin, end in colours(session, {key[:2] for key in intervals}):
        for rule, least, most in intervals.get((kind, number, colour), ()):
            time = end - begin
            if least is not None and least <= time <= least + least // NEAR:
                yield rule, begin, end
            if most is not None and most - most // NEAR <= time <= most:
                yield rule, begin, end


def colours(session, channels):
    """The times that a channel had a colour, by its known rows: (kind, number, colour, begin, end), by the hour."""
    log = held.HeldLog(session)
    machine = {channel: machines.Machine(channel[0]) for channel in channels}
    states, unknown = {}, session.unknown()
    for number in range(session.config["hours"]):
        for channel in sorted(channels):
            for row in log.hour(number).by_channel.get(channel, ()):
                state, since = states.get(channel, (machine[channel].any, row.tenth))
                place = bisect.bisect_right(unknown, (since, float("inf")))
                if place < len(unknown) and unknown[place][0] < row.tenth:
                    state = machine[channel].any
                after = machine[channel].after_row(state, row.tenth, row.code) or machine[channel].any
                if len(state) == 1:
                    (colour, begin), = state.items()
                    if colour not in after and begin > 0:
                        yield *channel, colour, begin, row.tenth
                states[channel] = after, row.tenth


def blanked(session, suspicions=None):
    """The tenths of the held hours, those of them that are blanked, and these by the strongest grade of the hole that
    they were blanked for; `by hand` for others."""
    held_hours, blanks = session.known
    inside = [(max(low, session.start + hour * logs.HOUR), min(high, session.start + (hour + 1) * logs.HOUR))
              for hour in held_hours for low, high in blanks]
    left, by_grade = merged(span for span in inside if span[0] < span[1]), {}
    whole = length(left)
    for rank, low, high in sorted(suspicions.holes) if suspicions else ():
        rest = [part for a, b in left for part in ((a, min(b, low)), (max(a, high), b)) if part[0] < part[1]]
        if length(rest) < length(left):
            by_grade[GRADES[rank]] = by_grade.get(GRADES[rank], 0) + length(left) - length(rest)
        left = rest
    if suspicions and left:
        by_grade["by hand"] = length(left)
    return len(held_hours) * logs.HOUR, whole, by_grade


def merged(spans):
    found = []
    for low, high in sorted(spans):
        if found and low <= found[-1][1]:
            found[-1] = found[-1][0], max(high, found[-1][1])
        else:
            found.append((low, high))
    return found


def length(spans):
    return sum(high - low for low, high in spans)


def share_in_words(session, suspicions):
    """What share of the held hours was blanked, and by which grades."""
    whole, count, by_grade = blanked(session, suspicions)
    told = ", ".join("%s %.1f" % (grade, tenths / 10) for grade, tenths in by_grade.items())
    return "blanked %.1f of %.1f s, %.2f %%%s" % (
        count / 10, whole / 10, 100 * count / max(1, whole), ": " + told if told else "")


def summary(lines):
    """What is to be told of the broken lines: how many, and of them by grade."""
    count = collections.Counter(line.doubt.grade for line in lines if line.verdict == "broken")
    told = ["%d %s" % (count[grade], words) for grade, words in (
        ("solid", "on solid log"), ("unlearned", "on log too small to learn from"), ("weak", "weak"),
        ("likely", "likely a hole"), ("sure", "surely a hole"), ("certain", "over a certain hole")) if count[grade] or grade == "solid"]
    return "broken %d, of them %s" % (sum(count.values()), ", ".join(told))
