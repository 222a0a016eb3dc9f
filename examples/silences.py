"""How unusual the silence of one channel is while the rest of the signal goes on. Not proved.

A channel is a detector, a pedestrian input, the coordination, or several detectors or inputs taken as one. Its
silences run from one of its rows to the next. Each is measured by what the rest of the signal did meanwhile, its
witnesses: actuations of another detector or of all, or calls, greens and walks of a phase. By how many rows the channel
had for each of theirs from two hours before the silence to two hours after, what they saw is taken at the usual pace:
as much as it would be if that share were always the mean one. So silences of the busiest hour and of the early morning
compare. The log itself says how much is usual in a silence of the channel. Of those that see the most, the forty
largest or one in fifty, the chance falls with each further event by a constant factor (a geometric tail); the factor is
estimated from them and held for as uncertain as so few make it. The three largest of a day count only as no smaller
than the next, since they may be faults themselves, and the silence that is judged is left out. Clock time counts for
nothing: at night, and where the whole log is lost, the witnesses stand still too.

The witnesses of a channel are three of the other detectors and inputs; where most detectors are of the channel itself,
of what the controller did. The second best of them counts, so that no fault of one detector accuses another; or the
one that sees a silence soonest by the whole log, say another loop of the lane, which is believed to have seen no more
than the pace of one of the others bears out. What is itself silent for a cause of its own tells nothing.

Some calls, greens and walks come only as the channel goes on: the log has no more silences in which one came
unanswered than may be faults, and ten times as many were it left to chance, had each come ten minutes to half an hour
later. So where the rows of a detector are lost and its calls and services aren't, each adds to the score the logarithm
of how much rarer than by chance such a one came unanswered, whatever other detectors see. So does each force-off for
the coordination.

The score of a silence is the decimal logarithm of the days that this signal would have to run until chance alone made
such a one on any of its channels: 1 is ten days, 3 a thousand. What chance may do is shared out alike among the kinds
of channels, one detector, several, one input, several, the coordination, and then among those of a kind: all inputs
together fail no more rarely than a detector, and are one channel beside many.

A detector chatters where in a minute, or in ten as a share of all, it goes on far more often than in the fullest
minutes of other hours, or far more often within half a second of going off. Hours are left out of what is usual only
where each of them is told by the others.
"""
import array
import bisect
import heapq
import itertools
import math
import statistics

import logs

DAY = 24 * logs.HOUR
LEAST = 3000         # tenths: a shorter silence isn't judged; queues stand on a loop for minutes
PAUSE = 1200         # tenths: where the whole log is silent for longer than a cycle, no silence goes on over it
WIDTH = 2 * logs.HOUR    # what is usual at a time is what is so from two hours before to two hours after
FEW = 20             # rows: with fewer in that time it is looked for in twice as long
END = "end"          # where a stretch of the log ends
BOTH = "on and off"  # with one stamp
EVERY = "every"      # mark of a row
MEASURED = 3         # times as many silences as the tail holds are measured
MOST = 20            # natural logarithm: so much more than usual is never seen
ENOUGH = 60          # silences: with fewer, a tail of twenty would be more than a third of all
TOP, SHARE = 40, 50  # silences in the tail: forty a day, as far as a third of all goes, or one in fifty
FAULTS = 3           # silences a day: so many of a channel may be faults
CERTAINTY = 40       # silences: that a tail is geometric is no surer than so many make it, however many there are
INPUTS = ("detector", "detectors", "ped_detector", "ped_detectors")
CONTROLLER = ("call", "ped_call", "ped_calls", "green", "greens", "walk")
WITNESSES = 3        # of a channel: where one of three is faulty, there is still one and a second
ANSWERED = ("call", "ped_call", "ped_calls", "green", "walk")
CAUSE = 10           # times as many would be unanswered by chance: a call that is worth less has other causes beside
LATER = 6000, 18000  # tenths: what chance answers is tried so much later, at the same time of day all the same
STRIDE = 7417        # tenths: the delay from one to the next grows by it in this span, so that no cycle is kept
SAMPLE = 200         # calls of a log, or up to twice as many: by so many it is tried
GRADES = (("sure", 3.0), ("likely", 1.0), ("weak", 0.5))
SPARE = 1.5          # of the score: what a silence may lack and still belong to a common one
COMMON = 0.5         # of their time: what two silences share that are told as one
STEP = 600           # tenths: the mesh of time in which witnesses are chosen and chances told
PATIENCE = 240       # steps: a silence that isn't seen by then isn't seen

COORDINATION = (131, 132, 150, 151, 152)
FLASH, NO_FLASH = 173, 2
CLOCKS = {82: "detector", 90: "ped_detector", 43: "call", 45: "ped_call", 1: "green", 21: "walk", 6: "force_off"}
TOTALS = {82: "detectors", 90: "ped_detectors", 45: "ped_calls", 1: "greens"}
SWITCHES = {81: "detector", 82: "detector", 89: "ped_detector", 90: "ped_detector"}
STATES = {81: "off", 82: "on", 89: "off", 90: "on"}

MINUTE = 600
TOO_MANY = 60        # actuations in a minute: vehicles that follow one another take 1.5 s or more each
BOUNCE = 5           # tenths: vehicles don't follow one another that closely over one loop
AROUND = 50          # actuations, added to those of the others, so that a share by night isn't one of five
FAULTY_HOURS = 4     # a day: so many may be faulty, and the fullest of twice as many others tell what is usual
APART = 1200         # tenths: chatter goes on over pauses of two minutes


def grade_of(score):
    """The grade of a score, or None where it isn't told."""
    return next((grade for grade, least in GRADES if score >= least), None)


class Log:
    """The rows of a signal as arrays in order, those that stand twice at one tenth once, and its hours."""

    def __init__(self):
        self.tenths, self.keys, self.hours = array.array("q"), array.array("i"), set()

    @classmethod
    def of_rows(cls, rows, hours=()):
        """Of rows of logs.Reader; hours are those that are known to be there without a row."""
        made = cls()
        made.hours.update(hours)
        tenth, seen = None, set()
        for row in sorted(rows, key=logs.Row.moment):
            if row.tenth != tenth:
                tenth, seen = row.tenth, set()
                made.hours.add(tenth // logs.HOUR * logs.HOUR)
            key = row.code << 16 | row.param
            if key not in seen:
                seen.add(key)
                made.tenths.append(tenth)
                made.keys.append(key)
        return made

    def stretches(self):
        """From where to where the log goes on: its hours that follow one another, cut at each pause."""
        hours = []
        for hour in sorted(self.hours):
            if hours and hours[-1][1] == hour:
                hours[-1][1] += logs.HOUR
            else:
                hours.append([hour, hour + logs.HOUR])
        found = []
        for begin, end in hours:
            rows = self.tenths[bisect.bisect_left(self.tenths, begin):bisect.bisect_left(self.tenths, end)]
            for before, after in zip(rows, rows[1:]):
                if after - before >= PAUSE:
                    found.append((begin, before + 1))
                    begin = after
            found.append((begin, end))
        return found

    def days(self):
        return len(self.hours) / 24

    def flashes(self):
        """From where to where the signal flashes (code 173; 2 says that it doesn't): the coordination stands still."""
        found, begin = [], None
        for tenth, key in zip(self.tenths, self.keys):
            if key >> 16 == FLASH:
                if begin is not None:
                    found.append((begin, tenth))
                begin = None if key & 65535 == NO_FLASH else tenth
        return found + ([(begin, max(self.hours) + logs.HOUR)] if begin is not None else [])

    def numbers(self, kind):
        """The numbers of the detectors, or of the pedestrian inputs, of which there is a row."""
        return tuple(sorted({key & 65535 for key in set(self.keys) if SWITCHES.get(key >> 16) == kind}))

    def faults_logged(self, detectors, begin, end):
        """The codes 84 to 88 that the log has of some detectors between two tenths."""
        rows = range(bisect.bisect_left(self.tenths, begin), bisect.bisect_left(self.tenths, end))
        return sorted({self.keys[row] >> 16 for row in rows
                       if 84 <= self.keys[row] >> 16 <= 88 and self.keys[row] & 65535 in detectors})


class Usual:
    """The silences of a channel after one kind of row: how many, and how many of them saw how much of each witness."""

    __slots__ = ("count", "seen", "in_order", "top", "faults", "tests", "chosen", "needs")

    def __init__(self, size, count, days):
        self.count, self.seen, self.in_order = count, [{} for _ in range(size)], {}
        self.top = max(ENOUGH // 3, min(max(TOP, round(TOP * days)), count // 3), count // SHARE)
        self.faults = max(1, min(round(FAULTS * days), FAULTS * count // ENOUGH))
        self.tests, self.chosen, self.needs = 0.0, [], {}

    def add(self, seen):
        for witness, amount in seen:
            if amount:
                self.seen[witness][amount] = self.seen[witness].get(amount, 0) + 1

    def tail(self, witness, without=None):
        """Where the tail begins, how many are in it, how it falls with each event, and from how many that is learned.

        The largest, so many as may be faults, count as the next one; a silence that saw `without` is left out.
        """
        if witness not in self.in_order:
            self.in_order[witness] = sorted(self.seen[witness].items(), reverse=True)
        amounts = self.in_order[witness]
        count = self.count - (without is not None)
        edge, reached = 0, 0
        for amount, times in amounts:
            reached += times - (amount == without)
            if reached >= self.top:
                edge = amount
                break
        if edge == 0:
            reached = count
        spare = min(self.faults, reached // 2)
        excess, largest, left = 0, edge, spare
        for amount, times in amounts:
            if amount <= edge:
                break
            times -= amount == without
            hidden = min(left, times)
            left, times = left - hidden, times - hidden
            if times and largest == edge:
                largest = amount
            excess += times * (amount - edge)
        excess += spare * (largest - edge)
        learned = reached - spare + 1
        mean = (excess + 1) / learned
        return edge, reached, math.log1p(1 / mean), min(learned, CERTAINTY)

    def expected(self, witness, amount, without=None):
        """The natural logarithm of how many silences of the log would see so much by chance.

        With the factor known it would fall by `fall` for each event; it is known from `learned` silences alone.
        """
        edge, reached, fall, learned = self.tail(witness, without)
        if amount <= edge:
            return math.log(self.count + 1)
        return math.log(reached + 1) - learned * math.log1p((amount - edge) * fall / learned)

    def need(self, witness, expected):
        """The least that a witness has to see so that no more than expected (its logarithm) are."""
        edge, reached, fall, learned = self.tail(witness)
        more = learned * math.expm1((math.log(reached + 1) - expected) / learned) / fall
        return edge + max(1, math.ceil(more))


class Silence:
    """A silence: its channel, the rows that it follows and that end it, its score and the witness that counts."""

    __slots__ = ("watch", "channel", "mark", "begin", "end", "next", "score", "witness")

    def __init__(self, watch, channel, mark, begin, end, following):
        self.watch, self.channel, self.mark, self.begin, self.end = watch, channel, mark, begin, end
        self.next, self.score, self.witness = following, -math.inf, None


class Track:
    """The rows of a channel in order, each with its mark.

    A stretch of the log begins with the mark None and ends with END; None is also the mark of a row that tells nothing.
    rows are the tenths of the others.
    """

    __slots__ = ("tenths", "marks", "rows")

    def __init__(self):
        self.tenths, self.marks, self.rows = array.array("q"), [], array.array("q")

    def add(self, tenth, mark):
        """The next row. Of an on and an off with one stamp, as in batches, the state isn't known."""
        if mark not in (None, END):
            self.rows.append(tenth)
        if self.tenths and self.tenths[-1] == tenth and {self.marks[-1], mark} == {"on", "off"}:
            self.marks[-1] = BOTH
        else:
            self.tenths.append(tenth)
            self.marks.append(mark)

    def silences(self):
        """Each silence: the mark of the row before it, from, to, the mark of the row that ends it or END."""
        for mark, begin, following, end in zip(self.marks, self.tenths, self.marks[1:], self.tenths[1:]):
            if mark != END and following is not None:
                yield mark, begin, end, following

    def count(self, begin, end):
        """The rows of the channel between two tenths."""
        return max(0, bisect.bisect_left(self.rows, end) - bisect.bisect_left(self.rows, begin))

    def span(self, begin, end):
        """A silence: from, to, how far around it is looked for what is usual, and the rows of the channel there."""
        rows, width = self.rows, WIDTH
        last, first = bisect.bisect_right(rows, begin), bisect.bisect_left(rows, end)
        while True:
            count = last - bisect.bisect_left(rows, begin - width) + bisect.bisect_left(rows, end + width) - first
            if count >= FEW or width >= DAY:
                return begin, end, width, max(1, count)
            width *= 2


class Watch:
    """The channels of a log with their silences, and what is learned of them.

    groups are channels of several numbers, as ("detector", (1, 2, 3, 4)). hush says which rows tell nothing, those of a
    chattering detector: {detector: [(from, to), ..]}.
    """

    def __init__(self, log, groups=(), hush=None):
        self.log, self.hush = log, hush or {}
        self.days, self.spans, self.flashes = log.days(), log.stretches(), log.flashes()
        self.witnesses, self.moments = self.all_witnesses()
        self.mesh = array.array("q", (tenth for begin, end in self.spans for tenth in range(begin, end, STEP)))
        self.columns = [array.array("l", (bisect.bisect_left(moments, tenth) for tenth in self.mesh))
                        for moments in self.moments]
        self.channels, self.tracks, self.answers, self.moved = [], [], [], {}
        self.learned, self.silences, self.open = {}, [], []
        self.dark = {witness: self.flashes[:] for witness, (kind, _) in enumerate(self.witnesses) if kind not in INPUTS}
        present = {channel_of(key >> 16, key & 65535) for key in set(log.keys)} - {None}
        self.add(sorted(present) + list(groups))

    def hushed(self, key, tenth):
        return SWITCHES.get(key >> 16) == "detector" and any(
            begin <= tenth < end for begin, end in self.hush.get(key & 65535, ()))

    def all_witnesses(self):
        """The witnesses, and the tenths at which each saw something."""
        plan, found = {}, {}
        for key in set(self.log.keys):
            code, number = key >> 16, key & 65535
            named = ((CLOCKS.get(code), number), (TOTALS.get(code), None))
            plan[key] = [found.setdefault(witness, array.array("q")) for witness in named if witness[0]]
        for tenth, key in zip(self.log.tenths, self.log.keys):
            if plan[key] and not (self.hush and self.hushed(key, tenth)):
                for moments in plan[key]:
                    moments.append(tenth)
        witnesses = sorted(found, key=lambda witness: (witness[1] is None, witness[0], witness[1]))
        return witnesses, [found[witness] for witness in witnesses]

    def add(self, channels):
        """Takes in channels: their rows, their silences, what is usual for them, and the witnesses that count."""
        first = len(self.channels)
        self.channels += channels
        self.tracks += self.read(channels)
        for which in range(first, len(self.channels)):
            self.answers.append(self.all_answers(which))
            self.learn(which)
        new = [pair for pair in self.learned if pair[0] >= first]
        kinds = {}
        for which, _ in self.learned:
            kinds[self.kind(which)] = kinds.get(self.kind(which), 0) + 1
        for which, mark in new:
            usual = self.learned[which, mark]
            usual.tests = math.log10(len(kinds) * kinds[self.kind(which)])
            if any(usual.seen):
                self.choose(which, usual)

    def kind(self, which):
        kind, numbers = self.channels[which]
        return kind, len(numbers) > 1

    def read(self, channels):
        """The tracks of channels."""
        tracks = [Track() for _ in channels]
        plan = {key: [(track, mark) for track, channel in zip(tracks, channels)
                      for mark in [mark_in(channel, key >> 16, key & 65535)] if mark]
                for key in set(self.log.keys)}
        tenths, keys = self.log.tenths, self.log.keys
        for begin, end in self.spans:
            for track in tracks:
                track.add(begin, None)
            for row in range(bisect.bisect_left(tenths, begin), bisect.bisect_left(tenths, end)):
                for track, mark in plan[keys[row]]:
                    hushed = self.hush and self.hushed(keys[row], tenths[row])
                    track.add(tenths[row], None if hushed else mark)
            for track in tracks:
                track.add(end, END)
        return tracks

    def learn(self, which):
        """Keeps the long silences of a channel, and learns those after each kind of row that is there often enough.

        Of the coordination, which is silent for hours after a rare row, answers alone are asked after such a one.
        """
        channel, track = self.channels[which], self.tracks[which]
        counted = {mark: [] for mark in track.marks if mark not in (None, END)}
        for mark, begin, end, following in track.silences():
            known = mark is not None and following != END
            if known:
                counted[mark].append((begin, end))
            if end - begin >= LEAST:
                kept = self.silences if known else self.open
                kept.append(Silence(self, channel, mark, begin, end, None if following == END else following))
        together = [span for spans in counted.values() for span in spans]
        for mark, spans in counted.items():
            if len(spans) >= ENOUGH:
                self.learned[which, mark] = self.usual(which, spans)
            elif channel[0] == "coordination" and len(together) >= ENOUGH and any(self.answers[which].values()):
                self.learned[which, mark] = Usual(len(self.witnesses), len(together), self.days)

    def usual(self, which, spans):
        """What is usual in such silences. The longest for their time of day are measured, more than the tail holds."""
        usual, lengths = Usual(len(self.witnesses), len(spans), self.days), []
        others = self.others(self.channels[which])
        for each in spans:
            begin, end, width, rows = span = self.tracks[which].span(*each)
            lengths.append((rows * (end - begin) / width, span))
        for _, span in heapq.nlargest(MEASURED * usual.top, lengths):
            usual.add((witness, self.amount(which, witness, span)) for witness in others)
        return usual

    def amount(self, which, witness, span, until=None):
        """What a witness saw in a silence, or in the part of it before a tenth, at the pace of the whole log.

        That is, as much as it would be if the two always kept the pace that they have in the mean.
        """
        begin, end, width, rows = span
        moments = self.moments[witness]
        first = bisect.bisect_right(moments, begin)
        seen = bisect.bisect_left(moments, end if until is None else until) - first
        if seen <= 0:
            return 0
        others = first - bisect.bisect_left(moments, begin - width) + (
            bisect.bisect_left(moments, end + width) - bisect.bisect_left(moments, end))
        rows -= sum(self.tracks[which].count(max(begin - width, dark), min(end + width, light))
                    for dark, light in self.dark.get(witness, ()))
        return round(self.pace(which, witness) * max(0, rows) * math.log1p(seen / max(1, others)))

    def pace(self, which, witness):
        """How often a witness sees something for each row of a channel."""
        return len(self.moments[witness]) / len(self.tracks[which].rows)

    def choose(self, which, usual):
        """The witnesses for silences of a channel, and what each has to see for a likely one."""
        starts = [(start, self.tracks[which].span(self.mesh[start], self.mesh[start]))
                  for start in range(0, len(self.mesh), max(30, len(self.mesh) // 100))]
        wanted = math.log(self.days) - math.log(10) * (dict(GRADES)["likely"] + usual.tests)
        others = self.others(self.channels[which])
        usual.needs = {witness: usual.need(witness, wanted) for witness in others}
        waits = {witness: [math.log(self.wait(which, witness, usual.needs[witness], *start)) for start in starts]
                 for witness in others}
        usual.chosen = self.soonest(waits)

    def soonest(self, waits):
        """The witness that sees a silence soonest, in the geometric mean, and those that bear it out soonest."""
        chosen, first = [], [(math.log(PATIENCE),) * 2] * len(next(iter(waits.values()), ()))
        while len(chosen) < min(WITNESSES, len(waits)):
            sums = [(sum(min(two[1], max(two[0], wait)) for two, wait in zip(first, waits[witness])),
                     sum(waits[witness]), witness) for witness in waits if witness not in chosen]
            chosen.append(min(sums)[2])
            first = [tuple(sorted((*two, wait))[:2]) for two, wait in zip(first, waits[chosen[-1]])]
        return chosen

    def all_answers(self, which):
        """By mark what the channel answers: of a call, green or walk what it adds to a score where it comes unanswered
        after such a row, and how many of a silence a row before it may have answered.

        One is answered where the channel goes on within half a second before it, or is on, as it can't be after going
        off; else where the channel has had a row since the one before, but for a loop that may just stay on. So is a
        force-off by the coordination.
        """
        track, coordination = self.tracks[which], self.channels[which][0] == "coordination"
        goes_on = [tenth for tenth, mark in zip(track.tenths, track.marks) if mark not in (None, END, "off")]
        marks = [EVERY] if coordination else sorted(set(track.marks) - {None, END}, key=str)
        found = {mark: {} for mark in marks}
        for witness, (kind, _) in enumerate(self.witnesses):
            if kind in (("force_off",) if coordination else ANSWERED) and len(self.moments[witness]) >= ENOUGH:
                for mark in marks:
                    stays = mark == "on" and len(self.channels[which][1]) == 1
                    for before in (1,) if coordination else (0,) if stays else (0, 1):
                        worth = 0 if witness in found[mark] else self.worth(track, goes_on, mark, witness, before)
                        if worth:
                            found[mark][witness] = worth, before
        return {mark: found[EVERY] for mark in set(track.marks)} if coordination else found

    def worth(self, track, goes_on, mark, witness, before):
        """What one that comes unanswered adds, or 0: where more do than may be faults, or where chance does as well.

        In quiet hours chance answers few, so it is compared with chance and not with how often one is answered.
        """
        most, by_chance = max(1, round(FAULTS * self.days)), len(self.moments[witness])
        if mark is not EVERY:
            later = self.later(witness, before)
            by_chance = min(by_chance, len(set(self.alone(track, goes_on, mark, later))) * by_chance // len(later))
            most = min(most, by_chance // CAUSE - 1)
        alone = set()
        for row in self.alone(track, goes_on, mark, self.asked(witness, before)) if most >= 0 else ():
            alone.add(row)
            if len(alone) > most:
                return 0
        return math.log10((by_chance + 1) / (len(alone) + 1)) if most >= 0 else 0

    def asked(self, witness, before):
        """From when to when each has to be answered: within half a second, or since the one before."""
        moments = self.moments[witness]
        return itertools.pairwise(moments) if before else ((at - BOUNCE, at) for at in moments)

    def later(self, witness, before):
        """Some of these, each by another time later."""
        if (witness, before) not in self.moved:
            few = itertools.islice(self.asked(witness, before), 0, None, max(1, len(self.moments[witness]) // SAMPLE))
            self.moved[witness, before] = [
                (since + shift, at + shift) for number, (since, at) in enumerate(few)
                for shift in [LATER[0] + number * STRIDE % (LATER[1] - LATER[0])]]
        return self.moved[witness, before]

    @staticmethod
    def alone(track, goes_on, mark, spans):
        """The silences after such a row in which the channel hasn't gone on from one tenth to another."""
        for since, at in spans:
            row = bisect.bisect_right(goes_on, at)
            if row == 0 or goes_on[row - 1] < since:
                last = bisect.bisect_right(track.tenths, at)
                if mark is EVERY or last and track.marks[last - 1] == mark:
                    yield last

    def unanswered(self, which, mark, begin, until):
        """What the answers add that come in a silence: the most that one of them does."""
        return max((worth * max(0, self.seen(witness, begin + BOUNCE, until) - before)
                    for witness, (worth, before) in self.answers[which].get(mark, {}).items()), default=0)

    def others(self, channel):
        """Which witnesses can tell of a channel: other detectors and inputs; where most are its own, the controller."""
        found = [witness for witness in range(len(self.witnesses)) if self.is_other(witness, channel)]
        kinds = INPUTS if ("detectors", None) in (self.witnesses[witness] for witness in found) else CONTROLLER
        return [witness for witness in found if self.witnesses[witness][0] in kinds]

    def is_other(self, witness, channel):
        """Whether a witness isn't of the channel itself, nor the sum over inputs that are mostly its own."""
        kind, number = self.witnesses[witness]
        if number is not None:
            return kind != channel[0] or number not in channel[1]
        own = kind == channel[0] + "s"
        return not own or 2 * len(channel[1]) < sum(one == channel[0] for one, _ in self.witnesses)

    def wait(self, which, witness, need, start, span):
        """The steps of the mesh from one on until a witness has seen as much as it needs.

        span is the silence outside which it is looked for what is usual: from, to, how far around, the rows there.
        """
        begin, end, width, rows = span
        moments, column = self.moments[witness], self.columns[witness]
        others = (bisect.bisect_left(moments, end + width) - bisect.bisect_left(moments, end)
                  + bisect.bisect_left(moments, begin) - bisect.bisect_left(moments, begin - width))
        more = min(need / (self.pace(which, witness) * rows), MOST)
        stop = min(len(column), start + PATIENCE)
        seen = bisect.bisect_left(column, column[start] + math.expm1(more) * max(1, others), start, stop)
        return PATIENCE if seen == stop else max(1, seen - start)

    def judge(self, silence):
        """Gives a silence its score, and the witness that counts.

        Where it isn't known what it follows, or a row between two on or two off is lost, it gets the least. Of the
        coordination none counts over most of which the signal flashes.
        """
        if silence.channel[0] == "coordination" and self.flashing(silence) * 2 > silence.end - silence.begin:
            return
        which = self.channels.index(silence.channel)
        span = self.tracks[which].span(silence.begin, silence.end)
        counted = silence.mark is not None and silence.next is not None
        silence.score, silence.witness = min((self.score(which, mark, span, silence.end, counted)
                                              for mark in self.marks(silence)),
                                             key=lambda each: each[0], default=(-math.inf, None))

    def score(self, which, mark, span, until, counted, answers=True):
        """The score of a silence up to a tenth, and the witness that counts; counted where it is one of the usual.

        It is the second best of its witnesses, or that of the one chosen first, which is believed to have seen no more
        than another bears out; and what answers add.
        """
        usual = self.learned.get((which, mark))
        if usual is None:
            return -math.inf, None
        score, counts = self.score_of(usual, math.log(usual.count + 1)), None
        amounts = {witness: self.amount(which, witness, span, until) for witness in usual.chosen}
        ranked = sorted(((self.score_seen(usual, witness, amounts, amounts[witness], counted), witness)
                         for witness in usual.chosen), reverse=True)
        if len(ranked) > 1:
            score, counts = ranked[1]
            first, *others = usual.chosen
            borne_out = max(amounts[other] / self.pace(which, other) for other in others)
            believed = min(amounts[first], round(borne_out * self.pace(which, first)))
            score, counts = max((score, counts), (self.score_seen(usual, first, amounts, believed, counted), first))
        return score + (self.unanswered(which, mark, span[0], until) if answers else 0), counts

    def score_seen(self, usual, witness, amounts, believed, counted):
        return self.score_of(usual, usual.expected(witness, believed, amounts[witness] if counted else None))

    def score_of(self, usual, expected):
        return (math.log(self.days) - expected) / math.log(10) - usual.tests

    def expected(self, which, usual, witness, span, until, counted):
        amount = self.amount(which, witness, span, until)
        return usual.expected(witness, amount, amount if counted else None)

    def marks(self, silence):
        """The rows that a silence may follow.

        For one that is too rare to be learned stands one of both, where these are learned, as in batches.
        """
        which = self.channels.index(silence.channel)
        both, single = (which, BOTH) in self.learned, len(silence.channel[1]) == 1
        lacks_row = single and silence.mark in ("on", "off") and silence.mark == silence.next
        if silence.mark is None or lacks_row or silence.mark == BOTH and not both:
            marks = sorted(set(self.tracks[which].marks) - {None, END, BOTH})
        else:
            marks = [silence.mark]
        return [BOTH if both and (which, mark) not in self.learned else mark for mark in marks]

    def flashing(self, silence):
        """The tenths of a silence over which the signal flashes."""
        return sum(max(0, min(end, silence.end) - max(begin, silence.begin)) for begin, end in self.flashes)

    def judged(self, least):
        """The silences whose score is at least so much, the highest first."""
        for silence in self.silences + self.open:
            self.judge(silence)
        return sorted((silence for silence in self.silences + self.open if silence.score >= least),
                      key=lambda silence: (-silence.score, silence.begin, silence.channel))

    def distrust(self, silences):
        """Where a detector or input is silent for a cause of its own, it tells nothing as a witness of others."""
        for silence in silences:
            kind, numbers = silence.channel
            concerned = {(kind, number) for number in numbers}
            if 2 * len(numbers) >= len(self.log.numbers(kind)):
                concerned.add((kind + "s", None))
            for witness, named in enumerate(self.witnesses):
                if named in concerned:
                    self.dark.setdefault(witness, []).append((silence.begin, silence.end))

    def seen_at(self, silence):
        """The tenth at which a silence had lasted long enough to be likely, to a minute, or None."""
        which = self.channels.index(silence.channel)
        marks = [mark for mark in self.marks(silence) if (which, mark) in self.learned]
        if not marks:
            return None
        span = self.tracks[which].span(silence.begin, silence.end)
        return silence.begin + STEP * max(self.seen_after(which, mark, span, True) for mark in marks)

    def seen_after(self, which, mark, span, answers):
        """The minutes from a silence's begin until it is likely, with answers or without: a score only grows."""
        def score(minutes):
            return self.score(which, mark, span, span[0] + minutes * STEP, False, answers)[0]
        return bisect.bisect_left(range(PATIENCE), dict(GRADES)["likely"], LEAST // STEP, key=score)

    def learned_channels(self):
        return {self.channels[which] for (which, _), usual in self.learned.items()
                if len(usual.chosen) > 1 or any(self.answers[which].values())}

    def rows_of(self, channel):
        """How many rows a channel has."""
        return len(self.tracks[self.channels.index(channel)].rows)

    def chances(self):
        """By channel and mark, for each hour of the day the minutes that a silence from then on has to last, or None.

        The middle one of four beginnings in each hour of the log at that time of day, if nothing comes unanswered.
        """
        times = {}
        for tenth in self.mesh[::15]:
            times.setdefault(tenth // logs.HOUR % 24, []).append(tenth)
        for which, mark in sorted(pair for pair, usual in self.learned.items() if usual.chosen):
            span = self.tracks[which].span
            waits = [[self.seen_after(which, mark, span(tenth, tenth), False) for tenth in times.get(time, ())]
                     for time in range(24)]
            yield self.channels[which], mark, [statistics.median_high(each) if each else None for each in waits]

    def evidence(self, silence):
        """By mark that it may follow: the silences after it, a line for each witness, and one for each answer, or None.

        A witness: its name, what it saw, and that at the pace of the whole log; so much was seen, or more, by so many
        others; the need; how many are expected. An answer: its name, how many came, and what each adds to the score.
        """
        which = self.channels.index(silence.channel)
        span = self.tracks[which].span(silence.begin, silence.end)
        counted = silence.mark is not None and silence.next is not None
        for mark in self.marks(silence):
            answers = [(self.witnesses[witness],
                        max(0, self.seen(witness, silence.begin + BOUNCE, silence.end) - before), worth)
                       for witness, (worth, before) in self.answers[which].get(mark, {}).items()]
            usual = self.learned.get((which, mark))
            lines = []
            for witness in (usual.chosen if usual else ()):
                amount, seen = self.amount(which, witness, span), self.seen(witness, silence.begin, silence.end)
                edge, reached, _, _ = usual.tail(witness, amount if counted else None)
                if edge == 0:
                    edge, reached = 1, sum(usual.seen[witness].values()) - (counted and amount > 0)
                expected = math.exp(self.expected(which, usual, witness, span, None, counted))
                lines.append((self.witnesses[witness], seen, amount, edge, reached, usual.needs[witness], expected))
            yield mark, usual and usual.count, lines, answers

    def seen(self, witness, begin, end):
        """What a witness saw between two tenths."""
        moments = self.moments[witness]
        return max(0, bisect.bisect_left(moments, end) - bisect.bisect_right(moments, begin))


def channel_of(code, number):
    """The channel of a row, one number alone, or None."""
    if code in COORDINATION:
        return "coordination", (0,)
    return (SWITCHES[code], (number,)) if code in SWITCHES else None


def mark_in(channel, code, number):
    """What a row says in a channel, or None; of several numbers together those alone count that go on."""
    kind, numbers = channel
    if channel_of(code, number) == channel:
        return STATES.get(code, (code, number))
    return "on" if STATES.get(code) == "on" and SWITCHES[code] == kind and number in numbers else None


class Chatter:
    """A stretch in which a detector goes on and off too often: its actuations there, and its score."""

    __slots__ = ("detector", "begin", "end", "count", "score")

    def __init__(self, detector, begin, end, count, score):
        self.detector, self.begin, self.end, self.count, self.score = detector, begin, end, count, score


def actuations(log):
    """By detector the tenths at which it goes on, and those of them that follow too closely on its going off."""
    found, off = {}, {}
    for tenth, key in zip(log.tenths, log.keys):
        code, number = key >> 16, key & 65535
        if code == 82:
            ons, bounces = found.setdefault(number, ([], []))
            ons.append(tenth)
            if tenth - off.get(number, -BOUNCE - 1) <= BOUNCE:
                bounces.append(tenth)
        elif code == 81:
            off[number] = tenth
    return found


def windows(tenths, width):
    """How many of the tenths lie in each stretch of so many, by its begin."""
    counts = {}
    for tenth in tenths:
        begin = tenth // width * width
        counts[begin] = counts.get(begin, 0) + 1
    return counts


def fullest(counts):
    """The largest count of each hour."""
    most = {}
    for begin, count in counts.items():
        hour = begin // logs.HOUR
        most[hour] = max(count, most.get(hour, 0))
    return most


def too_many(log, counts, tests, least):
    """The windows with a count beyond what the fullest of each hour let expect, with their scores.

    Hours tell nothing of what is usual where each of them is beyond what the rest lets expect, and are so few as may be
    faulty: a hundred rows in one minute do, and two vehicles in a minute don't, as a side street has each day.
    """
    most, faulty = sorted(fullest(counts).values(), reverse=True), FAULTY_HOURS * math.ceil(log.days())
    if len(log.hours) < 2 * faulty:
        return
    for count in sorted(set(most)):
        hidden = bisect.bisect_right(most, -count, key=lambda each: -each)
        if hidden <= faulty:
            usual = Usual(1, len(log.hours) - hidden, log.days())
            usual.faults, usual.top = 0, 2 * faulty
            for each in most[hidden:]:
                usual.add([(0, each)])
            if score_of_count(log, usual, count, tests) >= least:
                break
    else:
        return
    for begin, many in counts.items():
        score = score_of_count(log, usual, many, tests)
        if score >= least:
            yield begin, score


def score_of_count(log, usual, count, tests):
    return (math.log(log.days()) - usual.expected(0, count)) / math.log(10) - tests


def shares(tens, others, beyond):
    """Of counts in ten minutes those beyond a count, as so many in a hundred of the others'."""
    return {begin: 100 * count // (others.get(begin, 0) - count + AROUND)
            for begin, count in tens.items() if count > beyond}


def chattering(log, least):
    """The stretches in which a detector chatters, with a score of at least so much, by detector and time."""
    every, found = actuations(log), []
    tests = math.log10(max(1, 3 * len(every)))
    others = windows((tenth for ons, _ in every.values() for tenth in ons), 10 * MINUTE)
    for number, (ons, bounces) in sorted(every.items()):
        minutes, tens = windows(ons, MINUTE), windows(ons, 10 * MINUTE)
        flagged = [(begin, begin + MINUTE, score) for counts in (minutes, windows(bounces, MINUTE))
                   for begin, score in too_many(log, counts, tests, least)]
        flagged += [(begin, begin + MINUTE, dict(GRADES)["sure"])
                    for begin, count in minutes.items() if count >= TOO_MANY]
        faulty = FAULTY_HOURS * math.ceil(log.days())
        beyond = (sorted(fullest(tens).values(), reverse=True) + [0] * (faulty + 1))[faulty]
        part = shares(tens, others, 0)
        flagged += [(begin, begin + 10 * MINUTE, score) for begin, score in too_many(log, part, tests, least)
                    if tens[begin] > beyond]
        for begin, end, score in joined(sorted(flagged)):
            inside = ons[bisect.bisect_left(ons, begin):bisect.bisect_left(ons, end)]
            found.append(Chatter(number, inside[0], inside[-1] + 1, len(inside), score))
    return found


def joined(spans):
    """Spans in order, those that are little apart as one with the highest score."""
    found = []
    for begin, end, score in spans:
        if found and begin <= found[-1][1] + APART:
            found[-1] = found[-1][0], max(end, found[-1][1]), max(score, found[-1][2])
        else:
            found.append((begin, end, score))
    return found


class Finding:
    """What is told: silent, stuck on, stuck off or chatter; the channel; from, to; the score; what is behind it."""

    __slots__ = ("word", "kind", "numbers", "begin", "end", "score", "silence", "actuations")

    def __init__(self, word, kind, numbers, begin, end, score, silence=None, actuations=None):
        self.word, self.kind, self.numbers, self.begin, self.end = word, kind, tuple(numbers), begin, end
        self.score, self.silence, self.actuations = score, silence, actuations


def find(log, cards=()):
    """The findings by time that have a grade, and the watch that the silences among them are from.

    cards are the numbers of the detectors of each card, where they are known.
    """
    least = GRADES[-1][1]
    found = [Finding("chatter", "detector", (each.detector,), each.begin, each.end, each.score, None, each.count)
             for each in chattering(log, least)]
    hush = {}
    for each in found:
        hush.setdefault(each.numbers[0], []).append((each.begin, each.end))
    groups = [("detector", tuple(card)) for card in cards]
    groups += [(kind, log.numbers(kind)) for kind in ("detector", "ped_detector")]
    groups = [group for group in dict.fromkeys(groups) if len(group[1]) > 1]
    watch = Watch(log, groups, hush)
    watch.distrust(watch.judged(dict(GRADES)["sure"]))
    silences = watch.judged(least - SPARE)
    told, rest = known_groups(silences, groups)
    told += bundles(watch, rest)
    found += [finding_of(silence) for silence in told if silence.score >= least]
    return sorted(found, key=lambda each: (each.begin, each.end, each.numbers)), watch


def overlap(one, other):
    """What two silences have in common, as a share of the time that either lasts; 0 for other kinds of channels."""
    if one.channel[0] != other.channel[0]:
        return 0
    common = min(one.end, other.end) - max(one.begin, other.begin)
    return common / (max(one.end, other.end) - min(one.begin, other.begin))


def known_groups(silences, groups):
    """The silences of groups that are told, larger groups first, and those of single channels outside them."""
    told, rest = [], [silence for silence in silences if silence.channel not in groups]
    for silence in sorted(silences, key=lambda each: -len(each.channel[1])):
        if silence.channel not in groups or silence.score < GRADES[-1][1]:
            continue
        inside = [other for other in told if set(silence.channel[1]) <= set(other.channel[1])]
        if all(overlap(silence, other) < COMMON for other in inside):
            told.append(silence)
            rest = [other for other in rest if overlap(silence, other) < COMMON
                    or not set(other.channel[1]) <= set(silence.channel[1])]
    return told, rest


def bundles(watch, silences):
    """Silences of single channels, those at the same time as one of all their channels together.

    Since these are put together after they were seen, such a one is likelier by the number of ways to do so.
    """
    alone, several, rest = [], [], silences
    while rest:
        first = rest[0]
        same = [other for other in rest if other is first or overlap(first, other) >= COMMON]
        rest = [other for other in rest if other not in same]
        (several if len(same) > 1 else alone).append(same)
    channels = {(same[0].channel[0], numbers_of(same)) for same in several}
    watch.add(sorted(channels - set(watch.channels)))
    found = [same[0] for same in alone]
    for same in several:
        common = [silence for silence in watch.silences + watch.open
                  if silence.channel == (same[0].channel[0], numbers_of(same)) and overlap(silence, same[0]) > 0]
        if common:
            longest = max(common, key=lambda silence: silence.end - silence.begin)
            watch.judge(longest)
            ways = math.comb(len(watch.log.numbers(longest.channel[0])), len(longest.channel[1]))
            longest.score = max(longest.score - math.log10(ways), same[0].score)
            found.append(longest)
        else:
            found += same
    return found


def numbers_of(silences):
    return tuple(sorted(silence.channel[1][0] for silence in silences))


def finding_of(silence):
    """A silence as it is told: a detector alone is stuck, where its rows before and after don't lack one between."""
    kind, numbers = silence.channel
    word, other = "silent", {"on": "off", "off": "on"}
    if kind == "detector" and len(numbers) == 1:
        before = silence.mark if silence.mark in other else other.get(silence.next)
        if before and silence.next in (None, BOTH, other[before]):
            word = "stuck " + before
    return Finding(word, kind, numbers, silence.begin, silence.end, silence.score, silence)
