"""How likely each gap of a log hides lost rows: the model of `holes`. Not proved.

A gap is a stretch between two rows of the log with no row between. If all rows of a stretch of time were lost, it lies
in one gap. The model in one sentence: **of each channel it asks how much likelier the rows on both sides of the gap
follow one another with a hole between than without, by what this very log shows at this time of day; and it learns
what these scores are worth together by telling gaps that it cuts into the log itself from the log's own.**

1. Channels. The phases of a ring are one channel, since they follow one another; a pedestrian signal, an overlap, a
   detector, a preempt, the coordination, the calls of a phase are one each, and every other code is one by itself.
2. A channel's score. Its last row before the gap is x, the first after it y. Without a hole, the row after an x that
   hadn't come up to the gap was y and came when it did: the share of it is counted among the log's own times from an x
   to the next row, most of all those at this time of day. With a hole, y is the first row of a channel that goes on
   unseen: counted are the times before a y that last longer than the silence behind the gap. The second share over the
   first is a likelihood ratio of renewal processes with marks, by empirical distributions (D. R. Cox and P. A. W.
   Lewis, The Statistical Analysis of Series of Events, 1966). The gap's own time is left out of what it is compared
   with. If x and y are odd together, the hole may be in any gap between them: so each has its part of the ratio, by
   their number. And a hole that took no row of a channel leaves x and y as they are: so the ratio counts by the chance
   that the next row would have come within the gap, as it seldom does on a button in ten seconds; and the score is the
   logarithm of 1 and that part together, so that a channel that goes on as ever says nothing. A time longer than all
   that were seen is as rare as one row in those around, and no rarer: quiet nights have some. It is judged alike
   without a hole and behind one, by a tail from the mean of those around on. Lengths of yellow, least greens, walks,
   and that a detector goes on and off in turns come out of the counts; none stands here as a rule.
3. What scores are worth together. Channels depend on one another, so their scores don't just add. Rows of one tenth
   have one cause, as a vehicle on its loop and its call, or both rings at the barrier: of channels whose last rows
   before the gap stand in one tenth, or whose first ones after it, that which fits worst counts alone. CUTS stretches
   are cut out of the log at random places with lengths from SHORTEST to LONGEST, of those that leave no contradiction
   (the others are found without a model), and a logistic regression over the numbers of `vector` tells the gaps that so
   come from the log's own, but those where the log contradicts itself. These may hide holes too: the regression is
   fitted again without those that would be blanked, and no others, since what is left out has nothing against it any
   more (the case of learning from positive and unlabelled examples: C. Elkan and K. Noto, Learning Classifiers
   from Only Positive and Unlabeled Data, 2008). What speaks for a hole never counts against one: without that bound a
   gap in which all channels are odder than in any cut could be told from a hole. Where the log contradicts itself, all
   is learned again with these holes known, since what follows a row over a hole isn't usual, and gaps beside it look
   odd.
4. Best first. The likeliest gap is taken as a hole, and rows on both sides of it count together no longer; so it
   explains its neighbours away. Then the next.
5. Other cuts, which the regression hasn't seen, tell which outages are found in this log, and which aren't.

All draws have fixed seeds: the same log gives the same scores.
"""
import bisect
import collections
import heapq
import itertools
import math
import multiprocessing
import operator
import random

import fits
import logs

LEAST = 50            # tenths: a shorter gap loses some ten rows of a busy signal, and can't be told from the others
BIN = 9000            # tenths: what is usual is counted by quarters of an hour of the day
BINS = 24 * logs.HOUR // BIN
WIDTHS = (3, 6, 12, 24, BINS // 2)    # so many bins to each side are counted together, until there are ENOUGH
ENOUGH = 30           # times of a row: a share of one in thirty is told from none
ENOUGH_GAPS = 200     # gaps around a time of day, to rank a silence among them
CUTS = 500            # for learning: 25 and more for each number of a vector
SHORTEST, LONGEST = 50, 18000   # tenths: their lengths, five seconds to half an hour
FAR = 30000           # no channel's ratio is more: a day has some 30,000 tenths with rows, and shows nothing rarer
NOTHING = 0.01        # a channel's score that isn't told: one in a hundred likelier
FULL = 40.0           # no number of a vector is more: what ten channels say that fit worst is enough
ROUNDS = 4            # of learning without the gaps that would be blanked
RIDGE = 0.01          # of the regression: before the log is seen, a number of spread 1 is held to weigh some 10 or less.
                      # Of cuts of 5 to 15 s by day, fresh ones in seven logs of four signals, 69, 70 and 71 in 100 are
                      # found with 1, 0.1 and 0.01, and of longer ones no fewer; the log's own stand out as seldom
RING_CODES = {0, 1, 3, 4, 5, 6, 7, 8, 9, 10, 11, 12}
CALLS = {43: "call", 44: "call", 45: "ped_detector"}
SUMMED = ("ring", "detector", "ped", "ped_detector", "call", "other")
RISING = 13           # numbers of a vector that only speak for a hole: none of their weights is below 0
# Grades by a gap's score: the logarithm of the odds of a hole, were there one cut a day that doesn't contradict, for a
# gap of a minute (PLAIN, in tenths). Blanked in vain a gap costs its seconds, so twice as long it wants twice the odds:
# of five made signals without a hole that blanks 150 s a day and not 1,200, and by day no fewer cuts are found.
SURE, LIKELY, WEAK = 0.0, -2.5, -5.0
PLAIN = 600
# The lengths and the parts of the day of `chances`, in tenths and hours; CHANCE_CUTS draws for each of both.
LENGTHS = (50, 150, 600, 3000, 18000)
PARTS = (0, 5, 9, 15, 19, 22, 24)
CHANCE_CUTS = 20


def grade_of(score):
    return "sure" if score >= SURE else "likely" if score >= LIKELY else "weak" if score >= WEAK else "solid"


def group_of(code, param, rings):
    """The channel of a row here: as in logs, but rings for phases, calls, and other codes each by itself."""
    if code in RING_CODES and 1 <= param <= 16:
        return ("ring", rings[param]) if param in rings else ("phase", param)
    if code in CALLS and 1 <= param <= 16:
        return CALLS[code], param
    return logs.channel_of(code, param) or ("code", code)


def bin_of(tenth):
    return tenth // BIN % BINS


def around(place, width):
    """The bins so many to each side of one, over midnight too."""
    return range(BINS) if width == WIDTHS[-1] else [b % BINS for b in range(place - width, place + width + 1)]


def distance(place, other):
    away = (place - other) % BINS
    return min(away, BINS - away)


class Channel:
    """The tenths of a channel's rows, what stood at each (its mark), and the times from one to the next by bins."""

    def __init__(self):
        self.tenths, self.marks, self.numbers = [], [], {}

    def add(self, tenth, mark):
        self.tenths.append(tenth)
        self.marks.append(self.numbers.setdefault(mark, len(self.numbers)))

    def count(self, known_of_bin, missing):
        """Counts the times from row to row, but those over a missing hour or a known hole."""
        self.known_of_bin, self.tables, self.sorted = known_of_bin, {}, {}
        self.after, self.pair, self.before = ([{} for _ in range(BINS)] for _ in range(3))
        self.counted, ends = bytearray(), [end for _, end in missing]
        for t, u, x, y in zip(self.tenths, self.tenths[1:], self.marks, self.marks[1:]):
            after = bisect.bisect_right(ends, t)
            self.counted.append(after == len(ends) or u <= missing[after][0])
            if self.counted[-1]:
                time, place = u - t, bin_of(t)
                self.after[place].setdefault(x, []).append(time)
                self.pair[place].setdefault((x, y), []).append(time)
                self.before[bin_of(u)].setdefault(y, []).append(time)
        return self

    def times(self, which, mark, place, width):
        """The times after, between or before such rows in the bins around, in order."""
        place = 0 if width == WIDTHS[-1] else place
        found = self.sorted.get((which, mark, place, width))
        if found is None:
            bins = getattr(self, which)
            found = sorted(time for b in around(place, width) for time in bins[b].get(mark, ()))
            self.sorted[which, mark, place, width] = found
        return found

    def width(self, which, mark, place, least=ENOUGH):
        """How many bins to each side have enough of a row."""
        counts = [len(found.get(mark, ())) for found in getattr(self, which)]
        return next((w for w in WIDTHS if sum(counts[b] for b in around(place, w)) >= least), WIDTHS[-1])

    def table(self, x, y, place):
        """What a score counts in: the times after x and from x to y, of the whole day and around; those before y; and
        the sums of those around."""
        found = self.tables.get((x, y, place))
        if found is None:
            after, before = self.width("after", x, place), self.width("before", y, place)
            near_x, near_y = self.times("after", x, place, after), self.times("before", y, place, before)
            found = self.tables[x, y, place] = (
                self.times("after", x, place, WIDTHS[-1]), self.times("pair", (x, y), place, WIDTHS[-1]),
                near_x, self.times("pair", (x, y), place, after), after, sum(near_x),
                near_y, sum(self.known_of_bin[b] for b in around(place, before)) or 1, before, sum(near_y))
        return found

    def sides(self, begin, end):
        """The places of the last row up to a gap and of the first one behind it, or None."""
        i, j = bisect.bisect_right(self.tenths, begin) - 1, bisect.bisect_left(self.tenths, end)
        return None if i < 0 or j == len(self.tenths) else (i, j)

    def score(self, begin, end, holes, begins):
        """How much likelier its rows on both sides are with a hole in the gap, a logarithm; 0 where they tell nothing,
        as across another hole. `begins` has where the log's gaps begin."""
        sides = self.sides(begin, end)
        if sides is None:
            return 0.0
        i, j = sides
        before, after, x, y = self.tenths[i], self.tenths[j], self.marks[i], self.marks[j]
        if holes and self.across(holes, before, after, (begin, end)):
            return 0.0
        place = bin_of(begin)
        all_x, all_xy, near_x, near_xy, width_x, sum_x, near_y, known, width_y, sum_y = (
            self.tables.get((x, y, place)) or self.table(x, y, place))
        own = self.counted[i] if j == i + 1 else 0    # in a cut the rows between are there yet
        own_x = 1 if own and distance(bin_of(before), place) <= width_x else 0
        own_y = 1 if own and distance(bin_of(after), place) <= width_y else 0
        time, age, silence = after - before, begin - before, after - end
        spans, seen = spans_around(time, age), len(all_xy) > own
        mean_x = 10 + (sum_x - own_x * time) / max(1, len(near_x) - own_x)
        mean_y = 10 + (sum_y - own_y * time) / max(1, len(near_y) - own_y)
        # Without a hole. A time that none had is one row's more, of those around as of all, with a tail from the mean
        # on that never ends; and 1 in 20 such rows is another than all before.
        tail = (age + mean_x) / (time + mean_x) ** 2
        alive, alive_near = longer(all_x, age, own) + 1, longer(near_x, age, own_x) + 4
        share = (density(all_xy, spans, own) + (tail if seen else 0.05 * tail)) / alive
        share = (density(near_xy, spans, own_x) + (tail if seen else 0) + 4 * share) / (alive_near + seen)
        # With one that took a row, as it does where the next row would have come before the gap's end. What is silent
        # behind it for longer than all have been has the same tail.
        spared = (longer(all_x, end - before, own) + 0.5) / alive
        spared = (longer(near_x, end - before, own_x) + 4 * spared) / alive_near
        fresh = (1 - spared) * (longer(near_y, silence, own_y) + 0.5 * mean_y / (silence + mean_y)) / known
        left = bisect.bisect_left
        others = left(begins, begin) - left(begins, before) + left(begins, after) - left(begins, end)
        return math.log1p(min(FAR, fresh / share) / (1 + others))

    def explained(self, begin, end):
        """Its rows on both sides of a gap, and what usually follows such a row."""
        sides = self.sides(begin, end)
        if sides is None:
            return None
        i, j = sides
        names = {number: shown(mark) for mark, number in self.numbers.items()}
        x, y, time = self.marks[i], self.marks[j], self.tenths[j] - self.tenths[i]
        _, _, after, pair, *_ = self.table(x, y, bin_of(begin))
        own = 1 if j == i + 1 and time in after else 0
        told = "%s at %s then %s after %.1f s" % (names[x], logs.show(self.tenths[i]), names[y], time / 10)
        if len(after) <= own:
            return told + ", the only such row around this time of day"
        low, high = after[len(after) // 10] / 10, after[-1 - len(after) // 10] / 10
        return told + ", usually after %.1f to %.1f s (of %d rows), by such a row %d times" % (
            low, high, len(after) - own, max(0, len(pair) - own))

    @staticmethod
    def across(holes, begin, end, gap):
        """Whether another hole than that of the gap lies between two rows, or begins or ends there: one that is put
        over several gaps has rows in it, and what follows such a row may be lost."""
        k = bisect.bisect_right(holes, (begin, -1))
        if k and holes[k - 1][1] > begin:
            k -= 1
        while k < len(holes) and holes[k][0] < end:
            if not (holes[k][0] <= gap[0] and gap[1] <= holes[k][1]):
                return True
            k += 1
        return False


def shown(mark):
    """A mark as the codes and parameters that it has."""
    return " and ".join("%d %d" % row for row in mark)


def spans_around(time, age):
    """Three nets around a time, of a tenth, a tenth part and a half of it, not below the age that it had."""
    return ((max(time - 1, age + 1), time + 1),
            (max(time - 3 - time // 10, age + 1), time + 3 + time // 10),
            (max(time // 2 - 3, age + 1), time + time // 2 + 3))


def density(times, spans, own):
    """How many of the times a tenth has in the spans, in the mean of the three."""
    total = 0.0
    for low, high in spans if times else ():
        count = bisect.bisect_right(times, high) - bisect.bisect_left(times, low) - own
        if count > 0:
            total += count / (high - low + 1)
    return total / 3


def longer(times, than, own):
    return max(0, len(times) - bisect.bisect_right(times, than) - own)


def usual_step(tenths):
    """The most usual time from one stamp to the next. A logger that writes in batches and stamps by these has its own;
    then a gap needs half of it more to lack one."""
    steps = collections.Counter(map(operator.sub, tenths[1:], tenths))
    return max(steps, key=steps.get, default=1)


def overlaps(gap, stretches):
    return any(gap[0] < end and begin < gap[1] for begin, end in stretches)


class Gaps:
    """The gaps of a log, each with its score. stretches are (begin, end, rows) of hours that follow one another without
    one missing, rows (tenth, code, parameter) in order; rings says the ring of each phase; contradicts says of a gap
    whether the machines find a hole in it by themselves, were there a hole; wrong has the first and the last tenth of
    each stretch in which they do find one; known are holes that are known before, none over another, in order."""

    def __init__(self, stretches, rings, contradicts, wrong, known=()):
        self.holes, self.contradicts, self.known = [], contradicts, known
        self.take(known)
        self.stretches = [(begin, end) for begin, end, _ in stretches]
        missing = sorted([(a[1], b[0]) for a, b in zip(self.stretches, self.stretches[1:])] + list(known))
        self.days = sum(end - begin for begin, end in self.stretches) / (24 * logs.HOUR)
        tenths_of_bin = [0] * BINS
        for begin, end in self.stretches:
            for tenth in range(begin, end, BIN):
                tenths_of_bin[bin_of(tenth)] += BIN
        self.tenths = []
        self.channels = self.read(stretches, rings)
        self.every = Channel()
        for tenth in self.tenths:
            self.every.add(tenth, 0)
        for channel in (self.every, *self.channels.values()):
            channel.count(tenths_of_bin, missing)
        self.least = max(LEAST, 3 * usual_step(self.tenths) // 2)
        self.own = [gap for gap in zip(self.tenths, self.tenths[1:])
                    if gap[1] - gap[0] >= self.least and not overlaps(gap, missing)]
        self.begins = [begin for begin, _ in self.own]
        self.examples = [gap for gap in self.own if not overlaps(gap, wrong)]

    def read(self, stretches, rings):
        """The channels by their groups in order, of all rows."""
        found = collections.defaultdict(Channel)
        every = itertools.chain.from_iterable(rows for _, _, rows in stretches)
        for tenth, rows in itertools.groupby(every, lambda row: row[0]):
            self.tenths.append(tenth)
            here = {}
            for _, code, param in rows:
                here.setdefault(group_of(code, param, rings), []).append((code, param))
            for group, mine in here.items():
                found[group].add(tenth, tuple(mine[-1:] if group[0] == "detector" else sorted(set(mine))))
        return dict(sorted(found.items()))

    def enough(self):
        """Whether there is something to learn from: gaps enough to tell twenty numbers, rows enough to cut."""
        return len(self.examples) >= 100 and len(self.tenths) >= 1000

    def rank(self, begin, end):
        """How many gaps around this time of day last at least as long, and of how many; the times themselves."""
        place = bin_of(begin)
        found = self.every.times("after", 0, place, self.every.width("after", 0, place, ENOUGH_GAPS))
        i = bisect.bisect_right(self.tenths, begin)
        own = self.every.counted[i - 1] if i < len(self.tenths) and self.tenths[i] == end else 0
        return len(found) - bisect.bisect_left(found, end - begin) - own, len(found), found, own

    def silent(self, begin, end):
        """Minus the logarithm of the share of gaps around this time of day that last as long."""
        count, whole, found, own = self.rank(begin, end)
        most = min(50, whole // 10 + 1)
        if count >= most or whole <= most:
            return -math.log(max(1, count) / max(1, whole))
        # Past what is seen often, the tail of the longest is carried on by its mean.
        edge = found[whole - most]
        mean = max(1.0, (sum(time - edge for time in found[whole - most:]) - (end - begin - edge) * own) / most + 1)
        return max(0, end - begin - edge) / mean - math.log(most / whole)

    def busy(self, begin, end, reach):
        """The logarithm of how many tenths with rows there are so near the gap."""
        left, right = bisect.bisect_left, bisect.bisect_right
        return math.log(1 + right(self.tenths, begin) - left(self.tenths, begin - reach)
                        + right(self.tenths, end + reach) - left(self.tenths, end))

    def scores(self, begin, end):
        return {group: channel.score(begin, end, self.holes, self.begins) for group, channel in self.channels.items()}

    def apart(self, begin, end):
        """The channels that say something, with their scores, the worst first; of those whose last rows stand in one
        tenth, or whose next ones do, the first alone."""
        told, seen = [(score, group) for group, score in self.scores(begin, end).items() if score > NOTHING], set()
        for score, group in sorted(told, key=lambda entry: (-entry[0], entry[1])):
            channel = self.channels[group]
            i, j = channel.sides(begin, end)
            sides = {channel.tenths[i], channel.tenths[j]}
            if not sides & seen:
                seen |= sides
                yield group, score

    def vector(self, gap):
        """What the regression is told of a gap: RISING numbers that speak for a hole; then how long it is and how busy
        the signal, and products where one bends with another."""
        begin, end = gap
        sums = dict.fromkeys(SUMMED, 0.0)
        worst = []
        for group, score in self.apart(begin, end):
            kind = "ring" if group[0] == "phase" else group[0]
            sums[kind if kind in sums else "other"] += score
            worst.append(score)
        worst += [0.0] * 3
        silent, length = self.silent(begin, end), math.log(end - begin)
        odd = min(FULL, sum(score - 3 for score in worst if score > 3))    # those that fit 20 times worse and more
        busy = self.busy(begin, end, logs.HOUR // 2)
        told = [min(FULL, value) for value in (*sums.values(), silent, worst[0], worst[1] + worst[2], odd)]
        told += [worst[0] * busy, math.log(0.01 + silent), math.log1p(odd)]
        return told + [length, self.busy(begin, end, logs.HOUR // 12), busy,
                       length * busy, busy * busy, length * length]

    def draw(self, rng, shortest, longest, hours=None):
        """A stretch at random, cut out of the log: (row before, row after, length); None where no row is lost."""
        length = int(shortest * (longest / shortest) ** rng.random())
        at = rng.randrange(sum(end - begin for begin, end in self.stretches))
        for begin, end in self.stretches:
            if at < end - begin:
                break
            at -= end - begin
        low = begin + at
        if hours and not hours[0] <= low // logs.HOUR % 24 < hours[1]:
            return None
        i, j = bisect.bisect_left(self.tenths, low), bisect.bisect_left(self.tenths, low + length)
        if not 0 < i < j < len(self.tenths) or self.tenths[i - 1] < begin or self.tenths[j] >= end:
            return None
        gap = self.tenths[i - 1], self.tenths[j]
        return (*gap, length) if gap[1] - gap[0] >= self.least and not overlaps(gap, self.known) else None

    def learn(self, jobs=1):
        """The weights: the log's own gaps against cuts, again without those that would be blanked. False where nearly
        all cuts contradict, so that there is nothing to learn."""
        rng = random.Random(1)
        draws = (self.draw(rng, SHORTEST, LONGEST) for _ in range(CUTS * 20))
        cuts = [cut for _, cut in zip(range(CUTS), (draw for draw in draws if draw and not self.contradicts(draw[:2])))]
        if len(cuts) < CUTS // 5:
            return False
        made = [self.vector(cut[:2]) for cut in cuts]
        self.vectors = dict(zip(self.own, spread(self.vector, self.own, jobs)))
        step = max(1, len(self.examples) // 4000)
        own = [(gap, self.vectors[gap]) for gap in self.examples[::step]]
        self.base = math.log(len(made) / self.days)
        kept = [vector for _, vector in own]
        self.weights = fits.regression(kept, made, step, RIDGE, rising=RISING)
        for _ in range(ROUNDS):
            before, kept = len(kept), [vector for gap, vector in own if self.score(*gap, vector) < LIKELY]
            if len(kept) == before:
                break
            self.weights = fits.regression(kept, made, step, RIDGE, self.weights, RISING)
        return True

    def odds(self, vector):
        """The logarithm of the odds of a hole, were there one cut a day in the place of all of them."""
        return sum(map(float.__mul__, self.weights, [1.0] + vector)) - self.base

    def score(self, begin, end, vector=None):
        """What a gap is graded by: its odds, for one twice as long half of them."""
        return self.odds(vector or self.vector((begin, end))) - math.log((end - begin) / PLAIN)

    def take(self, holes):
        """From now on these are known holes, none over another: rows on both sides of one tell nothing together."""
        self.holes = sorted([*self.holes, *((begin, end - 1) for begin, end in holes)])

    def find(self, least=WEAK, taken=LIKELY):
        """The likeliest gaps one after another, each from `taken` on held for a hole before the next: (score, gap)."""
        heap = [(-self.score(*gap, vector), gap) for gap, vector in self.vectors.items()]
        heap = [entry for entry in heap if -entry[0] >= least and not overlaps(entry[1], self.holes)]
        heapq.heapify(heap)
        found, scored_at = [], {}
        while heap:
            score, gap = heapq.heappop(heap)
            if scored_at.get(gap) == len(self.holes):
                found.append((-score, gap))
                if -score >= taken:
                    bisect.insort(self.holes, gap)
                continue
            scored_at[gap] = len(self.holes)
            now = self.score(*gap)
            if now >= least:
                heapq.heappush(heap, (-now, gap))
        return found

    def chances(self):
        """How many fresh cuts get a blank: (first hour, last one, shortest, longest, found, of), tenths."""
        rng = random.Random(2)
        for first, last in zip(PARTS, PARTS[1:]):
            for shortest, longest in zip(LENGTHS, LENGTHS[1:]):
                cuts = []
                for _ in range(40 * CHANCE_CUTS):
                    cut = self.draw(rng, shortest, longest, (first, last))
                    if cut and not overlaps(cut[:2], self.holes):
                        cuts.append(cut)
                    if len(cuts) == CHANCE_CUTS:
                        break
                if cuts:
                    found = sum(self.contradicts(cut[:2]) or self.score(*cut[:2]) >= LIKELY for cut in cuts)
                    yield first, last, shortest, longest, found, len(cuts)

    def worst(self, begin, end, count=3):
        """The channels whose rows on both sides go together worst."""
        return sorted(self.scores(begin, end).items(), key=lambda item: (-item[1], item[0]))[:count]

    def explained(self, begin, end):
        """Why a gap has its grade: a line for the silence, then one for each channel, the worst first."""
        mine = self.score(begin, end)
        count, whole, _, _ = self.rank(begin, end)
        yield "%s %.1f silence %d of %d gaps around this time of day last as long" % (
            grade_of(mine), mine, count, whole)
        for group, score in self.worst(begin, end, len(self.channels)):
            told = self.channels[group].explained(begin, end)
            if told:
                yield "channel %s score %.1f %s" % ("%s %s" % group, score, told)


def spread(function, items, jobs):
    """The function of each item, by so many processes: these are forked, so that they have what it looks at."""
    if jobs < 2 or len(items) < 2:
        return [function(item) for item in items]
    global forked
    forked = function
    with multiprocessing.get_context("fork").Pool(jobs) as pool:
        return pool.map(of_forked, items)


def of_forked(item):
    return forked(item)
