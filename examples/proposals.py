"""Which gaps of a log are proposed as holes, with grades: what `holes` rests on beside `gaps`, `machines`. Not proved.

First what the machines and the configuration's floors contradict: a hole lies between the two rows, and is put over the
likeliest gaps there. Then, these known, the gaps that the model of `gaps` finds likely.
"""
import array
import bisect
import dataclasses
import itertools
import math

import gaps
import logs
import machines

PORTION = 7     # days: a longer log is learned in portions, since traffic and plans change with the weeks
EDGE = 9.0      # a silence at the log's begin or end is a hole where one in 8,000 (e^9) at this time of day is as long
# A contradiction's hole is put over the likeliest gaps that have so much of the odds together. In the wrong gap it makes
# false lines: with 0.95 three in eighteen days, with 0.99 none in 36, for a quarter more of blanked seconds.
SHARE = 0.99
# Where so many phases and more begin anew in one tenth, over a gap shorter than LEAST, which has no room for a yellow
# and a red, the controller jumped, as at a restart.
JUMPING, BEGINS = 2, (0, 1)
BEFORE, BEHIND = 8, 8    # rows of a channel that tell its colour, and show whether it goes on from there: two services
# So many contradictions by one code of a kind, and of so large a share of its rows, are the controller's way, no holes.
MISFIT_LEAST, MISFIT_SHARE = 10, 0.05


@dataclasses.dataclass
class Hole:
    """A gap for which a blank is proposed: the row before, the row after, how sure it is, and why."""
    begin: int
    end: int
    grade: str
    score: float | None
    why: str

    def blank(self):
        """The first tenth that is blanked, and the first that isn't: other rows of the tenths at both ends may be lost
        too, as where rows are lost by their number and not by their time."""
        return self.begin, self.end + 1


@dataclasses.dataclass
class Found:
    """holes; suspects as (score, begin, end, why); chances as in gaps; misfits, contradictions that are no holes, as
    (kind, code, count, rows, first tenth); small, what was too small to learn from, as (begin, end, tenths)."""
    holes: list = dataclasses.field(default_factory=list)
    suspects: list = dataclasses.field(default_factory=list)
    chances: list = dataclasses.field(default_factory=list)
    misfits: list = dataclasses.field(default_factory=list)
    small: list = dataclasses.field(default_factory=list)


class Log:
    """The rows of a log by hours: of each hour the tenths, codes and parameters in order, as three arrays."""

    def __init__(self, hours):
        self.hours = dict(sorted(hours.items()))

    def stretches(self):
        """The hours that follow one another without one missing: (begin, end)."""
        found = []
        for start in self.hours:
            if found and found[-1][1] == start:
                found[-1] = found[-1][0], start + logs.HOUR
            else:
                found.append((start, start + logs.HOUR))
        return found

    def missing(self):
        return [(a[1], b[0]) for a, b in zip(self.stretches(), self.stretches()[1:])]

    def rows(self, begin=0, end=math.inf):
        for start, columns in self.hours.items():
            if begin <= start < end:
                yield from zip(*columns)

    def tenths(self, begin=0, end=math.inf):
        """The tenths with rows, in order."""
        return array.array("q", (tenth for tenth, _ in itertools.groupby(row[0] for row in self.rows(begin, end))))

    def silences(self):
        """The silences of all channels with at least one tenth between two rows, in order; those before the first row
        of a stretch and after its last too."""
        for begin, end in self.stretches():
            last = begin - 1
            for tenth in itertools.chain(self.tenths(begin, end), (end,)):
                if tenth > last + 1:
                    yield max(last, begin), tenth
                last = tenth

    def portions(self):
        """Logs of at most PORTION days each, about as long as one another, each with the first tenth that it isn't
        asked about: that of its last hour, which stands in the next one too, so that no gap lies between two of them."""
        hours = list(self.hours.items())
        count = -(-len(hours) // (24 * PORTION))
        cuts = [len(hours) * i // count for i in range(count + 1)]
        return [(Log(dict(hours[a:b + 1])), hours[b][0] if b < len(hours) else math.inf)
                for a, b in zip(cuts, cuts[1:])]


def without_repeats(rows):
    """Without the rows that sigaudit leaves out: at their tenth the last of their group is the same."""
    now, last = None, {}
    for tenth, code, param in rows:
        if tenth != now:
            now, last = tenth, {}
        group = logs.channel_of(code, param) or (code, param)
        if last.get(group) != (code, param):
            yield tenth, code, param
        last[group] = code, param


def merged(blanks):
    """The blanks in order, those that overlap or touch as one."""
    found = []
    for low, high in sorted(blanks):
        if found and low <= found[-1][1]:
            found[-1] = found[-1][0], max(high, found[-1][1])
        else:
            found.append((low, high))
    return found


def name_of(channel):
    return channel[0] if channel[0] == "coordination" else "%s %s" % channel


def model_of(log, config, jobs=1):
    """The model of a log, learned, and the holes that the contradictions in it want; None where the log is too small.

    With these known it is learned anew: which rows follow one another over a hole isn't usual.
    """
    rings = {entry["number"]: entry["ring"] for entry in (config or {}).get("phase", [])}
    rows, floors = machine_rows(log), machines.floors_of(config)
    wrong = contradictions(rows, floors, log.missing())
    odd = {kind for kind, *_ in misfits(rows, wrong)}
    told = contradicts({channel: mine for channel, mine in rows.items() if channel[0] not in odd}, floors)
    wrong = [(low, high) for _, low, high, channel, _ in wrong if channel[0] not in odd]

    def learned(known):
        stretches = [(begin, end, log.rows(begin, end)) for begin, end in log.stretches()]
        model = gaps.Gaps(stretches, rings, told, wrong, known)
        return model if model.enough() and model.learn(jobs) else None

    model, found = learned(()), Found()
    if model:
        settle(log, config, found, model)
        if found.holes:
            model = None    # two of a long log would be too much memory
            model = learned(merged(hole.blank() for hole in found.holes))
    return model and (model, found.holes)


def in_words(model, gap):
    return ", ".join("%s %.1f" % (name_of(channel), score) for channel, score in model.worst(*gap))


def proposals(log, config, silence=None, jobs=1, chances=True, certain=False):
    """What is found in the whole log; with `silence`, silences of so many tenths are holes too; with `certain`, else
    only contradictions."""
    portions = [] if certain else log.portions()
    inner, outer = (1, jobs) if len(portions) > 1 else (jobs, 1)
    edges = {edge for stretch in log.stretches() for edge in stretch}
    parts = gaps.spread(lambda portion: proposals_of(*portion, edges, config, inner, chances), portions, outer)
    found = Found(*([entry for part in parts for entry in getattr(part, field.name)]
                    for field in dataclasses.fields(Found)))
    found.chances = summed(found.chances)
    if silence:
        known = {hole.begin for hole in found.holes}
        found.holes += [Hole(*s, "likely", None, "silence") for s in log.silences()
                        if s[1] - s[0] >= silence and s[0] not in known]
    settle(log, config, found, None)
    found.holes.sort(key=lambda hole: (hole.begin, hole.end))
    blanks = merged(hole.blank() for hole in found.holes)
    found.suspects = sorted((entry for entry in found.suspects
                             if not any(a < entry[2] and entry[1] < b for a, b in blanks)), reverse=True)
    return found


def proposals_of(log, end, edges, config, jobs, chances):
    """What is found in a portion up to a tenth; edges are the begins and ends of the whole log's stretches."""
    found, learned = Found(), model_of(log, config, jobs)
    if learned is None:
        found.small.append((log.stretches()[0][0], log.stretches()[-1][1], len(log.tenths())))
        return found
    model, found.holes = learned
    for score, gap in model.find():
        if score >= gaps.LIKELY:
            found.holes.append(Hole(*gap, gaps.grade_of(score), score, in_words(model, gap)))
        else:
            found.suspects.append((score, *gap, in_words(model, gap)))
    found.holes += [Hole(*s, "likely", None, "edge") for s in log.silences()
                    if (s[0] in edges or s[1] in edges) and s[1] - s[0] >= gaps.LEAST and model.silent(*s) > EDGE]
    if chances:
        found.chances = list(model.chances())
    found.holes = [hole for hole in found.holes if hole.begin < end]
    found.suspects = [entry for entry in found.suspects if entry[1] < end]
    return found


def explained(log, config, stamp, jobs=1):
    """Why the gap at a stamp has its grade: lines, of which the first has the gap; None where there is no gap, or where
    the log is too small. Scores are those with which it was found: with the holes known that were taken before it."""
    portion = next((portion for portion, end in log.portions() if stamp < end), log)
    model, holes = model_of(portion, config, jobs) or (None, ())
    gap = model and next((gap for gap in zip(model.tenths, model.tenths[1:]) if gap[0] <= stamp < gap[1]), None)
    if not gap:
        return None
    certain, taken = list(model.holes), []
    for score, other in model.find():
        if other == gap:
            model.holes = sorted(certain + taken)
            break
        if score >= gaps.LIKELY:
            taken.append(other)
    told = list(model.explained(*gap))
    told[0] = "gap %.1f %s %s %s" % ((gap[1] - gap[0]) / 10, logs.show(gap[0]), logs.show(gap[1]), told[0])
    return ["certain %s" % hole.why for hole in holes if hole.begin < gap[1] and gap[0] < hole.end] + told


def summed(chances):
    """The chances of all portions together."""
    whole = {}
    for *key, found, count in chances:
        before = whole.get(tuple(key), (0, 0))
        whole[tuple(key)] = before[0] + found, before[1] + count
    return [(*key, *counts) for key, counts in sorted(whole.items())]


def machine_rows(log):
    """The rows of the channels that can contradict themselves: (tenth, code) by channel."""
    found = {}
    for tenth, code, param in without_repeats(log.rows()):
        channel = logs.channel_of(code, param)
        if channel and channel[0] in machines.STRICT:
            found.setdefault(channel, []).append((tenth, code))
    return found


def contradictions(rows, floors, blanks):
    """What no history has: (tenths, first tenth, last tenth, channel, code of the last row), the shortest first."""
    found = []
    for channel, mine in rows.items():
        for first, last in machines.Machine(channel[0], floors.get(channel, {})).contradictions(mine, blanks):
            low, high = mine[first][0], mine[last][0]
            found.append((high - low, low, high, channel, mine[last][1]))
    return sorted(found)


def contradicts(rows, floors):
    """Whether the rows on both sides of a gap contradict one another, as far as the next few of a channel tell."""
    channels = [(machines.Machine(channel[0], floors.get(channel, {})), mine, [tenth for tenth, _ in mine])
                for channel, mine in rows.items()]

    def told(gap):
        for machine, mine, tenths in channels:
            i, j = bisect.bisect_right(tenths, gap[0]), bisect.bisect_left(tenths, gap[1])
            if machine.first_wrong(mine[max(0, i - BEFORE):i] + mine[j:j + BEHIND]) is not None:
                return True
        return False
    return told


def misfits(rows, wrong):
    """The codes of a kind that contradict so often that it is the controller's way: (kind, code, count, of, first)."""
    counts, every = {}, {}
    for _, _, high, channel, code in wrong:
        counts.setdefault((channel[0], code), []).append(high)
    for channel, mine in rows.items():
        for _, code in mine:
            every[channel[0], code] = every.get((channel[0], code), 0) + 1
    return [(kind, code, len(tenths), every[kind, code], min(tenths)) for (kind, code), tenths in sorted(counts.items())
            if len(tenths) >= MISFIT_LEAST and len(tenths) >= MISFIT_SHARE * every[kind, code]]


def settle(log, config, found, model):
    """Adds holes for what still contradicts, the shortest stretches first, until nothing does."""
    floors, rows, tenths = machines.floors_of(config), dict(sorted(machine_rows(log).items())), log.tenths()
    found.misfits = misfits(rows, contradictions(rows, floors, log.missing()))
    odd = {(kind, code) for kind, code, *_ in found.misfits}
    while rows:
        blanks = merged([hole.blank() for hole in found.holes] + log.missing())
        wrong = [entry for entry in contradictions(rows, floors, blanks) if (entry[3][0], entry[4]) not in odd]
        rows = {entry[3]: rows[entry[3]] for entry in wrong}
        taken = []
        for _, low, high, channel, code in wrong:
            if not any(low <= b and a <= high for a, b in taken):
                begin, end = span_of(low, high, tenths, blanks, model)
                taken.append((begin, end))
                why = "%s code %d at %s after %s" % (name_of(channel), code, logs.show(high), logs.show(low))
                jumped = {entry[3] for entry in wrong
                          if entry[2] == high and entry[3][0] == "phase" and entry[4] in BEGINS}
                if end - begin < gaps.LEAST and len(jumped) >= JUMPING:
                    why = "jump of %s: %s" % (", ".join(map(name_of, sorted(jumped))), why)
                found.holes.append(Hole(begin, end, "certain", None, why))


def span_of(low, high, tenths, blanks, model):
    """Where the hole goes that lies between two rows: the row before and the row after."""
    i, j = bisect.bisect_left(tenths, low), bisect.bisect_left(tenths, high)
    near = [blank for blank in blanks if blank[0] <= high and low < blank[1]]
    if near:
        return near[0][0], high    # one is there already, and too small for the floors: it grows
    inside = [gap for gap in zip(tenths[i:j], tenths[i + 1:j + 1]) if gap[1] - gap[0] > 1]
    likeliest = likeliest_of(inside, model) if inside else [(low, high)]
    return min(likeliest)[0], max(likeliest)[1]


def likeliest_of(inside, model):
    """The gaps that have the hole together for nearly sure; all of them where there is no model."""
    if model is None:
        return inside
    scored = sorted(((model.odds(model.vector(gap)), gap) for gap in inside), reverse=True)
    whole = sum(math.exp(odds) for odds, _ in scored)
    taken, share = [], 0.0
    for odds, gap in scored:
        taken.append(gap)
        share += math.exp(odds) / whole
        if share >= SHARE:
            break
    return taken
