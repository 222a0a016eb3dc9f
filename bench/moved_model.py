"""What an edit moves, worked out anew from its definition over the whole log; for bench/moved.

Nothing here is shared with the program. A `Log` is what is held and known. A `Walk` goes over it with one channel:
forward with the set of all its possible states, a state being a colour and the tenth of its entry, and backward with
the latest entry of each colour from which the rest of the log can be met. `UnderWay` finds by the rows alone what
crosses an hour point: services, yellows, cycles, windows of split failures, walks, calls, dwells, arrivals that are on
their way to the stop bar. `moved` compares two logs at their hour points.

A row that is under way is its tenth with its code and parameter, so another row at the same tenth is another one. Of a
service that is over, but whose window of a split failure isn't, the four rows count and the numbers so far, for each
configured phase, and no longer the reason why its green ended.

Sets of entries are numbers: bit `entry + OLD` stands for the entry. An age of more than 36,000 tenths meets every
floor, so entries before OLD tenths are as good as one of OLD tenths before.
"""
import bisect

import hostile_data as data
import machines

HOUR = data.HOUR
OLD = 36001
# The tenths after the end of yellow over which a split failure looks at its detector.
RED_WINDOW = 50


class Channel:
    """A tracked channel: its machine (for each letter the colours that it leads to), floors and letters of rows."""
    def __init__(self, name, machine, letters, floors=()):
        self.name, self.machine, self.letters, self.floors = name, machine, letters, dict(floors)
        self.colours = sorted({each for step in machine.values() for pair in step.items() for each in pair})
        self.changes = [(a, b) for a in self.colours for b in self.colours
                        if a != b and any(step.get(a) == b for step in machine.values())]

    def floor(self, colour):
        return self.floors.get(colour, 0)


def channel(kind, number, floors=()):
    """A channel of the configuration. A row's letter is its code, of the coordination its parameter."""
    machine = machines.MACHINES[kind.replace(" ", "_")]
    if kind == "coordination":
        return Channel((kind, 0), machine, {(150, state): state for state in machine})
    return Channel((kind, number), machine, {(code, number): code for code in machine}, floors)


class Setup:
    """What the configuration tells: phases, peds, overlaps, preempts, approaches, and the channels of all these."""
    def __init__(self, hours, phases, peds, overlaps, preempts, coordination, floors, approaches):
        self.hours, self.phases, self.peds, self.overlaps, self.preempts = hours, phases, peds, overlaps, preempts
        self.coordination, self.floors, self.approaches = coordination, floors, approaches
        named = [("phase", n) for n in phases] + [("ped", n) for n in peds] + [("overlap", n) for n in overlaps]
        named += [("preempt input", n) for n in preempts] + [("preempt", n) for n in preempts]
        named += [("ped detector", n) for n in peds]
        named += [("detector", n) for n in sorted({n for each in approaches for n in each.detectors()})]
        named += [("coordination", 0)] if coordination else []
        self.channels = {name: channel(*name, floors.get(name, {})) for name in named}


class Approach:
    def __init__(self, name, phase, advance, stop_bar, travel):
        self.name, self.phase, self.advance, self.stop_bar, self.travel = name, phase, advance, stop_bar, travel

    def detectors(self):
        return [each for each in (self.advance, self.stop_bar) if each]


def without(ranges, first, end):
    return [part for a, b in ranges for part in ((a, min(b, first)), (max(a, end), b)) if part[0] < part[1]]


class Log:
    """The rows held of each hour, or None, and the blanked ranges; rows are (tenth, code, parameter) in row order."""
    def __init__(self, held, blanked=()):
        self.held, self.blanked = tuple(held), tuple(blanked)
        self.end = len(self.held) * HOUR
        self.stretches = self.all_stretches()
        self.starts = [first for first, _, _ in self.stretches]
        self.rows = [row for hour in self.held for row in hour or () if self.is_known(row[0])]
        self.tenths = [row[0] for row in self.rows]

    def all_stretches(self):
        """The window in stretches (first, end, whether known), no two of one kind beside each other."""
        known = []
        for hour, rows in enumerate(self.held):
            if rows is not None:
                known.append((hour * HOUR, hour * HOUR + HOUR))
        for first, end in self.blanked:
            known = without(known, first, end)
        cuts = sorted({0, self.end, *(each for stretch in known for each in stretch)})
        found = []
        for first, end in zip(cuts, cuts[1:]):
            is_known = any(a <= first and end <= b for a, b in known)
            if found and found[-1][2] == is_known:
                first = found.pop()[0]
            found.append((first, end, is_known))
        return found

    def stretch_at(self, tenth):
        return self.stretches[bisect.bisect_right(self.starts, tenth) - 1]

    def is_known(self, tenth):
        return 0 <= tenth < self.end and self.stretch_at(tenth)[2]

    def is_known_through(self, first, end):
        """Whether every tenth from the first up to the end is known."""
        return first >= end or self.stretch_at(first)[2] and self.stretch_at(first)[1] >= end

    def with_hour(self, hour, rows):
        return Log(self.held[:hour] + (rows,) + self.held[hour + 1:], self.blanked)

    def with_blank(self, first, end, is_blank):
        return Log(self.held, without(self.blanked, first, end) + [(first, end)] * is_blank)


def entries(first, end):
    """The set of all entries from the first up to the end."""
    return ((1 << max(0, end - first)) - 1) << (first + OLD)


def earliest(found):
    return (found & -found).bit_length() - 1 - OLD


def after_row(channel, states, at, letter):
    made = {}
    for colour, found in states.items():
        to = channel.machine[letter].get(colour)
        if to == colour:
            made[to] = made.get(to, 0) | found
        elif to is not None and found & entries(-OLD, at - channel.floor(colour) + 1):
            made[to] = made.get(to, 0) | entries(at, at + 1)
    return made


def after_gap(channel, states, first, end):
    """The states after any legal events at the tenths from the first up to the end.

    A colour that can be left at a tenth of the gap can be left at each later one. So it is enough to know the first
    tenth at which each colour can be left, and with it the first at which each other can be entered.
    """
    leave = {colour: max(first, earliest(found) + channel.floor(colour)) for colour, found in states.items()}
    enter, grew = {}, True
    while grew:
        grew = False
        for colour, to in channel.changes:
            at = leave.get(colour, end)
            if at < min(end, enter.get(to, end)):
                enter[to], grew = at, True
                leave[to] = min(leave.get(to, end), at + channel.floor(to))
    return {colour: states.get(colour, 0) | entries(enter.get(colour, end), end) for colour in {*states, *enter}}


def after_gap_slowly(channel, states, first, end):
    """The same, tenth by tenth and change by change, as it is defined."""
    for at in range(first, end):
        grew = True
        while grew:
            before = dict(states)
            for letter in channel.machine:
                for colour, found in after_row(channel, before, at, letter).items():
                    states[colour] = states.get(colour, 0) | found
            grew = states != before
    return states


def before_row(channel, allowed, at, letter):
    made = {}
    for colour, to in channel.machine[letter].items():
        if to in allowed and to == colour:
            made[colour] = allowed[colour]
        elif to in allowed and at <= allowed[to]:
            made[colour] = at - channel.floor(colour)
    return made


def before_gap(channel, allowed, first, end):
    """The latest entries from which some legal events at these tenths lead to an allowed state.

    A colour can be entered at a tenth of the gap where that tenth is allowed as its entry; the one before it is left
    then. The later it is left, the later it may have been entered.
    """
    made, grew = dict(allowed), True
    while grew:
        grew = False
        for colour, to in channel.changes:
            if to not in made:
                continue
            at = min(end - 1, made[to])
            if at >= first and at - channel.floor(colour) > made.get(colour, -2 * OLD):
                made[colour], grew = at - channel.floor(colour), True
    return made


def before_gap_slowly(channel, allowed, first, end):
    """The same, tenth by tenth from the last and change by change, as it is defined."""
    for at in reversed(range(first, end)):
        grew = True
        while grew:
            before, grew = dict(allowed), False
            for letter in channel.machine:
                for colour, latest in before_row(channel, before, at, letter).items():
                    if latest > allowed.get(colour, -2 * OLD):
                        allowed[colour], grew = latest, True
    return allowed


class Walk:
    """One channel through a log: at each hour point the possible states and the latest entries that go on, and between
    them the possible colours."""
    def __init__(self, channel, log):
        self.channel, self.log = channel, log
        # (index in the log's rows, tenth, letter)
        self.rows = [(index, row[0], channel.letters[row[1:]]) for index, row in enumerate(log.rows)
                     if row[1:] in channel.letters]
        # what is possible after the tenths and rows so far: (the last tenth, the colours), and before each row
        self.places, self.before, self.impossible = [(-1, set(channel.colours))], {}, None
        self.past = self.walk_forward()
        self.future = self.walk_back() if self.impossible is None else None

    def steps(self):
        """The rows (tenth, tenth, index, letter) and gaps (first, end, None, None) in order, cut at the hour points."""
        found = [(at, at, index, letter) for index, at, letter in self.rows]
        for first, end, known in self.log.stretches:
            if not known:
                cuts = [first, *range(first // HOUR * HOUR + HOUR, end, HOUR), end]
                found += [(a, b, None, None) for a, b in zip(cuts, cuts[1:])]
        found.sort(key=lambda step: (step[0], -1 if step[2] is None else step[2]))
        return found

    def walk_forward(self):
        states, past = {colour: entries(-OLD, 0) for colour in self.channel.colours}, []

        def pass_points(up_to):
            while len(past) * HOUR <= up_to:
                oldest = len(past) * HOUR - OLD
                for colour, found in states.items():
                    if found & entries(-OLD, oldest):
                        states[colour] = found & ~entries(-OLD, oldest) | entries(oldest, oldest + 1)
                past.append(dict(states))

        for first, end, index, letter in self.steps():
            pass_points(first)
            if index is None:
                states = after_gap(self.channel, states, first, end)
                self.places.append((end - 1, set(states)))
            else:
                self.before[index] = set(states)
                states = after_row(self.channel, states, first, letter)
                self.places.append((first, set(states)))
                if not states:
                    self.impossible = index
                    return past
        pass_points(self.log.end)
        self.place_tenths = [at for at, _ in self.places]
        return past

    def walk_back(self):
        allowed, future = {colour: self.log.end - 1 for colour in self.channel.colours}, []

        def pass_points(down_to):
            while self.log.end - len(future) * HOUR >= down_to:
                point = self.log.end - len(future) * HOUR
                for colour in allowed:
                    allowed[colour] = min(allowed[colour], point - 1)
                future.append(dict(allowed))

        for first, end, index, letter in reversed(self.steps()):
            # a row at an hour point's tenth comes behind the point, a gap that ends there before it
            pass_points(first + 1 if index is not None else end)
            if index is None:
                allowed = before_gap(self.channel, allowed, first, end)
            else:
                allowed = before_row(self.channel, allowed, first, letter)
        pass_points(0)
        return future[::-1]

    def colours_at_end(self, tenth):
        """The possible colours at the end of a known tenth, by the rows up to it."""
        return self.places[bisect.bisect_right(self.place_tenths, tenth) - 1][1]

    def pieces(self, first, end):
        """The tenths from the first up to the end in pieces (first, end, known, letters): unknown tenths, known ones
        without a row, and single ones with rows."""
        for a, b, known in self.log.stretches:
            a, b = max(a, first), min(b, end)
            if a >= b:
                continue
            if not known:
                yield a, b, False, []
                continue
            for at in sorted({row[1] for row in self.rows if a <= row[1] < b}):
                yield a, at, True, []
                yield at, at + 1, True, [row[2] for row in self.rows if row[1] == at]
                a = at + 1
            yield a, b, True, []

    def on_numbers(self, first, end):
        """Of a detector: at the ends of how many of these tenths it is On, at least and at most over all histories, and
        whether it is Fault at one of them in all."""
        counts, sure = {colour: (0, 0) for colour in self.colours_at_end(first - 1)}, False
        for a, b, known, letters in self.pieces(first, end):
            if a >= b:
                continue
            if not known:
                least = min(each[0] for each in counts.values())
                greatest = max(each[1] for each in counts.values()) + b - a - 1
                counts = {"On": (least + 1, greatest + 1), "Off": (least, greatest), "Fault": (least, greatest)}
                continue
            for letter in letters:
                made = {}
                for colour, (least, greatest) in counts.items():
                    to = self.channel.machine[letter][colour]
                    other = made.get(to, (least, greatest))
                    made[to] = min(least, other[0]), max(greatest, other[1])
                counts = made
            if "On" in counts:
                counts["On"] = counts["On"][0] + b - a, counts["On"][1] + b - a
            sure = sure or set(counts) == {"Fault"}
        return min(each[0] for each in counts.values()), max(each[1] for each in counts.values()), sure


def first_of(rows, codes, after):
    """The place of the first row of these codes behind a place of the list, or None."""
    return next((i for i in range(after + 1, len(rows)) if rows[i][1] in codes), None) if after is not None else None


def last_of(rows, codes):
    return next((i for i in reversed(range(len(rows))) if rows[i][1] in codes), None)


def row_at(rows, place):
    return None if place is None else rows[place]


class UnderWay:
    """What is under way at an hour point of a log, part by part."""
    def __init__(self, setup, log, walks, point):
        self.setup, self.log, self.walks, self.point = setup, log, walks, point
        self.rows = log.rows[:bisect.bisect_left(log.tenths, point)]
        self.parts = {"known before": point > 0 and log.is_known(point - 1)}
        for phase in setup.phases:
            rows = [row for row in self.rows if row[2] == phase and row[1] in (1, 4, 5, 6, 7, 8, 9, 10)]
            self.parts["service of phase %d" % phase] = self.open_service(phase, rows)
            self.parts["yellow of phase %d" % phase] = self.open_yellow(rows)
            self.parts["cycle of phase %d" % phase] = self.open_cycle(phase, rows)
            self.parts["windows of phase %d" % phase] = self.open_windows(phase, rows)
        for ped in setup.peds:
            self.parts["walk of ped %d" % ped] = self.open_walk(ped)
        for preempt in setup.preempts:
            self.parts["call of preempt %d" % preempt] = self.open_call(preempt)
            self.parts["dwell of preempt %d" % preempt] = self.open_dwell(preempt)
        for approach in setup.approaches:
            if approach.advance:
                self.parts["arrivals of " + approach.name] = [
                    row for row in self.arrivals(approach) if row[0] + approach.travel >= point]

    def is_live(self, row):
        """Whether every tenth from the row's up to the point is known."""
        return self.log.is_known_through(row[0], self.point)

    def stop_bars(self, phase):
        return [self.walks["detector", each.stop_bar] for each in self.setup.approaches
                if each.phase == phase and each.stop_bar]

    def open_service(self, phase, rows):
        begin = last_of(rows, (1,))
        if begin is None or not self.is_live(rows[begin]):
            return None
        green, yellow, end = service_from(rows, begin)
        if end is not None:
            return None
        up_to = self.point if green is None else rows[green][0]
        return (rows[begin], row_at(rows, green), row_at(rows, yellow), closing(rows, begin, green),
                [bar.on_numbers(rows[begin][0], up_to) for bar in self.stop_bars(phase)])

    def open_windows(self, phase, rows):
        found = []
        for begin in (i for i, row in enumerate(rows) if row[1] == 1):
            green, yellow, end = service_from(rows, begin)
            if end is None or first_of(rows, (1,), begin) is not None and first_of(rows, (1,), begin) < end:
                continue
            b, g, y, r = (rows[i] for i in (begin, green, yellow, end))
            if not self.log.is_known_through(b[0], r[0] + 1) or r[0] + RED_WINDOW - 1 < self.point:
                continue
            numbers = []
            for bar in self.stop_bars(phase):
                of_green, of_red = bar.on_numbers(b[0], g[0]), bar.on_numbers(r[0], self.point)
                numbers.append((of_green[:2], of_red[:2], of_green[2] or of_red[2]))
            found.append((b, g, y, r, numbers))
        return found

    def open_yellow(self, rows):
        yellow = last_of(rows, (8,))
        if yellow is None or not self.is_live(rows[yellow]) or first_of(rows, (9, 10), yellow) is not None:
            return None
        return rows[yellow]

    def is_yellow_end(self, rows, place):
        """Whether a row 9 or 10 has a row 8 before it, with no row 9 or 10 and no unknown tenth between."""
        yellow = last_of(rows[:place], (8, 9, 10))
        return (rows[place][1] in (9, 10) and yellow is not None and rows[yellow][1] == 8
                and self.log.is_known_through(rows[yellow][0], rows[place][0] + 1))

    def open_cycle(self, phase, rows):
        last = next((i for i in reversed(range(len(rows))) if self.is_yellow_end(rows, i)), None)
        if last is None or not self.is_live(rows[last]):
            return None
        since = rows[last + 1:]
        return (rows[last], row_at(since, last_of(since, (1,))), row_at(since, last_of(since, (8,))),
                [self.cycle_numbers(each, rows[last][0]) for each in self.setup.approaches
                 if each.phase == phase and each.advance])

    def cycle_numbers(self, approach, first):
        """Of an open cycle: its arrivals, those on green, and its tenths of green.

        A row 8 and known tenths come before, so the phase has one colour in all histories.
        """
        phase = self.walks["phase", approach.phase]
        at = [row[0] + approach.travel for row in self.arrivals(approach)]
        at = [tenth for tenth in at if first <= tenth < self.point]
        green = 0
        for a, b, _, letters in phase.pieces(first, self.point):
            green += (b - a) * (phase.colours_at_end(a) == {"Green"})
        return len(at), sum(phase.colours_at_end(tenth) == {"Green"} for tenth in at), green

    def arrivals(self, approach):
        """The known rows 82 of the approach's detector before the point, but for those before which it is sure to have
        a fault."""
        detector = self.walks["detector", approach.advance]
        return [row for i, row in enumerate(self.rows)
                if row[1:] == (82, approach.advance) and detector.before[i] != {"Fault"}]

    def last_live(self, codes, number, wanted):
        """The rows of a channel from the last one of these codes on, where that one is wanted and live."""
        rows = [row for row in self.rows if row[2] == number]
        last = last_of(rows, codes)
        if last is None or rows[last][1] not in wanted or not self.is_live(rows[last]):
            return None
        return rows[last:]

    def with_first(self, rows, codes):
        return rows and (rows[0], row_at(rows, first_of(rows, codes, 0)))

    def open_walk(self, ped):
        return self.with_first(self.last_live((21,), ped, (21,)), (45,))

    def open_call(self, preempt):
        rows = self.last_live((102, 105), preempt, (102,))
        return rows and rows[0]

    def open_dwell(self, preempt):
        return self.with_first(self.last_live((105, 111), preempt, (105, 111)), (107,))


def service_from(rows, begin):
    """The places of the end of green, the begin of yellow and its end that belong to a begin of green."""
    yellow = first_of(rows, (8,), begin)
    return first_of(rows, (7, 8), begin), yellow, first_of(rows, (9, 10), yellow)


def closing(rows, begin, green):
    """The row that says so far why the green ends: the last row 4, 5 or 6 since its begin, not later than its end."""
    return next((row for row in reversed(rows[begin + 1:])
                 if row[1] in (4, 5, 6) and (green is None or row[0] <= rows[green][0])), None)


class Seen:
    """A log as seen from its hour points: the first row with which no history agrees, or what stands at each point."""
    def __init__(self, setup, log):
        self.setup, self.log = setup, log
        self.walks = {name: Walk(each, log) for name, each in setup.channels.items()}
        impossible = [walk.impossible for walk in self.walks.values() if walk.impossible is not None]
        self.contradiction = log.rows[min(impossible)] if impossible else None
        self.kept = {}

    def carry(self, hour):
        """All that the hours before a point hand on."""
        if hour not in self.kept:
            parts = {"states of %s %d" % name: walk.past[hour] for name, walk in self.walks.items()}
            parts.update(UnderWay(self.setup, self.log, self.walks, hour * HOUR).parts)
            self.kept[hour] = parts
        return self.kept[hour]

    def future(self, hour):
        """All that the hours behind a point allow."""
        return {name: walk.future[hour] for name, walk in self.walks.items()}


def differing(old, new, hour):
    """The names of the parts that differ at a point."""
    return [name for name, part in old.carry(hour).items() if new.carry(hour)[name] != part]


def moved(old, new, first, last):
    """The hours that an edit moves, of which it touches those from the first to the last."""
    start = next(hour for hour in reversed(range(first + 1)) if hour == 0 or old.future(hour) == new.future(hour))
    hours = len(old.log.held)
    end = next((hour for hour in range(last + 1, hours) if not differing(old, new, hour)), hours)
    return start, end
