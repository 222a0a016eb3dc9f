"""A signal of one's own for whole days: a small simulation of traffic and of its controller, by seed. Nothing is proved.

    signal = simulation.Signal(seed)          # phases, plans, lanes, detectors, flows drawn by the seed
    rows = signal.days(2)                     # (tenth, code, parameter) in order, of two days from START on
    text = signal.config(hours=48)            # its configuration

The first day, from START on, is a Tuesday. The controller has two rings and a barrier. It runs free by night and
coordinated by plans by day, with gap-outs (code 4), greatest greens (5) and force-offs (6), walks on call, and rests in
the green of the main street while nobody calls. Vehicles come in Poisson fashion, on the main street in platoons of
another signal's cycle, pass the advance loop, queue at the stop bar, and leave at two seconds' headway. The log has
what a controller writes: detectors, calls, phases, walks, coordination; each as legal for the machines of
docs/FORMATS.md.
What is drawn and what isn't modelled (lanes that change, turns on red, preemption) is to be read below; d1 and d3 in
bench/days are of another simulation.
"""
import heapq
import math
import random

from sigaudit_tools.times import HOUR, hour_of, tenth_of_hour

START = tenth_of_hour("2024-04-09T00")
DAY = 24 * HOUR
LAYOUTS = ((2, 4, 6, 8), (1, 2, 4, 5, 6, 8), (2, 4, 5, 6, 8), (1, 2, 3, 4, 5, 6, 7, 8), (1, 2, 3, 4, 5, 6, 7, 8))
RINGS = ((1, 2, 3, 4), (5, 6, 7, 8))
MAIN = (2, 6)
# The share of the busiest hour's flow at each hour, from midnight on: a town's weekday.
SHARES = (.04, .02, .015, .015, .03, .12, .38, .85, .9, .65, .6, .65, .72, .7, .72, .82, .95, 1.0, .8, .55, .4, .3, .17, .08)
PLANS = ((6, 9), (9, 15), (15, 19), (19, 22))   # hours of coordination; free without one
# A Saturday's and a Sunday's: no peaks, and one plan, that of the weekdays' noon.
WEEKEND = (.1, .07, .05, .04, .03, .04, .1, .18, .32, .48, .6, .68, .7, .68, .66, .65, .64, .6, .52, .42, .34, .26, .2,
           .14)
WEEKEND_PLAN = 9, 19


def is_weekend(tenth):
    return tenth // DAY % 7 in (6, 0)    # days count from a Monday, the first


class Lane:
    """A lane: its phase, its loops (None where it has none), how many wait, and whether one stands on the stop bar."""

    def __init__(self, phase, flow, advance, stop_bar, platoon):
        self.phase, self.flow, self.advance, self.stop_bar, self.platoon = phase, flow, advance, stop_bar, platoon
        self.queue, self.on_bar, self.token, self.last = 0, False, 0, -100


class Ring:
    def __init__(self, phases):
        self.phases = phases
        self.phase, self.stage, self.since, self.until = None, "dark", 0, 0
        self.extended, self.minimum_told, self.walk, self.reason = 0, False, None, None


class Signal:
    def __init__(self, seed):
        rng = self.rng = random.Random("signal %s" % seed)
        self.name = "g%s" % seed
        self.number = str(7000 + int(seed) % 1000)
        self.phases = rng.choice(LAYOUTS)
        self.rings = [Ring([phase for phase in ring if phase in self.phases]) for ring in RINGS]
        self.yellow = {phase: rng.randrange(30, 46) for phase in self.phases}
        self.clear = {phase: rng.randrange(8, 26) for phase in self.phases}
        for one, other in ((2, 6), (4, 8)):
            self.yellow[other], self.clear[other] = self.yellow[one], self.clear[one]
        self.least = {phase: 10 * (rng.randrange(8, 16) if phase in MAIN else rng.randrange(4, 9)) for phase in self.phases}
        self.most = {phase: 10 * (rng.randrange(35, 70) if phase in MAIN else rng.randrange(15, 40)) for phase in self.phases}
        self.passage = {phase: rng.randrange(20, 45) for phase in self.phases}
        self.jitter = rng.choice((0, 0, 1))             # tenths by which a controller's interval may be long
        self.peds = [phase for phase in self.phases if phase % 2 == 0 and rng.random() < 0.8]
        self.walk = {phase: 10 * rng.randrange(5, 11) for phase in self.peds}
        self.flashing = {phase: 10 * rng.randrange(8, 20) for phase in self.peds}
        self.ped_rate = {phase: rng.uniform(1, 25) for phase in self.peds}      # a busiest hour
        self.tells_calls, self.tells_coordination = rng.random() < 0.8, rng.random() < 0.8
        self.plans = {}
        for number, hours in enumerate(PLANS, 1):
            self.plans[hours] = self.plan(number, rng)
        if rng.random() < 0.3:
            del self.plans[PLANS[-1]]
        self.upstream = 10 * rng.randrange(60, 130)     # the cycle of the signal from which platoons come
        self.lanes = self.lanes_of(rng)
        self.shift = rng.uniform(-1, 1)                 # hours by which the day is early or late

    def plan(self, number, rng):
        """A plan: its number, cycle, offset, and when each phase is forced off, counted from the yield point."""
        cycle = 10 * rng.randrange(14, 29) * 5 - 10 * rng.randrange(5)
        side = rng.uniform(0.35, 0.55) * cycle
        parts = {3: rng.uniform(.25, .4), 7: rng.uniform(.25, .4), 1: rng.uniform(.2, .35), 5: rng.uniform(.2, .35)}
        forced = {}
        for left, through, turn in ((3, 4, 1), (7, 8, 5)):
            forced[left] = int(parts[left] * side)
            forced[through] = int(side * 0.75)
            forced[turn] = int(side * 0.75 + parts[turn] * side)
        return number, cycle, rng.randrange(cycle), forced

    def lanes_of(self, rng):
        found, numbers = [], iter(range(1, 129))
        busiest = rng.uniform(250, 750)      # vehicles an hour on a lane of the main street
        for phase in self.phases:
            for _ in range(rng.choice((1, 2)) if phase in MAIN else 1):
                share = 1.0 if phase in MAIN else rng.uniform(.25, .6) if phase % 2 == 0 else rng.uniform(.08, .3)
                advance = next(numbers) if phase % 2 == 0 and (phase in MAIN or rng.random() < .5) else None
                stop_bar = next(numbers) if advance is None or rng.random() < .5 else None
                found.append(Lane(phase, busiest * share * rng.uniform(.7, 1.1), advance, stop_bar, phase in MAIN))
        rng.choice([lane for lane in found if not lane.platoon]).flow = rng.uniform(4, 15)    # one that is rarely hit
        return found

    # Time and traffic.

    def share(self, tenth):
        hours = (tenth - START) / HOUR % 24 - (self.shift if 5 < (tenth - START) / HOUR % 24 < 21 else 0)
        place = int(hours) % 24
        part = hours - int(hours)
        shares = WEEKEND if is_weekend(tenth) else SHARES
        return (1 - part) * shares[place] + part * shares[(place + 1) % 24]

    def plan_at(self, tenth):
        hour = (tenth - START) // HOUR % 24
        if is_weekend(tenth):
            return self.plans[PLANS[1]] if WEEKEND_PLAN[0] <= hour < WEEKEND_PLAN[1] else None
        return next((plan for (low, high), plan in self.plans.items() if low <= hour < high), None)

    def at(self, tenth, *what):
        self.order += 1
        heapq.heappush(self.events, (tenth, self.order, what))

    def put(self, tenth, code, param):
        self.rows.append((tenth, code, param))

    def next_arrival(self, lane):
        """Poisson by thinning; a platoon is the first third of the upstream cycle, with four fifths of the traffic."""
        tenth, most = lane.last + 12, lane.flow * self.today * (2.5 if lane.platoon else 1.0) / HOUR
        while True:
            tenth += max(1, int(self.rng.expovariate(most)))
            wave = 1.0
            if lane.platoon:
                wave = 2.4 if tenth % self.upstream < self.upstream // 3 else 0.3
            if self.rng.random() < self.share(tenth) * wave / (2.5 if lane.platoon else 1.0):
                lane.last = tenth
                return self.at(tenth, "arrive", lane)

    def next_walker(self, phase, tenth):
        while True:
            tenth += max(5, int(self.rng.expovariate(self.ped_rate[phase] / HOUR)))
            if self.rng.random() < self.share(tenth):
                return self.at(tenth, "press", phase)

    # Events of traffic.

    def arrive(self, now, lane):
        if lane.advance:
            self.put(now, 82, lane.advance)
            self.at(now + self.rng.randrange(2, 6), "row", 81, lane.advance)
            self.extend(lane.phase, now)
        self.at(now + (self.rng.randrange(35, 60) if lane.advance else 0), "reach", lane)
        self.next_arrival(lane)

    def reach(self, now, lane):
        lane.queue += 1
        if lane.queue == 1:
            self.step_on(now, lane, self.rng.randrange(3, 9))

    def step_on(self, now, lane, leaves_after):
        lane.on_bar = True
        if lane.stop_bar:
            self.put(now, 82, lane.stop_bar)
        lane.token += 1
        if self.is_green(lane.phase):
            self.extend(lane.phase, now)
            self.at(now + leaves_after, "leave", lane, lane.token)
        else:
            self.call(now, lane.phase)

    def leave(self, now, lane, token):
        if token != lane.token or not self.is_open(lane.phase):
            if token == lane.token:
                self.call(now, lane.phase)
            return
        lane.queue, lane.on_bar, lane.token = lane.queue - 1, False, lane.token + 1
        if lane.stop_bar:
            self.put(now, 81, lane.stop_bar)
            self.extend(lane.phase, now)
        if lane.queue:
            self.at(now + self.rng.randrange(5, 10), "follow", lane)

    def follow(self, now, lane):
        if not lane.on_bar and lane.queue:
            self.step_on(now, lane, self.rng.randrange(9, 16))

    def press(self, now, phase):
        self.put(now, 90, phase)
        self.at(now + self.rng.randrange(2, 12), "row", 89, phase)
        if phase not in self.ped_calls and not self.is_green(phase):
            self.ped_calls.add(phase)
            if self.tells_calls:
                self.put(now, 45, phase)
            self.call(now, phase)
        self.next_walker(phase, now + 12)

    def row(self, now, code, param):
        self.put(now, code, param)

    def call(self, now, phase):
        if phase not in self.calls:
            self.calls.add(phase)
            if self.tells_calls:
                self.put(now, 43, phase)

    def extend(self, phase, now):
        ring = self.ring_of(phase)
        if ring.phase == phase:
            ring.extended = max(ring.extended, now + self.passage[phase])

    # The controller.

    def ring_of(self, phase):
        return self.rings[phase > 4]

    def is_green(self, phase):
        ring = self.ring_of(phase)
        return ring.phase == phase and ring.stage == "green"

    def is_open(self, phase):
        ring = self.ring_of(phase)
        return ring.phase == phase and ring.stage in ("green", "yellow")

    def begin(self, ring, phase, now):
        ring.phase, ring.stage, ring.since = phase, "green", now
        ring.extended, ring.minimum_told, ring.walk = now, False, None
        if phase in self.calls:
            self.calls.discard(phase)
            if self.tells_calls:
                self.put(now, 44, phase)
        self.put(now, 0, phase)
        self.put(now, 1, phase)
        if phase in MAIN and self.plan_at(now) and self.tells_coordination:
            self.put(now, 152, phase)
        if phase in self.ped_calls or (phase in MAIN and phase in self.peds and self.plan_at(now)):
            self.ped_calls.discard(phase)
            self.put(now, 21, phase)
            ring.walk = now + self.walk[phase], "walk"
        for lane in self.lanes:
            if lane.phase == phase and lane.on_bar:
                lane.token += 1
                self.at(now + self.rng.randrange(12, 28), "leave", lane, lane.token)

    def end(self, ring, now):
        """From green to yellow, for the reason that was found."""
        phase = ring.phase
        self.put(now, ring.reason, phase)
        self.put(now, 7, phase)
        self.put(now, 8, phase)
        ring.stage, ring.until = "yellow", now + self.yellow[phase] + self.rng.randint(0, self.jitter)
        for lane in self.lanes:
            if lane.phase == phase and lane.queue > 1:
                self.call(now, phase)
        if phase in MAIN:
            self.call(now, phase)    # the main street is recalled

    def forced(self, ring, now):
        """Whether a plan forces the phase off, and from when."""
        plan = self.plan_at(now)
        if plan is None:
            return None
        _, cycle, offset, forced = plan
        second = (now + offset) % cycle
        if ring.phase in MAIN:
            return second < 30 + int(0.15 * cycle)
        begun = (ring.since + offset) % cycle
        return second >= forced[ring.phase] and second >= begun or now - ring.since > cycle // 2

    def done(self, ring, now):
        """Why the green may end: 4, 5 or 6; None where it may not."""
        phase = ring.phase
        if now < ring.since + self.least[phase] or ring.walk:
            return None
        forced, wanted = self.forced(ring, now), ring.conflict
        if phase in MAIN and forced is not None:
            return 6 if forced else None
        if forced:
            return 6
        waiting = any(lane.on_bar for lane in self.lanes if lane.phase == phase and lane.stop_bar)
        if now >= ring.extended and not waiting:
            return 4
        if forced is None and wanted is not None and now >= max(wanted, ring.since) + self.most[phase]:
            return 5
        return None

    def side(self, phase):
        return phase in (3, 4, 7, 8)

    def next_here(self, ring):
        """The next phase of the ring on this side that is called, if any."""
        later = [phase for phase in ring.phases if phase > ring.phase and self.side(phase) == self.side(ring.phase)]
        return next((phase for phase in later if phase in self.calls), None)

    def decide(self, now):
        """What the rings do at this tenth; whether anything was done."""
        acted = False
        for ring in self.rings:
            if ring.stage == "yellow" and now >= ring.until:
                self.put(now, 9, ring.phase)
                self.put(now, 10, ring.phase)
                ring.stage, ring.until = "clear", now + self.clear[ring.phase] + self.rng.randint(0, self.jitter)
                acted = True
            elif ring.stage == "clear" and now >= ring.until:
                self.put(now, 11, ring.phase)
                self.put(now, 12, ring.phase)
                ring.stage, acted = "red", True
            elif ring.stage == "green":
                acted |= self.time_green(ring, now)
        for ring in self.rings:
            if ring.stage == "red" and ring.following is not None:
                phase, ring.following = ring.following, None
                self.begin(ring, phase, now)
                acted = True
        if all(ring.stage == "red" for ring in self.rings):
            self.cross(now)
            acted = True
        return acted or self.choose(now)

    def time_green(self, ring, now):
        acted = False
        if not ring.minimum_told and now >= ring.since + self.least[ring.phase]:
            self.put(now, 3, ring.phase)
            ring.minimum_told = acted = True
        if ring.walk and now >= ring.walk[0]:
            acted = True
            if ring.walk[1] == "walk":
                self.put(now, 22, ring.phase)
                ring.walk = now + self.flashing[ring.phase], "clearance"
            else:
                self.put(now, 23, ring.phase)
                ring.walk = None
        return acted

    def cross(self, now):
        """Both rings are red: over the barrier, to the first phases that are called there, or the even ones."""
        to_side = self.to_side
        self.put(now, 31, 2 if to_side else 1)
        for ring in self.rings:
            here = [phase for phase in ring.phases if self.side(phase) == to_side]
            called = [phase for phase in here if phase in self.calls]
            self.begin(ring, called[0] if called else here[-1], now)
            ring.conflict = None

    def choose(self, now):
        """Ends greens: within the side one by one, at the barrier both together."""
        side, acted = self.side(self.rings[0].phase), False
        if any(ring.stage == "red" or ring.phase is None for ring in self.rings):
            side = self.side(next(ring for ring in self.rings if ring.stage != "red").phase)
        beyond = any(self.side(phase) != side for phase in self.calls)
        for ring in self.rings:
            if ring.stage == "green":
                if ring.conflict is None and (beyond or self.next_here(ring) is not None):
                    ring.conflict = now
                ahead = self.next_here(ring)
                through = next(phase for phase in reversed(ring.phases) if self.side(phase) == side)
                if ahead is None and ring.phase != through and ring.phase % 2:
                    ahead = through
                if ahead is not None:
                    ring.reason = self.done(ring, now) if ring.phase not in MAIN else None
                    if ring.reason:
                        self.end(ring, now)
                        ring.following, ring.conflict, acted = ahead, None, True
        if beyond and all(ring.stage == "green" and ring.phase % 2 == 0 for ring in self.rings):
            reasons = [self.done(ring, now) for ring in self.rings]
            if all(reasons):
                self.to_side = not side
                for ring, reason in zip(self.rings, reasons):
                    ring.reason = reason
                    self.end(ring, now)
                acted = True
        return acted

    def wake(self, now):
        """The next tenth at which the rings may have something to do without an event of traffic."""
        found = [now // 600 * 600 + 600]
        plan = self.plan_at(now)
        if plan:
            place = (now + plan[2]) % plan[1]
            found += [now + (tenth - place) % plan[1] for tenth in (0, *plan[3].values())]
        for ring in self.rings:
            if ring.stage in ("yellow", "clear"):
                found.append(ring.until)
            elif ring.stage == "green":
                found += [ring.since + self.least[ring.phase], ring.extended]
                if ring.walk:
                    found.append(ring.walk[0])
                if ring.conflict is not None:
                    found.append(max(ring.conflict, ring.since) + self.most[ring.phase])
        return min((tenth for tenth in found if tenth > now), default=now + 600)

    def coordinate(self, before, now):
        """The rows of the coordination: the plan as it changes, and each yield point."""
        was, plan = self.plan_at(before), self.plan_at(now)
        if plan != was:
            self.put(now, 131, plan[0] if plan else 254)
            if plan:
                self.put(now, 132, plan[1] // 10)
            self.put(now, 150, 2 if plan else 0)
            self.settled = not plan
        if plan and (now + plan[2]) % plan[1] == 0 and before != now:
            if not self.settled:
                self.put(now, 150, 1)
                self.settled = True
            if self.tells_coordination:
                for phase in MAIN:
                    self.put(now, 151, phase)

    def days(self, count=1):
        """The rows of so many days from START on."""
        self.rows, self.events, self.order, self.today = [], [], 0, self.rng.uniform(.85, 1.1)
        self.calls, self.ped_calls, self.to_side, self.settled = set(), set(), False, True
        for ring in self.rings:
            ring.following = ring.conflict = None
            ring.stage = "red"
        for lane in self.lanes:
            lane.last = START
            self.next_arrival(lane)
        for phase in self.peds:
            self.next_walker(phase, START)
        now, wake, end = START, START + 5, START + count * DAY
        while True:
            before, now = now, min(wake, self.events[0][0])
            if now >= end:
                break
            if now // DAY != before // DAY:
                self.today = self.rng.uniform(.85, 1.1)
            while self.events and self.events[0][0] <= now:
                what = heapq.heappop(self.events)[2]
                getattr(self, what[0])(now, *what[1:])
            self.coordinate(before, now)
            while self.decide(now):
                pass
            wake = self.wake(now)
        rows, self.rows = self.rows, []
        rows.sort(key=lambda row: row[0])
        return rows

    def config(self, hours=24):
        """Its configuration, with rules that it keeps for the most part, and breaks now and then."""
        lines = ['signal = "%s"' % self.number, 'start = "%s"' % hour_of(START), "hours = %d" % hours,
                 "coordination = true"]
        for phase in self.phases:
            lines += ["", "[[phase]]", "number = %d" % phase, "ring = %d" % (1 + (phase > 4)),
                      "side = %d" % (1 + self.side(phase))]
        for phase in self.peds:
            lines += ["", "[[ped]]", "number = %d" % phase]
        rules = []
        for phase in self.phases:
            rules += [("phase", phase, "Green", "at_least", self.least[phase] + (5 if phase % 2 else 0)),
                      ("phase", phase, "Green", "at_most", 2 * self.most[phase]),
                      ("phase", phase, "Yellow", "at_least", self.yellow[phase]),
                      ("phase", phase, "Yellow", "at_most", self.yellow[phase]),
                      ("phase", phase, "Clear", "at_least", self.clear[phase])]
        for phase in self.peds:
            rules += [("ped", phase, "Walk", "at_least", self.walk[phase]),
                      ("ped", phase, "Clearance", "at_least", self.flashing[phase])]
        rules.append(("phase", 4 if 4 in self.phases else 8, "Red", "at_most", 3000))
        for kind, number, colour, bound, tenths in rules:
            lines += ["", "[[interval]]", 'channel = "%s %d"' % (kind, number), 'colour = "%s"' % colour,
                      "%s = %d" % (bound, tenths)]
        for place, lane in enumerate(self.lanes, 1):
            lines += ["", "[[approach]]", 'name = "L%d"' % place, "phase = %d" % lane.phase]
            lines += ["%s = %d" % (word, loop) for word, loop in (
                ("advance", lane.advance or lane.stop_bar), ("stop_bar", lane.stop_bar)) if loop]
        return "\n".join(lines) + "\n"
