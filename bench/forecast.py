"""How long what is left of a run of rt ci may take, by what its checks have cost before and what they take here.

The checks are laid out as rt does it: one a processor, each when those that it waits for have ended, and first those
with the longest chain of others behind them.
"""
import collections
import glob
import heapq
import os
import statistics
import time

from checks import Watch, kept_costs
from crate_list import below, stands_on

MINUTE = 60.0
# Seconds over which the pace of the checks is taken.
RECENT = 600.0
# At the begin so many seconds count as if a check had had a whole processor in them.
BEFORE = 60.0
# And a check counts that was so many times dearer here than is kept.
DEAR_BEFORE = (1.0,)
# What a crate costs of which nothing is kept, where nothing is.
UNKNOWN = 60.0
# A check beside which nothing else can run gets several processors. It goes so many times faster.
ALONE = 1.5
# What is left of a check that has taken all that was reckoned.
REST = 0.1

# One check of a run: a proof, that of a crate's tests, or a mutant. cost: the kept processor seconds. fills: rt begins
# it where a processor is left.
Task = collections.namedtuple("Task", "waits cost fills")


def mutants_of(folder, crate):
    return len(glob.glob(os.path.join(folder, "crates", crate, "must-fail", "*.edit")))


def gate_tasks(folder, crate, waits, costs):
    """The tests and the mutants of a crate: the ground of these, each of them, and whether the ground still holds."""
    proof, tests, edits = costs
    own = [(crate, "proof", 0)]
    if tests:
        own.append((crate, "tests", 0))
        yield own[-1], Task(waits, tests, False)
    many = mutants_of(folder, crate)
    if many > 1:
        yield (crate, "edits", 0), Task(waits, proof, True)
        each = max(edits - proof, proof) / (many + 1)
        for number in range(1, many + 2):
            yield (crate, "edits", number), Task(own + [(crate, "edits", 0)], each, True)
    elif many:
        yield (crate, "edits", 0), Task(own, edits or proof, True)


def tasks_of(folder, is_gate):
    """The checks of a run by crate, part and number, the lowest crates first."""
    crates, kept = stands_on(folder), kept_costs()
    usual = statistics.median(costs[0] for costs in kept.values()) if kept else UNKNOWN
    tasks = {}
    for crate in sorted(crates, key=lambda each: len(below(each, crates))):
        costs = kept.get(crate, [usual, 0.0, 0.0])
        waits = [(each, "proof", 0) for each in below(crate, crates)]
        tasks[crate, "proof", 0] = Task(waits, costs[0], False)
        if is_gate:
            tasks.update(gate_tasks(folder, crate, waits, costs))
    return tasks


def in_order(tasks):
    """The tasks as rt begins them: what fills last, and first what has the longest chain behind it."""
    behind = {}
    for key in reversed(tasks):
        behind[key] = behind.get(key, 0.0) + tasks[key].cost
        for each in tasks[key].waits:
            behind[each] = max(behind.get(each, 0.0), behind[key])
    return sorted(tasks, key=lambda key: (tasks[key].fills, -behind[key]))


def laid_out(tasks, order, over, ends, lanes, seconds_of):
    """The seconds until all tasks are over. ends: (when it ends, task) of those under way."""
    over, waiting, now = set(over), [key for key in order if key not in over], 0.0
    under_way = {key for _, key in ends}
    waiting = [key for key in waiting if key not in under_way]
    heapq.heapify(ends)
    while waiting or ends:
        ready = [key for key in waiting if over.issuperset(tasks[key].waits)]
        is_alone = len(ready) == 1 and not ends
        for key in ready[:max(lanes - len(ends), 0)]:
            waiting.remove(key)
            heapq.heappush(ends, (now + seconds_of(key) / (ALONE if is_alone else 1.0), key))
        if not ends:
            break  # what is left waits for a proof that failed
        now, key = heapq.heappop(ends)
        over.add(key)
    return now


class Run:
    """A run of rt ci: what of it is over, and at which cost and pace."""

    def __init__(self, folder, top, is_gate, clock=time.time):
        self.folder, self.is_gate, self.watch, self.clock = folder, is_gate, Watch(top), clock
        self.begun, self.last = clock(), 0.0
        self.tasks = tasks_of(folder, is_gate)
        self.order = in_order(self.tasks)
        # RT_JOBS is the toolchain's own word for how many checks run side by side
        self.lanes = int(os.environ.get("RT_JOBS") or len(os.sched_getaffinity(0)))
        self.over, self.proved, self.seen = set(), set(), collections.Counter()
        self.dear = list(DEAR_BEFORE)
        self.recent = collections.deque()

    def leavings(self, key):
        """The file that rt leaves where a proof or tests are done."""
        crate, part, _ = key
        out = os.path.join(self.folder, "crates", crate, "out")
        if part == "tests":
            return os.path.join(out, crate + "_tests")
        if os.path.exists(os.path.join(self.folder, "crates", crate, "src", "main.rt")):
            return os.path.join(out, crate)
        return os.path.join(out, "rlib", crate + ".rlib", "format")

    def is_left(self, key):
        """Whether this run has left that file: what stood there before has an older time of change."""
        try:
            return os.stat(self.leavings(key)).st_ctime >= self.begun - 1
        except OSError:
            return False

    def end(self, check):
        """Takes a check that has ended as over, and what it took into account."""
        number = self.seen[check.crate, check.part, "ended"] if check.part == "edits" else 0
        self.seen[check.crate, check.part, "ended"] += 1
        key = check.crate, check.part, number
        if key in self.tasks:
            self.over.add(key)
            if self.seen[check.crate, check.part, "ended"] == 1:
                self.dear.append(check.seconds / self.tasks[key].cost)

    def look(self):
        """Brings all up to date, and answers the crates that are proved since the last look."""
        now = self.gone()
        before = {key: check.seconds for key, check in self.watch.checks.items()}
        for check in self.watch.look(now):
            self.end(check)
        self.keep_pace(now, before)
        for check in self.watch.checks.values():
            self.seen[check.crate, check.part] += 1
        left = [key for key in self.order if key[1] != "edits" and key not in self.proved and self.is_left(key)]
        self.proved.update(left)
        self.over.update(left)
        return [key[0] for key in left if key[1] == "proof"]

    def keep_pace(self, now, before):
        """Notes how many processor seconds the checks got since the last look, of at most one processor each."""
        passed, self.last = now - self.last, now
        both = [(check.seconds, before[key]) for key, check in self.watch.checks.items() if key in before]
        self.recent.append((now, sum(min(new - old, passed) for new, old in both), passed * len(both)))
        while self.recent[0][0] < now - RECENT:
            self.recent.popleft()

    def is_kept(self, key):
        """Whether an earlier run's proof was taken; its mutants are then kept too."""
        crate = key[0]
        return (crate, "proof", 0) in self.proved and not self.seen[crate, "proof"] and not self.seen[crate, "edits"]

    def all_over(self):
        return self.over | {key for key in self.tasks if key[1] == "edits" and self.is_kept(key)}

    def under_way(self):
        """The tasks that are under way, each with its check."""
        for check in self.watch.checks.values():
            number = self.seen[check.crate, check.part, "ended"] if check.part == "edits" else 0
            while (check.crate, check.part, number) in self.over:
                number += 1
            key = check.crate, check.part, number
            if key in self.tasks:
                yield key, check

    def left(self):
        """The seconds until the run is over."""
        dear = statistics.median(self.dear)
        got, had = sum(each[1] for each in self.recent), sum(each[2] for each in self.recent)
        pace = (got + BEFORE) / (had + BEFORE)
        ends = []
        for key, check in self.under_way():
            whole = dear * self.tasks[key].cost
            ends.append((max(whole - check.seconds, REST * whole) / pace, key))
        return laid_out(self.tasks, self.order, self.all_over(), ends, self.lanes,
                        lambda key: dear * self.tasks[key].cost / pace)

    def count(self, part):
        """How many checks of a part are over, and how many there are, as `12 of 38`."""
        keys = [key for key in self.tasks if key[1] == part]
        over = self.all_over()
        return "%d of %d" % (len([key for key in keys if key in over]), len(keys))

    def share(self):
        """What share of all is over, by the kept costs."""
        over = self.all_over()
        return sum(self.tasks[key].cost for key in over) / sum(task.cost for task in self.tasks.values())

    def gone(self):
        """The seconds since the run was begun to be looked at."""
        return self.clock() - self.begun

    def times(self):
        return "%d minutes gone, about %d to go" % (self.gone() / MINUTE, self.minutes_left())

    def minutes_left(self):
        return int(self.left() / MINUTE) + 1
