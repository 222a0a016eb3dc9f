"""The checks that are under way below a process, as Linux's /proc tells of them, and what checks have cost before.

A check is a process `rattle` with a --crate-name, and all that it starts itself.
"""
import os

from crate_list import HERE

KEPT = os.path.join(HERE, "bench", "cost-kept.txt")
PARTS = ("proof", "tests", "edits")
TICKS = os.sysconf("SC_CLK_TCK")


def kept_costs():
    """By crate the processor seconds of each of its parts, as bench/cost has kept them; empty where nothing is kept."""
    if not os.path.exists(KEPT):
        return {}
    with open(KEPT) as file:
        lines = [line.split() for line in file if not line.startswith("#")]
    return {words[0]: [float(word) for word in words[1:]] for words in lines}


class Process:
    """A process as /proc tells of it."""
    def __init__(self, pid):
        with open("/proc/%d/stat" % pid, errors="replace") as file:
            head, _, rest = file.read().rpartition(")")
        words = rest.split()
        self.pid, self.name, self.parent = pid, head.partition("(")[2], int(words[1])
        # user and system time, of the process and of its children that have ended
        self.ticks = sum(int(word) for word in words[11:15])
        self.begun = int(words[19])

    def words(self):
        with open("/proc/%d/cmdline" % self.pid, "rb") as file:
            return file.read().decode(errors="replace").split("\0")

    def folder(self):
        return os.readlink("/proc/%d/cwd" % self.pid)


def processes():
    found = {}
    for name in os.listdir("/proc"):
        if name.isdigit():
            try:
                found[int(name)] = Process(int(name))
            except OSError:
                pass  # it has ended since
    return found


def children_of(table):
    children = {}
    for each in table.values():
        children.setdefault(each.parent, []).append(each)
    return children


def with_all_below(process, children):
    yield process
    for each in children.get(process.pid, ()):
        yield from with_all_below(each, children)


def part_of(process):
    """The crate and the part of it that a process checks, or None where it checks no crate."""
    words = process.words() if process.name == "rattle" else []
    if "--crate-name" not in words:
        return None
    crate = words[words.index("--crate-name") + 1]
    if os.path.basename(process.folder()).startswith("rt-edit-"):
        return crate, "edits"
    return crate, "tests" if "--test" in words else "proof"


class Check:
    """A check: of which crate and part, from when on (by the clock of the looks), its processor seconds so far."""
    def __init__(self, crate, part, start):
        self.crate, self.part, self.start, self.seconds = crate, part, start, 0.0


class Watch:
    """The checks below a process, looked at again and again."""
    def __init__(self, top):
        self.top, self.checks = top, {}

    def outermost(self, now, process, children):
        """The checks at and below a process: what a check starts itself is a part of it."""
        key = process.pid, process.begun
        if key not in self.checks:
            try:
                part = part_of(process)
            except OSError:
                part = None  # it has ended since
            if part:
                self.checks[key] = Check(*part, now)
        if key in self.checks:
            yield key, process
            return
        for each in children.get(process.pid, ()):
            yield from self.outermost(now, each, children)

    def look(self, now):
        """Brings the checks up to date, and answers those that have ended since the last look."""
        table, here = processes(), set()
        children = children_of(table)
        if self.top in table:
            for key, process in self.outermost(now, table[self.top], children):
                here.add(key)
                ticks = sum(each.ticks for each in with_all_below(process, children))
                self.checks[key].seconds = max(self.checks[key].seconds, ticks / TICKS)
        return [self.checks.pop(key) for key in list(self.checks) if key not in here]
