"""Tests of examples/check, for bench/check and bench/recipes: what it refuses, and how, is what sigaudit refuses.

Configurations are made at random from a seed: those of bench/hostile, nearly right; some with slips at lines that are
known, which all have to be found; some in other spellings, which are accepted; and a list of odd TOML.
"""
import os
import random
import re
import subprocess
import sys

HERE = os.path.dirname(os.path.dirname(os.path.abspath(__file__)))
sys.path[:0] = [os.path.join(HERE, "examples"), os.path.join(HERE, "bench")]
import configurations
import hostile_data

TOP = b'signal = "7"\nstart = "2024-03-04T05"\nhours = 1\n'
# Values that aren't good at any key, and keys that no table has.
BAD_VALUES = ["-1", "99999", "0.5", "true", '"x y z"', "[]", "{}", "1979-05-27", "nan", "[1, 1]", "'phase 17'"]
BAD_KEYS = ["nmuber", "x", "Channel", "at-least", "colour2", "hours"]
ODD_TOML = [
    'x = "\\e"', 'x = "\\x41"', "x = {a = 1,\n b = 2}", "x = {a = 1,}", "x = {,}", "x = 07:32", "x = 1979-05-27T07:32",
    "x = 0000-01-01", "x = 2024-02-30", "x = 23:59:60", "x = 24:00:00", "x = [1,,2]", "x = [1,]", "x = 1__0",
    "x = 0b101",
    "x = +0x1", "x = 01", "x = 1.", "x = .5", "x = 1e5", "x = nan", "x = +inf", "x = 1e400", "y.x = 1\ny.z = 2",
    "y.x = 1\ny = 2", "[y]\n[y]", "[y]\na=1\n[y.b]\n[y]", "[[y]]\n[y]", "\u00e9 = 1", '"\u00e9" = 1', "'x y' = 1",
    "x = 1\r", "x\r= 1", "x = -9223372036854775808", "x = -9223372036854775809", "x = 9223372036854775808",
    "x = " + "[" * 80 + "]" * 80, "x = " + "[" * 81 + "]" * 81, "x = " + "{a=" * 80 + "1" + "}" * 80,
    "x = " + "{a=" * 81 + "1" + "}" * 81, 'x = "\\ud800"', "x = True", "x = 1 2", "x", "= 1", "x =", "[", "[]", "[[a]",
    "[a]x=1", "[ a ]", "[a . b]", "x = 'a\nb'", "a = 1\na = 2", "hours = 1", "x={a=1}\n[x.b]", "a.b=1\n[a]\nc=1",
    "[a.b]\n[a]\nb=1", "x = 2024-02-29T23:59:60Z", "[[phase]]\nnumber = 1\nring = 1\nside = 1\n[phase.x]", "phase = []",
    "phase = [{number = 1, ring = 1,\n side = 1,}]", "phase = [{number = 1, ring = 1, side = 5}, 3]", "phase = {}",
    "[phase]", "ped = [1]", "coordination = 1", "coordination = false\ncoordinations = 1", "[[phase]]\nnumber = 0x10\n"
    "ring = 0o1\nside = 0b11", "[[preempt]]\n\"n\\u0075mber\" = 1", "[[preempt]]\nnumber.x = 1"]


class Program:
    """The proved program, and what it says to a configuration."""

    def __init__(self, path):
        self.path = os.path.abspath(path)
        with open("script.txt", "w"):
            pass

    def says(self, text):
        """The refusal, or an empty text."""
        with open("config.toml", "wb") as file:
            file.write(text)
        made = subprocess.run([self.path, "--config", "config.toml", "--script", "script.txt"], capture_output=True)
        return made.stdout.decode().rstrip("\n") if made.returncode else ""


class Bench:
    """Counts what agrees, and keeps what doesn't."""

    def __init__(self, program):
        self.program, self.passed, self.failed = Program(program), 0, []
        self.refused = 0

    def compare(self, name, text, lines=()):
        """Wants the program's refusal, and a mistake at each of these lines."""
        found, said = configurations.mistakes(text), self.program.says(text)
        mine = found[0].refusal() if found else ""
        lacking = set(lines) - {mistake.line for mistake in found} if mine and found[0].reason != "not toml" else ()
        self.refused += bool(said)
        if mine != said:
            self.failed.append("%s: sigaudit says %r, check %r" % (name, said, mine))
        elif lacking:
            self.failed.append("%s: nothing said of lines %s" % (name, sorted(lacking)))
        else:
            self.passed += 1


def slips(rng, text):
    """The configuration with some lines made wrong, and the numbers of these lines."""
    lines = text.decode().split("\n")
    places = [at for at, line in enumerate(lines) if "=" in line]
    changed = set()
    for at in rng.sample(places, min(len(places), rng.choice([1, 1, 2, 3, 5]))):
        key, value = lines[at].split(" = ")
        if rng.random() < 0.4 and key not in ("advance", "stop_bar"):
            lines[at] = "%s = %s" % (rng.choice(BAD_KEYS), value)
        else:
            values = [one for one in BAD_VALUES if (key, one) != ("coordination", "true")]
            lines[at] = "%s = %s" % (key, rng.choice(values))
        changed.add(at + 1)
    return "\n".join(lines).encode(), changed


def respelled(rng, text):
    """The same configuration spelled otherwise, as TOML 1.1 allows."""
    lines, found = text.decode().split("\n"), []
    for line in lines:
        key, is_key, value = line.partition(" = ")
        if is_key and value.isdecimal() and rng.random() < 0.3:
            value = rng.choice([hex(int(value)), oct(int(value)), "+" + value])
        if is_key and rng.random() < 0.2:
            key = '"%s"' % key
        if value.startswith("[") and rng.random() < 0.5:
            value = value.replace(",", ", # more = 1\n ").replace("]", ",\n]")
        if value.startswith('"') and len(value) > 2 and rng.random() < 0.2:
            value = '"\\x%02x%s' % (ord(value[1]), value[2:])
        spelled = key + rng.choice(["=", " = ", "\t=  "]) + value + rng.choice(["", "", "  # ] }"])
        found.append(spelled if is_key else line)
        if rng.random() < 0.1:
            found.append(rng.choice(["", "# [[phase]]", "   "]))
    return (rng.choice(["", "", "\ufeff"]) + rng.choice(["\n", "\n", "\r\n"]).join(found)).encode()


def inlined(text):
    """The same configuration with its tables as arrays of inline tables, over several lines."""
    top, tables, entry = [], {}, None
    for line in text.decode().split("\n"):
        if line.startswith("[["):
            entry = []
            tables.setdefault(line.strip("[]"), []).append(entry)
        elif line:
            (top if entry is None else entry).append(line)
    for table, entries in tables.items():
        top.append("%s = [\n%s,\n]" % (table, ",\n".join("  { %s,\n  }" % ",\n    ".join(entry) for entry in entries)))
    return ("\n".join(top) + "\n").encode()


def limits():
    """Each table with as many entries as it may have, and with one more, which repeats one where no other is left."""
    phases = "".join("[[phase]]\nnumber = %d\nring = 1\nside = 1\n" % (n + 1) for n in range(16))
    pairs = [(a, b) for a in range(1, 17) for b in range(a + 1, 17)]
    colours = [("phase %d" % n, colour) for n in range(1, 17) for colour in configurations.machines.COLOURS["phase"]]
    entries = {"phase": lambda n: "number = %d\nring = 1\nside = 1\n" % (n + 1),
               "ped": lambda n: "number = %d\n" % (n + 1),
               "preempt": lambda n: "number = %d\n" % (n + 1),
               "overlap": lambda n: "number = %d\nparents = [1]\n" % (n + 1),
               "conflict": lambda n: "a = %d\nb = %d\n" % pairs[n % 120],
               "allow": lambda n: "a = %d\nb = %d\n" % pairs[n % 120],
               "floor": lambda n: 'channel = "%s"\ncolour = "%s"\ntenths = 1\n' % colours[n % 128],
               "interval": lambda n: 'channel = "%s"\ncolour = "%s"\nat_most = 1\n' % colours[n % 128],
               "approach": lambda n: 'name = "A%d"\nphase = 1\n' % n}
    for table, (limit, _) in configurations.TABLES.items():
        for count in (limit, limit + 1):
            text = "".join("[[%s]]\n%s" % (table, entries[table](n)) for n in range(count))
            yield "%d of %s" % (count, table), TOP + ((phases if table != "phase" else "") + text).encode()


def both(program, count):
    """All kinds, so many of each at random."""
    bench = Bench(program)
    for place, odd in enumerate(ODD_TOML):
        text = (TOP.replace(b"hours = 1\n", b"") if odd == "hours = 1" else TOP) + odd.encode()
        bench.compare("toml %d" % place, text)
    for name, text in limits():
        bench.compare(name, text)
    for turn in range(count):
        rng = random.Random("check %d" % turn)
        signal = hostile_data.Signal(rng)
        bench.compare("nearly %d" % turn, hostile_data.odd_config(rng, signal))
        bench.compare("slips %d" % turn, *slips(rng, signal.text))
        for name, text in (("respelled", respelled(rng, signal.text)), ("inlined", inlined(signal.text))):
            bench.compare("%s %d" % (name, turn), text)
            said = bench.program.says(text)
            if said:
                bench.failed.append("%s %d: refused: %s" % (name, turn, said))
    return bench


MISTAKES = """signal = "5 1"
start = "2024-03-04 05"   # no T
hours = "3"
coordinaton = true

[[phases]]
number = 2

[[phase]]
number = 2
ring = 5
side = 1
[[phase]]
number = 3
rng = 1
side = 1

[[interval]]
channel = "Phase 2"
colour = "green"
at_least = 3.5
coordination = true

[[interval]]
channel = "phase 2"
colour = "Green"
at_last = 35
parents = [
  2,
  3 ]
[[interval]]
channel = "phase 3"
at_least = 20
at_most = 30

[[overlap]]
number = 1
parents = [2, 2]
[[overlap]]
number = 1
parents = [2]
[[floor]]
channel = "phase 2"
colour = "Yellow"
[[approach]]
name = "N B"
phase = 9
travel = 5
high_num = 5
high_den = 4
"""
ODD = """signal = "7"
start = "2024-03-04T05"
hours = 5
[[phase]]
number = 2
ring = 1
side = 1
[[phase]]
number = 6
ring = 1
side = 2
[[phase]]
number = 8
ring = 2
side = 2
[[conflict]]
a = 2
b = 6
[[allow]]
a = 8
b = 6
[[interval]]
channel = "phase 2"
colour = "Yellow"
at_least = 4
[[interval]]
channel = "phase 2"
colour = "Green"
at_least = 260
[[interval]]
channel = "phase 2"
colour = "Green"
at_most = 240
[[floor]]
channel = "phase 2"
colour = "Yellow"
tenths = 30
[[approach]]
name = "NB"
phase = 2
advance = 5
stop_bar = 5
[[approach]]
name = "SB"
phase = 6
[[approach]]
name = "EB"
phase = 8
stop_bar = 110
"""


def check(run, put, hour_files):
    """All mistakes at once; what is odd, alone and beside a log; what isn't TOML, too long, or not there."""
    out = ""
    for name, text in (("mistakes.toml", MISTAKES), ("odd.toml", ODD), ("same.toml", ODD.replace("5", "5 5", 1)),
                       ("long.toml", "#" * (1 << 20) + "\n")):
        put(name, text)
        out += run("check", name)
    names = hour_files()
    out += run("check", "odd.toml", *names)
    put("other.csv", "8,2024-03-04 06:00:00.0,1,2\n7,2024-03-04 11:00:00.0,1,2\n")
    for words in (["odd.toml", "other.csv"], ["nothing.toml"], ["odd.toml", "nothing"], []):
        out += run("check", *words)
    return out


def check_random(program):
    """What is refused of random configurations, and how, by both."""
    bench = both(os.path.abspath(program), 15)
    return "".join(line + "\n" for line in bench.failed) + "%d of %d refused by both\n" % (bench.refused, bench.passed)
