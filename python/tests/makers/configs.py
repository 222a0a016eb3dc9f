"""Configurations at random: right ones, other spellings of them, and ones with slips at lines that are known."""

from __future__ import annotations

import random

from sigaudit_tools.signal.machines import COLOURS
from sigaudit_tools.signal.mistakes import TABLES

TOP = 'signal = "7"\nstart = "2024-03-04T05"\nhours = 1\n'
# Values that aren't good at any key, and keys that no table has.
BAD_VALUES = ("-1", "99999", "0.5", "true", '"x y z"', "[]", "{}", "1979-05-27", "nan", "[1, 1]", "'phase 17'")
BAD_KEYS = ("nmuber", "x", "Channel", "at-least", "colour2", "hours")
ODD_TOML = (
    'x = "\\e"', 'x = "\\x41"', "x = {a = 1,\n b = 2}", "x = {a = 1,}", "x = {,}", "x = 07:32", "x = 1979-05-27T07:32",
    "x = 0000-01-01", "x = 2024-02-30", "x = 23:59:60", "x = 24:00:00", "x = [1,,2]", "x = [1,]", "x = 1__0",
    "x = 0b101", "x = +0x1", "x = 01", "x = 1.", "x = .5", "x = 1e5", "x = nan", "x = +inf", "x = 1e400",
    "y.x = 1\ny.z = 2", "y.x = 1\ny = 2", "[y]\n[y]", "[y]\na=1\n[y.b]\n[y]", "[[y]]\n[y]", "\u00e9 = 1",
    '"\u00e9" = 1', "'x y' = 1", "x = 1\r", "x\r= 1", "x = -9223372036854775808", "x = -9223372036854775809",
    "x = 9223372036854775808", "x = " + "[" * 80 + "]" * 80, "x = " + "[" * 81 + "]" * 81,
    "x = " + "{a=" * 80 + "1" + "}" * 80, "x = " + "{a=" * 81 + "1" + "}" * 81, 'x = "\\ud800"', "x = True",
    "x = 1 2", "x", "= 1", "x =", "[", "[]", "[[a]", "[a]x=1", "[ a ]", "[a . b]", "x = 'a\nb'", "a = 1\na = 2",
    "hours = 1", "x={a=1}\n[x.b]", "a.b=1\n[a]\nc=1", "[a.b]\n[a]\nb=1", "x = 2024-02-29T23:59:60Z",
    "[[phase]]\nnumber = 1\nring = 1\nside = 1\n[phase.x]", "phase = []",
    "phase = [{number = 1, ring = 1,\n side = 1,}]", "phase = [{number = 1, ring = 1, side = 5}, 3]", "phase = {}",
    "[phase]", "ped = [1]", "coordination = 1", "coordination = false\ncoordinations = 1",
    "[[phase]]\nnumber = 0x10\nring = 0o1\nside = 0b11",
    "[[preempt]]\n\"n\\u0075mber\" = 1", "[[preempt]]\nnumber.x = 1")


def config(rng: random.Random) -> str:
    """A configuration that is accepted, a key a line."""
    phases = sorted(rng.sample(range(1, 17), rng.randint(1, 8)))
    made = [f'signal = "{rng.choice(("7", "5101", "A/1"))}"\nstart = "2024-0{rng.randint(1, 9)}-04T05"\n'
            f"hours = {rng.randint(1, 744)}\n" + rng.choice(("", "coordination = true\n"))]
    made += [f"[[phase]]\nnumber = {one}\nring = {rng.randint(1, 4)}\nside = {rng.randint(1, 4)}\n" for one in phases]
    channels = [("phase", one) for one in phases]
    for kind, numbers in (("ped", phases), ("overlap", range(1, 17)), ("preempt", range(1, 17))):
        for one in sorted(rng.sample(list(numbers), rng.randint(0, min(3, len(numbers))))):
            parents = rng.sample(phases, rng.randint(1, min(8, len(phases))))
            made.append(f"[[{kind}]]\nnumber = {one}\n" + (f"parents = {parents}\n" if kind == "overlap" else ""))
            channels.append((kind, one))
    made += _pairs(rng, phases)
    limits = [(f"{kind} {one}", colour) for kind, one in channels for colour in COLOURS[kind]]
    for name, colour in rng.sample(limits, min(3, len(limits))):
        made.append(f'[[floor]]\nchannel = "{name}"\ncolour = "{colour}"\ntenths = {rng.randint(0, 36000)}\n')
    for name, colour in rng.choices(limits, k=4):
        side = rng.choice(("at_least", "at_most"))
        made.append(f'[[interval]]\nchannel = "{name}"\ncolour = "{colour}"\n{side} = {rng.randint(1, 36000)}\n')
    return "".join(made + [_approach(rng, place, phases) for place in range(rng.randint(0, 3))])


def _pairs(rng: random.Random, phases: list[int]) -> list[str]:
    every = [(a, b) for a in phases for b in phases if a < b]
    rng.shuffle(every)
    return [f"[[{rng.choice(('conflict', 'allow'))}]]\na = {a}\nb = {b}\n" for a, b in every[:3]]


def _approach(rng: random.Random, place: int, phases: list[int]) -> str:
    text = f'[[approach]]\nname = "A{place}"\nphase = {rng.choice(phases)}\n'
    if rng.random() < 0.7:
        text += f"advance = {rng.randint(1, 128)}\ntravel = {rng.randint(0, 300)}\n"
    if rng.random() < 0.7:
        text += f"stop_bar = {rng.randint(1, 128)}\n"
    return text + ("high_num = 3\nhigh_den = 4\n" if rng.random() < 0.3 else "")


def slips(rng: random.Random, text: str) -> tuple[str, set[int]]:
    """The configuration with some lines made wrong, and the numbers of these lines."""
    lines = text.split("\n")
    places = [place for place, line in enumerate(lines) if "=" in line]
    changed = set()
    for place in rng.sample(places, min(len(places), rng.choice((1, 1, 2, 3, 5)))):
        key, value = lines[place].split(" = ")
        if rng.random() < 0.4 and key not in ("advance", "stop_bar", "coordination"):
            lines[place] = f"{rng.choice(BAD_KEYS)} = {value}"
        else:
            values = [one for one in BAD_VALUES if (key, one) != ("coordination", "true")]
            lines[place] = f"{key} = {rng.choice(values)}"
        changed.add(place + 1)
    return "\n".join(lines), changed


def respelled(rng: random.Random, text: str) -> str:
    """The same configuration spelled otherwise, as TOML 1.1 allows."""
    found = []
    for line in text.split("\n"):
        key, is_key, value = line.partition(" = ")
        if is_key and value.isdecimal() and rng.random() < 0.3:
            value = rng.choice((hex(int(value)), oct(int(value)), "+" + value))
        if is_key and rng.random() < 0.2:
            key = f'"{key}"'
        if value.startswith("[") and rng.random() < 0.5:
            value = value.replace(",", ", # more = 1\n ").replace("]", ",\n]")
        if value.startswith('"') and len(value) > 2 and rng.random() < 0.2:
            value = f'"\\x{ord(value[1]):02x}{value[2:]}'
        spelled = key + rng.choice(("=", " = ", "\t=  ")) + value + rng.choice(("", "", "  # ] }"))
        found.append(spelled if is_key else line)
        if rng.random() < 0.1:
            found.append(rng.choice(("", "# [[phase]]", "   ")))
    return rng.choice(("", "", "\ufeff")) + rng.choice(("\n", "\n", "\r\n")).join(found)


def inlined(text: str) -> str:
    """The same configuration with its tables as arrays of inline tables, over several lines."""
    top: list[str] = []
    tables: dict[str, list[list[str]]] = {}
    entry = top
    for line in filter(None, text.split("\n")):
        if line.startswith("[["):
            entry = []
            tables.setdefault(line.strip("[]"), []).append(entry)
        else:
            entry.append(line)
    for table, entries in tables.items():
        top.append(f"{table} = [\n" + ",\n".join("  { " + ",\n    ".join(one) + ",\n  }" for one in entries) + ",\n]")
    return "\n".join(top) + "\n"


def limits() -> list[tuple[str, str]]:
    """Each table with as many entries as it may have, and with one more, which repeats one where no other is left."""
    phases = "".join(f"[[phase]]\nnumber = {number}\nring = 1\nside = 1\n" for number in range(1, 17))
    pairs = [(a, b) for a in range(1, 17) for b in range(a + 1, 17)]
    colours = [(f"phase {number}", colour) for number in range(1, 17) for colour in COLOURS["phase"]]
    found = []
    for table, (limit, _) in TABLES.items():
        for count in (limit, limit + 1):
            entries = "".join(_entry(table, place, pairs, colours) for place in range(count))
            found.append((f"{count} of {table}", TOP + ("" if table == "phase" else phases) + entries))
    return found


def _entry(table: str, place: int, pairs: list[tuple[int, int]], colours: list[tuple[str, str]]) -> str:
    a, b = pairs[place % len(pairs)]
    channel, colour = colours[place % len(colours)]
    return f"[[{table}]]\n" + {
        "phase": f"number = {place + 1}\nring = 1\nside = 1\n", "ped": f"number = {place + 1}\n",
        "preempt": f"number = {place + 1}\n", "overlap": f"number = {place + 1}\nparents = [1]\n",
        "conflict": f"a = {a}\nb = {b}\n", "allow": f"a = {a}\nb = {b}\n",
        "floor": f'channel = "{channel}"\ncolour = "{colour}"\ntenths = 1\n',
        "interval": f'channel = "{channel}"\ncolour = "{colour}"\nat_most = 1\n',
        "approach": f'name = "A{place}"\nphase = 1\n'}[table]
