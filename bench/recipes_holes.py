"""The parts of bench/recipes on holes: doubts, the machines' tables in the program, a measured day within bounds.

A measured day is that of bench/holes with one draw of outages. What it finds is the same each time; yet it is held to
bounds and not to its very figures, so that a better method passes and a worse one doesn't.
"""
import os
import re
import subprocess
import sys

HERE = os.path.dirname(os.path.abspath(__file__))
# Of d3, with the outages of seed 1: what `sum outages` has to say, at least and at most.
BOUNDS = {"found": (9, 12), "idle": (0, 2), "blanked": (0, 600), "false": (0, 0), "refused": (0, 0),
          "seconds": (0, 40)}
LEFT = 0.97    # of the broken lines that the true blanks leave


CONFIG = """signal = "7"
start = "2024-03-04T05"
hours = 1
[[phase]]
number = 2
ring = 1
side = 1
[[interval]]
channel = "phase 2"
colour = "Green"
at_least = 100
"""
# Greens of phase 2, as the tenth at which they begin and their tenths: 100 is the least that is kept.
GREENS = ((100, 105), (1000, 100), (2000, 90), (3000, 90), (4000, 90), (5000, 90), (6000, 105), (7000, 90), (8000, 300))
# (first row, last row, what examples/holes could say of the gap, first blanked tenth, first one that isn't)
GAPS = ((2050, 2080, "hole likely -1.0 detector 1 3.0", None, None),         # not taken
        (3040, 3070, "hole sure 2.0 detector 1 7.0", 3040, 3071),            # blanked
        (4040, 4060, "suspect weak -4.0 detector 1 3.0", None, None),
        (5095, 5098, "hole certain - phase 2 code 8 at %s after %s", 5095, 5099),    # put to one end of where it may be
        (6050, 6060, "suspect weak -3.5 detector 1 3.0", None, None),        # in a green that is kept by little
        (1100, 1120, "hole likely -2.0 detector 1 3.0", 1101, 1120))         # blanked without the tenths at its ends


def stamp(tenth):
    return "2024-03-04T05:%02d:%02d.%d" % (tenth // 600, tenth // 10 % 60, tenth % 10)


def doubts(run):
    """Each kind of doubt, of broken lines and of those that are kept by little; the column of the tables."""
    rows = [row for begin, green in GREENS for row in (
        (begin, 1), (begin + green, 7), (begin + green, 8), (begin + green + 35, 9), (begin + green + 35, 10),
        (begin + green + 50, 11), (begin + green + 50, 12))]
    holes, script = [], []
    for begin, end, words, low, high in GAPS:
        kind, rest = words.split(" ", 1)
        rest = rest % (stamp(5100), stamp(5010)) if "%s" in rest else rest
        holes.append("%s %.1f %s %s %s" % (kind, (end - begin) / 10, stamp(begin), stamp(end), rest))
        script += ["blank %s %s" % (stamp(low), stamp(high))] if low else []
    script += ["load 0 a.csv", "audit", "verdicts 0", "measures 0"]
    for name, lines in (("config.toml", CONFIG.splitlines()), ("holes.txt", holes), ("script.txt", script),
                        ("a.csv", ["7,%s,%d,2" % (stamp(tenth), code) for tenth, code in rows])):
        with open(name, "w") as file:
            file.write("\n".join(lines) + "\n")
    program = os.environ.get("SIGAUDIT") or os.path.join(os.path.dirname(HERE), "out", "sigaudit")
    words = ["--config", "config.toml", "--script", "script.txt"]
    with open("answer.txt", "w") as file:
        subprocess.run([program, *words], stdout=file)
    words += ["--answer", "answer.txt", "--holes"]
    out = run("doubts", *words, "holes.txt") + run("doubts", *words, "holes.txt", "--all").split("count")[0]
    out += run("doubts", *words, "none.txt") + run("tables", *words, "holes.txt", "--out", "t")
    for name in ("t/verdicts.csv", "t/head.csv"):
        with open(name) as file:
            out += "".join(line for line in file if "-" not in line or "broken" in line or "blanked" in line)
    return out


def machines(_):
    """Each entry of the machines' tables, accepted or refused by the program."""
    return said("machines")


def holes_measured(_):
    """A day with outages, by the recipe and the program."""
    text = said("holes", "--day", "d3", "--seeds", "1", "--part", "outages")
    found = re.search(r"^sum outages (.*)$", text, re.M)
    if not found:
        return text
    words = found[1].split()
    figures = {key: float(value) for key, value in zip(words[::2], words[1::2])}
    wrong = ["%s %s not in %s to %s" % (key, figures[key], low, high) for key, (low, high) in BOUNDS.items()
             if not low <= figures[key] <= high]
    if figures["left"] < LEFT * figures["reference"]:
        wrong.append("left %s of %s" % (figures["left"], figures["reference"]))
    return "\n".join(wrong + ["within bounds" if not wrong else text]) + "\n"


def said(name, *words):
    ran = subprocess.run([sys.executable, os.path.join(HERE, name), *words], capture_output=True, text=True)
    return ran.stderr + ran.stdout
