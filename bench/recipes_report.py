"""Tests of examples/report and of the corridor's index, for bench/recipes: the pages read back. Not proved.

numbers(..) reads a page and looks up each of its numbers again: in the tables, in the answer, in the hour files, in
the script, each by code of its own. A number that says nowhere where it is from, and isn't part of a name, a time or a
fixed text, is a fault. escaped(..) makes a page of names with markup; html_faults(..) has a page checked as HTML, and
browser_faults(..) opens it in a browser without a window. pictures() reads the numbers of drawn pictures back.
"""
import collections
import csv
import datetime
import html.parser
import os
import re
import shutil
import subprocess
import sys

HERE = os.path.dirname(os.path.dirname(os.path.abspath(__file__)))
sys.path[:0] = [os.path.join(HERE, "examples"), os.path.join(HERE, "bench")]
import browser
import drawings
import logs

EMPTY = {"meta", "link", "br", "col", "img", "input", "hr"}
# Texts whose numbers are names, times, rows or fixed words.
NAMED = {"time", "code", "pre", "svg", "h1", "h2", "h3", "h4", "nav", "title", "style", "caption", "script"}
NAMES = re.compile(r"(?:[Pp]hases?|[Ss]ignal|detector|Preempt|Approach) [^ ]+|SHA-256")


# Attributes that say where the numbers of an element are from.
PLACES = {"data-of", "data-table", "data-stretches"}


class Node:
    """An element of a page: its name, attributes, parent, and children in order, elements and texts."""

    def __init__(self, name, given, parent):
        self.name, self.given, self.parent, self.children = name, dict(given), parent, []

    def text(self):
        return "".join(child if isinstance(child, str) else child.text() for child in self.children)

    def all(self, name=None):
        """This element and those inside, in order; those of a name where one is given."""
        if name is None or self.name == name:
            yield self
        for child in self.children:
            if not isinstance(child, str):
                yield from child.all(name)

    def above(self):
        node = self
        while node:
            yield node
            node = node.parent

    def is_of(self, word):
        return word in self.given.get("class", "").split()


class Reader(html.parser.HTMLParser):
    """Reads a page into nodes; an element that is closed by another's end is a fault."""

    def __init__(self, path):
        super().__init__(convert_charrefs=True)
        self.root = self.at = Node("", (), None)
        self.faults = []
        with open(path, encoding="utf-8") as file:
            self.feed(file.read())

    def handle_starttag(self, name, given):
        node = Node(name, given, self.at)
        self.at.children.append(node)
        if name not in EMPTY:
            self.at = node

    def handle_startendtag(self, name, given):
        self.at.children.append(Node(name, given, self.at))

    def handle_endtag(self, name):
        if self.at.name != name:
            self.faults.append("%s closes %s" % (name, self.at.name))
        self.at = self.at.parent

    def handle_data(self, text):
        self.at.children.append(text)


def stamp(text):
    """A stamp as a moment."""
    return datetime.datetime.strptime(text.replace(" ", "T") + "00000", "%Y-%m-%dT%H:%M:%S.%f")


def seconds(span):
    return "%.1f" % span.total_seconds()


def percent(share):
    """A share of three decimals in per cent."""
    return "%.1f\u00a0%%" % (100 * float(share))


class Page:
    """A page with what it was made of, all read once more."""

    def __init__(self, folder, page="report.html", tables="tables", script="session.txt", answer="answer.txt"):
        self.folder = folder
        reader = Reader(os.path.join(folder, page))
        self.root, self.faults = reader.root, ["HTML: " + fault for fault in reader.faults]
        self.tables = {}
        for name in os.listdir(os.path.join(folder, tables)):
            if name.endswith(".csv"):
                with open(os.path.join(folder, tables, name), newline="") as file:
                    self.tables[name[:-4]] = list(csv.DictReader(file))
        with open(os.path.join(folder, answer)) as file:
            self.answer = [line.split() for line in file]
        with open(os.path.join(folder, script)) as file:
            self.script = [line.split() for line in file]
        window = next(row for row in self.tables["head"] if row["what"] == "window")["value"].split()
        self.start, self.end = map(stamp, window)
        self.looked_up = collections.Counter()

    def answer_to(self, *words):
        """The lines of the last answer to these words."""
        found, inside = [], False
        for line in self.answer:
            if line[0].isdigit() and len(line) > 1:
                inside = line[1:] == list(words)
                found = [] if inside else found
            elif inside:
                found.append(line)
        return found

    def wanted(self, place):
        """What stands at a place that a number names."""
        what, *rest = place.split(" ")
        if what == "count":
            table, *tests = rest
            tests = [test.split("=") for test in tests]
            return str(sum(all(row[key].split(":")[0] == value for key, value in tests) for row in self.tables[table]))
        if what == "rows":
            return "%d rows" % len(self.tables[rest[0]])
        if what == "refused":
            return str(sum(line[1:2] == ["refused"] for line in self.answer))
        if what == "known":
            hours = {row["hour"]: float(row["known_s"]) for row in self.tables["phases"]}
            whole = (self.end - self.start).total_seconds()
            if rest == ["share"]:
                return "%.1f\u00a0%%" % (int(1000 * round(sum(hours.values()), 1) / whole) / 10)
            return "%.1f of %.1f s" % (sum(hours.values()), whole)
        if what == "cycles":
            return str(sum(int(line[3]) > 10 * int(rest[-1]) for line in self.answer_to("points", rest[0])
                           if line[0] == "cycle"))
        if what == "answer":
            lines = self.answer_to("offsets", rest[0].split("/")[1])
            best = next(line for line in lines if line[0] == "best")
            return {"best": best[1], "count": best[3], "of": best[5],
                    "logged": next(line for line in lines if line[:2] == ["shift", "0"])[3]}[rest[1]]
        if what == "explained":
            return self.explained(self.tables["verdicts"][int(rest[0])], rest[1])
        return self.tables[what][int(rest[0])][rest[1]]

    def explained(self, row, what):
        """A duration that a broken line is told in, from its fields."""
        least, greatest = row["least_s"], row["greatest_s"]
        if what == "excess":
            return "%.1f s" % abs(float(row["bound_s"]) - float(least))
        if what != "measured" or least == greatest:
            return {"measured": least, "bound": row["bound_s"], "silence": row["silence_s"]}[what] + " s"
        if not greatest:
            return "at least %s s" % least if float(least) else "an unknown time"
        return "at most %s s" % greatest if not float(least) else "from %s to %s s" % (least, greatest)

    def is_same(self, shown, field):
        """Whether a shown text is a field, as it stands or in per cent."""
        return shown == field or ("\u00a0%" in shown and "." in field and shown == percent(field))

    def check_place(self, node):
        place = node.given["data-of"]
        self.looked_up[place.split(" ")[0]] += 1
        wanted = self.wanted(place)
        if not self.is_same(node.text(), wanted):
            self.faults.append("%s: %r, and %r there" % (place, node.text(), wanted))

    def check_table(self, node):
        columns = [head.given.get("data-column") for head in next(node.all("thead")).all("th")]
        for row in next(node.all("tbody")).all("tr"):
            fields = self.tables[node.given["data-table"]][int(row.given["data-row"])]
            cells = [cell for cell in row.children if not isinstance(cell, str)]
            for column, cell in zip(columns, cells, strict=True):
                shown, times = cell.text(), list(cell.all("time"))
                self.looked_up[node.given["data-table"] + " cells"] += 1
                hour = times and times[0].given["datetime"][:13] == fields[column]
                if not (hour or self.is_same(shown, fields[column])):
                    self.faults.append("%s %s %s: %r, and %r there" % (
                        node.given["data-table"], row.given["data-row"], column, shown, fields[column]))

    def check_stretches(self, node):
        """The unknown stretches: each as long as it says, and together all that the hours don't know."""
        shown = []
        for row in next(node.all("tbody")).all("tr"):
            low, high = (stamp(time.given["datetime"]) for time in row.all("time"))
            shown.append((low, high))
            if row.children[1].text() != seconds(high - low):
                self.faults.append("%s s are said to be %s" % (seconds(high - low), row.children[1].text()))
        known = sum(float(row["known_s"]) for row in self.tables["phases"]
                    if row["phase"] == self.tables["phases"][0]["phase"])
        unknown = (self.end - self.start).total_seconds() - sum((high - low).total_seconds() for low, high in shown)
        self.looked_up["stretches"] += len(shown)
        if abs(known - unknown) > 0.05:
            self.faults.append("the stretches leave %.1f s, and %.1f are known" % (unknown, known))

    def check_rows(self, item):
        """The rows below a broken line: each stands so in its file, and all of the stretch are there or counted."""
        files = {}
        for code in item.all("code"):
            with open(os.path.join(self.folder, code.text())) as file:
                files[code.text()] = [line.strip().split(",") for line in file]
        low, high = [time.given["datetime"] for time in next(item.all("p")).all("time")][:2]
        count = 0
        for line in next(item.all("pre")).text().splitlines():
            left = re.fullmatch(r" *\.\. (\d+) rows of other channels \.\.", line)
            if left:
                count += int(left[1])
                continue
            number, clock, code, rest = line.split(None, 3)
            param = rest.split()[-1]
            count += 1
            if not any(len(rows) >= int(number) and rows[int(number) - 1][1][11:] == clock
                       and rows[int(number) - 1][2:] == [code, param] for rows in files.values()):
                self.faults.append("no such row: " + line)
        stamps = [row[1].replace(" ", "T") for rows in files.values() for row in rows]
        plain = sum(low <= stamp <= high and not any(begin <= stamp < end for begin, end in self.unknown)
                    for stamp in stamps)
        self.looked_up["rows of stretches"] += count
        if count != plain:
            self.faults.append("%s to %s: %d rows are told of %d" % (low, high, count, plain))

    def check_texts(self, node):
        """No other text has a number, but in names, times and fixed words."""
        sentences = {row["in_words"] for row in self.tables["rules"]}
        approaches = {row["approach"] for row in self.tables["approaches"]}
        for each in node.all():
            if any(above.name in NAMED or above.is_of("said") or PLACES & set(above.given) for above in each.above()):
                continue
            for child in each.children:
                if isinstance(child, str) and child not in sentences:
                    left = NAMES.sub("", child)
                    if re.search(r"\d", left) and child not in approaches:
                        self.faults.append("a number from nowhere: %r in %s" % (child.strip()[:80], each.name))

    def stretches(self):
        """The unknown stretches that the page names, as stamps from and up to."""
        return [tuple(time.given["datetime"] for time in row.all("time")) for node in self.root.all()
                if "data-stretches" in node.given for row in next(node.all("tbody")).all("tr")]

    def check(self):
        self.unknown = self.stretches()
        for node in self.root.all():
            if "data-of" in node.given:
                self.check_place(node)
            if "data-table" in node.given:
                self.check_table(node)
            if "data-stretches" in node.given:
                self.check_stretches(node)
            if node.name == "li" and node.given.get("id", "").startswith("line-") and next(node.all("code"), None):
                self.check_rows(node)
        self.check_texts(next(self.root.all("body")))
        self.check_links()
        return self

    def check_links(self):
        """Each link leads to an element of the page, which there is once, or to a file beside it."""
        ids = collections.Counter(node.given["id"] for node in self.root.all() if "id" in node.given)
        self.faults += ["the id %s stands %d times" % found for found in ids.items() if found[1] > 1]
        for node in self.root.all("a"):
            target = node.given["href"]
            self.looked_up["links"] += 1
            if not (target[1:] in ids if target[0] == "#" else os.path.exists(os.path.join(self.folder, target))):
                self.faults.append("a link to nowhere: " + target)

    def said(self):
        return "".join("%s %d\n" % found for found in sorted(self.looked_up.items())) + "".join(
            fault + "\n" for fault in self.faults[:20]) + "%d faults\n" % len(self.faults)


def numbers(folder, **where):
    """What was looked up on the page of a folder, and what isn't as it should be."""
    return Page(folder, **where).check().said()


def index(path):
    """The lines of a corridor's page: each cell as text, with the folders to which links lead."""
    reader = Reader(path)
    out = "".join("HTML: %s\n" % fault for fault in reader.faults)
    for row in next(reader.root.all("tbody")).all("tr"):
        out += " | ".join(" ".join(cell.text().split()) for cell in row.children if not isinstance(cell, str))
        out += " | %s\n" % " ".join(node.given["href"] for node in row.all("a"))
    return out + "".join("%s%s\n" % (node.given["href"], "" if os.path.exists(os.path.join(
        os.path.dirname(path), node.given["href"])) else " isn't there") for node in reader.root.all("a"))


def boxes(path):
    """The boxes of a path of bars: left, upper edge, width, height, those that are drawn upward too."""
    for left, top, wide, how, tall in re.findall(r"M(\S+) (\S+?)h([\d.]+)([Vv])([-\d.]+)h-[\d.]+z", path):
        below = float(tall) if how == "V" else float(top) + float(tall)
        yield float(left), min(float(top), below), float(wide), abs(below - float(top))


def pictures():
    """Bars, bands, shifts, diagrams and time lines, drawn of known numbers, which are read back from their paths."""
    start = logs.hour_of("2024-03-04T05")
    hours = [start + place * logs.HOUR for place in range(4)]
    end, out = start + 4 * logs.HOUR, ""
    paths = lambda picture, fill: [found for found in re.findall(r'<path d="([^"]*)"[^>]*fill="([^"]*)"', picture)
                                   if found[1] == fill]
    failed, passed = {hours[0]: 3, hours[2]: 10}, {hours[0]: 7, hours[1]: 5}
    bars = drawings.hours_bars("x", start, end, [], [("#111111", failed), ("#222222", passed)], "services")
    scale = (170 - 40 - drawings.TOP) / 10
    for fill in ("#111111", "#222222"):
        out += "bars: %s\n" % [round(box[3] / scale, 1) for box in boxes(paths(bars, fill)[0][0])]
    rows = [(hours[0], 20, 50, 80), (hours[3], 0, None, 100)]
    band = drawings.hours_band("x", start, end, [], rows, "x", percent=True)
    scale = (170 - 40 - drawings.TOP) / 100
    out += "band: %s\n" % [(round((130 - top - tall) / scale), round((130 - top) / scale))
                           for _, top, _, tall in boxes(paths(band, drawings.SKY)[0][0])]
    line = drawings.shifts("x", [5, 10, 0], 1)
    shown = re.search(r'd="(M[^"]*L[^"]*)"', line)[1]
    scale = (170 - 40 - drawings.TOP) / 10
    out += "shifts: %s\n" % [round((130 - float(y)) / scale, 1) for y in re.findall(r"[ML]\S+ ([\d.]+)", shown)]
    cycles = [(start, 1000, 300, 900), (start + 1000, 5000, 0, 0), (start + 6000, 800, 200, 700)]
    points = [(start, 100), (start, 950), (start + 1000, 4000), (start + 6000, 0)]
    picture, highest, cut, every = drawings.diagram("x", start, end, [(hours[1], hours[2])], cycles, points)
    out += "diagram: to %d s, %d cut, %d dots, 1 in %d\n" % (highest, cut, picture.count("h0M") + 1, every)
    out += "diagram, thinned: %d dots, 1 in %d\n" % (lambda made: (made[0].count("h0M") + 1, made[3]))(
        drawings.diagram("x", start, end, [], cycles, points * 5, most=4))
    marks = [(hours[1], 2, "broken"), (hours[1] + 1, 2, "broken"), (hours[2], 2, "broken"), (hours[3], 5, "undecided")]
    lanes = drawings.time_line("x", start, end, ([(hours[0], hours[1])], [(hours[2], hours[2] + 50)]), [],
                               [(2, "two"), (5, "five")], marks)
    drawn = re.search('<path d="([^"]*)" stroke="%s"' % drawings.BROKEN, lanes)[1]
    width = drawings.WIDE - drawings.RIGHT - 290
    at = [round((float(x) - 290) / width * 4, 2) for x in re.findall(r"M(\S+) ", drawn)]
    out += "time line: broken at %s h\n" % at
    return out + "%s" % [drawings.day_of(start), drawings.end_clock(logs.hour_of("2024-03-05T00"))] + "\n"


SIGNAL, FILE = "<b>&'x", "<u>&amp;'_%s.csv"


def made(folder, names, program):
    """Makes the tables and the report of the hour files of a folder that has its config.toml."""
    here = os.getcwd()
    os.chdir(folder)
    given = ["--config", "config.toml", "--script", "session.txt", "--answer", "answer.txt"]
    recipe = lambda name, *words: subprocess.run([os.path.join(HERE, "examples", name), *words], capture_output=True,
                                                 text=True, check=True, env=dict(os.environ, SIGAUDIT=program)).stdout
    config = ["--config", "config.toml"]
    steps = {"holes.txt": lambda: recipe("holes", *config, "--no-chances", *names),
             "session.txt": lambda: recipe("session", *config, "--blanks", "holes.txt", *names),
             "answer.txt": lambda: subprocess.run([program, *given[:4]], capture_output=True, text=True).stdout,
             "pairs.txt": lambda: recipe("pairs", *given)}
    for path, step in steps.items():
        said = step()
        with open(path, "w") as file:
            file.write(said)
    recipe("tables", *given, "--out", "tables")
    recipe("report", *given, "--tables", "tables", "--holes", "holes.txt", "--pairs", "pairs.txt")
    os.chdir(here)


def escaped(program):
    """The page of a signal and of files whose names are markup: they stay text, and its numbers are right."""
    os.mkdir("m")
    names = []
    for hour in ("05", "06"):
        with open(os.path.join(HERE, "examples", "intersection", "o%s.csv" % hour)) as file:
            text = file.read().replace("\n5101,", "\n%s," % SIGNAL)
        names.append(FILE % ("2024-03-04T" + hour))
        with open(os.path.join("m", names[-1]), "w") as file:
            file.write(text)
    with open(os.path.join(HERE, "examples", "intersection", "config.toml")) as file:
        text = file.read().replace('"5101"', '"%s"' % SIGNAL).replace("hours = 3", "hours = 2")
    with open(os.path.join("m", "config.toml"), "w") as file:
        file.write(text)
    made("m", names, program)
    page = Page("m")
    out = "heading: %s\n" % next(page.root.all("h1")).text()
    out += "title: %s\n" % next(page.root.all("title")).text()
    out += "elements of the names: %d\n" % sum(node.text() in (SIGNAL, "&'x") for node in page.root.all("b"))
    out += "files: %s\n" % sorted({code.text() for code in page.root.all("code")})
    return out + page.check().said()


def html_faults(path):
    """What tidy says of a page."""
    said = subprocess.run(["tidy", "-e", "-q", "-utf8", path], capture_output=True, text=True).stderr
    return "%d warnings and errors\n" % len(said.splitlines()) + said[:2000]


def browser_faults(folder, page="report.html", pictures=None):
    """A page in a browser: what it asks for and says, how wide it is, where its links lead, what the keyboard opens."""
    out, path = "", os.path.join(folder, page)
    window = browser.Browser()
    try:
        for width in (1280, 400):
            window.open(path, width, 900, mobile=width < 500)
            requests = [request for request in window.requests if not request.startswith("data:")]
            out += "%d wide: asks for %d file, says %s, is %s\n" % (
                width, len(requests), window.said or "nothing",
                "as wide" if window.value("document.documentElement.scrollWidth") <= width else "wider")
            if pictures:
                window.picture("%s-%d.png" % (pictures, width))
        out += "links to nowhere: %s\n" % window.value(
            "[...document.querySelectorAll('a[href^=\"#\"]')].map(a => a.getAttribute('href'))"
            ".filter(h => !document.getElementById(h.slice(1)))")
        out += "names of pictures: %s\n" % window.value(
            "[...document.querySelectorAll('svg[role=img]')].every(s => s.querySelector('title').textContent)")
        out += keyboard(window)
        pdf = (pictures or path) + ".pdf"
        window.print(pdf)
        with open(pdf, "rb") as file:
            out += "printed: %s\n" % (file.read(5) == b"%PDF-")
        if not pictures:
            os.remove(pdf)
    finally:
        window.close()
    return out


def keyboard(window):
    """Goes through the page by Tab and opens what is folded up by Enter."""
    folded = window.value("document.querySelectorAll('details').length")
    window.value("document.activeElement.blur(); window.scrollTo(0, 0)")
    seen = 0
    for _ in range(20000):
        window.press("Tab", 9)
        name = window.value("document.activeElement.tagName")
        if name == "BODY":
            break
        if name == "SUMMARY":
            seen += 1
            window.press("Enter", 13)
    opened = window.value("document.querySelectorAll('details[open]').length")
    return "folded parts: all opened by keyboard\n" if folded == opened == seen else (
        "folded parts: %d, reached %d, opened %d\n" % (folded, seen, opened))
