"""A page read back: each of its numbers looked up again, by code that shares nothing with the page's.

Numbers are looked up in the tables, in the answer, in the hour files and in the script. A number that says nowhere
where it is from, and isn't part of a name, a time or a fixed text, is a fault.
"""

from __future__ import annotations

import collections
import csv
import datetime
import html.parser
import re
from collections.abc import Iterator, Mapping
from pathlib import Path

EMPTY = {"meta", "link", "br", "col", "img", "input", "hr"}
# Texts whose numbers are names, times, rows or fixed words.
NAMED = {"time", "code", "pre", "svg", "h1", "h2", "h3", "h4", "nav", "title", "style", "script"}
NAMES = re.compile(r"(?:[Pp]hases?|[Ss]ignal|detector|Preempt|Approach) [^ ]+|SHA-256")
# Attributes that say where the numbers of an element are from.
PLACES = {"data-of", "data-table", "data-stretches"}
Fields = dict[str, str]


class Node:
    """An element of a page: its name, attributes, parent, and children in order, elements and texts."""

    def __init__(self, name: str, given: Mapping[str, str | None], parent: Node | None) -> None:
        self.name, self.given, self.parent = name, dict(given), parent
        self.children: list[Node | str] = []

    def __getitem__(self, attribute: str) -> str:
        return self.given[attribute] or ""

    def text(self) -> str:
        return "".join(child if isinstance(child, str) else child.text() for child in self.children)

    def all(self, name: str = "") -> Iterator[Node]:
        """This element and those inside, in order; those of a name where one is given."""
        if name in ("", self.name):
            yield self
        for child in self.children:
            if isinstance(child, Node):
                yield from child.all(name)

    def first(self, name: str) -> Node:
        return next(self.all(name))

    def above(self) -> Iterator[Node]:
        node: Node | None = self
        while node:
            yield node
            node = node.parent

    def is_of(self, word: str) -> bool:
        return word in (self.given.get("class") or "").split()


class Reader(html.parser.HTMLParser):
    """Reads a page into nodes; an element that is closed by another's end is a fault."""

    def __init__(self, text: str) -> None:
        super().__init__(convert_charrefs=True)
        self.root = self.at = Node("", {}, None)
        self.faults: list[str] = []
        self.feed(text)

    def handle_starttag(self, tag: str, attrs: list[tuple[str, str | None]]) -> None:
        node = Node(tag, dict(attrs), self.at)
        self.at.children.append(node)
        if tag not in EMPTY:
            self.at = node

    def handle_startendtag(self, tag: str, attrs: list[tuple[str, str | None]]) -> None:
        self.at.children.append(Node(tag, dict(attrs), self.at))

    def handle_endtag(self, tag: str) -> None:
        if self.at.name != tag:
            self.faults.append(f"{tag} closes {self.at.name}")
        self.at = self.at.parent or self.at

    def handle_data(self, data: str) -> None:
        self.at.children.append(data)


def stamp(text: str) -> datetime.datetime:
    """A stamp as a moment."""
    return datetime.datetime.strptime(text.replace(" ", "T") + "00000", "%Y-%m-%dT%H:%M:%S.%f")


def seconds(span: datetime.timedelta) -> str:
    return f"{span.total_seconds():.1f}"


class Page:
    """A page with what it was made of, all read once more.

    Args:
        text: the page.
        folder: where the hour files lie, and `tables` with the tables.
        answer: what the program answered.
    """

    def __init__(self, text: str, folder: Path, answer: str) -> None:
        reader = Reader(text)
        self.folder, self.root, self.faults = folder, reader.root, [f"HTML: {fault}" for fault in reader.faults]
        self.tables = {path.stem: self._rows(path) for path in (folder / "tables").glob("*.csv")}
        self.answer = [line.split() for line in answer.splitlines()]
        window = next(row for row in self.tables["head"] if row["what"] == "window")["value"].split()
        self.start, self.end = map(stamp, window)
        self.looked_up: collections.Counter[str] = collections.Counter()
        self.unknown = [(times[0]["datetime"], times[1]["datetime"]) for times in self._stretches()]

    @staticmethod
    def _rows(path: Path) -> list[Fields]:
        with path.open(newline="", encoding="utf-8") as file:
            return list(csv.DictReader(file))

    def _stretches(self) -> list[list[Node]]:
        """The ends of the unknown stretches that the page names."""
        return [list(row.all("time")) for node in self.root.all() if "data-stretches" in node.given
                for row in node.first("tbody").all("tr")]

    def answer_to(self, *words: str) -> list[list[str]]:
        """The lines of the last answer to these words."""
        found: list[list[str]] = []
        inside = False
        for line in self.answer:
            if line[0].isdigit() and len(line) > 1:
                inside = line[1:] == list(words)
                found = [] if inside else found
            elif inside:
                found.append(line)
        return found

    def wanted(self, place: str) -> str:
        """What stands at a place that a number names."""
        what, *rest = place.split(" ")
        if what == "count":
            tests = [test.split("=") for test in rest[1:]]
            return str(sum(all(row[key].split(":")[0] == value for key, value in tests)
                           for row in self.tables[rest[0]]))
        if what == "rows":
            return f"{len(self.tables[rest[0]])} rows"
        if what == "refused":
            return str(sum(line[1:2] == ["refused"] for line in self.answer))
        if what == "known":
            return self._known(rest == ["share"])
        if what == "cycles":
            return str(sum(int(line[3]) > 10 * int(rest[-1]) for line in self.answer_to("points", rest[0])
                           if line[0] == "cycle"))
        if what == "answer":
            return self._shift(*rest)
        if what == "explained":
            return self._explained(self.tables["verdicts"][int(rest[0])], rest[1])
        return self.tables[what][int(rest[0])][rest[1]]

    def _known(self, share: bool) -> str:
        hours = {row["hour"]: float(row["known_s"]) for row in self.tables["phases"]}
        whole = (self.end - self.start).total_seconds()
        if share:
            return f"{int(1000 * round(sum(hours.values()), 1) / whole) / 10:.1f}\u00a0%"
        return f"{sum(hours.values()):.1f} of {whole:.1f} s"

    def _shift(self, approach: str, which: str) -> str:
        lines = self.answer_to("offsets", approach.split("/")[1])
        best = next(line for line in lines if line[0] == "best")
        return {"best": best[1], "count": best[3], "of": best[5],
                "logged": next(line for line in lines if line[:2] == ["shift", "0"])[3]}[which]

    @staticmethod
    def _explained(row: Fields, what: str) -> str:
        """A duration in which a broken line is told, from its fields."""
        least, greatest = row["least_s"], row["greatest_s"]
        if what == "excess":
            return f"{abs(float(row['bound_s']) - float(least)):.1f} s"
        if what != "measured" or least == greatest:
            return {"measured": least, "bound": row["bound_s"], "silence": row["silence_s"]}[what] + " s"
        if not greatest:
            return f"at least {least} s" if float(least) else "an unknown time"
        return f"from {least} to {greatest} s" if float(least) else f"at most {greatest} s"

    @staticmethod
    def _is_same(shown: str, field: str) -> bool:
        """Whether a shown text is a field, as it stands or in per cent."""
        return shown == field or ("\u00a0%" in shown and "." in field and shown == f"{100 * float(field):.1f}\u00a0%")

    def check(self) -> list[str]:
        """What isn't as it should be."""
        for node in self.root.all():
            if "data-of" in node.given:
                self._check_place(node)
            if "data-table" in node.given:
                self._check_table(node)
            if "data-stretches" in node.given:
                self._check_stretches(node)
            if node.name == "li" and (node.given.get("id") or "").startswith("line-") and list(node.all("code")):
                self._check_rows(node)
        self._check_texts(self.root.first("body"))
        self._check_links()
        return self.faults

    def _check_place(self, node: Node) -> None:
        place = node["data-of"]
        self.looked_up[place.split(" ")[0]] += 1
        wanted = self.wanted(place)
        if not self._is_same(node.text(), wanted):
            self.faults.append(f"{place}: {node.text()!r}, and {wanted!r} there")

    def _check_table(self, node: Node) -> None:
        columns = [head["data-column"] for head in node.first("thead").all("th")]
        table = node["data-table"]
        for row in node.first("tbody").all("tr"):
            fields = self.tables[table][int(row["data-row"])]
            cells = [cell for cell in row.children if isinstance(cell, Node)]
            for column, cell in zip(columns, cells, strict=True):
                self.looked_up[f"{table} cells"] += 1
                times = list(cell.all("time"))
                hour = bool(times) and times[0]["datetime"][:13] == fields[column]
                if not (hour or self._is_same(cell.text(), fields[column])):
                    self.faults.append(f"{table} {row['data-row']} {column}: {cell.text()!r}, and {fields[column]!r} "
                                       "there")

    def _check_stretches(self, node: Node) -> None:
        """The unknown stretches: each as long as it says, and together all that the hours don't know."""
        shown = []
        for row in node.first("tbody").all("tr"):
            low, high = (stamp(time["datetime"]) for time in row.all("time"))
            shown.append(high - low)
            said = next(row.all("td")).text()
            if said != seconds(high - low):
                self.faults.append(f"{seconds(high - low)} s are said to be {said}")
        phase = self.tables["phases"][0]["phase"]
        known = sum(float(row["known_s"]) for row in self.tables["phases"] if row["phase"] == phase)
        left = (self.end - self.start - sum(shown, datetime.timedelta())).total_seconds()
        self.looked_up["stretches"] += len(shown)
        if abs(known - left) > 0.05:
            self.faults.append(f"the stretches leave {left:.1f} s, and {known:.1f} are known")

    def _check_rows(self, item: Node) -> None:
        """The rows below a broken line: each stands so in its file, and all of the stretch are there or counted."""
        files = [[line.strip().split(",") for line in (self.folder / code.text()).read_text("utf-8").splitlines()]
                 for code in item.all("code")]
        low, high = [time["datetime"] for time in item.first("p").all("time")][:2]
        count = 0
        for line in item.first("pre").text().splitlines():
            left = re.fullmatch(r" *\.\. (\d+) rows of other channels \.\.", line)
            count += int(left[1]) if left else 1
            if left:
                continue
            number, clock, code, rest = line.split(None, 3)
            if not any(len(rows) >= int(number) and rows[int(number) - 1][1][11:] == clock
                       and rows[int(number) - 1][2:] == [code, rest.split()[-1]] for rows in files):
                self.faults.append(f"no such row: {line}")
        stamps = [row[1].replace(" ", "T") for rows in files for row in rows]
        plain = sum(low <= stamp <= high and not any(begin <= stamp < end for begin, end in self.unknown)
                    for stamp in stamps)
        self.looked_up["rows of stretches"] += count
        if count != plain:
            self.faults.append(f"{low} to {high}: {count} rows are told of {plain}")

    def _check_texts(self, node: Node) -> None:
        """No other text has a number, but in names, times and fixed words."""
        sentences = {row["in_words"] for row in self.tables["rules"]}
        approaches = {row["approach"] for row in self.tables["approaches"]}
        for each in node.all():
            if any(above.name in NAMED or above.is_of("said") or PLACES & set(above.given) for above in each.above()):
                continue
            for child in each.children:
                if isinstance(child, str) and child not in sentences | approaches:
                    if re.search(r"\d", NAMES.sub("", child)):
                        self.faults.append(f"a number from nowhere: {child.strip()[:80]!r} in {each.name}")

    def _check_links(self) -> None:
        """Each link leads to an element of the page, which there is once, or to a file beside it."""
        ids = collections.Counter(node["id"] for node in self.root.all() if "id" in node.given)
        self.faults += [f"the id {name} stands {count} times" for name, count in ids.items() if count > 1]
        for node in self.root.all("a"):
            target = node["href"]
            self.looked_up["links"] += 1
            if not (target[1:] in ids if target[0] == "#" else (self.folder / target).exists()):
                self.faults.append(f"a link to nowhere: {target}")
