"""What is wrong with a configuration, all at once, in the order in which sigaudit looks.

The first mistake is the one that sigaudit names when it refuses the configuration, in the same words (`refusal`); that
the two agree is a test over configurations made at random.
"""

from __future__ import annotations

import calendar
import dataclasses
import datetime
import difflib
import re
from collections.abc import Callable, Collection, Iterable
from pathlib import Path

from sigaudit_tools.signal import document, machines
from sigaudit_tools.signal.document import Entry, Lines, Place

# The tables in the order in which sigaudit reads them: how many entries each may have, and its keys in order.
TABLES: dict[str, tuple[int, tuple[str, ...]]] = {
    "phase": (16, ("number", "ring", "side")),
    "ped": (16, ("number",)),
    "overlap": (16, ("number", "parents")),
    "preempt": (16, ("number",)),
    "conflict": (120, ("a", "b")),
    "allow": (120, ("a", "b")),
    "floor": (512, ("channel", "colour", "tenths")),
    "interval": (256, ("channel", "colour", "at_least", "at_most")),
    "approach": (64, ("name", "phase", "advance", "stop_bar", "travel", "high_num", "high_den")),
}
TOP = ("signal", "start", "hours", "coordination", *TABLES)
KINDS = ("phase", "ped", "overlap", "preempt")  # of the channels that floors and intervals may name
# The keys at which sigaudit names an entry that was there before.
_REPEATED = {"conflict": "a", "allow": "a", "floor": "channel", "approach": "name"}
_SIGNAL = re.compile(r"[!#-+\--~]{1,32}")
_NAME = re.compile(r"[A-Za-z0-9_-]{1,32}", re.ASCII)
_HOUR = re.compile(r"(\d{4})-(\d\d)-(\d\d)T([01]\d|2[0-3])", re.ASCII)


@dataclasses.dataclass(frozen=True)
class Mistake:
    """One thing that is wrong.

    Attributes:
        reason: as sigaudit words it: not toml, unknown, missing, bad value, repeated, too many.
        place: as sigaudit words it: top.hours, interval[2].channel; empty where the text isn't TOML.
        line: where it stands, from 1; None where a thing has no line of its own.
        words: what it is, for who wrote it.
    """

    reason: str
    place: str
    line: int | None
    words: str

    @property
    def refusal(self) -> str:
        """The line that sigaudit prints where this is the first mistake."""
        return "config refused: " + " ".join(word for word in (self.reason, self.place) if word)


def mistakes(text: bytes) -> list[Mistake]:
    """All mistakes of a configuration, in the order in which sigaudit looks."""
    try:
        top = document.parse(text)
    except document.NotToml as error:
        return [Mistake("not toml", "", error.line, error.words)]
    return _Checker(top, document.lines_of(text)).run()


def worded(found: Iterable[Mistake], path: Path) -> str:
    """Mistakes as lines, by the lines of the file: `config.toml:7: hours = "3": expected ..`."""
    return "\n".join(f"{path}:{one.line or '-'}: {one.words}" for one in sorted(found, key=lambda one: one.line or 0))


# ---- values


def shown(value: object) -> str:
    """A value as it may stand in the file, cut where it is long."""
    if isinstance(value, bool):
        text = "true" if value else "false"
    else:
        text = f'"{value}"' if isinstance(value, str) else str(value)
    return text if len(text) <= 40 else text[:37] + "..."


def near(word: str, known: Iterable[str]) -> str | None:
    """The known word that a misspelt one is nearest to, or None."""
    by_lower = {name.lower(): name for name in known}
    found = difflib.get_close_matches(word.lower().replace("-", "_"), by_lower, 1, 0.6)
    return by_lower[found[0]] if found else None


def _whole(value: object, low: int, high: int) -> int | None:
    """A value that is a whole number of a range, None where it isn't."""
    whole = isinstance(value, int) and not isinstance(value, bool) and low <= value <= high
    return value if whole and isinstance(value, int) else None


def _expected_number(value: object, low: int, high: int, tenths: bool = False) -> str:
    """In words what is expected where a value isn't a whole number of a range."""
    text = f"a whole number from {low} to {high}"
    if tenths:
        text += ", in tenths of a second"
    if tenths and isinstance(value, float) and low <= value * 10 <= high:
        text += f"; {value} s are {round(value * 10)}"
    if isinstance(value, str) and value.isdecimal() and value.isascii():
        text += ", without quotes"
    return text


def _begin(value: object) -> datetime.datetime | None:
    """The hour of a text `YYYY-MM-DDTHH`, or None. The year 0, which datetime hasn't, is taken as the year 4."""
    found = _HOUR.fullmatch(value) if isinstance(value, str) else None
    if not found:
        return None
    year, month, day, hour = map(int, found.groups())
    year = year or 4
    good = 1 <= month <= 12 and 1 <= day <= calendar.monthrange(year, month)[1]
    return datetime.datetime(year, month, day, hour) if good else None


def _ends_in_time(start: datetime.datetime, hours: int) -> bool:
    """Whether a window's last day is at most 9999-12-31."""
    return start <= datetime.datetime(9999, 12, 31, 23) - datetime.timedelta(hours=hours - 1)


def _seen_words(value: object) -> str:
    if isinstance(value, frozenset):
        return " ".join(map(str, sorted(value)))
    return " ".join(value) if isinstance(value, tuple) else str(value)


class _Checker:
    """Goes through a configuration in sigaudit's order, and collects."""

    def __init__(self, top: Entry, lines: Lines) -> None:
        self.document, self.lines = top, lines
        self.found: list[Mistake] = []
        self.phases: list[int] = []
        self.channels: list[str] = []
        self.conflicts: list[object] = []

    def line(self, table: str, index: int, key: str) -> int | None:
        places: tuple[Place, ...] = (table, index, key), (table, index), ("top", 0, table)
        return next((self.lines[place] for place in places if place in self.lines), None)

    def add(self, reason: str, table: str, index: int, key: str, words: str, at: str | None = None) -> None:
        """Notes a mistake; key is the one that sigaudit names, at the one whose line it is."""
        place = f"top.{key}" if table == "top" else f"{table}[{index}].{key}"
        self.found.append(Mistake(reason, place, self.line(table, index, key if at is None else at), words))

    def bad(self, table: str, index: int, entry: Entry, key: str, expected: str) -> None:
        self.add("bad value", table, index, key, f"{key} = {shown(entry[key])}: expected {expected}")

    def known_keys(self, table: str, index: int, entry: Entry, keys: Collection[str]) -> Entry:
        """The entry under the keys that it has to have: one that is misspelt counts as the one that is near."""
        good = {key: entry[key] for key in keys if key in entry}
        for key in entry:
            if key in keys:
                continue
            other = near(key, keys)
            words = f"{key}: no such key"
            if other:
                words += f", perhaps {other}"
                good.setdefault(other, entry[key])
                line = self.line(table, index, key)
                if line is not None:
                    self.lines.setdefault((table, index, other), line)
            elif table != "top" and key in TOP:
                words += f" of {table}: it belongs above the first table"
            else:
                words += f" of {'the top' if table == 'top' else table}: expected {', '.join(keys)}"
            self.add("unknown", table, index, "?", words, key)
        return good

    def missing(self, table: str, index: int, entry: Entry, key: str, expected: str) -> bool:
        """Whether a required key isn't there."""
        if key not in entry:
            self.add("missing", table, index, key, f"{key} is missing: expected {expected}", "")
        return key not in entry

    def whole(self, table: str, index: int, entry: Entry, key: str, low: int, high: int, required: bool = True,
              tenths: bool = False) -> int | None:
        """The number at a key; None where it isn't good or isn't there."""
        if required and self.missing(table, index, entry, key, _expected_number(None, low, high, tenths)):
            return None
        if key not in entry:
            return None
        found = _whole(entry[key], low, high)
        if found is None:
            self.bad(table, index, entry, key, _expected_number(entry[key], low, high, tenths))
        return found

    def phase(self, table: str, index: int, entry: Entry, key: str) -> int | None:
        """The configured phase at a key, or None."""
        expected = f"a phase of this configuration ({', '.join(map(str, sorted(self.phases))) or 'it has none'})"
        if self.missing(table, index, entry, key, expected):
            return None
        found = _whole(entry[key], 1, 16)
        if found not in self.phases:
            self.bad(table, index, entry, key, expected)
            return None
        return found

    # ---- the tables

    def run(self) -> list[Mistake]:
        top = self.known_keys("top", 0, self.document, TOP)
        self.top(top)
        for table, (limit, keys) in TABLES.items():
            if _is_table(top.get(table, [])):
                self.table(table, document.entries(top, table), limit, keys)
        return self.found

    def table(self, table: str, entries: list[Entry], limit: int, keys: tuple[str, ...]) -> None:
        if len(entries) > limit:
            self.add("too many", table, limit, "?", f"a table of at most {limit} has {len(entries)} entries", "")
        read: Callable[[str, int, Entry], object] = getattr(self, f"read_{table}")
        seen: list[object] = []
        for index, entry in enumerate(entries):
            value = read(table, index, self.known_keys(table, index, entry, keys))
            if value is not None and table != "interval" and value in seen:
                self.add("repeated", table, index, _REPEATED.get(table, "number"),
                         f"{table} {_seen_words(value)} was there before, in {table}[{seen.index(value)}]")
            seen.append(value)
        if table in KINDS:
            self.channels += [f"{table} {number}" for number in sorted({one for one in seen if isinstance(one, int)})]
        if table == "conflict":
            self.conflicts = seen

    def top(self, top: Entry) -> None:
        expected = "a text of 1 to 32 signs without space, comma and double quote"
        if not self.missing("top", 0, top, "signal", expected):
            signal = top["signal"]
            if not isinstance(signal, str) or not _SIGNAL.fullmatch(signal):
                self.bad("top", 0, top, "signal", expected)
        self.window(top)
        if not isinstance(top.get("coordination", False), bool):
            self.bad("top", 0, top, "coordination", "true or false, without quotes")
        for table in TABLES:
            if not _is_table(top.get(table, [])):
                self.bad("top", 0, top, table, f"entries that each begin with [[{table}]]")
        numbers = (_whole(entry.get("number"), 1, 16) for entry in document.entries(top, "phase"))
        if _is_table(top.get("phase", [])):
            self.phases = [number for number in numbers if number is not None]

    def window(self, top: Entry) -> None:
        start, expected = None, 'a text like "2024-03-04T05", an hour of the calendar'
        if not self.missing("top", 0, top, "start", expected):
            start = _begin(top["start"])
            if start is None:
                self.bad("top", 0, top, "start", expected)
        hours = self.whole("top", 0, top, "hours", 1, 744)
        if hours and start and not _ends_in_time(start, hours):
            self.bad("top", 0, top, "hours", "a window that ends by 9999-12-31")

    def read_phase(self, table: str, index: int, entry: Entry) -> object:
        number = self.whole(table, index, entry, "number", 1, 16)
        self.whole(table, index, entry, "ring", 1, 4)
        self.whole(table, index, entry, "side", 1, 4)
        return number

    def read_ped(self, table: str, index: int, entry: Entry) -> object:
        return self.phase(table, index, entry, "number")

    def read_overlap(self, table: str, index: int, entry: Entry) -> object:
        number = self.whole(table, index, entry, "number", 1, 16)
        expected = f"an array of 1 to 8 different phases of this configuration " \
                   f"({', '.join(map(str, sorted(self.phases)))})"
        if not self.missing(table, index, entry, "parents", expected):
            parents = entry["parents"]
            good = isinstance(parents, list) and 1 <= len(parents) <= 8 and all(
                _whole(parent, 1, 16) in self.phases for parent in parents)
            if not good or isinstance(parents, list) and len(set(parents)) < len(parents):
                self.bad(table, index, entry, "parents", expected)
        return number

    def read_preempt(self, table: str, index: int, entry: Entry) -> object:
        return self.whole(table, index, entry, "number", 1, 16)

    def pair(self, table: str, index: int, entry: Entry, barred: Collection[object]) -> object:
        a = self.phase(table, index, entry, "a")
        b = self.phase(table, index, entry, "b")
        if b is not None and a == b:
            self.bad(table, index, entry, "b", "another phase than a")
        elif a and b and frozenset((a, b)) in barred:
            self.bad(table, index, entry, "b", "a pair that isn't in [[conflict]] too")
        return frozenset((a, b)) if a and b and a != b else None

    def read_conflict(self, table: str, index: int, entry: Entry) -> object:
        return self.pair(table, index, entry, ())

    def read_allow(self, table: str, index: int, entry: Entry) -> object:
        return self.pair(table, index, entry, self.conflicts)

    def kind(self, table: str, index: int, entry: Entry) -> str | None:
        """The kind of the channel of an entry, or of the one that it may mean; None where it isn't known."""
        expected = f"a channel of this configuration, like {shown((self.channels or ['phase 2'])[0])}"
        if self.missing(table, index, entry, "channel", expected):
            return None
        channel = entry["channel"]
        if channel in self.channels:
            return str(channel).split(" ")[0]
        other = near(channel, self.channels) if isinstance(channel, str) else None
        self.bad(table, index, entry, "channel", expected + (f"; perhaps {shown(other)}" if other else ""))
        return other.split(" ")[0] if other else None

    def colour(self, table: str, index: int, entry: Entry) -> object:
        """The channel and colour of an entry; None where they aren't good."""
        kind = self.kind(table, index, entry)
        expected = ", ".join(machines.COLOURS[kind]) if kind else "a colour of the channel"
        if self.missing(table, index, entry, "colour", expected):
            return None
        if kind and entry["colour"] not in machines.COLOURS[kind]:
            other = near(str(entry["colour"]), machines.COLOURS[kind])
            self.bad(table, index, entry, "colour", expected + (f"; perhaps {other}" if other else ""))
            return None
        return (entry["channel"], entry["colour"]) if entry.get("channel") in self.channels else None

    def read_floor(self, table: str, index: int, entry: Entry) -> object:
        found = self.colour(table, index, entry)
        self.whole(table, index, entry, "tenths", 0, 36000, tenths=True)
        return found

    def read_interval(self, table: str, index: int, entry: Entry) -> object:
        found = self.colour(table, index, entry)
        bounds = [key for key in ("at_least", "at_most") if key in entry]
        if bounds:
            self.whole(table, index, entry, bounds[0], 1, 36000, tenths=True)
        else:
            self.add("missing", table, index, "at_least", "a bound is missing: expected at_least or at_most", "")
        if len(bounds) == 2:
            self.bad(table, index, entry, "at_most", "one bound in an entry; for both write two entries")
        return found

    def read_approach(self, table: str, index: int, entry: Entry) -> object:
        expected = "a text of 1 to 32 letters, digits, _ and -"
        name = entry.get("name")
        good = isinstance(name, str) and _NAME.fullmatch(name)
        if not self.missing(table, index, entry, "name", expected) and not good:
            self.bad(table, index, entry, "name", expected)
        self.phase(table, index, entry, "phase")
        for key in ("advance", "stop_bar"):
            self.whole(table, index, entry, key, 1, 128, required=False)
        if "travel" in entry and "advance" not in entry:
            self.bad(table, index, entry, "travel", "an advance detector beside it, from which vehicles travel")
        else:
            self.whole(table, index, entry, "travel", 0, 300, required=False, tenths=True)
        self.share(table, index, entry)
        return name if good else None

    def share(self, table: str, index: int, entry: Entry) -> None:
        """high_num over high_den: both or neither."""
        if "high_num" not in entry and "high_den" not in entry:
            return
        high = entry.get("high_den")
        if not self.missing(table, index, entry, "high_num", "both of high_num and high_den, or neither"):
            number = _whole(entry["high_num"], 1, 1000)
            if number is None:
                self.bad(table, index, entry, "high_num", _expected_number(entry["high_num"], 1, 1000))
            elif isinstance(high, int) and not isinstance(high, bool) and number > high:
                self.bad(table, index, entry, "high_num", f"at most high_den, which is {high}")
        self.whole(table, index, entry, "high_den", 1, 1000)


def _is_table(value: object) -> bool:
    return isinstance(value, list) and all(isinstance(entry, dict) for entry in value)
