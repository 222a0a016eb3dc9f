"""The page of a corridor: a line a signal, those first that need a look first, each leading to its own page."""

from __future__ import annotations

import dataclasses
import functools
import re
from collections.abc import Mapping, Sequence
from pathlib import Path

import jinja2
import pandas as pd
from markupsafe import Markup

from sigaudit_tools.files import write_text
from sigaudit_tools.report.charts import Known, small_hours
from sigaudit_tools.report.svg import PATTERNS, Chart, clock, day_of, end_clock
from sigaudit_tools.times import HOUR, tenth_of_hour, tenth_of_stamp

HERE = Path(__file__).parent
CLEARING = re.compile(r"conflict|companion|parents|\w+ \d+ (Yellow|Clear|Walk|Clearance) at least")


@dataclasses.dataclass(frozen=True, eq=False)
class Line:
    """A signal of a corridor, by its tables.

    Attributes:
        folder: the name of its folder.
        tables: its tables by their names, all fields as text; None where it has no answer.
    """

    folder: str
    tables: Mapping[str, pd.DataFrame] | None

    def _table(self, name: str) -> pd.DataFrame:
        return self.tables[name] if self.tables else pd.DataFrame()

    @functools.cached_property
    def _head(self) -> pd.DataFrame:
        return self._table("head").drop_duplicates("what").set_index("what")

    @property
    def name(self) -> str:
        return str(self._head.loc["window", "signal"])

    @property
    def window(self) -> tuple[int, int]:
        """The first tenth of the window, and the first after it."""
        begin, end = str(self._head.loc["window", "value"]).split(" ")
        return tenth_of_stamp(begin), tenth_of_stamp(end)

    @property
    def window_in_words(self) -> tuple[str, str]:
        begin, end = self.window
        first, last = day_of(begin), day_of(end - 1)
        if first == last:
            return first, f"{clock(begin)} to {end_clock(end)}"
        return f"{first} {clock(begin)}", f"to {last} {end_clock(end)}"

    @functools.cached_property
    def broken(self) -> pd.DataFrame:
        verdicts = self._table("verdicts")
        return verdicts[verdicts["verdict"] == "broken"]

    @property
    def undecided(self) -> int:
        return int((self._table("verdicts")["verdict"] == "undecided").sum())

    @property
    def clearing(self) -> int:
        """Broken verdicts of conflicts and clearing intervals."""
        return sum(bool(CLEARING.match(name)) for name in self.broken["name"])

    @property
    def solid(self) -> int | None:
        """Broken verdicts on log in which no lost rows are suspected; None where nobody looked."""
        graded = self.broken["doubt"] != ""
        return int((self.broken["doubt"] == "solid").sum()) if graded.any() else None

    @property
    def known_percent(self) -> str:
        """The known share of the window, cut off to one decimal: held seconds less blanked ones."""
        held, blanked = (round(10 * float(str(self._head.loc[what, "value"]))) for what in ("held_s", "blanked_s"))
        begin, end = self.window
        whole, tenths = divmod(1000 * (held - blanked) // (end - begin), 10)
        return f"{whole}.{tenths}"

    @property
    def worst(self) -> tuple[str, str] | None:
        """The approach with the greatest share of split failures, and the share in per cent."""
        table = self._table("window_approaches")
        table = table[table["fail_greatest"] != ""]
        if table.empty:
            return None
        row = table.loc[table["fail_greatest"].astype(float).idxmax()]
        return str(row["approach"]), f"{100 * float(row['fail_greatest']):.1f}"

    @functools.cached_property
    def by_hour(self) -> dict[int, int]:
        """Broken verdicts by the tenth at which their hour begins."""
        counts = self.broken["hour"].value_counts()
        return {tenth_of_hour(str(hour)): int(count) for hour, count in counts.items()}

    @property
    def most(self) -> str:
        """The hour with most broken verdicts, in words."""
        worst = max(sorted(self.by_hour), key=lambda hour: self.by_hour[hour], default=None)
        return "none" if worst is None else f"most, {self.by_hour[worst]}, {day_of(worst)} {clock(worst)}"

    def picture(self, highest: int) -> Chart:
        """Broken verdicts by hour; hours that aren't wholly known are hatched."""
        begin, end = self.window
        table = self._table("phases")
        known = {tenth_of_hour(hour): float(known) for hour, known in zip(table["hour"], table["known_s"])}
        unknown = [(hour, hour + HOUR) for hour in range(begin, end, HOUR) if known.get(hour, 0.0) < HOUR / 10]
        return small_hours(f"Signal {self.name}: broken verdicts by hour; {self.most}", Known(begin, end, unknown, []),
                           self.by_hour, highest)

    @property
    def order(self) -> tuple[int, int, int, str]:
        """Those without an answer first, then by broken conflicts and clearing intervals, then by all broken ones."""
        if self.tables is None:
            return 0, 0, 0, self.folder
        return 1, -self.clearing, -len(self.broken), self.folder


def read_line(folder: Path, made: Path) -> Line:
    """A signal by its folder and that of its tables, which isn't there where it has no answer."""
    if not (made / "head.csv").is_file():
        return Line(folder.name, None)
    return Line(folder.name, {path.stem: pd.read_csv(path, dtype=str, keep_default_na=False)
                              for path in made.glob("*.csv")})


def write_index(path: Path, name: str, lines: Sequence[Line], joined: Sequence[str]) -> None:
    """Writes the page of a corridor.

    Args:
        path: the file.
        name: of the corridor.
        lines: its signals.
        joined: the joined tables, as the page leads to them.

    Raises:
        ResourceError: it can't be written.
    """
    environment = jinja2.Environment(loader=jinja2.FileSystemLoader(HERE), autoescape=True, trim_blocks=True,
                                     lstrip_blocks=True, undefined=jinja2.StrictUndefined)
    ordered = sorted(lines, key=lambda line: line.order)
    answered = [line for line in ordered if line.tables is not None]
    highest = max((count for line in answered for count in line.by_hour.values()), default=0)
    graded = any(line.solid is not None for line in answered)
    style = Markup((HERE / "style.css").read_text("utf-8"))
    write_text(path, environment.get_template("corridor.html.j2").render(
        name=name, lines=ordered, joined=joined, highest=highest, graded=graded, style=style, patterns=PATTERNS) + "\n")
