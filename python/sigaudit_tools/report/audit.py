"""What the page of a signal is made of: an answer with its tables, the rows of its log, what was found beside it."""

from __future__ import annotations

import dataclasses
import functools
from collections.abc import Mapping, Sequence

import pandas as pd

from sigaudit_tools.answer import Answer
from sigaudit_tools.holes import Holes
from sigaudit_tools.report.charts import Known, Mark
from sigaudit_tools.report.evidence import KnownLog, Line, channels_of
from sigaudit_tools.report.lookup import Row, Tables
from sigaudit_tools.report.remarks import FaultSaid, History
from sigaudit_tools.report.svg import Stretch
from sigaudit_tools.times import tenth_of_stamp

GRADES = ("solid", "unlearned", "weak", "likely", "sure", "certain")
# Conflicts, and the intervals that clear a crossing, stand first among broken rules.
CLEARING = frozenset(("Yellow", "Clear", "Walk", "Clearance"))
# So many verdicts of one rule are shown one by one.
SHOWN = 40


@dataclasses.dataclass(frozen=True)
class Verdict:
    """A broken or undecided verdict by its row of verdicts.csv."""

    row: Row

    @property
    def id(self) -> str:
        return f"line-{self.row.place}"

    @property
    def rule(self) -> int:
        return self.row.count("rule")

    @property
    def broken(self) -> bool:
        return self.row["verdict"] == "broken"

    @functools.cached_property
    def tenth(self) -> int:
        return tenth_of_stamp(self.row["stamp"])

    @property
    def stretch(self) -> Stretch | None:
        """The first and the last tenth of the log that decides it, of a broken one."""
        return (tenth_of_stamp(self.row["from"]), tenth_of_stamp(self.row["to"])) if self.row["from"] else None

    @property
    def grade(self) -> str:
        """The grade of the strongest suspicion of lost rows; empty where none was looked for."""
        return self.row["doubt"].split(":")[0]

    @property
    def suspicion(self) -> str:
        """That suspicion in words; empty where there is none."""
        return self.row["doubt"].partition(": ")[2]

    @property
    def kind(self) -> str:
        """`least` or `most`, what the rule bounds; or conflict, companion, parents."""
        words = self.row["name"].split(" ")
        return words[4] if words[3:4] == ["at"] else words[0]

    @property
    def measured(self) -> str:
        """How long the colour, or that which the rule forbids, lasted: `12.0 s`, `from 2.0 to 3.5 s`, `at least 9.0
        s`, `at most 2.1 s`, `an unknown time`; empty where it isn't known from the rows."""
        least, greatest = self.row["least_s"], self.row["greatest_s"]
        if not least:
            return ""
        if least == greatest:
            return f"{least} s"
        if not greatest:
            return f"at least {least} s" if float(least) else "an unknown time"
        return f"from {least} to {greatest} s" if float(least) else f"at most {greatest} s"

    @property
    def excess(self) -> str:
        """By how many seconds a duration misses its bound, where it is told and does; else empty."""
        least, bound = self.row["least_s"], self.row["bound_s"]
        if not bound or least != self.row["greatest_s"]:
            return ""
        missed = float(bound) - float(least) if self.kind == "least" else float(least) - float(bound)
        return f"{missed:.1f}" if missed > 0 else ""

    @property
    def severity(self) -> float:
        """How far from the bound, in seconds; of a rule without one, for how long it was broken."""
        least, bound = self.row["least_s"], self.row["bound_s"]
        return abs(float(bound) - float(least)) if bound and least else float(least or 0)


@dataclasses.dataclass(frozen=True)
class Count:
    """A number of verdicts, and where it can be counted again."""

    number: int
    place: str


@dataclasses.dataclass(frozen=True, eq=False)
class Audit:
    """What a page is made of.

    Attributes:
        answer: the answer.
        frames: its tables (`tables.tables`).
        made: when the page is made, in words.
        version: that of the tools which make it.
        log: the rows of the hours that are held; None where they aren't there, and nothing is shown of them.
        holes: what the search for holes found; None where there was none.
        faults: what the search for faults of channels found; None where there was none.
        histories: of some undecided verdicts, by rule and tenth, a history that keeps the rule and one that breaks it.
        folder: where the tables lie, from the page.
    """

    answer: Answer
    frames: Mapping[str, pd.DataFrame]
    made: str
    version: str
    log: KnownLog | None = None
    holes: Holes | None = None
    faults: tuple[FaultSaid, ...] | None = None
    histories: Mapping[tuple[int, int], tuple[History, ...]] = dataclasses.field(default_factory=dict)
    folder: str = "tables"

    @functools.cached_property
    def tables(self) -> Tables:
        return Tables(self.frames)

    @functools.cached_property
    def verdicts(self) -> list[Verdict]:
        """The broken and undecided verdicts, in the order of the answer."""
        return [Verdict(row) for row in self.tables.rows("verdicts")]

    @functools.cached_property
    def _by_rule(self) -> dict[tuple[int, bool], list[Verdict]]:
        found: dict[tuple[int, bool], list[Verdict]] = {}
        for verdict in self.verdicts:
            found.setdefault((verdict.rule, verdict.broken), []).append(verdict)
        return found

    @property
    def graded(self) -> bool:
        """Whether some verdict has a grade."""
        return any(verdict.grade for verdict in self.verdicts)

    @functools.cached_property
    def known(self) -> Known:
        """The window, and what isn't known of it at the end."""
        config = self.answer.config
        return Known(config.start_tenth, config.end_tenth, self.answer.missing(), self.answer.blanked())

    @functools.cached_property
    def marks(self) -> list[Mark]:
        """The verdicts as marks of a time line."""
        return [Mark(verdict.tenth, verdict.rule, verdict.broken) for verdict in self.verdicts]

    @property
    def known_tenths(self) -> int:
        """How many tenths of the window are known."""
        return self.known.end - self.known.start - sum(high - low for low, high in self.answer.unknown())

    def of(self, rule: int | str, broken: bool) -> list[Verdict]:
        """The broken, or the undecided, verdicts of a rule, in order of time."""
        return self._by_rule.get((int(rule), broken), [])

    def count(self, verdict: str, **wanted: str) -> Count:
        """How many verdicts are `broken` or `undecided`; of a `rule` or with a grade (`doubt`) where one is given."""
        found = [one for one in self.verdicts if one.row["verdict"] == verdict
                 and wanted.get("rule") in (None, one.row["rule"]) and wanted.get("doubt") in (None, one.grade)]
        tests = "".join(f" {key}={value}" for key, value in wanted.items())
        return Count(len(found), f"count verdicts verdict={verdict}{tests}")

    @property
    def grades(self) -> list[str]:
        """The grades that broken verdicts have, those least in doubt first."""
        there = {verdict.grade for verdict in self.verdicts if verdict.broken}
        return [grade for grade in GRADES if grade in there]

    @functools.cached_property
    def broken_rules(self) -> list[Row]:
        """The broken rules by their weight, rows of window_rules.csv: conflicts and rules on clearing intervals first,
        then the rule that is broken most often."""
        rows = [row for row in self.tables.window("rules") if row.count("broken")]
        return sorted(rows, key=lambda row: (not is_clearing(row["name"]), -row.count("broken"), row.count("rule")))

    @functools.cached_property
    def rules(self) -> list[int]:
        """The rules with a broken or undecided verdict: broken ones by their weight, then the others by number."""
        broken = [row.count("rule") for row in self.broken_rules]
        return broken + sorted({verdict.rule for verdict in self.verdicts} - set(broken))

    def worst(self, rule: int | str) -> Verdict:
        """The broken verdict of a rule that is furthest from the bound; of equal ones the first."""
        return max(self.of(rule, True), key=lambda verdict: verdict.severity)

    def shown(self, rule: int) -> list[Verdict]:
        """The broken verdicts of a rule that are shown one by one, in order of time."""
        return furthest(self.of(rule, True))

    def lines(self, verdict: Verdict) -> list[Line] | None:
        """The rows of the stretch that decides a broken verdict; None where they aren't there."""
        if self.log is None or verdict.stretch is None or not verdict.measured:
            return None
        return self.log.lines(verdict.stretch, channels_of(verdict.row["name"], self.answer.config))

    def approaches_of(self, fault: FaultSaid) -> list[str]:
        """The approaches that use a detector of a faulty channel."""
        kind, _, numbers = fault.channel.partition(" ")
        if kind != "detector":
            return []
        return [one.name for one in self.answer.config.approaches
                if any(detector is not None and (numbers == "all" or str(detector) in numbers.split(","))
                       for detector in (one.advance, one.stop_bar))]


def is_clearing(name: str) -> bool:
    """Whether a rule, by its name, is of two channels or on the least time of a clearing interval."""
    words = name.split(" ")
    return words[0] in ("conflict", "companion", "parents") or (words[2] in CLEARING and words[4] == "least")


def furthest(verdicts: Sequence[Verdict], most: int = SHOWN) -> list[Verdict]:
    """Those furthest from the bound, so many at most, in order of time; of equally far ones some from first to last."""
    if len(verdicts) <= most:
        return list(verdicts)
    ranked = sorted(verdicts, key=lambda verdict: (-verdict.severity, verdict.tenth))
    edge = ranked[most - 1].severity
    above = [verdict for verdict in ranked if verdict.severity > edge]
    level = [verdict for verdict in ranked if verdict.severity == edge]
    room = most - len(above)
    spread = [level[place * (len(level) - 1) // max(1, room - 1)] for place in range(room)]
    return sorted(above + spread, key=lambda verdict: (verdict.tenth, verdict.row.place))
