"""The answer of the program to a script, read back: what was edited, what was known, and the numbers as frames.

`parse_answer` reads heads and edits; the lines of a section are read when they are asked for. What the lines mean
docs/FORMATS.md says under "Answers".
"""

from __future__ import annotations

import dataclasses
import functools
import hashlib
import re
from collections.abc import Iterator, Mapping
from pathlib import Path

import numpy as np
import pandas as pd

from sigaudit_tools import answer_lines, measures
from sigaudit_tools.errors import InputError
from sigaudit_tools.signal.config import Config
from sigaudit_tools.times import HOUR, tenth_of_stamp

_HEAD = re.compile(r"(\d+) (ok|refused|audit|verdicts|measures|points|offsets)\b *(.*)", re.ASCII)

Stretch = tuple[int, int]


@dataclasses.dataclass(frozen=True)
class HeldHour:
    """An hour that was held: the file that the script named, and its rows without repeats."""

    file: str
    rows: int


@dataclasses.dataclass(frozen=True)
class Known:
    """What was known at one moment of a script.

    Attributes:
        held: the hours that were held, by their number from the window's start.
        blanks: stretches that were blanked, from a tenth up to another, in the order of the edits; they may overlap.
    """

    held: Mapping[int, HeldHour]
    blanks: tuple[Stretch, ...]


@dataclasses.dataclass(frozen=True)
class Edit:
    """A line of the script that edits.

    Attributes:
        line: its number in the script, from 1.
        words: its words.
        answer: what the program said: `ok ..` or `refused ..`.
    """

    line: int
    words: tuple[str, ...]
    answer: str

    @property
    def is_refused(self) -> bool:
        return self.answer.startswith("refused")


@dataclasses.dataclass(frozen=True, eq=False)
class Section:
    """The answer to a line that asks.

    Attributes:
        line: the line's number in the script, from 1.
        kind: audit, verdicts, measures, points or offsets.
        of: the hour's number, the phase or the approach that was asked for; empty where none was.
        known: what was known then.
        text: the lines of the answer, each with its end.
    """

    line: int
    kind: str
    of: str
    known: Known
    text: memoryview = dataclasses.field(repr=False)

    @functools.cached_property
    def lines(self) -> tuple[tuple[str, ...], ...]:
        """The words of each line."""
        return tuple(tuple(line.split()) for line in bytes(self.text).decode("latin-1").splitlines())


@dataclasses.dataclass(frozen=True, eq=False)
class Answer:
    """An answer with the configuration and the script to which it was given.

    Attributes:
        config: the configuration.
        script: the script's text.
        script_name, name: how the files of the script and of the answer are called.
        digest: the SHA-256 of the answer, as 64 digits.
        edits: the lines that edit, in order.
        sections: the answers to the lines that ask, in order.
        known: what was known at the end.
    """

    config: Config
    script: str = dataclasses.field(repr=False)
    script_name: str
    name: str
    digest: str
    edits: tuple[Edit, ...]
    sections: tuple[Section, ...]
    known: Known

    @property
    def script_digest(self) -> str:
        """The SHA-256 of the script, as 64 digits."""
        return hashlib.sha256(self.script.encode("latin-1")).hexdigest()

    def last(self, kind: str, of: str | int = "") -> Section | None:
        """The last section of a kind: of an hour's number, a phase or an approach; of none without it."""
        return next((one for one in reversed(self.sections) if one.kind == kind and one.of == str(of)), None)

    def by_hour(self, kind: str) -> dict[int, Section]:
        """The last section of a kind (verdicts, measures) for each hour, by the hour's number."""
        found = {int(one.of): one for one in self.sections if one.kind == kind and one.of}
        return dict(sorted(found.items()))

    def missing(self, known: Known | None = None) -> list[Stretch]:
        """The stretches of the window of which no file was held; at the end where no moment is given."""
        held = (known or self.known).held
        start = self.config.start_tenth
        return merged([(start + hour * HOUR, start + (hour + 1) * HOUR)
                       for hour in range(self.config.hours) if hour not in held])

    def blanked(self, known: Known | None = None) -> list[Stretch]:
        """The stretches that were blanked; at the end where no moment is given."""
        return merged(list((known or self.known).blanks))

    def unknown(self, known: Known | None = None) -> list[Stretch]:
        """The stretches of the window that weren't known; at the end where no moment is given."""
        return merged(self.missing(known) + self.blanked(known))

    @functools.cached_property
    def rules(self) -> dict[int, str]:
        """The name of each rule that was judged, by its number, as audits of the answer print it."""
        found = {}
        for section in self.sections:
            if section.kind == "audit":
                found.update({rule.number: rule.name for rule in answer_lines.rules(section.text)})
        return found

    @property
    def judging(self) -> tuple[Section, ...]:
        """The sections whose broken and undecided lines hold: the last audit, without one those by hour."""
        audit = self.last("audit")
        return (audit,) if audit else tuple(self.by_hour("verdicts").values())

    @functools.cached_property
    def verdicts(self) -> pd.DataFrame:
        """The broken and undecided verdicts, in the order of the last audit (without one, of the verdicts by hour).

        Columns: verdict (`broken`, `undecided`), rule (int), name (str), hour and stamp (datetime64), tenth (int64),
        from and to (datetime64, of a broken one: the first and last tenth of the stretch of log that breaks the rule
        even where nothing else is known), from_tenth and to_tenth (the same as Int64).
        """
        table = self._judged(self.judging)
        return table[table["verdict"] != "kept"].reset_index(drop=True)

    @functools.cached_property
    def judged(self) -> pd.DataFrame:
        """Every verdict of each hour, kept ones too, by the last answers to `verdicts H`; columns as of `verdicts`."""
        return self._judged(tuple(self.by_hour("verdicts").values()))

    def _judged(self, sections: tuple[Section, ...]) -> pd.DataFrame:
        found = answer_lines.Verdicts.joined([answer_lines.verdicts(one.text) for one in sections])
        begin, end = (pd.Series(one, dtype="Int64").where(one != answer_lines.NONE) for one in (found.begin, found.end))
        return pd.DataFrame({
            "verdict": pd.Categorical.from_codes(found.verdict, list(answer_lines.VERDICTS)),
            "rule": found.rule,
            "name": pd.Series(found.rule, dtype="int64").map(self.rules).fillna("").astype(object),
            "hour": answer_lines.datetimes(found.tenth - found.tenth % HOUR),
            "stamp": answer_lines.datetimes(found.tenth),
            "tenth": found.tenth,
            "from": answer_lines.datetimes(found.begin),
            "to": answer_lines.datetimes(found.end),
            "from_tenth": begin,
            "to_tenth": end,
        })

    def measures(self, kind: str, by: str = "hour") -> pd.DataFrame:
        """The measures of one kind: `phases`, `peds`, `preempts`, `coordination`, `arrivals`, `actuations`, `splits`.

        Args:
            kind: one of these.
            by: `hour`, the last answers to `measures H`, with a column hour (datetime64); or `window`, the last
                answer to `measures`.

        Returns:
            A row for each channel or approach, with known_s and the columns of `measures.COLUMNS[kind]`: seconds
            (`.._s`, float, NaN where there is none), counts (int64), shares (float). See docs/FORMATS.md, "Measures".

        Raises:
            KeyError: there is no such kind or grouping.
        """
        if by == "window":
            section = self.last("measures")
            return measures.table(kind, [section.lines] if section else [])
        if by != "hour":
            raise KeyError(f"by is hour or window, not {by!r}")
        sections = self.by_hour("measures")
        hours = self.config.start_tenth + HOUR * np.array(list(sections), np.int64)
        return measures.table(kind, [section.lines for section in sections.values()], answer_lines.datetimes(hours))

    @functools.cached_property
    def cycles(self) -> pd.DataFrame:
        """The whole cycles of the phases for which the script asks `points P`.

        Columns: phase (int), stamp (datetime64) and tenth (int64) of the cycle's first end of yellow, length_s,
        green_s, yellow_s (float; of the last begin of green and of yellow the seconds since then, 0 where there is
        none).
        """
        found = [answer_lines.diagram(one.text, int(one.of))[0] for one in self._last_of_each("points")]
        return pd.concat(found, ignore_index=True) if found else answer_lines.no_cycles()

    @functools.cached_property
    def points(self) -> pd.DataFrame:
        """The arrivals in the cycles of `cycles`, in its order.

        Columns: phase (int), approach (str), stamp (datetime64) and tenth (int64) of the arrival, cycle_tenth (int64,
        of its cycle), offset_s (float, since its cycle's begin), is_green (whether it came between the cycle's begins
        of green and of yellow).
        """
        found = [answer_lines.diagram(one.text, int(one.of))[1] for one in self._last_of_each("points")]
        return pd.concat(found, ignore_index=True) if found else answer_lines.no_points()

    @functools.cached_property
    def shifts(self) -> pd.DataFrame:
        """How many arrivals would have met green at each shift, of the approaches for which `offsets NAME` asks.

        Columns: approach (str), shift_s (int), green (int, how many would have met green), arrivals (int, of how
        many in whole cycles), is_best (bool).
        """
        tables = [answer_lines.shifts(one.lines, one.of) for one in self._last_of_each("offsets")]
        return pd.concat(tables, ignore_index=True) if tables else answer_lines.shifts((), "")

    @functools.cached_property
    def refusals(self) -> pd.DataFrame:
        """The edits that the program refused. Columns: line (int, of the script), edit (str), refusal (str)."""
        found = [(one.line, " ".join(one.words), one.answer.removeprefix("refused ")) for one in self.edits
                 if one.is_refused]
        return pd.DataFrame(found, columns=["line", "edit", "refusal"])

    def _last_of_each(self, kind: str) -> list[Section]:
        """The last section of a kind for each phase or approach, in the order in which these were first asked for."""
        return list({one.of: one for one in self.sections if one.kind == kind}.values())


def merged(stretches: list[Stretch]) -> list[Stretch]:
    """Stretches of time in order, those that touch or overlap as one."""
    found: list[Stretch] = []
    for low, high in sorted(stretches):
        if found and low <= found[-1][1]:
            found[-1] = found[-1][0], max(high, found[-1][1])
        else:
            found.append((low, high))
    return found


def parse_answer(config: Config, script: str, text: bytes, script_name: str = "session.txt",
                 name: str = "answer.txt") -> Answer:
    """An answer of the program.

    Args:
        config: the configuration.
        script: the script that was carried out.
        text: what the program wrote.
        script_name, name: how the files of the script and of the answer are called.

    Raises:
        InputError: it isn't the whole answer to this script.
    """
    reader = _Reader(script, name)
    for head, body in _heads(text, name):
        reader.take(head, body)
    reader.end(text)
    return Answer(config, script, script_name, name, hashlib.sha256(text).hexdigest(), tuple(reader.edits),
                  tuple(reader.sections), reader.known())


def read_answer(config: Config, script: Path, answer: Path) -> Answer:
    """An answer from its files.

    Raises:
        InputError: a file isn't there, or it isn't the whole answer to this script.
    """
    try:
        words = script.read_bytes().decode("latin-1")
        return parse_answer(config, words, answer.read_bytes(), str(script), str(answer))
    except OSError as error:
        raise InputError(f"can't be read: {error.strerror}", error.filename, "name a file that is there") from error


def _heads(text: bytes, where: str) -> Iterator[tuple[re.Match[str], memoryview]]:
    """Each line that begins with the number of a line of the script, with the lines up to the next of this kind."""
    starts, ends = answer_lines.line_bounds(text)
    buffer = np.frombuffer(text, np.uint8)
    heads = np.flatnonzero((buffer[starts] >= ord("0")) & (buffer[starts] <= ord("9"))) if len(starts) else starts
    if len(starts) and (not len(heads) or heads[0]):
        raise _other(where, text[:60].decode("latin-1"))
    view = memoryview(text)
    for head, following in zip(heads, [*heads[1:], len(starts)]):
        line = text[starts[head]:ends[head]].decode("latin-1")
        found = _HEAD.fullmatch(line)
        if not found:
            raise _other(where, line[:60])
        stop = starts[following] if following < len(starts) else len(text)
        yield found, view[ends[head] + 1:stop]


def _other(where: str, line: str) -> InputError:
    return InputError(f"not an answer of sigaudit: {line!r}", where, "name what it wrote to its standard output")


def _is_edit(words: tuple[str, ...]) -> bool:
    """Whether a line of a script has the words of one that edits."""
    return (words[0], len(words)) in (("load", 3), ("replace", 3), ("withdraw", 2), ("blank", 3), ("unblank", 3))


class _Reader:
    """The edits and sections of an answer, taken in order."""

    def __init__(self, script: str, where: str) -> None:
        lines = script.split("\n")
        self._words = {number: tuple(line.split()) for number, line in enumerate(lines, 1)
                       if line.strip(" \r") and line.lstrip(" ")[0] != "#"}
        self._where = where
        self._answered: set[int] = set()
        self._held: dict[int, HeldHour] = {}
        self._blanks: list[Stretch] = []
        self._known: Known | None = None
        self.edits: list[Edit] = []
        self.sections: list[Section] = []

    def known(self) -> Known:
        """What is known now; the same value as long as no edit is taken."""
        if self._known is None:
            self._known = Known(dict(self._held), tuple(self._blanks))
        return self._known

    def take(self, head: re.Match[str], body: memoryview) -> None:
        """Takes the answer to a line: its head and the lines below it."""
        number, what, rest = int(head[1]), head[2], head[3]
        words = self._words.get(number, ())
        is_edit = what in ("ok", "refused")
        if not words or not (what == "refused" or words[0] == what or (what == "ok" and _is_edit(words))):
            raise InputError(f"line {number} of the script doesn't ask for this: {head[0][:60]}", self._where,
                             "name the script to which this is the answer")
        self._answered.add(number)
        if not is_edit:
            self.sections.append(Section(number, what, rest, self.known(), body))
            return
        self.edits.append(Edit(number, words, f"{what} {rest}"))
        if what == "ok":
            self._known = None
            self._carry_out(words, rest.split())

    def _carry_out(self, words: tuple[str, ...], said: list[str]) -> None:
        """Carries out an edit that the program took."""
        if words[0] in ("load", "replace"):
            self._held[int(words[1])] = HeldHour(words[2], int(said[1]))
        elif words[0] == "withdraw":
            self._held.pop(int(words[1]), None)
        else:
            low, high = tenth_of_stamp(words[1]), tenth_of_stamp(words[2])
            if words[0] == "blank":
                self._blanks.append((low, high))
            else:
                parts = [part for begin, end in self._blanks
                         for part in ((begin, min(end, low)), (max(begin, high), end))]
                self._blanks = [part for part in parts if part[0] < part[1]]

    def end(self, text: bytes) -> None:
        """Makes sure that every line of the script was answered, and the last line whole."""
        if self._answered != set(self._words) or (text and not text.endswith(b"\n")):
            raise InputError("not the whole answer to its script", self._where, "let the program run again")
