"""The page of a signal's audit: one file for a screen, a telephone and paper, made of templates.

Styles, pictures and a small script are inside, so that it needs no server and no network. The templates `*.html.j2`
hold the markup and the words; numbers come from the tables, and say from where (`lookup`).
"""

from __future__ import annotations

import datetime
import functools
import os
from pathlib import Path
from typing import NamedTuple

import jinja2
from markupsafe import Markup, escape

from sigaudit_tools.files import write_text
from sigaudit_tools.report import figures, lookup
from sigaudit_tools.report.audit import SHOWN, Audit
from sigaudit_tools.report.charts import HATCHED
from sigaudit_tools.report.evidence import Line
from sigaudit_tools.report.lookup import Row
from sigaudit_tools.report.remarks import History, quiet_detectors, why_blank
from sigaudit_tools.report.svg import PATTERNS, day_of, end_clock
from sigaudit_tools.signal.channels import channel_of
from sigaudit_tools.signal.codes import name_of
from sigaudit_tools.signal.rule_words import in_words
from sigaudit_tools.times import DAY, stamp_of

HERE = Path(__file__).parent
PARTS = (("out", "What stands out"), ("verdicts", "Violations"), ("timeline", "Time line"),
         ("phases", "Phases and approaches"), ("rests", "What this page rests on"), ("tables", "Tables and files"))
ON_LOG = {"solid": "on solid log", "unlearned": "on log too small to learn from"}
GRADE_IN_WORDS = {
    "solid": "no lost rows are suspected in it",
    "unlearned": "the log is too small to tell whether rows are lost in it",
    "weak": "a faint suspicion of lost rows in it, which wasn’t blanked",
    "likely": "rows are likely lost in it",
    "sure": "rows are almost surely lost in it",
    "certain": "rows are lost in it: what is there can’t follow one another",
}
FORBIDDEN = {"conflict": " both served", "companion": " walk without its phase", "parents": " green without a parent"}
CHANNELS = {"ped": "pedestrian signal", "ped_detector": "pedestrian detector", "preempt_input": "preempt input"}
ABOUT = {
    "head": "the window; configuration, script, answer with their SHA-256; each edit with its file’s, and its answer",
    "phases": "each phase by hour: services, splits, why greens ended, cycles",
    "approaches": "each approach by hour: arrivals on green, actuations on red, split failures",
    "peds": "each pedestrian signal by hour: walks, delays",
    "preempts": "each preempt by hour: entries, delays, dwells, states",
    "coordination": "the coordination by hour: seconds in each state",
    "rules": "each rule by hour: kept, broken, undecided",
    "window_rules": "each rule over the window",
    "verdicts": "each broken and undecided verdict, with the rule in words",
}


def write_page(path: Path, audit: Audit) -> None:
    """Writes the page of an audit.

    Raises:
        ResourceError: it can't be written.
    """
    write_text(path, page(audit))


def page(audit: Audit) -> str:
    """The page of an audit as HTML."""
    template = _environment().get_template("page.html.j2")
    return template.render(audit=audit, config=audit.answer.config, **_helpers(audit))


def made_now() -> str:
    """The time by UTC, or that of the environment's SOURCE_DATE_EPOCH, so that a page can be made again as it was."""
    epoch = os.environ.get("SOURCE_DATE_EPOCH")
    zone = datetime.timezone.utc
    moment = datetime.datetime.fromtimestamp(int(epoch), zone) if epoch else datetime.datetime.now(zone)
    return f"{moment:%Y-%m-%d %H:%M} UTC"


@functools.cache
def _environment() -> jinja2.Environment:
    environment = jinja2.Environment(loader=jinja2.FileSystemLoader(HERE), autoescape=True, trim_blocks=True,
                                     lstrip_blocks=True, undefined=jinja2.StrictUndefined)
    environment.filters.update(stamp=stamp_of, moment=moment, day=day_of, seconds=seconds, style=lookup.style)
    environment.globals.update(
        figures=figures, patterns=PATTERNS, parts=PARTS, hatched=HATCHED, most_shown=SHOWN, forbidden=FORBIDDEN,
        grade_in_words=GRADE_IN_WORDS, on_log=lambda grade: ON_LOG.get(grade, grade), about=about, ending=ending,
        rows_text=rows_text, history_text=history_text, quiet_detectors=quiet_detectors,
        style=Markup(_text("style.css")), script=Markup(_text("page.js")))
    return environment


def _text(name: str) -> str:
    return (HERE / name).read_text(encoding="utf-8")


def _helpers(audit: Audit) -> dict[str, object]:
    """What the templates ask of one audit."""
    failing, arriving = failing_most(audit), arriving_least(audit)
    whole = audit.known.end - audit.known.start
    tenths, rest = divmod(1000 * audit.known_tenths // whole, 10)
    signal = f"Signal {audit.answer.config.signal}, {moment(audit.known.start)}"
    return {
        "known_share": f"{tenths}.{rest}\u00a0%",
        "failing": failing,
        "arriving": arriving,
        "blanked": Blanked.of(audit),
        "unknown_stretches": functools.partial(unknown_stretches, audit),
        "faults_of_approaches": functools.partial(faults_of_approaches, audit),
        "loops_of": functools.partial(loops_of, audit),
        "rule_title": functools.partial(rule_title, audit),
        "margin_text": css_text(signal),
    }


class Blanked(NamedTuple):
    """What head.csv says of blanks: in all, by the grades of holes, and whether it is more than one per cent."""

    whole: Row
    by_grade: list[Row]
    is_much: bool

    @classmethod
    def of(cls, audit: Audit) -> Blanked | None:
        """That of an audit; None where nothing is blanked."""
        rows = audit.tables.rows("head")
        whole = next((row for row in rows if row["what"] == "blanked_s"), None)
        if whole is None or not whole.number("value"):
            return None
        by_grade = [row for row in rows if row["what"].startswith("blanked_s ")]
        return cls(whole, by_grade, float(whole["answer"].removesuffix(" %")) > 1)


def unknown_stretches(audit: Audit) -> list[tuple[int, int, str]]:
    """Each stretch that isn't known, from and up to, and why, in order."""
    found = [(low, high, "no file") for low, high in audit.known.missing]
    return sorted(found + [(low, high, why_blank(audit.holes, low, high)) for low, high in audit.known.blanked])


def faults_of_approaches(audit: Audit) -> list[tuple[Row, str, str]]:
    """The approaches with actuations during a reported fault: the row, its column, and of which detector."""
    return [(row, column, words) for row in audit.tables.window("approaches")
            for column, words in (("fault", "advance"), ("red_fault", "stop bar")) if row.count(column)]


def loops_of(audit: Audit, name: str) -> str:
    """The detectors of an approach, from the configuration, as a sentence; empty without one."""
    one = next(approach for approach in audit.answer.config.approaches if approach.name == name)
    said = [f"{words} detector {detector}" for words, detector in (("advance", one.advance), ("stop bar", one.stop_bar))
            if detector is not None]
    if one.travel:
        said.append(f"{one.travel / 10:.1f} s from the advance detector to the stop bar")
    return ", ".join(said).capitalize() + "." if said else ""


def rule_title(audit: Audit, rule: int) -> str:
    """A rule in words, as a heading."""
    words = in_words(audit.answer.rules.get(rule, "")) or f"rule {rule}"
    return words[:1].upper() + words[1:]


def about(name: str) -> str:
    """What a table has, in words."""
    if name.startswith("window_") and name not in ABOUT:
        return f"the same as {name.removeprefix('window_')}, over the window"
    return ABOUT[name]


def failing_most(audit: Audit) -> list[Row]:
    """The approaches of which some service failed, or may have; that which failed most first."""
    rows = [row for row in audit.tables.window("approaches") if row.count("split_fail") or row.count("split_undecided")]
    return sorted(rows, key=lambda row: -row.number("fail_greatest"))


def arriving_least(audit: Audit) -> list[Row]:
    """The approaches with arrivals, by their platoon ratio; those without one last."""
    rows = [row for row in audit.tables.window("approaches") if row["arrivals"]]
    return sorted(rows, key=lambda row: (not row["platoon_ratio"], row.number("platoon_ratio")))


def moment(tenth: int) -> str:
    """A tenth as `Mon 4 Mar 2024 05:00`, with the seconds where it isn't a whole minute."""
    shown = stamp_of(tenth)
    return f"{day_of(tenth)} {shown[:4]} {shown[11:16] if shown.endswith('00.0') else shown[11:]}"


def ending(low: int, high: int) -> str:
    """The end of a time that begins at `low`: the clock alone on the same day; midnight is the 24:00 before it."""
    words = moment(high)
    if high % 600 == 0:
        words = f"{moment(high - 1).rsplit(' ', 1)[0]} {end_clock(high)}"
    return words.split(" ")[-1] if low // DAY == (high - 1) // DAY else words


def seconds(tenths: int) -> str:
    """Tenths as seconds with one decimal."""
    return f"{tenths // 10}.{tenths % 10}"


def css_text(words: str) -> Markup:
    """Words as a string of CSS; what isn't a letter, a digit or plain is written by its number."""
    return Markup('"' + "".join(one if one.isalnum() or one in " :,.-" else f"\\{ord(one):x} " for one in words) + '"')


def rows_text(lines: list[Line]) -> Markup:
    """Rows as they stand in their file, by their lines; those of the rule's channels are bold."""
    found = []
    for line in lines:
        if line.left_out:
            found.append(f"        .. {line.left_out} rows of other channels ..\n")
        said = escape(f"{line.number:7d}  {stamp_of(line.tenth)[11:]} {line.code:4d} {name_of(line.code):<26} "
                      f"{_subject(line.code, line.param)}")
        found.append(f"<b>{said}</b>\n" if line.own else f"{said}\n")
    return Markup("".join(found))


def history_text(history: History, upto: int) -> str:
    """A history of the rule's channels: what of it is put into the unknown tenths up to the verdict."""
    found = []
    for channel in history.channels:
        found.append(f"{CHANNELS.get(channel.kind, channel.kind)} {channel.number} comes into the window in "
                     f"{channel.colour}, in which it then was for {seconds(channel.age)} s\n")
        fills = [fill for fill in channel.fills if fill.tenth <= upto]
        found += [f"  + {stamp_of(fill.tenth)} {fill.code:4d} {name_of(fill.code):<26} "
                  f"{_subject(fill.code, fill.param)}\n" for fill in fills]
        if not fills:
            found.append("  nothing is put into the unknown tenths up to here\n")
    return "".join(found)


def _subject(code: int, param: int) -> str:
    """What a row is about: `phase 2`, `detector 5`, or of a code without a channel `parameter 7`."""
    channel = channel_of(code, param)
    return f"{CHANNELS.get(channel.kind, channel.kind) if channel else 'parameter'} {param}"
