"""Tables of an answer, as frames and as CSV for a spreadsheet.

Seconds are float in columns `.._s`, shares float, counts whole numbers, hours and stamps datetime64; what isn't there
is NaN, NA or NaT, and an empty field in CSV. docs/GUIDE.md says what each table and column is.
"""

from __future__ import annotations

import csv
import io
from collections.abc import Mapping, Sequence
from pathlib import Path
from typing import NamedTuple

import numpy as np
import pandas as pd

from sigaudit_tools import answer_lines
from sigaudit_tools.answer import Answer, Edit
from sigaudit_tools.files import write_text
from sigaudit_tools.holes.doubts import Blanked
from sigaudit_tools.signal.config import Config
from sigaudit_tools.signal.rule_words import in_words
from sigaudit_tools.times import HOUR, hour_of, stamp_of

# Columns of shares, with three decimals.
SHARES = ("least", "greatest", "platoon_ratio", "red_least", "red_greatest", "fail_least", "fail_greatest")
MEASURED = ("phases", "approaches", "peds", "preempts", "coordination")
FIGURES = ("least_s", "greatest_s", "bound_s", "silence_s")


class Source(NamedTuple):
    """A file that an audit was made of: what it is (config, script, answer), its path, its SHA-256 as 64 digits."""

    what: str
    path: str
    sha256: str


def tables(answer: Answer, sources: Sequence[Source], files: Mapping[str, str], blanked: Blanked,
           doubts: Sequence[str] | None = None, figures: pd.DataFrame | None = None) -> dict[str, pd.DataFrame]:
    """All tables of an answer, by their names.

    Args:
        answer: the answer.
        sources: its files.
        files: the SHA-256 of each hour file as it is now, by the name that the script has; one that isn't there is left
            out.
        blanked: what was blanked.
        doubts: of each row of `answer.verdicts` the strongest suspicion of lost rows in words; none where no holes were
            looked for.
        figures: likewise the columns FIGURES, NaN where nothing is known.
    """
    found = {"head": head(answer, sources, files, blanked)}
    for name in MEASURED:
        for by, prefix in (("hour", ""), ("window", "window_")):
            table = approaches(answer, by) if name == "approaches" else _MEASURES[name](answer.measures(name, by))
            table.insert(0, "signal", answer.config.signal)
            found[prefix + name] = table
    found["rules"], found["window_rules"] = rules(answer), window_rules(answer)
    found["verdicts"] = verdicts(answer, doubts, figures)
    return found


def head(answer: Answer, sources: Sequence[Source], files: Mapping[str, str], blanked: Blanked) -> pd.DataFrame:
    """The window; the files with their SHA-256; each edit with that of its file and the answer to it; what is held and
    blanked, in seconds, with the share of it and these by grade."""
    config = answer.config
    rows = [("window", "", f"{stamp_of(config.start_tenth)} {stamp_of(config.end_tenth)}", "", "")]
    rows += [(source.what, "", source.path, source.sha256, "") for source in sources]
    rows += [_edit(config, edit, files) for edit in answer.edits]
    share = f"{100 * blanked.blanked / max(1, blanked.held):.2f} %"
    rows += [("held_s", "", _seconds(blanked.held), "", ""), ("blanked_s", "", _seconds(blanked.blanked), "", share)]
    rows += [(f"blanked_s {grade}", "", _seconds(tenths), "", "") for grade, tenths in blanked.by_grade.items()]
    table = pd.DataFrame(rows, columns=["what", "hour", "value", "sha256", "answer"])
    table.insert(0, "signal", config.signal)
    return table


def _edit(config: Config, edit: Edit, files: Mapping[str, str]) -> tuple[str, str, str, str, str]:
    """A line of the script that edits."""
    words = edit.words
    loads = words[0] in ("load", "replace") and len(words) == 3
    has_hour = loads or (words[0] == "withdraw" and len(words) == 2)
    hour = hour_of(config.start_tenth + int(words[1]) * HOUR) if has_hour else ""
    if loads:
        return words[0], hour, words[2], files.get(words[2], "-"), edit.answer
    return words[0], hour, " ".join(words[1:]), "", edit.answer


def _seconds(tenths: int) -> str:
    return f"{tenths // 10}.{tenths % 10}"


def phases(measured: pd.DataFrame) -> pd.DataFrame:
    """Each phase: its services, their splits, why its greens ended, its cycles."""
    return _in_order(measured.assign(
        split_mean_s=_mean(measured["split_sum_s"], measured["services"]),
        cycle_mean_s=_mean(measured["cycle_sum_s"], measured["cycles"])),
        "phase services split_least_s split_greatest_s split_mean_s gap_out max_out force_off unlogged cycles "
        "cycle_mean_s")


def peds(measured: pd.DataFrame) -> pd.DataFrame:
    """Each pedestrian signal: its walks, their delays, its detector."""
    return _in_order(measured.assign(delay_mean_s=_mean(measured["delay_sum_s"], measured["delays"])),
                     "ped walks delays delay_mean_s delay_greatest_s uncalled partial detector_on_s "
                     "detector_undecided_s")


def preempts(measured: pd.DataFrame) -> pd.DataFrame:
    """Each preempt: its entries, delays and dwells, and how long it was in each state."""
    return _in_order(measured.assign(delay_mean_s=_mean(measured["delay_sum_s"], measured["delays"]),
                                     dwell_mean_s=_mean(measured["dwell_sum_s"], measured["dwells"])),
                     "preempt entries delays delay_mean_s partial dwells dwell_mean_s dwell_partial input_on_s "
                     "input_undecided_s rest_s entry_s track_s dwell_s undecided_s")


def coordination(measured: pd.DataFrame) -> pd.DataFrame:
    """The coordination: how long it was in each state, and its rows of four codes."""
    return _in_order(measured, "free_s in_step_s add_s subtract_s dwell_s local_zero_s begin_pickup_s undecided_s "
                     "patterns cycle_changes yields begins")


_MEASURES = {"phases": phases, "peds": peds, "preempts": preempts, "coordination": coordination}


def approaches(answer: Answer, by: str) -> pd.DataFrame:
    """Each approach: arrivals on green, actuations on red, split failures, each share from least to greatest.

    least and greatest are what a share could be if the undecided ones came on green (on red, failed), or didn't; of the
    split failures the services that are judged count: open ones and those with a fault of the detector aren't.

    Args:
        answer: the answer.
        by: `hour` or `window`, as in `Answer.measures`.
    """
    arrivals, actuations, splits = (answer.measures(kind, by) for kind in ("arrivals", "actuations", "splits"))
    keys = [column for column in ("hour", "known_s", "approach") if column in arrivals]
    arrivals = arrivals.assign(**_range("", arrivals["green"], arrivals["undecided"],
                                        arrivals["arrivals"] - arrivals["unseen"])).drop(columns="share")
    actuations = actuations.rename(columns={"undecided": "red_undecided", "fault": "red_fault"}).assign(
        **_range("red_", actuations["red"], actuations["undecided"], actuations["actuations"]))
    splits = splits.assign(**_range("fail_", splits["split_fail"], splits["split_undecided"],
                                    splits[["split_fail", "split_pass", "split_undecided"]].sum(axis=1)))
    table = arrivals.merge(actuations.drop(columns="not_red").assign(not_red=actuations["not_red"]), "outer", keys)
    table = table.merge(splits, "outer", keys)
    place = {one.name: at for at, one in enumerate(answer.config.approaches)}
    phase = {one.name: one.phase for one in answer.config.approaches}
    table = table.assign(phase=table["approach"].map(phase), place=table["approach"].map(place))
    table = table.sort_values([*(key for key in keys if key == "hour"), "place"], kind="stable", ignore_index=True)
    return _in_order(table, "approach phase arrivals green not_green undecided unseen fault least greatest "
                     "platoon_ratio actuations red not_red red_undecided red_fault red_least red_greatest splits "
                     "split_fail split_pass split_undecided split_open split_fault fail_least fail_greatest")


def _range(prefix: str, part: pd.Series, undecided: pd.Series, whole: pd.Series) -> dict[str, pd.Series]:
    """The least and the greatest share of the whole that a part can be; NaN of nothing."""
    whole = whole.where(whole > 0).astype(np.float64)
    return {prefix + "least": part / whole, prefix + "greatest": (part + undecided) / whole}


def _mean(sum_s: pd.Series, count: pd.Series) -> pd.Series:
    """The mean in seconds, of sums that are whole tenths; NaN of none."""
    return (sum_s * 10).round() / count.where(count > 0).astype(np.float64) / 10


def _in_order(table: pd.DataFrame, columns: str) -> pd.DataFrame:
    """The columns of a table of measures in their order, counts as whole numbers where some are missing too."""
    named = [*(column for column in ("hour", "known_s") if column in table), *columns.split()]
    table = table[named]
    floats = [name for name in named if not name.endswith("_s") and name not in SHARES
              and table[name].dtype == np.float64]
    return table.astype(dict.fromkeys(floats, "Int64"))


def rules(answer: Answer) -> pd.DataFrame:
    """Each rule by hour: how often it was kept, broken, undecided, by the last answers to `verdicts H`."""
    judged = answer.judged
    hours, hour = np.unique(judged["hour"].to_numpy(), return_inverse=True)
    kinds, rules = len(answer_lines.VERDICTS), int(judged["rule"].to_numpy().max(initial=0)) + 1
    place = (hour * rules + judged["rule"].to_numpy()) * kinds + judged["verdict"].cat.codes.to_numpy()
    counts = np.bincount(place, minlength=len(hours) * rules * kinds).reshape(-1, kinds)
    there = np.flatnonzero(counts.any(axis=1))
    table = pd.DataFrame({"hour": hours[there // rules], "rule": there % rules,
                          **dict(zip(answer_lines.VERDICTS, counts[there].T))})
    return _named(answer, table, ["signal", "hour", "rule", "name", *answer_lines.VERDICTS, "in_words"])


def window_rules(answer: Answer) -> pd.DataFrame:
    """Each rule that was judged, over the window, by the last answer to `audit`."""
    audit = answer.last("audit")
    found = [(one.number, one.kept, one.broken, one.undecided) for one in answer_lines.rules(audit.text)
             ] if audit else []
    table = pd.DataFrame(found, columns=["rule", *answer_lines.VERDICTS])
    return _named(answer, table, ["signal", "rule", "name", *answer_lines.VERDICTS, "in_words"])


def _named(answer: Answer, table: pd.DataFrame, columns: list[str]) -> pd.DataFrame:
    """A table of rules with their names, and these in words."""
    name = table["rule"].map(answer.rules).fillna("")
    words = {name: in_words(name) for name in ["", *answer.rules.values()]}
    return table.assign(signal=answer.config.signal, name=name, in_words=name.map(words))[columns]


def verdicts(answer: Answer, doubts: Sequence[str] | None, figures: pd.DataFrame | None) -> pd.DataFrame:
    """The broken and undecided verdicts with the rule in words; `doubts` and `figures` as in `tables`."""
    found = answer.verdicts
    table = _named(answer, found.assign(doubt="" if doubts is None else list(doubts)),
                   ["signal", "hour", "stamp", "verdict", "rule", "name", "in_words", "from", "to", "doubt"])
    if figures is None:
        return table.assign(**dict.fromkeys(FIGURES, np.nan))
    return pd.concat([table, figures[list(FIGURES)].reset_index(drop=True)], axis=1)


def as_text(table: pd.DataFrame) -> pd.DataFrame:
    """A table with each field as CSV has it, numbers with a point."""
    return pd.DataFrame({name: pd.Series(_texts(name, column), dtype=object) for name, column in table.items()},
                        columns=table.columns)


def _texts(name: str, column: pd.Series) -> list[str]:
    """The fields of a column by its name and type."""
    if name == "hour" and column.dtype.kind == "M":
        return list(np.datetime_as_string(column.to_numpy("datetime64[h]"), unit="h"))
    if column.dtype.kind == "M":
        return ["" if text == "NaT" else text[:-2]
                for text in np.datetime_as_string(column.to_numpy("datetime64[ms]"), unit="ms")]
    if is_decimal(name):
        decimals = 3 if name in SHARES else 1
        return ["" if value != value else f"{value:.{decimals}f}" for value in column.to_numpy(np.float64).tolist()]
    return ["" if value is pd.NA else str(value) for value in column.tolist()]


def is_decimal(name: str) -> bool:
    """Whether a column, by its name, has decimal numbers."""
    return name.endswith("_s") or name in SHARES


def csv_of(table: pd.DataFrame, decimal: str = ".") -> str:
    """A table as CSV: with commas, or where the decimal mark is a comma, with semicolons."""
    text = as_text(table)
    if decimal != ".":
        text = text.assign(**{name: text[name].str.replace(".", decimal, regex=False)
                              for name in text.columns if is_decimal(name)})
    out = io.StringIO()
    writer = csv.writer(out, lineterminator="\n", delimiter="," if decimal == "." else ";")
    writer.writerow(text.columns)
    writer.writerows(zip(*(text[name].tolist() for name in text.columns)))
    return out.getvalue()


def write_tables(folder: Path, found: Mapping[str, pd.DataFrame], decimal: str = ".") -> None:
    """Writes each table as NAME.csv into a folder that is there.

    Raises:
        ResourceError: a file can't be written.
    """
    for name, table in found.items():
        write_text(folder / f"{name}.csv", csv_of(table, decimal))


def without_answer(answer: Answer) -> list[tuple[str, str]]:
    """What the script doesn't ask for, each with the tables in which nothing is therefore."""
    needs = (
        ("measures H", answer.by_hour("measures"), "phases, approaches, peds, preempts and coordination"),
        ("verdicts H", answer.by_hour("verdicts"), "rules"),
        ("measures", answer.last("measures"), "window_phases, .._approaches, .._peds, .._preempts and .._coordination"),
        ("audit", answer.last("audit"), "window_rules"))
    return [(what, missing) for what, has, missing in needs if not has]
