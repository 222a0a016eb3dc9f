"""Answers read back: columns beside a plain reading of the lines, and what isn't an answer."""

from __future__ import annotations

import lzma
from pathlib import Path

import pandas as pd
import pytest
from makers.days import INTERSECTION

from sigaudit_tools.answer import Answer, merged, parse_answer, read_answer
from sigaudit_tools.errors import InputError, ProgramError
from sigaudit_tools.signal.config import read_config
from sigaudit_tools.times import HOUR, stamp_of, tenth_of_stamp

KEPT = Path(__file__).parent / "kept" / "outages"
CONFIG = read_config(INTERSECTION / "config.toml")
SCRIPT = (KEPT / "session.txt").read_text()
LONGEST_SHIFTED_S = 300
TEXT = lzma.decompress((KEPT / "answer.txt.xz").read_bytes())


@pytest.fixture(scope="module")
def answer() -> Answer:
    return parse_answer(CONFIG, SCRIPT, TEXT)


def lines_of(table: pd.DataFrame) -> list[str]:
    """The rows of a table of verdicts as the program prints them."""
    return [f"{row.verdict} {row.rule} {stamp_of(row.tenth)}" + (
        f" from {stamp_of(row.from_tenth)} to {stamp_of(row.to_tenth)}" if row.verdict == "broken" else "")
        for row in table.itertuples()]


def test_verdicts_are_the_lines_of_the_audit(answer: Answer) -> None:
    audit = answer.last("audit")
    assert audit
    assert lines_of(answer.verdicts) == [" ".join(line) for line in audit.lines if line[0] in ("broken", "undecided")]
    assert answer.verdicts["hour"].equals(answer.verdicts["stamp"].dt.floor("h"))
    assert answer.rules[34] == "phase 2 Green at least 130"
    broken = answer.verdicts[answer.verdicts["rule"] == 34]
    assert set(broken["name"]) == {"phase 2 Green at least 130"}


def test_every_verdict_of_the_hours(answer: Answer) -> None:
    plain = [" ".join(line) for section in answer.by_hour("verdicts").values() for line in section.lines]
    assert lines_of(answer.judged) == plain


def test_counts_of_the_audit_are_those_of_the_hours(answer: Answer) -> None:
    audit = answer.last("audit")
    assert audit
    counts = answer.judged.groupby(["rule", "verdict"]).size()
    for line in audit.lines:
        if line[0] == "rule":
            said = {line[at]: int(line[at + 1]) for at in range(line.index("kept"), len(line), 2)}
            assert said == {verdict: counts[int(line[1]), verdict] for verdict in said}


@pytest.mark.parametrize(("kind", "word", "column"), [
    ("phases", "phase", "split_sum_s=sum"), ("phases", "phase", "cycles=cycles"), ("peds", "ped", "walks=walks"),
    ("peds", "ped", "detector_on_s=detector_on"), ("arrivals", "arrivals", "not_green=not"),
    ("actuations", "actuations", "red=red"), ("splits", "splits", "split_fail=fail")])
def test_measures_are_those_of_the_lines(answer: Answer, kind: str, word: str, column: str) -> None:
    name, field = column.split("=")
    plain = [int(line[line.index(field) + 1]) for section in answer.by_hour("measures").values()
             for line in section.lines if word in (line[0], line[2] if line[0] == "approach" else "")]
    factor = 10 if name.endswith("_s") else 1
    assert [round(factor * value) for value in answer.measures(kind)[name]] == plain
    assert len(answer.measures(kind, "window")) * 3 == len(plain)


def test_points_and_cycles_are_those_of_the_lines(answer: Answer) -> None:
    plain_cycles, plain_points = [], []
    for section in answer.sections:
        for line in section.lines if section.kind == "points" else ():
            if line[0] == "cycle":
                begin = tenth_of_stamp(line[1])
                plain_cycles.append((int(section.of), begin, *(int(line[at]) / 10 for at in (3, 5, 7))))
            else:
                plain_points.append((int(section.of), line[1], begin + int(line[2])))
    cycles, points = answer.cycles, answer.points
    assert list(cycles.drop(columns="stamp").itertuples(index=False, name=None)) == plain_cycles
    assert list(points[["phase", "approach", "tenth"]].itertuples(index=False, name=None)) == plain_points
    short = points.merge(cycles, left_on=["phase", "cycle_tenth"], right_on=["phase", "tenth"])
    shifts = answer.shifts
    short = short[short["length_s"] <= LONGEST_SHIFTED_S]
    on_green = short.groupby("approach")["is_green"].sum().to_dict()
    assert on_green == shifts[shifts["shift_s"] == 0].set_index("approach")["green"].to_dict()


def test_the_best_shift_is_the_first_of_the_greatest(answer: Answer) -> None:
    for _, table in answer.shifts.groupby("approach"):
        assert table["is_best"].sum() == 1 and table["is_best"].idxmax() == table["green"].idxmax()


def test_what_is_known(answer: Answer) -> None:
    assert [held.rows for held in answer.known.held.values()] == [4056, 6152, 8356]
    assert sum(high - low for low, high in answer.unknown()) == 1450
    assert not answer.missing() and answer.refusals.empty


def test_edits_are_carried_out() -> None:
    late = INTERSECTION / "held.txt", INTERSECTION / "held-out.txt"
    found = read_answer(CONFIG, *late)
    assert found.unknown() and found.by_hour("verdicts").keys() <= set(range(CONFIG.hours))
    moments = [section.known for section in found.sections]
    assert all(known.held.keys() <= set(range(3)) for known in moments)


def test_a_moment_without_an_hour() -> None:
    script = "load 0 a.csv\nblank 2024-03-04T05:10:00.0 2024-03-04T05:20:00.0\n" \
             "unblank 2024-03-04T05:12:00.0 2024-03-04T05:15:00.0\nwithdraw 0\nload 0 b.csv\naudit\n"
    text = b"1 ok rows 5 repeats 0 moved 0 3\n2 ok moved 0 1\n3 ok moved 0 1\n4 ok moved 0 1\n" \
           b"5 refused missing file\n6 audit\n"
    found = parse_answer(CONFIG, script, text)
    start = CONFIG.start_tenth
    assert found.blanked() == [(start + 6000, start + 7200), (start + 9000, start + 12000)]
    assert found.missing() == [(start, start + 3 * HOUR)] == found.unknown()
    assert found.refusals.to_dict("records") == [{"line": 5, "edit": "load 0 b.csv", "refusal": "missing file"}]
    assert found.verdicts.empty and found.points.empty and found.cycles.empty and found.shifts.empty
    assert found.measures("phases").empty and found.judged.empty


def test_stretches_are_merged() -> None:
    assert merged([(5, 7), (0, 2), (2, 3), (6, 9)]) == [(0, 3), (5, 9)]


@pytest.mark.parametrize(("script", "text"), [
    (SCRIPT, TEXT[:-1]), (SCRIPT, TEXT[:len(TEXT) // 2]), (SCRIPT, b"usage: sigaudit\n"), (SCRIPT, b""),
    (SCRIPT.replace("audit\n", "measures\n", 1), TEXT), (SCRIPT, b"\x00\x01\n"), ("audit\n", b"7 audit\n"),
    ("audit\n", b"1 measures\n"), ("", b"1 audit\n"), ("audit\n", b"1audit\n")])
def test_what_is_no_answer_to_the_script_is_refused(script: str, text: bytes) -> None:
    with pytest.raises(InputError):
        parse_answer(CONFIG, script, text)


@pytest.mark.parametrize("line", [
    "kept x 2024-03-04T05:00:00.0", "kept 1 2024-03-04 05:00:00.0", "kept 1234567 2024-03-04T05:00:00.0",
    "broken 1 2024-03-04T05:00:00.0 since 2024-03-04T05:00:00.0 to 2024-03-04", "undecided 1 2024"])
def test_lines_of_another_version_are_said_so(line: str) -> None:
    answer = parse_answer(CONFIG, "verdicts 0\n", f"1 verdicts 0\n{line}\n".encode())
    with pytest.raises(ProgramError):
        answer.judged


def test_measures_of_another_version_are_said_so() -> None:
    text = b"1 measures 0\nheld 1 rows 1 known 5\nphase 2 services 3\n"
    with pytest.raises(ProgramError, match="another version"):
        parse_answer(CONFIG, "measures 0\n", text).measures("phases")
    with pytest.raises(KeyError):
        parse_answer(CONFIG, "measures 0\n", text).measures("phases", "day")
