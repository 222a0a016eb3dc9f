"""The tables: the same bytes as before, and what they say of what isn't there."""

from __future__ import annotations

import dataclasses
import hashlib
from pathlib import Path

import pandas as pd
import pytest
from makers import audits

from sigaudit_tools.report import tables
from sigaudit_tools.report.make import audit_of

KEPT = [line.split() for line in (audits.KEPT / "tables.txt").read_text().splitlines()]


@pytest.fixture(scope="module")
def frames() -> dict[str, pd.DataFrame]:
    return dict(audits.audit().frames)


@pytest.mark.parametrize("name, digest", [(name, digest) for log, name, digest in KEPT if log == "intersection"])
def test_each_table_is_as_it_was(frames: dict[str, pd.DataFrame], name: str, digest: str) -> None:
    assert hashlib.sha256(tables.csv_of(frames[name]).encode()).hexdigest() == digest


def test_there_are_no_other_tables(frames: dict[str, pd.DataFrame]) -> None:
    assert sorted(frames) == sorted(name for log, name, _ in KEPT if log == "intersection")


def test_columns_have_types(frames: dict[str, pd.DataFrame]) -> None:
    phases, verdicts = frames["phases"], frames["verdicts"]
    assert phases["hour"].dtype.kind == "M" and phases["split_mean_s"].dtype.kind == "f"
    assert phases["services"].dtype.kind == "i" and verdicts["stamp"].dtype.kind == "M"


def test_a_decimal_comma_has_semicolons_beside_it(frames: dict[str, pd.DataFrame]) -> None:
    head, first = tables.csv_of(frames["approaches"], ",").split("\n")[:2]
    assert head.startswith("signal;hour;known_s;approach;phase;arrivals")
    assert first.startswith("5101;2024-03-04T05;3588,1;NBT1;2;43;14;29;0;0;0;0,326;0,326;0,938;49;")


def test_written_tables_are_files(frames: dict[str, pd.DataFrame], tmp_path: Path) -> None:
    tables.write_tables(tmp_path, frames)
    assert sorted(path.stem for path in tmp_path.iterdir()) == sorted(frames)


def test_without_a_search_for_holes_nothing_is_graded(tmp_path: Path) -> None:
    made = audits.intersection()
    frames = audit_of(made.answer, made.events, tmp_path).frames
    assert set(frames["verdicts"]["doubt"]) == {""}
    head = frames["head"].set_index("what")
    assert head.loc["blanked_s", "value"] == "145.0" and not [what for what in head.index if "blanked_s " in what]
    assert set(head.loc[["load"], "sha256"]) == {"-"}


def test_what_was_not_asked_for_is_said() -> None:
    answer = audits.intersection().answer
    assert tables.without_answer(answer) == []
    empty = dataclasses.replace(answer, sections=())
    assert [what for what, _ in tables.without_answer(empty)] == ["measures H", "verdicts H", "measures", "audit"]
