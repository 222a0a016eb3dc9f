"""Doubts and explanations: what was said of the three hours with outages is said again."""

from __future__ import annotations

import lzma
from pathlib import Path

import numpy as np
import pytest
from click.testing import CliRunner
from makers.days import INTERSECTION

from sigaudit_tools.answer import Answer, parse_answer
from sigaudit_tools.cli import verbs
from sigaudit_tools.errors import InputError
from sigaudit_tools.events import Events
from sigaudit_tools.explain import explain, figures
from sigaudit_tools.explain.text import lines_of
from sigaudit_tools.holes import find_holes
from sigaudit_tools.holes.doubts import Suspicions, find_doubts
from sigaudit_tools.intake import hour_files, read_export
from sigaudit_tools.signal.config import parse_config, read_config

KEPT = Path(__file__).parent / "kept" / "outages"
CONFIG = read_config(INTERSECTION / "config.toml")


def kept(name: str) -> str:
    return lzma.decompress((KEPT / f"{name}.txt.xz").read_bytes()).decode()


@pytest.fixture(scope="module")
def events() -> Events:
    return read_export(sorted(INTERSECTION.glob("o0?.csv"))).events


@pytest.fixture(scope="module")
def answer() -> Answer:
    return parse_answer(CONFIG, (KEPT / "session.txt").read_text(), kept("answer").encode())


def test_doubts_are_as_they_were(answer: Answer, events: Events) -> None:
    found = find_doubts(answer, events, find_holes(CONFIG, events, chances=False))
    assert found.lines() == (KEPT / "doubts.txt").read_text().splitlines()
    assert found.lines(every=True) == kept("doubts-all").splitlines()


def test_explanations_are_as_they_were(answer: Answer, events: Events) -> None:
    suspicions = Suspicions(find_holes(CONFIG, events, chances=False), answer.unknown())
    lines = [line for found in explain(answer, events)
             for line in lines_of(found, lambda row: row.place + 2, suspicions, rows=True)]
    assert lines == kept("explain-rows").splitlines()


def test_figures_have_a_row_for_each_verdict(answer: Answer, events: Events) -> None:
    found = figures(answer, events)
    assert len(found) == len(answer.verdicts)
    both = found["bound_s"].notna() & (found["least_s"] == found["greatest_s"])
    name = answer.verdicts["name"].str.split(" ")
    short = both & (name.str[3:5].str.join(" ") == "at least") & (answer.verdicts["verdict"] == "broken")
    assert short.any() and (found["least_s"] < found["bound_s"])[short].all()


def test_a_log_that_is_another_is_refused(answer: Answer, events: Events) -> None:
    with pytest.raises(InputError) as error:
        explain(answer, events.where(np.arange(len(events)) != 100))
    assert "4055 rows now, and had 4056" in str(error.value)


def test_an_answer_of_another_configuration_is_refused(answer: Answer, events: Events) -> None:
    text = CONFIG.text.replace(b"at_least = 130", b"at_least = 131")
    other = parse_answer(parse_config(text, Path("other.toml")), answer.script, kept("answer").encode())
    with pytest.raises(InputError) as error:
        explain(other, events)
    assert "isn't one of other.toml" in str(error.value)


@pytest.fixture(scope="module")
def folder(tmp_path_factory: pytest.TempPathFactory) -> Path:
    """The files of the steps, as one would have them by hand."""
    found = tmp_path_factory.mktemp("steps")
    hour_files(read_export(sorted(INTERSECTION.glob("o0?.csv"))), found)
    (found / "session.txt").write_text((KEPT / "session.txt").read_text())
    (found / "answer.txt").write_text(kept("answer"))
    holes = lzma.decompress((KEPT.parent / "holes" / "out.txt.xz").read_bytes())
    (found / "holes.txt").write_bytes(holes)
    return found


def said(folder: Path, verb: str, *words: str) -> tuple[int, str]:
    answer = CliRunner().invoke(verbs, [verb, *files_of(folder), *words])
    return answer.exit_code, answer.output


def files_of(folder: Path) -> list[str]:
    return ["--config", str(CONFIG.path), "--script", str(folder / "session.txt"),
            "--answer", str(folder / "answer.txt")]


def test_the_verbs(folder: Path) -> None:
    holes = ("--holes", str(folder / "holes.txt"))
    assert said(folder, "doubts", *holes) == (0, (KEPT / "doubts.txt").read_text())
    assert said(folder, "doubts", "--all", *holes) == (0, kept("doubts-all"))
    assert said(folder, "explain", "--undecided", "--rows", *holes) == (0, kept("explain-rows"))


@pytest.mark.parametrize("rule, stamp, wanted", [
    (34, "2024-03-04T05:03:27.8", "none 34 2024-03-04T05:03:27.8 phase 2 Green at least 13.0 s\n"
                                  "  says no row of this tenth can end the Green of phase 2\n"
                                  "  before it kept 34 2024-03-04T05:03:08.9\n"
                                  "  after it broken 34 2024-03-04T05:03:39.8\n"),
    (60, "2024-03-04T06:10:00.0", "none 60 2024-03-04T06:10:00.0 conflict 4 5\n  says this tenth is blanked\n"),
    (3, "2024-03-05T06:10:00.0", "  says it isn't in the window\n"),
    (3, "2024-03-04T07:58:59.6", "  says no row of phase 1 stands at this tenth\n"),
    (34, "2024-03-04T05:03:39.8", "broken 34 2024-03-04T05:03:39.8 phase 2 Green at least 13.0 s\n"),
])
def test_what_a_rule_says_at_a_stamp(folder: Path, rule: int, stamp: str, wanted: str) -> None:
    status, text = said(folder, "explain", "--rule", str(rule), "--at", stamp)
    assert status == 0 and wanted in text


@pytest.mark.parametrize("words, why", [
    (("--rule", "999"), "there is no rule 999"), (("--at", "2024-03-04T05:03:27.8"), "--at goes with --rule"),
    (("--rule", "1", "--at", "yesterday"), "is no stamp")])
def test_words_that_cannot_be_meant(folder: Path, words: tuple[str, ...], why: str) -> None:
    answer = CliRunner().invoke(verbs, ["explain", *files_of(folder), *words])
    assert answer.exit_code and why in str(answer.exception)


def test_nothing_given_is_said() -> None:
    answer = CliRunner().invoke(verbs, ["doubts"])
    assert "no answer is given" in str(answer.exception)
