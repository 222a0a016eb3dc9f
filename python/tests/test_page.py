"""The page: each of its numbers, its order, what it says where something is missing, and in a browser."""

from __future__ import annotations

import dataclasses
import re
from pathlib import Path

import pytest
from makers import audits
from makers.pages import Page

from sigaudit_tools.report import tables
from sigaudit_tools.report.audit import Audit, Verdict, furthest, is_clearing
from sigaudit_tools.report.lookup import Row, percent
from sigaudit_tools.report.page import css_text, ending, moment, page, write_page
from sigaudit_tools.report.remarks import faults_said
from sigaudit_tools.times import tenth_of_stamp

SIGNAL = "<b>&'x"


@pytest.fixture(scope="module")
def audit() -> Audit:
    return audits.audit()


@pytest.fixture(scope="module")
def shown(audit: Audit) -> Page:
    folder = audits.intersection().folder
    (folder / "tables").mkdir(exist_ok=True)
    tables.write_tables(folder / "tables", audit.frames)
    return Page(page(audit), folder, audits.kept_answer().decode())


def test_each_number_is_where_it_says(shown: Page) -> None:
    assert shown.check() == []
    # So many as the page had before, so that none is shown without its place.
    assert shown.looked_up["explained"] >= 100 and shown.looked_up["phases cells"] >= 288
    assert shown.looked_up["rows of stretches"] >= 2800 and shown.looked_up["window_approaches"] >= 188


def test_names_with_markup_stay_text(tmp_path: Path) -> None:
    made = audits.made(tmp_path, SIGNAL.replace('"', ""))
    audit = made.audit()
    (tmp_path / "tables").mkdir()
    tables.write_tables(tmp_path / "tables", audit.frames)
    read = Page(page(audit), tmp_path, audits.kept_answer().decode())
    assert read.root.first("h1").text() == f"Signal {SIGNAL}"
    assert not [node for node in read.root.all("b") if "&'x" in node.text()]


def test_conflicts_and_clearings_come_first(audit: Audit, shown: Page) -> None:
    order = [row["rule"] for row in audit.broken_rules]
    titles = [node["id"] for node in shown.root.all("h3") if (node.given.get("id") or "").startswith("rule-")]
    assert titles == [f"rule-{rule}" for rule in order]
    firsts = [is_clearing(row["name"]) for row in audit.broken_rules]
    assert firsts == sorted(firsts, reverse=True) and firsts[0]


def test_of_equally_far_verdicts_some_are_shown_from_first_to_last() -> None:
    verdicts = [Verdict(Row("verdicts", place, {
        "stamp": f"2024-03-04T{place // 10:02d}:00:0{place % 10}.0", "least_s": "12.0", "greatest_s": "12.0",
        "bound_s": "20.0" if place == 55 else "13.0"})) for place in range(100)]
    places = [verdict.row.place for verdict in furthest(verdicts, 5)]
    assert places[0] == 0 and places[-1] == 99 and 55 in places and len(places) == 5
    assert furthest(verdicts[:3], 5) == verdicts[:3]


def test_the_heaviest_verdict_of_each_rule_is_printed_with_its_rows(audit: Audit, shown: Page) -> None:
    printed = [node for node in shown.root.all("details") if node.is_of("printed")]
    assert len(printed) == len(audit.broken_rules)


def test_without_events_rows_are_not_shown(audit: Audit) -> None:
    text = page(dataclasses.replace(audit, log=None))
    assert text.count("Its rows can’t be shown") == sum(verdict.broken for verdict in audit.verdicts)


def test_without_a_search_for_holes_the_page_says_so(audit: Audit) -> None:
    text = page(dataclasses.replace(audit, holes=None))
    assert "No holes were looked for in this log." in text and "blanked by hand" in text


def test_faults_of_detectors_lead_to_their_approaches(audit: Audit) -> None:
    faults = faults_said((
        "stuck on detector 5 2024-03-04T05:10:00.0 2024-03-04T05:30:00.0 likely 2.5",
        "silent ped_detector all 2024-03-04T06:00:00.0 2024-03-04T06:40:00.0 sure 4.0",
        "chatter detector 2 2024-03-04T07:00:00.0 2024-03-04T07:01:00.0 weak 1.2 actuations 90 logged 88",
        "learned 23 of 23 10800.0"))
    text = page(dataclasses.replace(audit, faults=faults))
    assert "Detector 5: on without a change" in text and "All pedestrian detectors: no row" in text
    assert "comes on 90 times" in text and "Its fault was logged too" in text
    assert re.search(r'likely</span>\. Arrivals and split failures of <a href="#approach-', text)


def test_a_quiet_detector_is_said_where_faults_were_not_looked_for(audit: Audit) -> None:
    assert audit.faults is None and audit.holes
    quiet = dataclasses.replace(audit.holes, survey=dataclasses.replace(audit.holes.survey, never=("detector 99",)))
    text = page(dataclasses.replace(audit, holes=quiet))
    assert "Detector 99 of the configuration has no row in the whole log." in text


def test_a_page_is_made_again_as_it_was(audit: Audit, tmp_path: Path) -> None:
    write_page(tmp_path / "report.html", audit)
    assert (tmp_path / "report.html").read_text("utf-8") == page(audit)


def test_the_time_of_making_is_that_of_the_environment(monkeypatch: pytest.MonkeyPatch) -> None:
    monkeypatch.setenv("SOURCE_DATE_EPOCH", "1733000000")
    assert "Made 2024-11-30 20:53 UTC by sigaudit-tools" in page(audits.intersection().audit())


def test_a_page_asks_for_nothing_else(audit: Audit) -> None:
    text = page(audit)
    assert not re.findall(r'(?:src|href)="(?!#|data:|tables/)', text)
    assert "@import" not in text and "url(http" not in text


@pytest.mark.parametrize("share, said", [("0.640", "64.0\u00a0%"), ("1.000", "100.0\u00a0%"), ("0.005", "0.5\u00a0%"),
                                         ("", "")])
def test_a_share_in_per_cent_is_not_rounded(share: str, said: str) -> None:
    assert percent(share) == said


def test_times_in_words() -> None:
    low, high = tenth_of_stamp("2024-03-04T05:00:00.0"), tenth_of_stamp("2024-03-05T00:00:00.0")
    assert moment(low) == "Mon 4 Mar 2024 05:00" and moment(low + 5) == "Mon 4 Mar 2024 05:00:00.5"
    assert ending(low, high) == "24:00" and ending(low, high + 1) == "Tue 5 Mar 2024 00:00:00.1"


def test_text_of_a_style_sheet_ends_nowhere() -> None:
    assert css_text('a"}\\</style>') == r'"a\22 \7d \5c \3c \2f style\3e "'
