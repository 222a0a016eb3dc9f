"""The charts, drawn of known numbers that are read back from their paths, and the verbs that write them."""

from __future__ import annotations

import re
import xml.etree.ElementTree
from collections.abc import Iterator
from pathlib import Path

import numpy as np
import pytest
from makers import audits

from sigaudit_tools import run
from sigaudit_tools.cli import _manners, _pictures, verbs
from sigaudit_tools.errors import Status
from sigaudit_tools.report import charts, svg
from sigaudit_tools.report.charts import Band, Known, Mark
from sigaudit_tools.report.make import pictures
from sigaudit_tools.report.svg import BROKEN, SKY, TOP, Chart, Key
from sigaudit_tools.times import HOUR, tenth_of_hour

START = tenth_of_hour("2024-03-04T05")
HOURS = [START + place * HOUR for place in range(4)]
KNOWN = Known(START, START + 4 * HOUR, [], [])
ROOM = 170 - 40 - TOP


def boxes(path: str) -> Iterator[tuple[float, float]]:
    """Of the boxes of a path the upper edge and the height; those that are drawn upward too."""
    for top, how, tall in re.findall(r"M\S+ (\S+?)h[\d.]+([Vv])([-\d.]+)h-[\d.]+z", path):
        below = float(tall) if how == "V" else float(top) + float(tall)
        yield min(float(top), below), abs(below - float(top))


def path_of(chart: Chart, fill: str) -> str:
    """The path of a chart with this filling."""
    return next(d for d, filled in re.findall(r'<path d="([^"]*)"[^>]*fill="([^"]*)"', chart.body) if filled == fill)


def test_bars_are_as_high_as_their_counts() -> None:
    parts = [(Key("#111111", "failed"), {HOURS[0]: 3, HOURS[2]: 10}),
             (Key("#222222", "passed"), {HOURS[0]: 7, HOURS[1]: 5})]
    chart = charts.hours_bars("x", KNOWN, parts, "services")
    assert [round(tall * 10 / ROOM) for _, tall in boxes(path_of(chart, "#111111"))] == [3, 10]
    assert [round(tall * 10 / ROOM) for _, tall in boxes(path_of(chart, "#222222"))] == [7, 5]


def test_a_band_goes_from_the_least_to_the_greatest() -> None:
    rows = [Band(HOURS[0], 20, 50, 80), Band(HOURS[3], 0, None, 100)]
    chart = charts.hours_band("x", KNOWN, rows, "x", percent=True)
    found = [(round((130 - top - tall) * 100 / ROOM), round((130 - top) * 100 / ROOM))
             for top, tall in boxes(path_of(chart, SKY))]
    assert found == [(20, 80), (0, 100)]


def test_shifts_are_a_line_through_their_counts() -> None:
    chart = charts.shifts("x", [5, 10, 0], 1)
    line = re.search(r'd="(M[^"]*L[^"]*)"', chart.body)
    assert line
    assert [round((130 - float(y)) * 10 / ROOM) for y in re.findall(r"[ML]\S+ ([\d.]+)", line[1])] == [5, 10, 0]


CYCLES = np.array([(START, 1000, 300, 900), (START + 1000, 5000, 0, 0), (START + 6000, 800, 200, 700)], np.int64)
POINTS = np.array([(START, 100), (START, 950), (START + 1000, 4000), (START + 6000, 0)], np.int64)


def test_a_diagram_cuts_long_cycles_and_counts_them() -> None:
    found = charts.diagram("x", Known(START, START + 4 * HOUR, [], [(HOURS[1], HOURS[2])]), CYCLES, POINTS)
    assert (found.highest_s, found.cut, found.hidden, found.every, found.cycles, found.arrivals) == (300, 1, 1, 1, 3, 4)
    assert len(re.findall(r"M\S+ \S+h0(?![.\d])", found.chart.body)) == 3


def test_of_many_arrivals_each_so_many_th_is_drawn() -> None:
    found = charts.diagram("x", KNOWN, CYCLES, np.concatenate([POINTS] * 5), most=4)
    assert found.every == 4 and len(re.findall(r"M\S+ \S+h0(?![.\d])", found.chart.body)) == 4


def test_marks_of_a_time_line_stand_at_their_times() -> None:
    marks = [Mark(HOURS[1], 2, True), Mark(HOURS[1] + 1, 2, True), Mark(HOURS[2], 2, True), Mark(HOURS[3], 5, False)]
    known = Known(START, START + 4 * HOUR, [(HOURS[0], HOURS[1])], [(HOURS[2], HOURS[2] + 50)])
    chart = charts.timeline("x", known, [(HOURS[2], HOURS[2] + 9)], [(2, "two"), (5, "five")], marks)
    broken = re.search(rf'<path d="([^"]*)" stroke="{BROKEN}"', chart.body)
    assert broken
    across = svg.WIDE - svg.RIGHT - 290
    assert [round((float(x) - 290) / across * 4, 2) for x in re.findall(r"M(\S+) ", broken[1])] == [1.0, 2.0]


def test_small_pictures_share_a_scale() -> None:
    low, high = (charts.small_hours("x", KNOWN, {HOURS[0]: count}, 10) for count in (5, 10))
    assert [round(tall / 28 * 10) for chart in (low, high) for _, tall in boxes(path_of(chart, BROKEN))] == [5, 10]


@pytest.mark.parametrize("hours", [1, 3, 24, 72, 744])
def test_an_axis_has_room_for_its_words(hours: int) -> None:
    chart = charts.overview("x", Known(START, START + hours * HOUR, [], []), [])
    places = [float(x) for x in re.findall(r'<text x="([\d.]+)" y="94"', chart.body)]
    assert 2 <= len(places) <= 15 and min(b - a for a, b in zip(places, places[1:])) > 30


def test_many_stretches_are_drawn_as_narrow_as_they_are() -> None:
    few, many = ([(START + 600 * place, START + 600 * place + 1) for place in range(count)] for count in (3, 60))
    widths = [{float(wide) for wide in re.findall(r"h([\d.]+)V", path_of(
        charts.overview("x", Known(START, START + 4 * HOUR, [], stretches), []), svg.UNKNOWN))}
        for stretches in (few, many)]
    assert widths == [{2.5}, {0.5}]


def test_clocks_and_round_numbers() -> None:
    assert svg.day_of(START) == "Mon 4 Mar" and svg.end_clock(tenth_of_hour("2024-03-05T00")) == "24:00"
    assert [svg.nice(number) for number in (1, 7, 40, 41)] == [(1, 1), (8, 2), (40, 10), (60, 20)]


def test_each_picture_is_xml_with_a_title_and_what_it_is_of() -> None:
    found = dict(pictures(audits.audit()))
    assert {"audit.svg", "failures.svg", "phase-2.svg", "shifts-EBT.svg"} <= set(found)
    for text in found.values():
        root = xml.etree.ElementTree.fromstring(text)
        assert root[0].tag.endswith("title") and root[0].text
        assert "Signal 5101, 2024-03-04 05:00 to 2024-03-04 08:00" in text


@pytest.fixture
def opened(monkeypatch: pytest.MonkeyPatch) -> None:
    monkeypatch.setattr(_pictures, "audit_of_run", lambda folder: audits.audit())


def test_verbs_take_what_a_run_has(monkeypatch: pytest.MonkeyPatch) -> None:
    monkeypatch.setattr(run, "open_run", lambda folder: audits.intersection())
    found = _pictures.audit_of_run(Path("r"))
    assert found.holes == audits.intersection().holes and found.histories and found.faults is None


@pytest.mark.usefixtures("opened")
@pytest.mark.parametrize("words, name", [
    (["diagram", "--phase", "2"], "phase-2.svg"), (["timeline"], "audit.svg"),
    (["shifts", "--approach", "EBT"], "shifts-EBT.svg"), (["failures"], "failures.svg")])
def test_a_verb_writes_the_picture_of_the_run(words: list[str], name: str, tmp_path: Path,
                                              capfd: pytest.CaptureFixture[str]) -> None:
    wanted = dict(pictures(audits.audit()))[name]
    assert _manners.run(verbs, [*words, "--run", "r", "--out", str(tmp_path / "x.svg")]) == Status.RIGHT
    assert (tmp_path / "x.svg").read_text("utf-8") == wanted
    assert _manners.run(verbs, [*words, "--run", "r"]) == Status.RIGHT
    assert capfd.readouterr().out == wanted


@pytest.mark.usefixtures("opened")
@pytest.mark.parametrize("words, said", [
    (["--from", "1"], "2024-03-04 06:00 to 2024-03-04 07:00"),
    (["--hours", "2"], "2024-03-04 05:00 to 2024-03-04 07:00"),
    (["--from", "2024-03-04T06", "--hours", "2"], "2024-03-04 06:00 to 2024-03-04 08:00")])
def test_some_hours_are_drawn_alone(words: list[str], said: str, capfd: pytest.CaptureFixture[str]) -> None:
    for verb in (["timeline"], ["diagram", "--phase", "2"]):
        assert _manners.run(verbs, [*verb, "--run", "r", *words]) == Status.RIGHT
        assert said in capfd.readouterr().out


@pytest.mark.usefixtures("opened")
@pytest.mark.parametrize("words, status, said", [
    (["timeline", "--from", "3"], Status.USAGE, "these hours aren't in the window; take some of 0 to 2"),
    (["timeline", "--from", "five"], Status.INPUT, "'five' is no hour; write it as YYYY-MM-DDTHH"),
    (["diagram", "--phase", "1"], Status.INPUT, "no diagram of phase 1"),
    (["shifts", "--approach", "X"], Status.INPUT, "no shifts of X")])
def test_what_cannot_be_drawn_is_said(words: list[str], status: Status, said: str,
                                      capfd: pytest.CaptureFixture[str]) -> None:
    assert _manners.run(verbs, [*words, "--run", "r"]) == status
    assert said in capfd.readouterr().err


@pytest.mark.usefixtures("opened")
def test_tables_and_report_are_written_where_they_are_asked_for(tmp_path: Path) -> None:
    assert _manners.run(verbs, ["tables", "--run", "r", "--out", str(tmp_path / "t"), "--decimal", ","]) == Status.RIGHT
    assert (tmp_path / "t" / "phases.csv").read_text("utf-8").startswith("signal;hour;known_s;phase;")
    assert _manners.run(verbs, ["report", "--run", "r", "--out", str(tmp_path / "page.html")]) == Status.RIGHT
    assert "Signal 5101" in (tmp_path / "page.html").read_text("utf-8")
