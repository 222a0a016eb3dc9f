"""The verbs hours, check and detectors: what they print, write and end with."""

from __future__ import annotations

import random
from pathlib import Path

import pytest
from makers import exports, made_day
from makers.days import INTERSECTION
from makers.faults import Fault, put
from makers.made_day import at

from sigaudit_tools.cli import _manners, verbs
from sigaudit_tools.errors import Status
from sigaudit_tools.intake import Intake, hour_files

CONFIG = str(INTERSECTION / "config.toml")
HOURS = [str(path) for path in sorted(INTERSECTION.glob("h0?.csv"))]
KEPT = Path(__file__).parent / "kept" / "check"


def run(*words: str) -> int:
    return _manners.run(verbs, list(words))


def test_hours_cuts_and_says_what_it_read(tmp_path: Path, capfd: pytest.CaptureFixture[str]) -> None:
    path = exports.write(tmp_path, "utf16")
    assert run("hours", "--signal", "7", "--out", str(tmp_path / "out"), str(path)) == Status.RIGHT
    said = capfd.readouterr().err.splitlines()
    assert said[0].startswith(f"hours: read {path} sha256 ") and said[0].endswith(" records 8 rows 6")
    assert said[1:] == [
        f"hours: dropped 1: other signal; first line 2 of {path}: --------\\t---------\\t---------\\t----------",
        f"hours: dropped 1: too few fields; first line 10 of {path}: (6 rows affected)",
        f"hours: files written 4 rows 6 to {tmp_path / 'out'}, hours 2024-03-04T05 to 2024-03-04T23"]


def test_hours_takes_a_window(tmp_path: Path) -> None:
    path = str(exports.write(tmp_path, "plain"))
    assert run("hours", "--from", "2024-03-04T06", "--hours", "1", "--out", str(tmp_path / "a"), path) == Status.RIGHT
    assert [one.name for one in (tmp_path / "a").iterdir()] == ["7_2024-03-04T06.csv"]
    assert run("hours", "--config", CONFIG, "--out", str(tmp_path / "b"), *HOURS) == Status.RIGHT
    assert run("hours", "--config", CONFIG, "--hours", "1", "--out", str(tmp_path / "c"), *HOURS) == Status.RIGHT
    assert len(list((tmp_path / "b").iterdir())) == 3 and len(list((tmp_path / "c").iterdir())) == 1


@pytest.mark.parametrize("words, status", [
    (["hours", "--from", "2024-03-04T06"], Status.USAGE), (["hours", "--from", "today", "--hours", "1"], Status.INPUT),
    (["hours", "--config", "none.toml"], Status.INPUT), (["hours", "--signal", "8"], Status.INPUT),
    (["hours", "--hours", "0", "--from", "2024-03-04T06"], Status.USAGE),
    (["hours", "--out", "plain.csv/x"], Status.RESOURCE), (["detectors", "--out", "x"], Status.USAGE),
    (["detectors", "--card", "0,1"], Status.USAGE), (["detectors", "--explain", "detector 5"], Status.USAGE),
    (["detectors", "--explain", "@2024-03-04T05:00:00.0"], Status.USAGE),
    (["detectors", "--explain", "detector 99@2024-03-04T05:00:00.0"], Status.INPUT),
    (["detectors", "--signal", "8"], Status.INPUT), (["check", "--config", "none.toml"], Status.INPUT),
    (["check", "--config", CONFIG, "letter.txt"], Status.INPUT), (["check"], Status.USAGE)])
def test_what_cant_be_done_is_said(words: list[str], status: Status, tmp_path: Path,
                                   monkeypatch: pytest.MonkeyPatch, capfd: pytest.CaptureFixture[str]) -> None:
    monkeypatch.chdir(tmp_path)
    exports.write(tmp_path, "plain")
    (tmp_path / "letter.txt").write_text("dear all,\n")
    assert run(*words, *([] if words[0] == "check" else ["plain.csv"])) == status
    said = capfd.readouterr().err
    assert said and "Traceback" not in said
    assert sorted(path.name for path in tmp_path.iterdir()) == ["letter.txt", "plain.csv"]


def test_check_says_all_mistakes(capfd: pytest.CaptureFixture[str]) -> None:
    assert run("check", "--config", str(KEPT / "mistakes.toml")) == Status.INPUT
    lines = (KEPT / "mistakes.txt").read_text().replace("mistakes.toml", str(KEPT / "mistakes.toml"))
    assert capfd.readouterr().out == lines


def test_check_looks_at_a_log(capfd: pytest.CaptureFixture[str]) -> None:
    assert run("check", "--config", str(KEPT / "other.toml"), *HOURS) == Status.RIGHT
    assert capfd.readouterr().out == (KEPT / "other.txt").read_text().replace("other.toml", str(KEPT / "other.toml"))


def test_check_says_rows_of_another_signal(tmp_path: Path, capfd: pytest.CaptureFixture[str]) -> None:
    assert run("check", "--config", CONFIG, str(exports.write(tmp_path, "plain"))) == Status.RIGHT
    assert "6 rows are of another signal than 5101: line 2 of" in capfd.readouterr().out


def test_detectors_fails_on_faults_where_asked(tmp_path: Path, capfd: pytest.CaptureFixture[str]) -> None:
    (tmp_path / "config.toml").write_text(made_day.CONFIG)
    events = put(made_day.made_day(), [Fault("one", (2,), at("09:00:00"), at("09:40:00"))], random.Random(7))
    paths = map(str, hour_files(Intake.of_events(events, "7"), tmp_path))
    words = ["detectors", "--config", str(tmp_path / "config.toml"), "--out", str(tmp_path / "w"), *paths]
    assert run(*words) == Status.RIGHT
    said = capfd.readouterr()
    assert said.out.startswith("stuck off detector 2 2024-03-04T08:59:11.5 2024-03-04T09:42:20.1 sure 17.1\n")
    assert "of NB2 mean nothing in the hours of" in said.err
    assert run(*words, "--fail-on", "sure") == Status.FINDINGS


def test_detectors_prints_and_writes(tmp_path: Path, capfd: pytest.CaptureFixture[str]) -> None:
    (tmp_path / "config.toml").write_text(made_day.CONFIG)
    words = ["--config", CONFIG, "--card", "1,2,4", "--out", str(tmp_path / "w"), *HOURS]
    assert run("detectors", *words) == Status.RIGHT
    assert capfd.readouterr().out.splitlines()[-1] == "learned 19 of 23 10800.0"
    assert (tmp_path / "w" / "config-without.toml").read_text() == Path(CONFIG).read_text()
    assert (tmp_path / "w" / "hours-without.txt").read_text() == ""
    assert run("detectors", "--explain", "detector 5@2024-03-04T05:10:00.0", *HOURS) == Status.RIGHT
    assert capfd.readouterr().out.startswith(("silence ", "no silence of 300 s"))
