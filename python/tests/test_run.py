"""Runs: the whole way, what is done again and what isn't, and that a run which was killed ends as one that wasn't."""

from __future__ import annotations

import shutil
import signal
import time
from pathlib import Path

import numpy as np
import pandas as pd
import pytest
from makers.runs import CONFIG, EXPORT, audit_words, call, contents, needs_program, start

import sigaudit_tools as st
from sigaudit_tools.auditing import Notice

pytestmark = needs_program
KEPT = Path(__file__).parent / "kept" / "outages"
FIRST_STEPS = ("config", "hours", "check", "holes", "script", "answer", "doubts", "fillings", "tables", "pictures",
               "page")


@pytest.fixture(autouse=True)
def made_at_one_time(monkeypatch: pytest.MonkeyPatch) -> None:
    monkeypatch.setenv("SOURCE_DATE_EPOCH", "1733000000")


@pytest.fixture(scope="module")
def whole(tmp_path_factory: pytest.TempPathFactory) -> Path:
    """A run of the three hours with outages, without an end between."""
    with pytest.MonkeyPatch.context() as patch:
        patch.setenv("SOURCE_DATE_EPOCH", "1733000000")
        folder = tmp_path_factory.mktemp("whole") / "run"
        assert call(*audit_words(folder)) == 0
    return folder


def again(whole: Path, folder: Path) -> Path:
    """A copy of a run, to go on with."""
    shutil.copytree(whole, folder)
    return folder


def steps_done(err: str) -> dict[str, bool]:
    """Of each step that was told of whether it was done now."""
    lines = [line.split(": ", 1) for line in err.splitlines() if not line.startswith(" ")]
    return {line[0]: line[1] != "as before" for line in lines if line[0] in FIRST_STEPS}


def test_the_whole_way_says_what_it_said(whole: Path) -> None:
    for name in ("session.txt", "doubts.txt"):
        assert (whole / name).read_bytes() == (KEPT / name).read_bytes()
    tables = {path.name for path in (whole / "tables").iterdir()}
    assert {"head.csv", "phases.csv", "window_phases.csv", "verdicts.csv", "rules.csv"} <= tables
    assert {"audit.svg", "failures.svg", "phase-2.svg", "shifts-NBT1.svg"} <= {path.name for path in whole.iterdir()}
    assert (whole / "report.html").read_text().rstrip().endswith("</html>")


def test_a_run_that_is_done_does_nothing_again(whole: Path, tmp_path: Path, capfd: pytest.CaptureFixture[str]) -> None:
    folder = again(whole, tmp_path / "run")
    assert call(*audit_words(folder)) == 0
    assert steps_done(capfd.readouterr().err) == dict.fromkeys(FIRST_STEPS, False)
    assert contents(folder) == contents(whole)
    assert call(*audit_words(folder, "--force")) == 0
    assert steps_done(capfd.readouterr().err) == dict.fromkeys(FIRST_STEPS, True)
    assert contents(folder) == contents(whole)


def test_only_what_hangs_on_a_rule_is_done_again(whole: Path, tmp_path: Path,
                                                 capfd: pytest.CaptureFixture[str]) -> None:
    folder, config = again(whole, tmp_path / "run"), tmp_path / "config.toml"
    config.write_text(CONFIG.read_text().replace("at_least = 130", "at_least = 131", 1))
    words = [config if word == CONFIG else word for word in audit_words(folder)]
    assert call(*words) == 0
    done = steps_done(capfd.readouterr().err)
    assert {step for step, now in done.items() if not now} == {"hours", "holes"}
    assert call(*audit_words(folder)) == 0
    assert contents(folder) == contents(whole)


def test_quiet_says_nothing(whole: Path, tmp_path: Path, capfd: pytest.CaptureFixture[str]) -> None:
    assert call(*audit_words(again(whole, tmp_path / "run"), "--quiet")) == 0
    assert capfd.readouterr() == ("", "")


def test_a_script_that_was_changed_by_hand(whole: Path, tmp_path: Path, capfd: pytest.CaptureFixture[str]) -> None:
    folder = again(whole, tmp_path / "run")
    script = folder / "session.txt"
    script.write_text("\n".join(line for line in script.read_text().split("\n") if not line.startswith("blank")))
    assert call(*audit_words(folder)) == 3
    assert "changed by hand" in capfd.readouterr().err
    assert call("run", "--run", folder) == 0
    found = st.open_run(folder)
    assert not found.answer.blanked()
    assert found.refusals["refusal"].str.startswith("contradiction").any() or len(found.verdicts)
    assert "blank" not in script.read_text()


@pytest.mark.parametrize("ending", [signal.SIGKILL, signal.SIGHUP, signal.SIGINT])
@pytest.mark.parametrize("step", ["hours", "holes", "answer", "tables"])
def test_a_run_that_was_ended_goes_on(whole: Path, tmp_path: Path, step: str, ending: signal.Signals) -> None:
    folder = tmp_path / "run"
    under_way = start(*audit_words(folder))
    assert under_way.stderr
    before = FIRST_STEPS[FIRST_STEPS.index(step) - 1]
    for line in under_way.stderr:
        if line.startswith(before.encode()):
            break
    time.sleep(0.05)
    under_way.send_signal(ending)
    under_way.communicate()
    assert under_way.returncode == (-ending if ending == signal.SIGKILL else 128 + ending)
    assert not (folder / "report.html").exists()
    assert call(*audit_words(folder)) == 0
    assert contents(folder) == contents(whole)


def test_a_file_cut_short_is_made_again(whole: Path, tmp_path: Path) -> None:
    folder = again(whole, tmp_path / "run")
    for name in ("holes.txt", "answer.txt", "report.html", "tables/phases.csv", "events.npz"):
        (folder / name).write_bytes((folder / name).read_bytes()[:100])
    (folder / ".answer.txt.abcdefgh").write_bytes(b"half")
    assert call(*audit_words(folder)) == 0
    assert contents(folder) == contents(whole)


def test_the_api(whole: Path, tmp_path: Path) -> None:
    log = st.read_export([str(path) for path in EXPORT])
    steps: list[Notice] = []
    run = st.audit(CONFIG, log.events, wishes=st.Wishes(chances=False), notify=steps.append)
    kept = st.open_run(whole)
    pd.testing.assert_frame_equal(run.verdicts, kept.verdicts)
    pd.testing.assert_frame_equal(run.measures("phases"), kept.measures("phases"))
    pd.testing.assert_frame_equal(run.points, kept.points)
    assert run.cycles.equals(kept.cycles) and run.shifts.equals(kept.shifts) and run.refusals.empty
    assert {notice.step for notice in steps if notice.said is not None} == set(FIRST_STEPS[:6])
    run.report(tmp_path / "page.html")
    assert (tmp_path / "page.html").stat().st_size > 100_000
    assert run.faults is None
    folder = run.folder
    del run
    assert not folder.exists()


def test_a_table_is_audited_as_its_file(whole: Path) -> None:
    frame = pd.concat([pd.read_csv(path) for path in EXPORT])
    run = st.audit(CONFIG, frame, wishes=st.Wishes(chances=False))
    assert run.answer.digest == st.open_run(whole).answer.digest
    assert np.array_equal(run.events.tenth, st.open_run(whole).events.tenth)


def test_all_names_of_the_api() -> None:
    assert all(getattr(st, name) is not None for name in dir(st))
    with pytest.raises(AttributeError):
        st.nothing_of_this_name


def test_fillings_and_offsets(whole: Path, capfd: pytest.CaptureFixture[str]) -> None:
    assert call("fillings", "--run", whole, "--rule", 35, "--at", "2024-03-04T06:10:59.5") == 0
    out = capfd.readouterr().out
    assert "+ 2024-03-04T06:09:28.7 code 7 param 2" in out and "keeps: phase 2, Red" in out
    assert call("fillings", "--run", whole) == 0
    assert capfd.readouterr().out.count("undecided") >= 5
    assert call("fillings", "--run", whole, "--rule", 1, "--at", "2024-03-04T06:10:59.5") == 0
    assert capfd.readouterr().out == "nothing undecided\n"
    assert call("fillings", "--run", whole, "--rule", 1) == 2
    assert call("offsets", "--run", whole, "--approach", "NBT1") == 0
    rows = capfd.readouterr().out.splitlines()
    assert rows[0] == "approach,shift_s,green,arrivals,is_best" and rows[1].startswith("NBT1,0,")
    assert call("offsets", "--run", whole, "--approach", "nobody") == 3
