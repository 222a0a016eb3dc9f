"""Bad inputs by all verbs: no traceback, a cause and a remedy in one message, the right status, nothing half made."""

from __future__ import annotations

import gzip
import os
import re
import resource
import shutil
import signal
from collections.abc import Callable
from pathlib import Path
from typing import NamedTuple

import pytest
from makers.runs import CONFIG, EXPORT, audit_words, call, contents, needs_program, start

from sigaudit_tools.errors import Status

pytestmark = needs_program

USAGE, INPUT, PROGRAM, RESOURCE = Status.USAGE, Status.INPUT, Status.PROGRAM, Status.RESOURCE
UNREADABLE = "/proc/self/mem"   # a plain file of which the first byte can't be read, even by root
READ_ONLY = "/proc"


class Bad(NamedTuple):
    """Words, with {name} for the files of the fixture `there`; the status; what the message says."""

    words: str
    status: int
    said: str


TABLE = (
    # no file, or another thing than a file
    Bad("check --config {missing}", INPUT, "No such file"),
    Bad("check --config {folder}", INPUT, "directory"),
    Bad("check --config {empty}", INPUT, "signal"),
    Bad("check --config {binary}", INPUT, "toml|UTF-8"),
    Bad("check --config {short}", INPUT, "expected|toml"),
    Bad("check --config {csv}", INPUT, "toml|expected"),
    Bad("check --config " + UNREADABLE, RESOURCE, "can't be read"),
    Bad("check --config {config} {missing}", INPUT, "No such file"),
    Bad("hours --out {new} {missing}", INPUT, "No such file"),
    Bad("hours --out {new} {folder}", INPUT, "directory|folder"),
    Bad("hours --out {new} {empty}", INPUT, "empty|no row"),
    Bad("hours --out {new} {binary}", INPUT, "no row|signal|text"),
    Bad("hours --out {new} {packed}", INPUT, "gzip"),
    Bad("hours --out {new} --config {config} {foreign}", INPUT, "other signal|no row"),
    Bad("hours --out {new} " + UNREADABLE, RESOURCE, "can't be read"),
    Bad("hours --out " + READ_ONLY + "/x {csv}", RESOURCE, "folder"),
    Bad("hours --out {new} --from 2024-03-04 --hours 1 {csv}", INPUT, "hour"),
    Bad("holes --config {missing} {csv}", INPUT, "No such file"),
    Bad("holes --config {short} {csv}", INPUT, "expected|toml"),
    Bad("holes --config {config} {foreign}", INPUT, "other signal|no row"),
    Bad("holes {two}", INPUT, "several signals"),
    Bad("holes --silence many {csv}", USAGE, "silence"),
    Bad("detectors {empty}", INPUT, "empty|no row"),
    Bad("detectors --explain 14 {csv}", USAGE, "STAMP|stamp"),
    Bad("session --config {config}", USAGE, "either hour files"),
    Bad("session --config {config} {csv}", INPUT, "no hour in its name"),
    Bad("session --config {config} --holes {missing} {hour}", INPUT, "No such file"),
    Bad("session --config {config} --edits {csv}", INPUT, "no edit"),
    Bad("session --config {config} {missing_hour}", INPUT, "no such file"),
    Bad("session --config {config} --out {folder} {hour}", RESOURCE, "can't be written"),
    Bad("audit-export --config {missing} --out {new} {csv}", INPUT, "No such file"),
    Bad("audit-export --config {short} --out {new} {csv}", INPUT, "expected|toml"),
    Bad("audit-export --config {config} --out {new} {missing}", INPUT, "No such file"),
    Bad("audit-export --config {config} --out {new} {foreign}", INPUT, "other signal|no row"),
    Bad("audit-export --config {config} --out {full_folder} {csv}", INPUT, "no run"),
    Bad("audit-export --config {config} --out {csv} {csv}", INPUT, "is a file"),
    Bad("audit-export --config {config} --out " + READ_ONLY + "/x {csv}", RESOURCE, "can't be made"),
    Bad("audit-export --config {config} --out {new}", USAGE, "FILE"),
    Bad("audit-export --config={config} --out={new} --silence=-1 {csv}", USAGE, "silence"),
    Bad("run --run {missing}", INPUT, "no run"),
    Bad("run --run {folder}", INPUT, "no run"),
    Bad("run --run {cut_run}", INPUT, "isn't done"),
    Bad("tables --run {cut_run} --out {new}", INPUT, "isn't done"),
    Bad("report --run {missing}", INPUT, "no run"),
    Bad("report --run {run} --out {folder}", RESOURCE, "can't be written"),
    Bad("diagram --run {run} --phase 19", USAGE, "19"),
    Bad("shifts --run {run} --approach nobody", INPUT, "nobody"),
    Bad("timeline --run {run} --from 99", USAGE, "window"),
    Bad("fillings --run {run} --rule 35 --at yesterday", INPUT, "stamp"),
    Bad("explain --run {run} --rule 999", USAGE, "999"),
    Bad("doubts --config {config} --script {script} --answer {cut_answer} --holes {holes}", INPUT, "answer"),
    Bad("doubts --config {config} --script {csv} --answer {answer} --holes {holes}", INPUT, "script"),
    Bad("doubts --config {config} --script {script} --answer {answer} --holes {missing}", INPUT, "No such file"),
    Bad("completion tcsh", USAGE, "tcsh"),
    Bad("nothing", USAGE, "nothing"),
)


@pytest.fixture(scope="module")
def there(tmp_path_factory: pytest.TempPathFactory) -> dict[str, Path]:
    """Files, folders and runs for the table, by their names in it."""
    top = tmp_path_factory.mktemp("there")
    run = top / "run"
    assert call(*audit_words(run, "--quiet")) == 0
    texts = {
        "empty": b"", "binary": bytes(range(256)) * 20, "short": CONFIG.read_bytes()[:300] + b"\n[[phase",
        "csv": EXPORT[0].read_bytes(), "packed": gzip.compress(EXPORT[0].read_bytes()),
        "foreign": EXPORT[0].read_bytes().replace(b"\n5101,", b"\n7777,"),
        "two": EXPORT[0].read_bytes() + EXPORT[0].read_bytes().replace(b"\n5101,", b"\n7777,"),
        "hour": EXPORT[0].read_bytes(), "cut_answer": (run / "answer.txt").read_bytes()[:5000]}
    names = dict.fromkeys(texts, "") | {"hour": "5101_2024-03-04T05.csv"}
    for name, text in texts.items():
        (top / (names[name] or name)).write_bytes(text)
    (top / "folder").mkdir()
    (top / "full_folder").mkdir()
    (top / "full_folder" / "thesis.doc").touch()
    shutil.copytree(run, top / "cut_run")
    for path in (top / "cut_run").glob("5101_*"):
        path.unlink()
    found = {name: top / (names[name] or name) for name in texts}
    found |= {name: top / name for name in ("folder", "full_folder", "run", "cut_run", "missing")}
    return found | {"config": CONFIG, "missing_hour": top / "5101_2024-03-04T06.csv", "script": run / "session.txt",
                    "answer": run / "answer.txt", "holes": run / "holes.txt"}


@pytest.mark.parametrize("bad", TABLE, ids=[bad.words for bad in TABLE])
def test_bad_input(bad: Bad, there: dict[str, Path], tmp_path: Path, monkeypatch: pytest.MonkeyPatch,
                   capfd: pytest.CaptureFixture[str]) -> None:
    monkeypatch.chdir(tmp_path)
    places = there | {"new": tmp_path / "new"}
    status = call(*(word.format(**places) for word in bad.words.split(" ")))
    out, err = capfd.readouterr()
    assert status == bad.status, err
    assert "Traceback" not in out + err and "a mistake in the tools" not in err
    said = out + err
    assert re.search(bad.said, said), said
    assert re.search("; |Try |expected|: save the file", said), f"no remedy: {said}"
    assert not [name for name in contents(tmp_path) if Path(name).name.startswith(".")]
    assert not (tmp_path / "new" / "report.html").exists() and not (tmp_path / "new" / "answer.txt").exists()


def test_a_program_of_another_version(tmp_path: Path, monkeypatch: pytest.MonkeyPatch,
                                      capfd: pytest.CaptureFixture[str]) -> None:
    program = tmp_path / "sigaudit"
    program.write_text("#!/bin/sh\necho sigaudit 0.1.0\n")
    program.chmod(0o755)
    monkeypatch.setenv("SIGAUDIT", str(program))
    assert call(*audit_words(tmp_path / "run")) == PROGRAM
    assert "sigaudit 0.1.0, and these are the tools of" in capfd.readouterr().err
    assert not (tmp_path / "run").exists()


def no_larger_files() -> None:
    """Lets files of this process grow to 100 kB only, as a disk that fills up does."""
    signal.signal(signal.SIGXFSZ, signal.SIG_IGN)
    resource.setrlimit(resource.RLIMIT_FSIZE, (100_000, 100_000))


def test_a_disk_that_is_full(tmp_path: Path) -> None:
    made = start(*audit_words(tmp_path / "run"), preexec_fn=no_larger_files)
    _, err = made.communicate()
    assert made.returncode == RESOURCE and b"can't be written" in err and b"Traceback" not in err
    names = contents(tmp_path / "run")
    assert not [name for name in names if Path(name).name.startswith(".") or name.endswith(".csv")]


@pytest.mark.parametrize("words", ["offsets --run {run}", "doubts --run {run} --all", "holes --no-chances {hour}",
                                   "completion bash", "--help", "check --help"])
def test_standard_output_that_takes_no_more(words: str, there: dict[str, Path]) -> None:
    arguments = [word.format(**there) for word in words.split(" ")]
    with open("/dev/full", "wb") as full:
        made = start(*arguments, stdout=full)
        _, err = made.communicate()
    assert made.returncode == RESOURCE and b"No space left" in err and b"Traceback" not in err, err


@pytest.mark.parametrize("words", ["offsets --run {run}", "doubts --run {run} --all", "explain --run {run}"])
def test_a_reader_that_goes(words: str, there: dict[str, Path]) -> None:
    reading, writing = os.pipe()
    os.close(reading)
    made = start(*(word.format(**there) for word in words.split(" ")), stdout=writing)
    os.close(writing)
    _, err = made.communicate()
    assert made.returncode == 128 + signal.SIGPIPE and not err, err


def test_debug_alone_shows_a_traceback(capfd: pytest.CaptureFixture[str]) -> None:
    assert call("check", "--config", "/no/such/file", "--debug") == INPUT
    assert "Traceback" in capfd.readouterr().err
    assert call("check", "--config", "/no/such/file") == INPUT
    assert "Traceback" not in capfd.readouterr().err


def test_a_mistake_of_the_tools_is_called_one(monkeypatch: pytest.MonkeyPatch,
                                              capfd: pytest.CaptureFixture[str]) -> None:
    def fails() -> Callable[[], None]:
        raise ZeroDivisionError("of nothing")
    monkeypatch.setattr("sigaudit_tools.cli._options.text_of", lambda path: fails())
    assert call("session", "--config", CONFIG, "--edits", CONFIG) == RESOURCE
    assert "a mistake in the tools: ZeroDivisionError" in capfd.readouterr().err
