"""The program: which one is taken, its version, how it ends."""

from __future__ import annotations

from pathlib import Path

import pytest

from sigaudit_tools import program
from sigaudit_tools._version import VERSION
from sigaudit_tools.errors import ProgramError, ResourceError, ToolError


def stand_in(folder: Path, body: str, name: str = "sigaudit") -> Path:
    """A program that does what the lines of sh say."""
    folder.mkdir(parents=True, exist_ok=True)
    path = folder / name
    path.write_text("#!/bin/sh\n" + body)
    path.chmod(0o755)
    return path


def test_the_environment_names_it(tmp_path: Path, monkeypatch: pytest.MonkeyPatch) -> None:
    path = stand_in(tmp_path, "echo usage; exit 2\n")
    monkeypatch.setenv("SIGAUDIT", str(path))
    assert program.find_program() == program.Program(path, "")
    other = stand_in(tmp_path / "other", f"echo sigaudit {VERSION}\n")
    assert program.find_program(other) == program.Program(other, VERSION)


def test_one_that_is_installed_has_its_version_beside(tmp_path: Path) -> None:
    path = stand_in(tmp_path / "bin", "exit 1\n")
    (tmp_path / "share" / "sigaudit").mkdir(parents=True)
    (tmp_path / "share" / "sigaudit" / "VERSION").write_text(VERSION + "\n")
    assert program.version_of(path) == VERSION


@pytest.mark.parametrize("beside", ["VERSION", "PROOF.txt"])
def test_another_version_is_one_sentence(tmp_path: Path, beside: str) -> None:
    path = stand_in(tmp_path, "exit 1\n")
    (tmp_path / beside).write_text("sigaudit 0.9.1: what was proved\n")
    with pytest.raises(ProgramError, match=r"sigaudit 0\.9\.1, and these are the tools of"):
        program.find_program(path)


def test_a_version_that_it_says_itself(tmp_path: Path) -> None:
    with pytest.raises(ProgramError, match=r"sigaudit 0\.3\.0"):
        program.find_program(stand_in(tmp_path, "[ $1 = --version ] && echo sigaudit 0.3.0\n"))


def test_what_is_no_program_is_refused(tmp_path: Path, monkeypatch: pytest.MonkeyPatch) -> None:
    for path in (tmp_path, tmp_path / "missing", Path("/dev/null")):
        with pytest.raises(ProgramError):
            program.find_program(path)
    text = tmp_path / "text"
    text.write_text("no program\n")
    text.chmod(0o755)
    with pytest.raises(ProgramError, match="can't be run"):
        program.find_program(text)
    monkeypatch.delenv("SIGAUDIT", raising=False)
    monkeypatch.setattr(program, "_candidates", lambda given: iter(()))
    with pytest.raises(ProgramError, match="there is no program"):
        program.find_program()


@pytest.mark.parametrize(("status", "error"), [(3, ProgramError), (4, ResourceError), (5, ResourceError),
                                               (6, ResourceError), (70, ProgramError), (2, ProgramError)])
def test_each_status_has_words(tmp_path: Path, status: int, error: type[ToolError]) -> None:
    path = stand_in(tmp_path, f"echo 'config refused: missing top.hours'; exit {status}\n")
    with pytest.raises(error):
        program.run(program.Program(path, ""), Path("config.toml"), Path("session.txt"), tmp_path)


def test_an_end_by_a_signal_has_words(tmp_path: Path) -> None:
    path = stand_in(tmp_path, "kill -SEGV $$\n")
    with pytest.raises(ProgramError, match="ended with -11"):
        program.run(program.Program(path, ""), Path("config.toml"), Path("session.txt"), tmp_path)


def test_the_answer_and_whether_a_line_was_refused(tmp_path: Path) -> None:
    path = stand_in(tmp_path, 'echo "$@"; exit 1\n')
    found = program.run(program.Program(path, ""), Path("c.toml"), Path("s.txt"), tmp_path, "--rule", "3")
    assert found == (b"--config=c.toml --script=s.txt --rule 3\n", True)


def test_fillings_are_asked_with_the_edits(tmp_path: Path) -> None:
    path = stand_in(tmp_path, 'cat "${2#--script=}"; echo "$3 $4 $5 $6"\n')
    text = program.fillings(program.Program(path, ""), Path("c.toml"), "load 0 a.csv\n", tmp_path, 7, 0)
    assert text == "load 0 a.csv\n--rule 7 --at 1970-01-01T00:00:00.0\n"
