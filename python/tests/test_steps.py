"""The record of a run's steps: what is done, what isn't, and folders that are no run's."""

from __future__ import annotations

from pathlib import Path

import pytest

from sigaudit_tools.errors import InputError, ResourceError
from sigaudit_tools.files import write_text
from sigaudit_tools.steps import RECORD, Steps, digest_of, locked


def test_a_step_is_done_as_long_as_its_files_stay(tmp_path: Path) -> None:
    with locked(tmp_path / "run"):
        pass
    folder = tmp_path / "run"
    write_text(folder / "a.txt", "a")
    Steps(folder).record("first", "made of", ["a.txt"])
    assert Steps(folder).is_done("first", "made of")
    assert not Steps(folder).is_done("first", "other") and not Steps(folder).is_done("second", "made of")
    write_text(folder / "a.txt", "b")
    assert Steps(folder).changed("first") == ["a.txt"] and not Steps(folder).is_done("first", "made of")
    (folder / "a.txt").unlink()
    assert Steps(folder).changed("first") == ["a.txt"]


def test_what_a_step_no_longer_makes_is_removed(tmp_path: Path) -> None:
    for name in ("a.txt", "b.txt"):
        write_text(tmp_path / name, name)
    steps = Steps(tmp_path)
    steps.record("first", "x", ["a.txt", "b.txt"])
    before = steps.digest("first")
    steps.record("first", "y", ["b.txt"])
    assert not (tmp_path / "a.txt").exists() and (tmp_path / "b.txt").exists()
    assert steps.digest("first") != before


def test_nothing_is_done_after_it_was_forgotten(tmp_path: Path) -> None:
    write_text(tmp_path / "a.txt", "a")
    steps = Steps(tmp_path)
    steps.record("first", "x", ["a.txt"])
    steps.forget()
    assert not steps.is_done("first", "x") and steps.files("first")


def test_half_written_files_go_and_others_stay(tmp_path: Path) -> None:
    folder = tmp_path / "run"
    with locked(folder):
        (folder / ".answer.txt.a1b2c3d4").touch()
        (folder / ".hidden").touch()
    with locked(folder):
        assert sorted(path.name for path in folder.iterdir()) == [".hidden", RECORD]


def test_two_runs_dont_share_a_folder(tmp_path: Path) -> None:
    with locked(tmp_path / "run"), pytest.raises(ResourceError, match="another run"):
        with locked(tmp_path / "run"):
            pass


def test_folders_that_are_no_runs(tmp_path: Path) -> None:
    file = tmp_path / "file"
    file.touch()
    for folder in (tmp_path, file):
        with pytest.raises(InputError):
            with locked(folder):
                pass
    with pytest.raises(ResourceError):
        with locked(Path("/proc/run")):
            pass


@pytest.mark.parametrize("text", ["", "[]", "{", '{"a": 1}', '{"a": {"b": 1}}', "\udcff"])
def test_a_record_that_is_none_is_refused(tmp_path: Path, text: str) -> None:
    (tmp_path / RECORD).write_bytes(text.encode("utf-8", "surrogateescape"))
    with pytest.raises(InputError):
        Steps(tmp_path)


def test_digests_tell_values_apart() -> None:
    assert len({digest_of("ab", "c"), digest_of("a", "bc"), digest_of("abc"), digest_of(1), digest_of("1")}) == 5
