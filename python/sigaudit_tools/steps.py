"""The steps of a run: which files each made, and of what, so that a run which was ended goes on.

A step is named by the digest of what it was made of. It is done where the run's record has it by that digest and its
files are there as it left them. The record is written after the files, and each file beside and renamed, so nothing
half made is ever taken for whole.
"""

from __future__ import annotations

import contextlib
import fcntl
import hashlib
import json
import os
import re
from collections.abc import Iterable, Iterator
from pathlib import Path

from sigaudit_tools.errors import InputError, ResourceError
from sigaudit_tools.files import digest, write_text

RECORD = "steps.json"

# A file that `files.written` hadn't renamed yet.
_BESIDE = re.compile(r"\..+\.[a-z0-9_]{8}")


def digest_of(*parts: object) -> str:
    """One digest of values that `repr` tells apart."""
    return hashlib.sha256(repr(parts).encode("utf-8", "surrogateescape")).hexdigest()


class Steps:
    """The record of the steps of a run's folder.

    Raises:
        InputError: the folder has a record that isn't one.
    """

    def __init__(self, folder: Path) -> None:
        self._folder = folder
        self._path = folder / RECORD
        self._record: dict[str, dict[str, str]] = _read(self._path) if self._path.is_file() else {}

    def is_done(self, name: str, made_of: str) -> bool:
        """Whether a step was made of this, and its files are there as it left them."""
        return self._record.get(name, {}).get("") == made_of and not self.changed(name)

    def changed(self, name: str) -> list[str]:
        """The files of a step that aren't there any more, or not as it left them."""
        return [file for file, kept in self.files(name).items() if _digest(self._folder / file) != kept]

    def files(self, name: str) -> dict[str, str]:
        """The files that a step made, with their digests; none where it wasn't made."""
        return {file: kept for file, kept in self._record.get(name, {}).items() if file}

    def digest(self, name: str) -> str:
        """One digest of all that a step made."""
        return digest_of(sorted(self.files(name).items()))

    def record(self, name: str, made_of: str, files: Iterable[str]) -> None:
        """Records a step whose files, named from the folder, are written; what it made before and not now is removed.

        Raises:
            ResourceError: the record or a file can't be written.
        """
        before = self.files(name)
        made = {file: digest(self._folder / file) for file in sorted(files)}
        for file in before.keys() - made.keys():
            (self._folder / file).unlink(missing_ok=True)
        self._record[name] = {"": made_of, **made}
        write_text(self._path, json.dumps(self._record, indent=1) + "\n")

    def forget(self) -> None:
        """Takes no step for done; what a step made before is still known as its own."""
        for files in self._record.values():
            files[""] = ""


@contextlib.contextmanager
def locked(folder: Path) -> Iterator[None]:
    """Makes a run's folder, if it isn't there, holds it alone, and clears away what an ended run left half written.

    Raises:
        InputError: it is a file, or has other things in it.
        ResourceError: it can't be made or written, or another run works in it.
    """
    try:
        folder.mkdir(parents=True, exist_ok=True)
        handle = os.open(folder, os.O_RDONLY | os.O_DIRECTORY)
    except FileExistsError as error:
        raise InputError("is a file", str(folder), "name a folder") from error
    except OSError as error:
        raise ResourceError(f"can't be made: {error.strerror}", str(folder), "choose another folder") from error
    try:
        _hold(handle, folder)
        _clear(folder)
        yield
    finally:
        os.close(handle)


def _hold(handle: int, folder: Path) -> None:
    try:
        fcntl.flock(handle, fcntl.LOCK_EX | fcntl.LOCK_NB)
    except BlockingIOError as error:
        raise ResourceError("another run works in it", str(folder), "wait for it, or choose another folder") from error


def _clear(folder: Path) -> None:
    """Removes half written files, and begins the record; refuses a folder that is no run's."""
    half_written = [path for path in folder.rglob(".*") if _BESIDE.fullmatch(path.name) and path.is_file()]
    if not (folder / RECORD).is_file():
        if any(path not in half_written for path in folder.iterdir()):
            raise InputError("has other files in it and is no run", str(folder), "name a folder that isn't there yet")
        write_text(folder / RECORD, "{}\n")
    for path in half_written:
        path.unlink()


def _read(path: Path) -> dict[str, dict[str, str]]:
    try:
        found = json.loads(path.read_text("utf-8"))
    except ValueError:
        found = None
    except OSError as error:
        raise ResourceError(f"can't be read: {error.strerror}", str(path)) from error
    is_record = isinstance(found, dict) and all(
        isinstance(files, dict) and all(isinstance(one, str) for one in files.values()) for files in found.values())
    if not is_record:
        raise InputError("not the record of a run", str(path), "name a folder that audit-export made")
    record: dict[str, dict[str, str]] = found
    return record


def _digest(path: Path) -> str:
    return digest(path) if path.is_file() else ""
