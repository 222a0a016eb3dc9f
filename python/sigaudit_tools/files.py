"""Files that are written beside and renamed, so that nothing half made is ever taken for whole."""

from __future__ import annotations

import contextlib
import hashlib
import os
import tempfile
from collections.abc import Iterator
from pathlib import Path
from typing import IO

from sigaudit_tools.errors import ResourceError


@contextlib.contextmanager
def written(path: Path) -> Iterator[IO[bytes]]:
    """A file to write into, which takes the place of `path` when the block ends without an error.

    Raises:
        ResourceError: the folder isn't there or takes no file, or the disk is full. `path` is then as before.
    """
    beside = None
    try:
        handle, name = tempfile.mkstemp(prefix=f".{path.name}.", dir=path.parent)
        beside = Path(name)
        with os.fdopen(handle, "wb") as file:
            yield file
        os.chmod(beside, 0o666 & ~_umask())
        os.replace(beside, path)
    except OSError as error:
        raise ResourceError(f"can't be written: {error.strerror}", str(path), "choose another folder") from error
    finally:
        if beside is not None:
            with contextlib.suppress(FileNotFoundError):
                beside.unlink()


def write_text(path: Path, text: str) -> None:
    """Writes a text in UTF-8, with line ends as they stand in it."""
    with written(path) as file:
        file.write(text.encode("utf-8"))


def make_folder(path: Path) -> None:
    """Makes a folder, and those that it lies in, where it isn't there.

    Raises:
        ResourceError: it can't be made.
    """
    try:
        path.mkdir(parents=True, exist_ok=True)
    except OSError as error:
        raise ResourceError(f"no folder can be made: {error.strerror}", str(path), "choose another") from error


def digest(path: Path) -> str:
    """The SHA-256 of a file, as 64 digits.

    Raises:
        ResourceError: the file can't be read.
    """
    try:
        with path.open("rb") as file:
            return hashlib.file_digest(file, "sha256").hexdigest()
    except OSError as error:
        raise ResourceError(f"can't be read: {error.strerror}", str(path)) from error


def _umask() -> int:
    mask = os.umask(0)
    os.umask(mask)
    return mask
