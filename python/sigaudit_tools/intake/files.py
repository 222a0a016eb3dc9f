"""The files of exports: read whole, and brought into UTF-8."""

from __future__ import annotations

import dataclasses
import hashlib
from pathlib import Path

from sigaudit_tools.errors import InputError, ResourceError

PARQUET = b"PAR1"
# How files begin that are no text, and what to do with them.
_FOREIGN = (
    (b"\x1f\x8b", "it is packed by gzip", "unpack it by gunzip"),
    (b"PK\x03\x04", "it is a zip archive or a spreadsheet", "unpack it, or save it as CSV"),
    (b"\xfd7zXZ\0", "it is packed by xz", "unpack it by unxz"),
    (b"BZh", "it is packed by bzip2", "unpack it by bunzip2"),
    (b"%PDF-", "it is a PDF", "export the log as CSV"),
    (b"SQLite format 3\0", "it is a database", "export the log as CSV"),
)


@dataclasses.dataclass(frozen=True)
class File:
    """A file of an export: its bytes, and their SHA-256 as 64 digits."""

    path: Path
    data: bytes = dataclasses.field(repr=False)
    digest: str

    @property
    def is_parquet(self) -> bool:
        return self.data[:4] == PARQUET


def read_file(path: Path) -> File:
    """The bytes of a file.

    Raises:
        InputError: there is none, it is a folder, or it is packed or of a form that has no text.
        ResourceError: it can't be read.
    """
    try:
        data = path.read_bytes()
    except (FileNotFoundError, IsADirectoryError, NotADirectoryError) as error:
        raise InputError(f"can't be read: {error.strerror}", str(path), "name the files of an export") from error
    except OSError as error:
        raise ResourceError(f"can't be read: {error.strerror}", str(path), "look at its permissions") from error
    for begin, what, remedy in _FOREIGN:
        if data.startswith(begin):
            raise InputError(f"no text: {what}", str(path), remedy)
    return File(path, data, hashlib.sha256(data).hexdigest())


def text_of(data: bytes) -> bytes:
    """A text in UTF-8 or UTF-16 as UTF-8 without a byte order mark; what isn't such a text is replaced."""
    if data[:2] in (b"\xff\xfe", b"\xfe\xff"):
        return data.decode("utf-16", "replace").encode("utf-8", "replace")
    if data[1:2] == b"\0":
        return data.decode("utf-16-le", "replace").encode("utf-8", "replace")
    if data[:1] == b"\0":
        return data.decode("utf-16-be", "replace").encode("utf-8", "replace")
    return data.removeprefix(b"\xef\xbb\xbf")
