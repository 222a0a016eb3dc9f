"""The tables of all signals of a corridor, joined."""

from __future__ import annotations

import collections
from collections.abc import Sequence
from pathlib import Path

from sigaudit_tools.corridor.signals import MADE
from sigaudit_tools.errors import InputError, ResourceError
from sigaudit_tools.files import make_folder, write_text

ALL, HEAD = "all", "head.csv"


def join(corridor: Path, signals: Sequence[Path]) -> list[str]:
    """Writes each table of the signals, whose first column is the signal, to all/: its head once, then all rows.

    Returns:
        The names of the tables.

    Raises:
        InputError: two folders have one signal, or tables differ in their columns.
        ResourceError: a table can't be read or written.
    """
    names = sorted(path.name for path in (signals[0] / MADE).glob("*.csv"))
    _look_for_twins([_text(folder / MADE / HEAD) for folder in signals])
    make_folder(corridor / ALL)
    for name in names:
        texts = [_text(folder / MADE / name) for folder in signals]
        heads = {text.split("\n", 1)[0] for text in texts}
        if len(heads) > 1:
            raise InputError("signals with different columns", f"{corridor}/*/{MADE}/{name}", "audit them all again")
        write_text(corridor / ALL / name, heads.pop() + "\n" + "".join(text.split("\n", 1)[1] for text in texts))
    return names


def _look_for_twins(heads: Sequence[str]) -> None:
    names = collections.Counter(text.split("\n")[1].split(",")[0] for text in heads)
    name, count = names.most_common(1)[0]
    if count > 1:
        raise InputError(f"{count} folders of signal {name}", remedy="keep one of them")


def _text(path: Path) -> str:
    try:
        return path.read_text("utf-8")
    except OSError as error:
        raise ResourceError(f"can't be read: {error.strerror}", str(path)) from error
