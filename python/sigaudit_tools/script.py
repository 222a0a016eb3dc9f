"""Scripts for the program: edits first, and then all that the tables and the page want."""

from __future__ import annotations

import re
from collections.abc import Iterable, Mapping
from pathlib import Path

from sigaudit_tools.errors import InputError
from sigaudit_tools.signal.config import Config
from sigaudit_tools.times import HOUR, stamp_of, tenth_of_hour, tenth_of_stamp

EDITS = ("load", "replace", "withdraw", "blank", "unblank")

_HOUR_FILE = re.compile(r"(\d{4}-\d\d-\d\dT\d\d)\.csv$", re.ASCII)
_LOAD = re.compile(r" *load +(\d{1,6}) ", re.ASCII)
_EDIT = re.compile(r" *(load|replace|withdraw|blank|unblank) | *#| *\r?$")


def script_of_hours(config: Config, files: Mapping[int, str], blanks: Iterable[tuple[int, int]] = ()) -> str:
    """The script that blanks, loads and asks.

    Args:
        config: the configuration.
        files: the name of the file of each hour, by the hour's number from the window's start.
        blanks: stretches that are blanked, from a tenth up to another; what is outside the window is cut off.
    """
    cut = [(max(low, config.start_tenth), min(high, config.end_tenth)) for low, high in blanks]
    lines = [f"blank {stamp_of(low)} {stamp_of(high)}" for low, high in cut if low < high]
    lines += [f"load {hour} {name}" for hour, name in sorted(files.items())]
    return _asking(lines, sorted(files), config)


def script_of_edits(config: Config, edits: str, where: str = "the edits") -> str:
    """The script that begins with these edits as they are, and asks for each hour that a `load` line names.

    Raises:
        InputError: a line is no edit.
    """
    lines = edits.split("\n")
    if not lines[-1]:
        lines.pop()
    for number, line in enumerate(lines, 1):
        if not _EDIT.match(line):
            raise InputError(f"no edit: {line[:60]!r}", f"{where}:{number}", f"begin it with one of {', '.join(EDITS)}")
    loaded = {int(found[1]) for found in map(_LOAD.match, lines) if found}
    return _asking(lines, sorted(hour for hour in loaded if hour < config.hours), config)


def edits_before_audit(script: str) -> str:
    """The lines of a script that edit, up to its last `audit`, or all of them where it has none."""
    lines = script.split("\n")
    words = [line.split()[:1] for line in lines]
    last = max((number for number, word in enumerate(words) if word == ["audit"]), default=len(lines))
    return "".join(line + "\n" for line, word in zip(lines[:last], words) if word and word[0] in EDITS)


def hours_of_files(config: Config, paths: Iterable[Path]) -> tuple[dict[int, Path], list[Path]]:
    """Hour files by their hour's number from the window's start, and those whose hour isn't in the window.

    Args:
        config: the configuration.
        paths: files whose names end with YYYY-MM-DDTHH.csv.

    Raises:
        InputError: a file isn't there, its name has no hour, or two files have one hour.
    """
    files: dict[int, Path] = {}
    outside = []
    for path in paths:
        found = _HOUR_FILE.search(path.name)
        if not found:
            raise InputError("no hour in its name", str(path), "take the files that sigaudit-tools hours wrote")
        if not path.is_file():
            raise InputError("no such file", str(path), "name files that are there")
        hour = (tenth_of_hour(found[1]) - config.start_tenth) // HOUR
        if not 0 <= hour < config.hours:
            outside.append(path)
        elif hour in files:
            raise InputError(f"two files of one hour, the other is {files[hour]}", str(path), "leave one out")
        else:
            files[hour] = path
    return files, outside


def blanks_of(text: str, where: str) -> list[tuple[int, int]]:
    """The stretches of the lines `blank STAMP STAMP` of a text, such as what the verb holes prints.

    Raises:
        InputError: such a line has another form.
    """
    lines = [(number, line.split()) for number, line in enumerate(text.split("\n"), 1)]
    found = []
    for number, words in lines:
        if words[:1] == ["blank"]:
            if len(words) < 3:
                raise InputError("cut short", f"{where}:{number}", "write it again by sigaudit-tools holes")
            found.append((tenth_of_stamp(words[1]), tenth_of_stamp(words[2])))
    return found


def _asking(lines: list[str], hours: Iterable[int], config: Config) -> str:
    """The edits, and what is asked after them, as a script."""
    lines = [*lines, "audit", "measures"]
    lines += [f"{what} {hour}" for hour in hours for what in ("verdicts", "measures")]
    advance = [approach for approach in config.approaches if approach.advance is not None]
    lines += [f"points {phase}" for phase in sorted({approach.phase for approach in advance})]
    lines += [f"offsets {approach.name}" for approach in advance]
    return "".join(line + "\n" for line in lines)
