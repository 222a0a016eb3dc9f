"""Hour files taken into the folder of a signal, in order of arrival."""

from __future__ import annotations

import re
from collections.abc import Sequence
from pathlib import Path

from sigaudit_tools.answer import Answer, read_answer
from sigaudit_tools.corridor.signals import EDITS, MADE
from sigaudit_tools.errors import InputError, ResourceError
from sigaudit_tools.files import write_text, written
from sigaudit_tools.run import ANSWER, CONFIG, SCRIPT
from sigaudit_tools.script import hours_of_files
from sigaudit_tools.signal.config import Config, read_config

_STEM = re.compile(r"[^/ ]*\.csv", re.ASCII)


def arrive(folder: Path, files: Sequence[Path]) -> list[str]:
    """Copies hour files into a signal's folder and adds their lines to its edits.

    The line is `load H NAME`, or `replace H NAME` where the lines before hold the hour already. What came before stays,
    since the lines before name it: the second file of an hour is NAME.2.csv, the third NAME.3.csv. A file that is byte
    for byte the one that is held of its hour isn't taken. A line that the answer in made/ refuses holds nothing; lines
    that it doesn't answer are taken as accepted.

    Args:
        folder: of the signal.
        files: names with the hour at their end, as the verb hours writes them.

    Returns:
        What wasn't taken, in words.

    Raises:
        InputError: a name has no hour, a file isn't there, or edits.txt has no end of line at its end.
        ResourceError: a file can't be read or written.
    """
    config = read_config(folder / CONFIG)
    edits = _edits(folder)
    held = _held(folder, config, edits)
    told = []
    for path in files:
        hours, outside = hours_of_files(config, [path])
        told += [f"left out, not in the window: {one}" for one in outside]
        for hour in hours:
            data = _bytes(path)
            if hour in held and _bytes(folder / held[hour]) == data:
                told.append(f"held already: {path}")
                continue
            name = _free_name(folder, path)
            with written(folder / name) as file:
                file.write(data)
            edits += f"{'replace' if hour in held else 'load'} {hour} {name}\n"
            write_text(folder / EDITS, edits)
            held[hour] = name
    return told


def _edits(folder: Path) -> str:
    path = folder / EDITS
    text = _bytes(path).decode("latin-1") if path.exists() else ""
    if text and not text.endswith("\n"):
        raise InputError("has no end of line at its end", str(path), "end its last line")
    return text


def _held(folder: Path, config: Config, edits: str) -> dict[int, str]:
    """The file of each hour that the edits hold, without those that the last answer refuses."""
    refused = _refused(_last_answer(folder, config), edits)
    held: dict[int, str] = {}
    for number, line in enumerate(edits.split("\n"), 1):
        words = line.split()
        if number in refused or not words:
            continue
        if words[0] in ("load", "replace") and len(words) == 3:
            held[int(words[1])] = words[2]
        elif words[0] == "withdraw" and len(words) == 2:
            held.pop(int(words[1]), None)
    return held


def _last_answer(folder: Path, config: Config) -> Answer | None:
    """What was answered the last time, where that is whole."""
    made = folder / MADE
    if not (made / ANSWER).is_file():
        return None
    try:
        return read_answer(config, made / SCRIPT, made / ANSWER)
    except InputError:
        return None


def _refused(answer: Answer | None, edits: str) -> set[int]:
    """The numbers of the lines that the answer refuses, as far as its script begins as these edits do."""
    if answer is None:
        return set()
    now, then = edits.split("\n"), answer.script.split("\n")
    return {edit.line for edit in answer.edits if edit.is_refused and now[:edit.line] == then[:edit.line]}


def _free_name(folder: Path, path: Path) -> str:
    """A name in the folder that no file has."""
    if not _STEM.fullmatch(path.name):
        raise InputError("a space in its name", str(path), "give it another name")
    number, name = 1, path.name
    while (folder / name).exists():
        number += 1
        name = f"{path.stem}.{number}.csv"
    return name


def _bytes(path: Path) -> bytes:
    try:
        return path.read_bytes()
    except OSError as error:
        raise ResourceError(f"can't be read: {error.strerror}", str(path)) from error
