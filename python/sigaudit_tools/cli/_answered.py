"""What verbs take that look at an answer: a run, or the answer with its script and its configuration."""

from __future__ import annotations

import dataclasses
import functools
from collections.abc import Callable
from pathlib import Path
from typing import TYPE_CHECKING

import click

from sigaudit_tools.errors import InputError, UsageError

if TYPE_CHECKING:
    from sigaudit_tools.answer import Answer
    from sigaudit_tools.events import Events
    from sigaudit_tools.explain.log import Row
    from sigaudit_tools.holes import Holes

_PATH = click.Path(path_type=Path)


@dataclasses.dataclass(frozen=True)
class Given:
    """The words of such a verb: the folder of a run; or the files of an answer and of what was said of holes."""

    run_folder: Path | None
    config: Path | None
    script: Path | None
    answer: Path | None
    holes: Path | None


@dataclasses.dataclass(frozen=True, eq=False)
class Answered:
    """An answer with the log that it was given.

    Attributes:
        answer: of the program.
        events: of its hour files, repeats too.
        holes: what was found in the log; None where that isn't given.
        folders: in which the files that the script names are looked for.
    """

    answer: Answer
    events: Events
    holes: Holes | None
    folders: tuple[Path, ...]

    def line_of(self, row: Row) -> int:
        """The number of a row's line in its file.

        Raises:
            InputError: the file isn't there, or hasn't this row.
        """
        numbers, tenths = _numbered(_found(row.file, self.folders), self.answer.config.signal)
        if row.place >= len(numbers) or tenths[row.place] != row.tenth:
            raise InputError("isn't as it was when the answer was made", row.file, "let the program run again")
        return numbers[row.place]


def options(command: Callable[..., None]) -> Callable[..., None]:
    """Gives a command the options of `Given`, and hands it one as `given`."""
    for option in (
            click.option("--holes", type=_PATH, metavar="FILE", help="What the verb holes said of this log."),
            click.option("--answer", type=_PATH, metavar="FILE", help="What sigaudit answered."),
            click.option("--script", type=_PATH, metavar="FILE", help="The script to which it answered."),
            click.option("--config", type=_PATH, metavar="CONFIG", help="The configuration with which it did."),
            click.option("--run", "run_folder", type=_PATH, metavar="FOLDER",
                         help="The folder of a run, as audit-export makes it, in the place of the files.")):
        command = option(command)

    @functools.wraps(command)
    def called(run_folder: Path | None, config: Path | None, script: Path | None, answer: Path | None,
               holes: Path | None, **others: object) -> None:
        return command(given=Given(run_folder, config, script, answer, holes), **others)

    return called


def read(given: Given) -> Answered:
    """An answer, from a run or from its files.

    Raises:
        UsageError: neither is given whole.
        InputError: a file isn't what it has to be.
    """
    if given.run_folder is not None:
        if given.config or given.script or given.answer:
            raise UsageError("--run takes the place of --config, --script and --answer",
                             remedy="give one or the others")
        return _of_run(given.run_folder, given.holes)
    if not (given.config and given.script and given.answer):
        raise UsageError("no answer is given", remedy="give --run FOLDER, or --config, --script and --answer")
    return _of_files(given.config, given.script, given.answer, given.holes)


def _of_run(folder: Path, holes: Path | None) -> Answered:
    from sigaudit_tools.holes import read_holes
    from sigaudit_tools.run import open_run

    run = open_run(folder)
    return Answered(run.answer, run.events, run.holes if holes is None else read_holes(holes), (folder,))


def _of_files(config: Path, script: Path, answer: Path, holes: Path | None) -> Answered:
    from sigaudit_tools.answer import read_answer
    from sigaudit_tools.holes import read_holes
    from sigaudit_tools.signal.config import read_config

    read = read_answer(read_config(config), script, answer)
    folders = Path("."), script.parent
    files = [_found(held.file, folders) for held in read.known.held.values()]
    return Answered(read, _log(files, read.config.signal), None if holes is None else read_holes(holes), folders)


def _log(paths: list[Path], signal: str) -> Events:
    """The rows of hour files, plain and packed ones."""
    import numpy as np

    from sigaudit_tools.events import Events
    from sigaudit_tools.intake import files, packed, read_export

    data = {path: files.read_file(path).data for path in paths}
    parts = [Events.none()]
    parts += [packed.read_packed(text, str(path)) for path, text in data.items() if packed.is_packed(text)]
    plain = [path for path, text in data.items() if not packed.is_packed(text)]
    if plain:
        parts.append(read_export(plain, signal=signal).events)
    tenth, code, param = ([getattr(part, name) for part in parts] for name in ("tenth", "code", "param"))
    return Events.in_order(np.concatenate(tenth), np.concatenate(code), np.concatenate(param))


def _found(name: str, folders: tuple[Path, ...]) -> Path:
    """A file that a script names, in the first folder that has it."""
    places = [folder / name for folder in folders]
    return next((place for place in places if place.exists()), places[0])


@functools.lru_cache(maxsize=16)
def _numbered(path: Path, signal: str) -> tuple[list[int], list[int]]:
    """The numbers of the lines of a file's rows by their tenths, those of a packed hour counted from 1; and these."""
    import numpy as np

    from sigaudit_tools.intake import files, packed, records

    data = files.read_file(path).data
    if packed.is_packed(data):
        tenth = packed.read_packed(data, str(path)).tenth
        return list(range(1, len(tenth) + 1)), tenth.tolist()
    rows = records.read_text(files.text_of(data), str(path), records.Wanted(signal)).rows
    order = np.argsort(rows.tenth, kind="stable")
    return rows.line[order].tolist(), rows.tenth[order].tolist()
