"""A run: what was read, looked for, answered and made of it, kept in a folder.

`audit.audit` makes a run; `open_run` reads one back.
"""

from __future__ import annotations

import dataclasses
import functools
from pathlib import Path
from typing import TYPE_CHECKING

import numpy as np
import pandas as pd

from sigaudit_tools.answer import Answer, read_answer
from sigaudit_tools.errors import InputError, ResourceError
from sigaudit_tools.events import Events
from sigaudit_tools.files import written
from sigaudit_tools.signal.config import Config, read_config
from sigaudit_tools.steps import RECORD, Steps

if TYPE_CHECKING:
    from sigaudit_tools.faults import Faults
    from sigaudit_tools.holes import Holes

CONFIG, EVENTS, HOURS, CHECK = "config.toml", "events.npz", "hours.txt", "check.txt"
HOLES, FAULTS, WITHOUT = "holes.txt", "detectors.txt", "without"
SCRIPT, ANSWER = "session.txt", "answer.txt"
DOUBTS, FILLINGS, TABLES, PAGE = "doubts.txt", "pairs.txt", "tables", "report.html"


@dataclasses.dataclass(frozen=True, eq=False)
class Run:
    """A run of the program over a log, with what was looked for around it.

    Attributes:
        folder: where it is kept.
        config: the configuration.
        events: the log's events in the window.
        answer: what the program answered.
        holes: the stretches that may lack rows; None where they weren't looked for.
    """

    folder: Path
    config: Config
    events: Events
    answer: Answer
    holes: Holes | None

    @property
    def verdicts(self) -> pd.DataFrame:
        """The broken and undecided verdicts: `Answer.verdicts`."""
        return self.answer.verdicts

    def measures(self, kind: str, by: str = "hour") -> pd.DataFrame:
        """The measures of a kind by hour or over the window: `Answer.measures`."""
        return self.answer.measures(kind, by)

    @property
    def cycles(self) -> pd.DataFrame:
        """The whole cycles of the phases with advance detectors: `Answer.cycles`."""
        return self.answer.cycles

    @property
    def points(self) -> pd.DataFrame:
        """The arrivals in these cycles: `Answer.points`."""
        return self.answer.points

    @property
    def shifts(self) -> pd.DataFrame:
        """How many arrivals would have met green at each shift: `Answer.shifts`."""
        return self.answer.shifts

    @property
    def refusals(self) -> pd.DataFrame:
        """The edits that the program refused: `Answer.refusals`."""
        return self.answer.refusals

    @functools.cached_property
    def faults(self) -> Faults | None:
        """What fell silent, is stuck or chatters; None where that wasn't looked for."""
        from sigaudit_tools.faults import find_faults
        return find_faults(self.config, self.events) if (self.folder / FAULTS).is_file() else None

    @property
    def faults_said(self) -> list[str] | None:
        """What was said of faults, in lines; None where they weren't looked for."""
        path = self.folder / FAULTS
        return path.read_text("latin-1").splitlines() if path.is_file() else None

    @functools.cached_property
    def fillings(self) -> str:
        """The two fillings of some undecided verdicts, as the program prints them; empty where none were asked for."""
        path = self.folder / FILLINGS
        return path.read_text("latin-1") if path.is_file() else ""

    def report(self, path: Path | str) -> None:
        """Writes the page of the audit: one file of HTML that stands alone.

        Raises:
            ResourceError: it can't be written.
        """
        from sigaudit_tools.report.make import audit_of
        from sigaudit_tools.report.page import write_page
        write_page(Path(path), audit_of(self.answer, self.events, self.folder, self.holes, self.faults_said,
                                        self.fillings))


def open_run(folder: Path | str) -> Run:
    """A run that was made before.

    Raises:
        InputError: the folder isn't there, is no run's, or the run has no answer yet.
    """
    folder = Path(folder)
    check_steps(folder, "config", "hours", "answer")
    config = kept_config(folder)
    return Run(folder, config, read_events(folder / EVENTS),
               named(read_answer(config, folder / SCRIPT, folder / ANSWER)), kept_holes(folder))


def check_steps(folder: Path, *names: str) -> None:
    """Makes sure that a folder is a run's in which these steps are done.

    Raises:
        InputError: it isn't.
    """
    if not (folder / RECORD).is_file():
        raise InputError("no run: it has no " + RECORD, str(folder), "name a folder that audit-export made")
    steps = Steps(folder)
    for name in names:
        if not steps.files(name) or steps.changed(name):
            raise InputError(f"a run whose step {name} isn't done, or whose files were changed", str(folder),
                             "let audit-export go on with it")


def kept_config(folder: Path) -> Config:
    """The configuration that a run's folder keeps.

    Raises:
        InputError: it has none.
    """
    return dataclasses.replace(read_config(folder / CONFIG), path=Path(CONFIG))


def named(answer: Answer) -> Answer:
    """An answer whose files are called as in their folder."""
    return dataclasses.replace(answer, script_name=SCRIPT, name=ANSWER)


def kept_holes(folder: Path) -> Holes | None:
    """The holes that a run's folder keeps."""
    from sigaudit_tools.holes import read_holes
    return read_holes(folder / HOLES) if (folder / HOLES).is_file() else None


def write_events(path: Path, events: Events) -> None:
    """Writes events as an archive of numpy, which `read_events` reads."""
    with written(path) as file:
        np.savez(file, tenth=events.tenth, code=events.code, param=events.param)


def read_events(path: Path) -> Events:
    """The events that `write_events` wrote.

    Raises:
        InputError: it is no such file.
        ResourceError: it can't be read.
    """
    try:
        with np.load(path, allow_pickle=False) as columns:
            return Events(columns["tenth"], columns["code"], columns["param"])
    except (KeyError, ValueError, EOFError) as error:
        raise InputError("no events of a run", str(path), "let audit-export run again with --force") from error
    except OSError as error:
        raise ResourceError(f"can't be read: {error.strerror}", str(path)) from error
