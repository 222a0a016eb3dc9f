"""One signal of a corridor: from its edits to its tables and page."""

from __future__ import annotations

import dataclasses
from pathlib import Path

from sigaudit_tools import program as programs
from sigaudit_tools.answer import Answer, parse_answer
from sigaudit_tools.auditing import Notify, Work, work_in
from sigaudit_tools.errors import InputError
from sigaudit_tools.events import Events
from sigaudit_tools.files import digest, write_text, written
from sigaudit_tools.holes import Holes, read_holes
from sigaudit_tools.intake import read_export
from sigaudit_tools.publish import MOST_FILLINGS, first_undecided
from sigaudit_tools.report.make import audit_of
from sigaudit_tools.report.page import write_page
from sigaudit_tools.report.tables import write_tables
from sigaudit_tools.run import ANSWER, CONFIG, FILLINGS, HOLES, PAGE, SCRIPT
from sigaudit_tools.script import edits_before_audit, script_of_edits
from sigaudit_tools.signal.config import Config, read_config

EDITS, MADE = "edits.txt", "made"


def signals_of(corridor: Path) -> list[Path]:
    """The folders of a corridor's signals, by their names.

    Raises:
        InputError: it has none.
    """
    found = sorted(path.parent for path in corridor.glob(f"*/{CONFIG}"))
    if not found:
        raise InputError("no corridor: no folder in it has a " + CONFIG, str(corridor), "name a folder of signals")
    return found


def audit_signal(folder: Path, program: programs.Program, notify: Notify = lambda notice: None) -> Answer:
    """Audits one signal; what is done and of the same files isn't done again.

    Returns:
        The answer, whose refusals hold nothing.

    Raises:
        InputError: a file of the folder isn't what it has to be.
        ProgramError, ResourceError: as `program.run`.
    """
    config = dataclasses.replace(read_config(folder / CONFIG), path=Path(CONFIG))
    with work_in(folder / MADE, False, notify) as work:
        return _Signal(folder, work, config, program).audit()


class _Signal:
    """The steps of one signal."""

    def __init__(self, folder: Path, work: Work, config: Config, program: programs.Program) -> None:
        self._folder = folder
        self._work = work
        self._config = config
        self._program = program

    def audit(self) -> Answer:
        """Does what isn't done."""
        work, folder = self._work, self._folder
        files = {path.name: digest(path) for path in sorted(folder.glob("*.csv"))}
        edits = digest(folder / EDITS)
        work.step("script", [self._config.digest, edits], self._write_script)
        work.step("answer", [self._config.digest, edits, files, self._program.version, digest(self._program.path)],
                  self._ask)
        script = (work.folder / SCRIPT).read_bytes().decode("latin-1")
        answer = parse_answer(self._config, script, (work.folder / ANSWER).read_bytes(), f"{MADE}/{SCRIPT}",
                              f"{MADE}/{ANSWER}")
        made_of = [self._config.digest, files, work.steps.digest("answer"), work.steps.digest("script")]
        work.step("fillings", made_of, lambda: self._fill(answer))
        holes = folder / HOLES
        work.step("page", [*made_of, work.steps.digest("fillings"), digest(holes) if holes.is_file() else ""],
                  lambda: self._publish(answer))
        return answer

    def _write_script(self) -> tuple[list[str], list[str]]:
        edits = (self._folder / EDITS).read_bytes().decode("latin-1")
        text = script_of_edits(self._config, edits, str(self._folder / EDITS))
        with written(self._work.folder / SCRIPT) as file:
            file.write(text.encode("latin-1"))
        return [SCRIPT], []

    def _ask(self) -> tuple[list[str], list[str]]:
        text, _ = programs.run(self._program, Path(CONFIG), Path(MADE, SCRIPT), self._folder)
        with written(self._work.folder / ANSWER) as file:
            file.write(text)
        return [ANSWER], []

    def _fill(self, answer: Answer) -> tuple[list[str], list[str]]:
        edits = edits_before_audit(answer.script)
        found = [programs.fillings(self._program, Path(CONFIG), edits, self._folder, rule, tenth)
                 for rule, tenth in first_undecided(answer, MOST_FILLINGS)]
        write_text(self._work.folder / FILLINGS, "".join(found))
        return [FILLINGS], []

    def _publish(self, answer: Answer) -> tuple[list[str], list[str]]:
        folder = self._work.folder
        fillings = (folder / FILLINGS).read_text("latin-1")
        audit = audit_of(answer, self._events(answer), self._folder, self._holes(), None, fillings)
        write_tables(folder, audit.frames)
        write_page(folder / PAGE, dataclasses.replace(audit, folder="."))
        return [*(f"{name}.csv" for name in audit.frames), PAGE], []

    def _events(self, answer: Answer) -> Events:
        """The rows of the hours that are held at the end."""
        names = sorted({held.file for held in answer.known.held.values()})
        paths = [self._folder / name for name in names]
        return read_export(paths, config=self._config).events if paths else Events.none()

    def _holes(self) -> Holes | None:
        path = self._folder / HOLES
        return read_holes(path) if path.is_file() else None
