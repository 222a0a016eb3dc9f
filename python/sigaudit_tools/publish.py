"""From a run's answer to what people look at: doubts, tables, pictures, fillings, the page."""

from __future__ import annotations

import functools
import os
from collections.abc import Sequence
from pathlib import Path

from sigaudit_tools import program as programs
from sigaudit_tools import run as runs
from sigaudit_tools.answer import Answer
from sigaudit_tools.auditing import Notify, Wishes, Work, answer_in, audit_in, work_in
from sigaudit_tools.files import make_folder, write_text
from sigaudit_tools.holes.doubts import find_doubts
from sigaudit_tools.report.audit import Audit
from sigaudit_tools.report.make import audit_of, pictures
from sigaudit_tools.report.page import write_page
from sigaudit_tools.report.tables import write_tables
from sigaudit_tools.run import Run
from sigaudit_tools.script import edits_before_audit

MOST_FILLINGS = 5

Made = tuple[Sequence[str], Sequence[str]]


def audit_export(config: Path, export: Sequence[Path], out: Path, *, force: bool = False, wishes: Wishes = Wishes(),
                 notify: Notify = lambda notice: None) -> Run:
    """The whole way from an export to its page; arguments and errors as of `audit.audit`."""
    program = programs.find_program()
    with work_in(out, force, notify) as work:
        made = audit_in(work, config, export, program, wishes)
        _Publication(work, made, program).publish()
    return made


def go_on_by_hand(folder: Path, *, notify: Notify = lambda notice: None) -> Run:
    """Lets the program answer the script of a run's folder as it stands, and makes all that is made of the answer.

    Raises:
        InputError: the folder is no run's, or has no script yet.
        ProgramError, ResourceError: as `audit.audit`.
    """
    program = programs.find_program()
    runs.check_steps(folder, "config", "hours")
    with work_in(folder, False, notify) as work:
        answer_in(work, program, runs.kept_config(folder))
        made = runs.open_run(folder)
        _Publication(work, made, program).publish()
    return made


def first_undecided(answer: Answer, most: int) -> list[tuple[int, int]]:
    """The rule and the tenth of the first undecided verdict of each rule, of the rules with the least numbers."""
    table = answer.verdicts
    firsts = table[table["verdict"] == "undecided"].drop_duplicates("rule").sort_values("rule")[:most]
    return list(zip(firsts["rule"].tolist(), firsts["tenth"].tolist()))


def asked_fillings(run: Run, rule: int, tenth: int) -> str:
    """The fillings of one undecided verdict of a run, as the program prints them.

    Raises:
        ProgramError, ResourceError: as `program.run`.
    """
    edits = edits_before_audit(run.answer.script)
    return programs.fillings(programs.find_program(), Path(runs.CONFIG), edits, run.folder, rule, tenth)


class _Publication:
    """The steps after an answer."""

    def __init__(self, work: Work, run: Run, program: programs.Program) -> None:
        self._work = work
        self._run = run
        self._program = program

    def publish(self) -> None:
        """Does what isn't done."""
        work, run = self._work, self._run
        made_of = [run.config.digest, *(work.steps.digest(step) for step in ("hours", "answer", "holes")),
                   run.answer.script_digest]
        if run.holes:
            work.step("doubts", made_of, self._doubts)
        work.step("fillings", [run.answer.digest, run.answer.script_digest, run.config.digest], self._fillings)
        made_of += [work.steps.digest("faults"), work.steps.digest("fillings")]
        work.step("tables", made_of, self._tables)
        work.step("pictures", made_of, self._pictures)
        work.step("page", [*made_of, os.environ.get("SOURCE_DATE_EPOCH")], self._page)

    @functools.cached_property
    def _audit(self) -> Audit:
        run = self._run
        return audit_of(run.answer, run.events, run.folder, run.holes, run.faults_said, run.fillings)

    def _doubts(self) -> Made:
        assert self._run.holes
        doubts = find_doubts(self._run.answer, self._run.events, self._run.holes)
        return [self._work.write(runs.DOUBTS, doubts.lines())], []

    def _fillings(self) -> Made:
        run = self._run
        edits = edits_before_audit(run.answer.script)
        found = [programs.fillings(self._program, Path(runs.CONFIG), edits, run.folder, rule, tenth)
                 for rule, tenth in first_undecided(run.answer, MOST_FILLINGS)]
        write_text(run.folder / runs.FILLINGS, "".join(found))
        return [runs.FILLINGS], []

    def _tables(self) -> Made:
        folder = self._run.folder / runs.TABLES
        make_folder(folder)
        write_tables(folder, self._audit.frames)
        return [f"{runs.TABLES}/{name}.csv" for name in self._audit.frames], []

    def _pictures(self) -> Made:
        names = []
        for name, text in pictures(self._audit):
            write_text(self._run.folder / name, text)
            names.append(name)
        return names, []

    def _page(self) -> Made:
        write_page(self._run.folder / runs.PAGE, self._audit)
        return [runs.PAGE], []
