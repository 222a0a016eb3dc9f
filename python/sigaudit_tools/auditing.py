"""From an export, or events, to the program's answer: each step done once, in a run's folder."""

from __future__ import annotations

import contextlib
import dataclasses
import functools
import tempfile
import weakref
from collections.abc import Callable, Iterator, Sequence
from pathlib import Path
from shutil import rmtree
from typing import TYPE_CHECKING

from sigaudit_tools import program as programs
from sigaudit_tools import run, script
from sigaudit_tools._version import VERSION
from sigaudit_tools.answer import parse_answer
from sigaudit_tools.errors import InputError
from sigaudit_tools.events import Events
from sigaudit_tools.files import digest, make_folder, write_text, written
from sigaudit_tools.intake import Intake, hour_files, read_export
from sigaudit_tools.run import Run
from sigaudit_tools.signal.config import Config, read_config
from sigaudit_tools.signal.oddities import oddities, worded
from sigaudit_tools.steps import Steps, digest_of, locked

if TYPE_CHECKING:
    import pandas as pd
    from sigaudit_tools.faults import Faults
    from sigaudit_tools.holes import Holes

FEWEST_HOURS_FOR_FAULTS = 24


@dataclasses.dataclass(frozen=True)
class Wishes:
    """How an audit is made.

    Attributes:
        holes: whether holes are looked for and blanked.
        faults: whether silent, stuck and chattering channels are looked for; None: in 24 hours and more, since less
            tells too little of what is usual.
        silence_s: a silence of the whole log of so many seconds is blanked too; None: none is.
        chances: whether it is said how short an outage would be found.
        day_first, backward, once: as `intake.read_export` has them.
    """

    holes: bool = True
    faults: bool | None = None
    silence_s: float | None = None
    chances: bool = True
    day_first: bool = False
    backward: bool = False
    once: bool = False


@dataclasses.dataclass(frozen=True)
class Notice:
    """What is told of a step: its name, and once it is done what came out; whether it was done before."""

    step: str
    said: Sequence[str] | None = None
    before: bool = False


Notify = Callable[[Notice], None]
Make = Callable[[], tuple[Sequence[str], Sequence[str]]]


def audit(config: Config | Path | str, log: Events | pd.DataFrame | Path | str | Sequence[Path | str],
          out: Path | str | None = None, *, program: Path | str | None = None, force: bool = False,
          wishes: Wishes = Wishes(), notify: Notify = lambda notice: None) -> Run:
    """Audits a log: reads it, looks for holes and faults, blanks the holes, and lets the program answer.

    Args:
        config: the configuration, or its file.
        log: events; a DataFrame with columns of stamps, codes and parameters; or the files of an export.
        out: the run's folder, made where it isn't there. A run in it goes on: only what hangs on something that has
            changed is done again. None: a folder that goes when the run isn't used any more.
        program: the built program; None: the one that `program.find_program` finds.
        force: does every step again.
        wishes: how it is made.
        notify: is told when a step begins and when it is done.

    Raises:
        InputError: the configuration or the log isn't what it has to be, or the folder is no run's.
        ProgramError: there is no program, it is of another version, or it refuses.
        ResourceError: a file can't be read or written, or memory ran out.
    """
    found = programs.find_program(program)
    folder = Path(tempfile.mkdtemp(prefix="sigaudit-")) if out is None else Path(out)
    with contextlib.ExitStack() as undo:
        if out is None:
            undo.callback(rmtree, folder, ignore_errors=True)
        with work_in(folder, force, notify) as work:
            made = audit_in(work, config, log, found, wishes)
        undo.pop_all()
    if out is None:
        weakref.finalize(made, rmtree, folder, ignore_errors=True)
    return made


class Work:
    """The steps of a run under way."""

    def __init__(self, folder: Path, steps: Steps, notify: Notify) -> None:
        self.folder = folder
        self.steps = steps
        self._notify = notify

    def step(self, name: str, made_of: Sequence[object], make: Make) -> None:
        """Does a step, unless it is done.

        Args:
            name: its name.
            made_of: values that `repr` tells apart, of which its files are made.
            make: writes the files, and returns their names from the folder, and what is said of them.
        """
        key = digest_of(VERSION, name, *made_of)
        if self.steps.is_done(name, key):
            self._notify(Notice(name, (), before=True))
            return
        self._notify(Notice(name))
        files, said = make()
        self.steps.record(name, key, files)
        self._notify(Notice(name, said))

    def write(self, name: str, lines: Sequence[str]) -> str:
        """Writes lines into a file of the folder, and returns its name."""
        write_text(self.folder / name, "".join(line + "\n" for line in lines))
        return name


@contextlib.contextmanager
def work_in(folder: Path, force: bool, notify: Notify) -> Iterator[Work]:
    """The steps of a folder, held alone.

    Raises:
        InputError, ResourceError: as `steps.locked`.
    """
    with locked(folder):
        steps = Steps(folder)
        if force:
            steps.forget()
        yield Work(folder, steps, notify)


def audit_in(work: Work, config: Config | Path | str, log: Events | pd.DataFrame | Path | str | Sequence[Path | str],
             program: programs.Program, wishes: Wishes) -> Run:
    """The steps of `audit` in a folder that is held."""
    settings = config if isinstance(config, Config) else read_config(config)
    return _Audit(work, settings, log, program, wishes).run()


class _Audit:
    """The steps to an answer."""

    def __init__(self, work: Work, config: Config, log: Events | pd.DataFrame | Path | str | Sequence[Path | str],
                 program: programs.Program, wishes: Wishes) -> None:
        self._work = work
        self._config = dataclasses.replace(config, path=Path(run.CONFIG))
        self._log = [log] if isinstance(log, (str, Path)) else log
        self._program = program
        self._wishes = wishes

    def run(self) -> Run:
        """Does what isn't done."""
        work, config = self._work, self._config
        work.step("config", [config.digest], self._copy_config)
        work.step("hours", [config.signal, config.start_tenth, config.hours, self._wishes.day_first,
                            self._wishes.backward, self._wishes.once, *self._log_digests()], self._cut_hours)
        log = work.steps.digest("hours")
        work.step("check", [config.digest, log], self._check)
        if self._wishes.holes:
            work.step("holes", [_without_rules(config), self._wishes.silence_s, self._wishes.chances, log],
                      self._find_holes)
        if self._is_long_enough():
            work.step("faults", [config.digest, log], self._find_faults)
        self._keep_script_of_hand()
        work.step("script", [config.digest, log, self._wishes.holes and work.steps.digest("holes")], self._write_script)
        answer_in(work, self._program, config)
        return run.open_run(work.folder)

    def _log_digests(self) -> list[str]:
        if isinstance(self._log, Sequence):
            return [_export_digest(Path(path)) for path in self._log]
        events = self._intake.events
        return [digest_of(events.tenth.tobytes(), events.code.tobytes(), events.param.tobytes())]

    @functools.cached_property
    def _intake(self) -> Intake:
        if isinstance(self._log, Events):
            inside = self._log.between(self._config.start_tenth, self._config.end_tenth)
            return Intake.of_events(inside, self._config.signal)
        return read_export(self._log, config=self._config, day_first=self._wishes.day_first,
                           backward=self._wishes.backward, once=self._wishes.once)

    @functools.cached_property
    def _events(self) -> Events:
        return run.read_events(self._work.folder / run.EVENTS)

    @functools.cached_property
    def _holes(self) -> Holes | None:
        return run.kept_holes(self._work.folder) if self._wishes.holes else None

    def _copy_config(self) -> tuple[list[str], list[str]]:
        with written(self._work.folder / run.CONFIG) as file:
            file.write(self._config.text)
        return [run.CONFIG], [f"signal {self._config.signal}, {self._config.hours} hours"]

    def _cut_hours(self) -> tuple[list[str], list[str]]:
        folder, intake = self._work.folder, self._intake
        events = intake.events
        files = [path.name for path in hour_files(intake, folder)]
        run.write_events(folder / run.EVENTS, events)
        lines = intake.lines()
        self._work.write(run.HOURS, lines)
        return [*files, run.EVENTS, run.HOURS], [*lines, f"{len(events)} rows of {len(files)} hours"]

    def _check(self) -> tuple[list[str], list[str]]:
        lines = worded(self._config, oddities(self._config, self._events))
        return [self._work.write(run.CHECK, lines)], lines[-1:]

    def _find_holes(self) -> tuple[list[str], list[str]]:
        from sigaudit_tools.holes import find_holes
        holes = find_holes(self._config, self._events, silence=self._wishes.silence_s, chances=self._wishes.chances,
                           doubled=self._intake.doubled_by_hour, hours=self._intake.hours)
        lines = holes.lines()
        said = [line for line in lines if line.startswith(("small ", "misfit ", "proposed "))]
        return [self._work.write(run.HOLES, lines)], said

    def _is_long_enough(self) -> bool:
        if self._wishes.faults is None:
            return len(self._hour_files()) >= FEWEST_HOURS_FOR_FAULTS
        return self._wishes.faults

    def _find_faults(self) -> tuple[list[str], list[str]]:
        from sigaudit_tools.faults import find_faults
        faults = find_faults(self._config, self._events)
        lines = faults.lines()
        try:
            files, said = self._write_without(faults), []
        except InputError as error:
            files, said = [], [f"no configuration without the approaches concerned: {error}"]
        return [self._work.write(run.FAULTS, lines), *files], [*lines, *said]

    def _write_without(self, faults: Faults) -> list[str]:
        """Writes the configuration without the approaches whose detectors are at fault, where there are such.

        Raises:
            InputError: it is written so that they can't be taken out of it.
        """
        config = faults.config_without(self._config)
        if config is None:
            return []
        make_folder(self._work.folder / run.WITHOUT)
        names = [f"{run.WITHOUT}/config-without.toml", f"{run.WITHOUT}/hours-without.txt"]
        write_text(self._work.folder / names[0], config)
        self._work.write(names[1], faults.hours_without(self._config))
        return names

    def _keep_script_of_hand(self) -> None:
        """Refuses to write over a script that was changed by hand."""
        path = self._work.folder / run.SCRIPT
        if path.is_file() and self._work.steps.changed("script"):
            raise InputError("was changed by hand", str(path),
                             "go on with it by sigaudit-tools run, or remove it to have it written anew")

    def _write_script(self) -> tuple[list[str], list[str]]:
        paths = [self._work.folder / name for name in self._hour_files()]
        hours, _ = script.hours_of_files(self._config, paths)
        blanks = self._holes.blanks if self._holes else ()
        text = script.script_of_hours(self._config, {hour: path.name for hour, path in hours.items()}, blanks)
        write_text(self._work.folder / run.SCRIPT, text)
        return [run.SCRIPT], []

    def _hour_files(self) -> list[str]:
        return [name for name in self._work.steps.files("hours") if name.endswith(".csv")]


def answer_in(work: Work, program: programs.Program, config: Config) -> None:
    """The step `answer`: what the program says to the script that stands in the folder."""
    made_of = [config.digest, work.steps.digest("hours"), digest(work.folder / run.SCRIPT), program.version,
               digest(program.path)]

    def make() -> tuple[list[str], list[str]]:
        text, _ = programs.run(program, Path(run.CONFIG), Path(run.SCRIPT), work.folder)
        with written(work.folder / run.ANSWER) as file:
            file.write(text)
        words = (work.folder / run.SCRIPT).read_text("latin-1")
        refused = [edit for edit in parse_answer(config, words, text).edits if edit.is_refused]
        return [run.ANSWER], [f"{' '.join(edit.words)}: {edit.answer}" for edit in refused]

    work.step("answer", made_of, make)


def _export_digest(path: Path) -> str:
    """The digest of a file of an export.

    Raises:
        InputError: there is no such file, or it is a folder.
    """
    if not path.exists() or path.is_dir():
        raise InputError("is a folder" if path.is_dir() else "No such file", str(path), "name the files of the export")
    return digest(path)


def _without_rules(config: Config) -> tuple[object, ...]:
    """What of a configuration a search for holes may look at: all but the rules of the audit."""
    return (config.signal, config.start_tenth, config.hours, config.coordination, config.phases, config.peds,
            config.overlaps, config.preempts, config.floors, config.approaches)
