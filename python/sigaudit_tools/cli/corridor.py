"""The verb `corridor`."""

from __future__ import annotations

from pathlib import Path
from typing import TYPE_CHECKING

import click

from sigaudit_tools.cli import _manners, _options

if TYPE_CHECKING:
    from sigaudit_tools.errors import ToolError
    from sigaudit_tools.program import Program


@click.command()
@click.argument("corridor", type=_options.PATH, metavar="CORRIDOR")
@click.option("--jobs", type=click.IntRange(min=1), default=1, show_default=True, metavar="N",
              help="Audit so many signals at a time, each in a process of its own.")
def command(corridor: Path, jobs: int) -> None:
    """Audit the signals of a corridor, those of which something has changed, and join their tables.

    CORRIDOR has a folder a signal: config.toml; edits.txt, the lines load, replace, withdraw, blank and unblank in
    order of arrival, as corridor-arrive adds them; the hour files that these name; and holes.txt, where holes were
    looked for. What is made of a signal comes into its folder made, the joined tables into CORRIDOR/all, and the page
    of the corridor, which leads to the page of each signal, is CORRIDOR/index.html.

    Lines that the program refuses are said, and hold nothing. A signal that fails doesn't stop the others.
    """
    import concurrent.futures

    from sigaudit_tools.corridor import join, signals_of
    from sigaudit_tools.corridor.signals import MADE
    from sigaudit_tools.program import find_program
    from sigaudit_tools.report.corridor import read_line, write_index

    signals, program = signals_of(corridor), find_program()
    with concurrent.futures.ProcessPoolExecutor(jobs) as pool:
        found = dict(zip(signals, pool.map(audit_one, signals, [program] * len(signals))))
    for signal, outcome in found.items():
        for line in outcome[0]:
            _manners.say(f"{signal.name}: {line}")
    failed = {signal: error for signal, (_, error) in found.items() if error is not None}
    answered = [signal for signal in signals if signal not in failed]
    joined = [f"all/{name}" for name in join(corridor, answered)] if not failed else []
    write_index(corridor / "index.html", corridor.resolve().name, [
        read_line(signal, signal / MADE if signal in answered else signal / "none") for signal in signals], joined)
    _manners.say(f"{len(answered)} of {len(signals)} signals have an answer, see {corridor / 'index.html'}")
    for error in failed.values():
        raise error


def audit_one(folder: Path, program: Program) -> tuple[list[str], ToolError | None]:
    """Audits a signal; answers the lines that were refused, and the error with which it failed, if it did."""
    from sigaudit_tools.corridor import audit_signal
    from sigaudit_tools.errors import ToolError

    try:
        answer = audit_signal(folder, program)
    except ToolError as error:
        return [str(error)], error
    return [f"{' '.join(edit.words)}: {edit.answer}" for edit in answer.edits if edit.is_refused], None
