"""What the verbs that draw share: the run they draw of, the hours that are shown, where the picture goes."""

from __future__ import annotations

from pathlib import Path
from typing import TYPE_CHECKING

import click

from sigaudit_tools.errors import UsageError
from sigaudit_tools.times import HOUR, hour_of, tenth_of_hour

if TYPE_CHECKING:
    from sigaudit_tools.report.audit import Audit
    from sigaudit_tools.signal.config import Config

out = click.option("--out", type=click.Path(path_type=Path), metavar="SVG",
                   help="The file to write; standard output without it.")
first = click.option("--from", "first", metavar="HOUR",
                     help="The first hour that is drawn: a number from 0 on, or YYYY-MM-DDTHH.")
hours = click.option("--hours", type=click.IntRange(min=1), metavar="N",
                     help="So many hours are drawn; with --from 1, without both the window.")


def audit_of_run(folder: Path) -> Audit:
    """What was found in a run, as tables, pictures and page have it."""
    from sigaudit_tools.report.make import audit_of
    from sigaudit_tools.run import open_run

    run = open_run(folder)
    return audit_of(run.answer, run.events, run.folder, run.holes, run.faults_said, run.fillings)


def shown(config: Config, hour: str | None, count: int | None) -> tuple[int, int] | None:
    """The time that is drawn, from and up to; None for the window.

    Raises:
        UsageError: it isn't in the window.
        InputError: it is no hour.
    """
    if hour is None and count is None:
        return None
    if hour is None or hour.isdecimal():
        begin = config.start_tenth + int(hour or 0) * HOUR
    else:
        begin = tenth_of_hour(hour)
    end = begin + (count or 1) * HOUR
    if not config.start_tenth <= begin < end <= config.end_tenth:
        raise UsageError("these hours aren't in the window", "--from, --hours",
                         f"take some of 0 to {config.hours - 1}, which begins with {hour_of(config.start_tenth)}")
    return begin, end


def write(text: str, path: Path | None) -> None:
    """Writes the text of a picture into a file, or to standard output."""
    from sigaudit_tools.files import write_text

    if path is None:
        click.echo(text, nl=False)
    else:
        write_text(path, text)
