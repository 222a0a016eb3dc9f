"""The verb report."""

from __future__ import annotations

import dataclasses
import os
from pathlib import Path

import click

from sigaudit_tools.cli import _manners, _options, _pictures


@click.command()
@_options.run_folder
@click.option("--out", type=click.Path(path_type=Path), metavar="HTML",
              help="The file to write; report.html in the run's folder without it.")
def command(run_folder: Path, out: Path | None) -> None:
    """Makes the page that is handed on of a run: one HTML file.

    It has what of the window is known; what stands out; each rule that isn't kept, with its verdicts and the rows of
    the log that decide them; a time line; phases and approaches by hour; what it rests on, and the files with their
    digests. It needs no server and no network. The time on it is that of SOURCE_DATE_EPOCH where the environment has
    it.
    """
    from sigaudit_tools.report.page import write_page

    audit = _pictures.audit_of_run(run_folder)
    path = out or run_folder / "report.html"
    beside = os.path.relpath(run_folder / audit.folder, path.parent)
    write_page(path, dataclasses.replace(audit, folder=beside))
    _manners.say(f"the page is {path}")
