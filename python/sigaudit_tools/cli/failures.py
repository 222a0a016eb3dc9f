"""The verb failures."""

from __future__ import annotations

from pathlib import Path

import click

from sigaudit_tools.cli import _options, _pictures
from sigaudit_tools.errors import InputError


@click.command()
@_options.run_folder
@_pictures.out
def command(run_folder: Path, out: Path | None) -> None:
    """Draws the split failures of each approach by hour, as SVG.

    Of each approach with a stop bar detector, over each hour: the services that fail in all histories that agree with
    the log, on them those that fail only in some, those that pass, and those that aren't judged (open at the window's
    end, or with a fault of the detector).
    """
    from sigaudit_tools.report import figures

    audit = _pictures.audit_of_run(run_folder)
    found = figures.failures(audit)
    if found is None:
        raise InputError("no approach has a service that was judged", str(run_folder),
                         "give the configuration an approach with a stop bar detector")
    _pictures.write(found.file(figures.about(audit.answer.config)), out)
