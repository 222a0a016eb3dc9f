"""The verb timeline."""

from __future__ import annotations

from pathlib import Path

import click

from sigaudit_tools.cli import _options, _pictures
from sigaudit_tools.errors import InputError


@click.command()
@_options.run_folder
@_pictures.first
@_pictures.hours
@_pictures.out
def command(run_folder: Path, first: str | None, hours: int | None, out: Path | None) -> None:
    """Draws the broken and undecided verdicts on a time line as SVG.

    Each rule with such a verdict has a line, those with the most weight above, and each verdict a mark at its time: a
    filled bar where the rule is broken, an open ring where it is undecided. Hatched is what the log doesn't tell.
    """
    from sigaudit_tools.report import figures

    audit = _pictures.audit_of_run(run_folder)
    if not audit.answer.last("audit"):
        raise InputError("the script has no `audit`", str(run_folder), "add the line and run the program again")
    shown = _pictures.shown(audit.answer.config, first, hours)
    _pictures.write(figures.timeline(audit, shown).file(figures.about(audit.answer.config, shown)), out)
