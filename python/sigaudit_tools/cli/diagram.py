"""The verb diagram."""

from __future__ import annotations

from pathlib import Path

import click

from sigaudit_tools.cli import _options, _pictures
from sigaudit_tools.errors import InputError


@click.command()
@_options.run_folder
@click.option("--phase", required=True, type=click.IntRange(1, 16), metavar="P", help="The phase.")
@_pictures.first
@_pictures.hours
@_pictures.out
def command(run_folder: Path, phase: int, first: str | None, hours: int | None, out: Path | None) -> None:
    """Draws the coordination diagram of a phase as SVG.

    Each whole cycle stands over its time of day, seconds since its begin upward: at the foot the end of yellow that
    begins it, then red, the area of green, the begin of yellow, and the end of yellow that ends it. Each dot is an
    arrival at an advance detector of the phase. Hatched is what the log doesn't tell. A cycle much longer than the
    usual ones is cut, and has a tip at its top.
    """
    from sigaudit_tools.report import figures

    answer = _pictures.audit_of_run(run_folder).answer
    shown = _pictures.shown(answer.config, first, hours)
    found = figures.diagram(answer, phase, shown)
    if found is None:
        raise InputError(f"no diagram of phase {phase}: no whole cycle, or the script doesn't ask for `points {phase}`",
                         str(run_folder), "take a phase with an advance detector, or other hours")
    _pictures.write(found.chart.file(figures.about_diagram(answer.config, found, shown)), out)
