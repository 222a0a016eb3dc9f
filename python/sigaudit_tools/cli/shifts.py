"""The verb shifts."""

from __future__ import annotations

from pathlib import Path

import click

from sigaudit_tools.cli import _options, _pictures
from sigaudit_tools.errors import InputError


@click.command()
@_options.run_folder
@click.option("--approach", required=True, metavar="NAME", help="The approach, as the configuration names it.")
@_pictures.out
def command(run_folder: Path, approach: str, out: Path | None) -> None:
    """Draws how many arrivals would have met green at each shift, as SVG.

    Over each shift, in seconds, the line tells of the arrivals in whole cycles how many would have met green, had each
    come so many seconds later in its cycle. The best shift has a ring; the dashed line is the log as it is.
    """
    from sigaudit_tools.report import figures

    answer = _pictures.audit_of_run(run_folder).answer
    found = figures.shifts(answer, approach)
    if found is None:
        raise InputError(f"no shifts of {approach}: no whole cycle, or the script doesn't ask for `offsets {approach}`",
                         str(run_folder), "take an approach with an advance detector")
    _pictures.write(found.chart.file(figures.about_shifts(answer.config, found)), out)
