"""The verb `offsets`."""

from __future__ import annotations

from pathlib import Path

import click

from sigaudit_tools.cli import _options


@click.command()
@_options.run_folder
@click.option("--approach", metavar="NAME", help="This approach alone; without it all that have an advance detector.")
@_options.out_file
def command(run_folder: Path, approach: str | None, out: Path | None) -> None:
    """Print how many arrivals would have met green at each shift, as CSV.

    A row for each approach and shift: the seconds by which each vehicle would come later in its cycle, how many would
    then have met green, of how many arrivals in whole cycles, and whether it is the best shift.
    """
    from sigaudit_tools.errors import InputError
    from sigaudit_tools.run import open_run

    table = open_run(run_folder).answer.shifts
    if approach is not None:
        table = table[table["approach"] == approach]
        if table.empty:
            raise InputError(f"no shifts of approach {approach!r}", str(run_folder),
                             "name one that has an advance detector and arrivals in whole cycles")
    _options.put(table.to_csv(index=False, lineterminator="\n"), out)
