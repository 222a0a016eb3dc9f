"""The verb `audit-export`."""

from __future__ import annotations

from pathlib import Path

import click

from sigaudit_tools.cli import _options


@click.command()
@_options.config
@_options.out_folder
@click.option("--silence", type=click.FloatRange(min=0, min_open=True), metavar="SECONDS",
              help="Blank a silence of the whole log of so long too, by night as well.")
@click.option("--no-holes", is_flag=True, help="Look for no holes, and blank none.")
@click.option("--no-detectors", is_flag=True, help="Look for no silent, stuck and chattering detectors.")
@click.option("--no-chances", is_flag=True, help="Don't find out how short an outage would be found.")
@click.option("--day-first", is_flag=True, help="3/4/2024 is the third of April.")
@click.option("--backward", is_flag=True, help="The files have their last row first.")
@click.option("--once", is_flag=True, help="Of rows with the same whole stamp, code and parameter keep one.")
@click.option("--force", is_flag=True, help="Do every step again, also what is done.")
@_options.files
def command(config: Path, out: Path, silence: float | None, no_holes: bool, no_detectors: bool, no_chances: bool,
            day_first: bool, backward: bool, once: bool, force: bool, files: tuple[Path, ...]) -> None:
    """The whole way: from an export to its audit, tables, pictures and page.

    FILEs are an export in any form that the verb hours reads. Into the folder --out come the hours (hours.txt says what
    was read, check.txt what is odd), what was looked for and found (holes.txt, and of 24 hours and more
    detectors.txt), the script (session.txt), the answer (answer.txt), on how solid a log it stands (doubts.txt), the
    tables (tables/*.csv), the pictures, two histories of some undecided lines (pairs.txt), and report.html, the page
    of all this.

    A run that was ended goes on where it was; one whose configuration or files have changed does again only what hangs
    on them. Read holes.txt: the blanks that are proposed there are taken as they are.
    """
    from sigaudit_tools.auditing import Wishes
    from sigaudit_tools.cli._progress import Progress
    from sigaudit_tools.cli._summary import say_summary
    from sigaudit_tools.publish import audit_export

    wishes = Wishes(holes=not no_holes, faults=False if no_detectors else None, silence_s=silence,
                    chances=not no_chances, day_first=day_first, backward=backward, once=once)
    say_summary(audit_export(config, files, out, force=force, wishes=wishes, notify=Progress()))
