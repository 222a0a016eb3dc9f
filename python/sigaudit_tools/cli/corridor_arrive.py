"""The verb `corridor-arrive`."""

from __future__ import annotations

from pathlib import Path

import click

from sigaudit_tools.cli import _manners, _options


@click.command()
@click.argument("folder", type=_options.PATH, metavar="FOLDER")
@click.argument("files", nargs=-1, required=True, type=_options.PATH, metavar="HOURFILE...")
def command(folder: Path, files: tuple[Path, ...]) -> None:
    """Take hour files of a signal into its folder of a corridor, in order of arrival.

    Hour files are those of the verb hours: the hour stands at the end of the name. Each is copied into FOLDER, and a
    line is added to FOLDER/edits.txt: load, or replace where the lines before hold the hour already. What came before
    stays, since the lines before name it. A file that is byte for byte the one that is held isn't taken.

    No holes are looked for: look for them in each file before, and put the blanks into edits.txt.
    """
    from sigaudit_tools.corridor import arrive

    for line in arrive(folder, files):
        _manners.say(line)
