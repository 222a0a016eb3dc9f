"""The verb `session`."""

from __future__ import annotations

from pathlib import Path

import click

from sigaudit_tools.cli import _manners, _options


@click.command()
@_options.config
@click.option("--holes", type=_options.PATH, metavar="FILE",
              help="Blanks: the lines that begin with `blank` of this file, such as the verb holes prints.")
@click.option("--edits", type=_options.PATH, metavar="FILE",
              help="Begin with the lines of this file as they are (load, replace, withdraw, blank, unblank).")
@_options.out_file
@click.argument("files", nargs=-1, type=_options.PATH, metavar="[HOURFILE]...")
def command(config: Path, holes: Path | None, edits: Path | None, out: Path | None, files: tuple[Path, ...]) -> None:
    """Write a script for sigaudit: blanks, loads, and all that the tables and the page want.

    Hour files are those of the verb hours: the hour stands at the end of the name, and the name without its folder
    stands in the script, so sigaudit is to be called in their folder. The script asks for the audit and the measures
    of the window, for verdicts and measures of each hour that it loads, for the diagram of each phase that has an
    advance detector, and for the shifts of each approach that has one.
    """
    from sigaudit_tools import script
    from sigaudit_tools.errors import UsageError
    from sigaudit_tools.signal.config import read_config

    if (edits is None) == (not files) or (edits and holes):
        raise UsageError("either hour files, with or without --holes, or --edits", remedy="name one of the two")
    settings = read_config(config)
    if edits:
        text = script.script_of_edits(settings, _options.text_of(edits), str(edits))
    else:
        hours, outside = script.hours_of_files(settings, files)
        for path in outside:
            _manners.say(f"left out, not in the window: {path}")
        blanks = script.blanks_of(_options.text_of(holes), str(holes)) if holes else []
        text = script.script_of_hours(settings, {hour: path.name for hour, path in hours.items()}, blanks)
    _options.put(text, out)
