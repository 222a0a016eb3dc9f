"""The verb check."""

from __future__ import annotations

from pathlib import Path
from typing import TYPE_CHECKING

import click

from sigaudit_tools.cli import _options
from sigaudit_tools.errors import Status

if TYPE_CHECKING:
    from sigaudit_tools.signal.config import Config
    from sigaudit_tools.signal.oddities import Oddity


@click.command()
@_options.config
@click.argument("files", nargs=-1, type=_options.PATH, metavar="[FILE]...")
def command(config: Path, files: tuple[Path, ...]) -> int:
    """Check a configuration: all its mistakes at once, and what is odd in it.

    sigaudit names the first mistake of a configuration by its place alone; this names every one, with its line, key
    and value, what was expected, and the word that is nearest to a misspelt one. It refuses what sigaudit refuses.

    With FILEs, hour files or any export that the verb hours reads, it looks too whether configuration and log fit:
    bounds far from all that the log shows, or that it never keeps; channels and detectors that only one of the two
    has; rows of another signal or outside the window; hours without rows.

    \b
    CONFIG:LINE: KEY = VALUE: expected ..   a mistake
    CONFIG:LINE: odd: ..                    accepted, and perhaps a slip
    check: N mistakes, sigaudit says: ..    with the line that sigaudit prints; status 3
    check: accepted, N odd                  status 0
    """
    from sigaudit_tools.signal import config as configs
    from sigaudit_tools.signal import mistakes, oddities

    text = configs.bytes_of(config)
    wrong = mistakes.mistakes(text) if len(text) <= configs.MOST_BYTES else []
    if wrong:
        click.echo(mistakes.worded(wrong, config))
        click.echo(f"check: {len(wrong)} mistake{'s' * (len(wrong) > 1)}, sigaudit says: {wrong[0].refusal}")
        return Status.INPUT
    read = configs.parse_config(text, config)
    found = _beside(read, files) if files else oddities.oddities(read)
    click.echo("\n".join(oddities.worded(read, found)))
    return Status.RIGHT


def _beside(config: Config, files: tuple[Path, ...]) -> list[Oddity]:
    """What is odd in a configuration beside a log.

    Raises:
        InputError: no record of the files is a row of any signal.
    """
    from sigaudit_tools.events import Events
    from sigaudit_tools.intake import read_export
    from sigaudit_tools.signal.oddities import Others, oddities

    intake = read_export(files, signal=config.signal)
    others = intake.dropped.get("other signal")
    events = intake.events if intake.signals or not others else Events.none()
    return oddities(config, events, Others(others.count, others.first) if others else Others())
