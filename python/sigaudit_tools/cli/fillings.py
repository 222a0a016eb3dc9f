"""The verb `fillings`."""

from __future__ import annotations

from pathlib import Path

import click

from sigaudit_tools.cli import _options
from sigaudit_tools.errors import Status

SECONDS = 60


@click.command()
@_options.run_folder
@click.option("--rule", type=click.IntRange(min=1), metavar="K", help="Of this rule; wants --at.")
@click.option("--at", metavar="STAMP", help="Of the verdict at this tenth, YYYY-MM-DDTHH:MM:SS.t.")
@click.option("--minutes", type=click.IntRange(min=0), default=2, show_default=True, metavar="M",
              help="Of how many minutes before the verdict known rows are shown.")
def command(run_folder: Path, rule: int | None, at: str | None, minutes: int) -> int:
    """Show why a verdict is undecided: how unknown tenths could be filled so that the rule is kept, and broken.

    Of the first undecided verdict of each of some rules; or, with --rule and --at, of that one. For each of the two
    histories and each channel of the rule it prints the colour with which the channel comes into the window, and its
    rows up to the verdict: those of the last minutes, and with a + all that are filled in.

    Status 1 where a fill isn't sound: at a known tenth, or out of order.
    """
    from sigaudit_tools import fillings
    from sigaudit_tools.errors import UsageError
    from sigaudit_tools.publish import asked_fillings
    from sigaudit_tools.report.evidence import KnownLog
    from sigaudit_tools.report.remarks import histories
    from sigaudit_tools.run import open_run
    from sigaudit_tools.times import tenth_of_stamp

    if (rule is None) != (at is None):
        raise UsageError("--rule and --at go together", remedy="take both from tables/verdicts.csv")
    run = open_run(run_folder)
    text = run.fillings if rule is None or at is None else asked_fillings(run, rule, tenth_of_stamp(at))
    log = KnownLog.of(run.answer, run.events)
    found = histories(text.splitlines())
    for (number, tenth), both in found.items():
        click.echo("\n".join(fillings.shown(number, tenth, both, log, SECONDS * minutes)))
    if not found:
        click.echo("nothing undecided" if rule else "nothing undecided was asked for")
        return Status.RIGHT
    click.echo("the fillings agree with the log and the tables of channels; that a controller would do so isn't said")
    sound = not any(fillings.faults(one, log) for both in found.values() for each in both for one in each.channels)
    return Status.RIGHT if sound else Status.FINDINGS
