"""The verb `run`."""

from __future__ import annotations

from pathlib import Path

import click

from sigaudit_tools.cli import _options


@click.command()
@_options.run_folder
def command(run_folder: Path) -> None:
    """Go on with a run from its session.txt, as it stands: the answer, and all that is made of it.

    For a script that was changed by hand, such as with other blanks than those that were proposed. What
    audit-export makes before the script is left as it is.
    """
    from sigaudit_tools.cli._progress import Progress
    from sigaudit_tools.cli._summary import say_summary
    from sigaudit_tools.publish import go_on_by_hand

    say_summary(go_on_by_hand(run_folder, notify=Progress()))
