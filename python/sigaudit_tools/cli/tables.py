"""The verb tables."""

from __future__ import annotations

from pathlib import Path

import click

from sigaudit_tools.cli import _manners, _options, _pictures


@click.command()
@_options.run_folder
@_options.out_folder
@click.option("--decimal", type=click.Choice([".", ","]), default=".", show_default=True,
              help="The decimal mark; with a comma semicolons stand between the fields.")
def command(run_folder: Path, out: Path, decimal: str) -> None:
    """Writes the tables of a run as CSV, for a spreadsheet.

    Times are in seconds; an empty field is a number that isn't there. docs/GUIDE.md says what each table and column is.
    """
    from sigaudit_tools.report.tables import without_answer, write_tables

    audit = _pictures.audit_of_run(run_folder)
    for what, missing in without_answer(audit.answer):
        _manners.say(f"the script asks for no `{what}`, so nothing is in the tables of {missing}")
    out.mkdir(parents=True, exist_ok=True)
    write_tables(out, audit.frames, decimal)
    _manners.say(f"{len(audit.frames)} tables in {out}")
