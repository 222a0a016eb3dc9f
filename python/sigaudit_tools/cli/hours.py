"""The verb hours."""

from __future__ import annotations

from pathlib import Path
from typing import TYPE_CHECKING

import click

from sigaudit_tools.cli import _manners, _options
from sigaudit_tools.errors import Status, UsageError

if TYPE_CHECKING:
    from sigaudit_tools.signal.config import Config


@click.command()
@_options.files
@click.option("--signal", metavar="ID", help="Take the rows of this signal alone; wanted where the records have none.")
@click.option("--from", "start", metavar="HOUR", help="Take the rows of the hours from HOUR (YYYY-MM-DDTHH) alone.")
@click.option("--hours", type=click.IntRange(1), metavar="N", help="So many hours from that one.")
@click.option("--config", type=_options.PATH, metavar="CONFIG",
              help="Take signal, start and hours from a configuration.")
@click.option("--out", default=".", type=_options.PATH, metavar="FOLDER",
              help="Where the files go; made if it isn't there. The present folder without it.")
@click.option("--day-first", is_flag=True, help="3/4/2024 is the third of April.")
@click.option("--backward", is_flag=True, help="The files have their last row first: turn each of them round.")
@click.option("--once", is_flag=True, help="Of rows with the same whole stamp, code and parameter keep one.")
@click.option("--replace", is_flag=True, help="Write over files that are there already.")
def command(files: tuple[Path, ...], signal: str | None, start: str | None, hours: int | None, config: Path | None,
            out: Path, day_first: bool, backward: bool, once: bool, replace: bool) -> int:
    """Cut an export of a log into one file an hour, in the form that sigaudit reads.

    It reads files of any length and any cut (a day, quarters of an hour), in UTF-8 or UTF-16, with or without a
    header, with commas, semicolons, tabs or bars, with or without quotes; dates as 2024-03-04, 2024/03/04, 3/4/2024
    or 4.3.2024; hours of the day to 24 or with AM and PM. A record has signal, stamp, code and parameter, or stamp,
    code and parameter; with a header its columns may stand in any order, and the stamp in two of them, date and time.
    Parquet is read where pyarrow is there.

    It writes FOLDER/ID_YYYY-MM-DDTHH.csv, the rows by their whole stamps, those of one stamp in the order of the
    files. On standard error it says of each file its SHA-256, its records without headers and the rows that it has;
    and how many records were dropped for which cause, with the first of them.

    Of a record that stands in two of the files (the same stamp, code and parameter) one is kept. A zone (Z, +01:00)
    is cut off, and the clock kept as it is written. Status 3 says that no row is kept.
    """
    from sigaudit_tools.intake import hours as hour_files
    from sigaudit_tools.intake import read_export
    from sigaudit_tools.signal.config import read_config

    wanted = None if config is None else read_config(config)
    begin, end = _window(start, hours, wanted)
    intake = read_export(files, signal=signal, config=wanted, begin=begin, end=end, day_first=day_first,
                         backward=backward, once=once)
    for line in intake.lines():
        _manners.say(f"hours: {line}")
    if not intake.signals:
        return Status.INPUT
    plan = hour_files.planned(intake, out)
    hour_files.hour_files(intake, out, replace=replace)
    for one in plan:
        if len(one.events) > hour_files.MOST_ROWS:
            _manners.say(f"hours: {one.path} has {len(one.events)} rows, and sigaudit reads {hour_files.MOST_ROWS}")
    _manners.say(f"hours: {hour_files.written_words(plan, out)}")
    return Status.RIGHT


def _window(start: str | None, hours: int | None, config: Config | None) -> tuple[int | None, int | None]:
    """The first tenth of the hours that are wanted, and the first after them; None where all are.

    Raises:
        UsageError: one of the two is given alone, without a configuration.
        InputError: it isn't an hour.
    """
    from sigaudit_tools.times import HOUR, tenth_of_hour

    if config is not None:
        begin = tenth_of_hour(start) if start else config.start_tenth
        return begin, begin + (hours or config.hours) * HOUR
    if (start is None) != (hours is None):
        raise UsageError("--from and --hours go together")
    if start is None or hours is None:
        return None, None
    return tenth_of_hour(start), tenth_of_hour(start) + hours * HOUR
