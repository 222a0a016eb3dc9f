"""The verb detectors."""

from __future__ import annotations

from pathlib import Path
from typing import TYPE_CHECKING

import click

from sigaudit_tools.cli import _manners, _options
from sigaudit_tools.errors import ResourceError, Status, UsageError

if TYPE_CHECKING:
    from sigaudit_tools.faults import Faults
    from sigaudit_tools.signal.config import Config

GREATEST = 128
GRADES = ("sure", "likely", "weak")


class _Card(click.ParamType):
    """The numbers of the detectors of a card: 1,2,3,4."""

    name = "card"

    def convert(self, value: object, param: click.Parameter | None, ctx: click.Context | None) -> tuple[int, ...]:
        words = str(value).split(",")
        if not all(word.isdecimal() and 1 <= int(word) <= GREATEST for word in words):
            self.fail(f"{value!r} aren't detectors from 1 to {GREATEST} with commas between", param, ctx)
        return tuple(sorted({int(word) for word in words}))


@click.command()
@_options.files
@click.option("--config", type=_options.PATH, metavar="CONFIG",
              help="The configuration of the signal: which detectors there should be.")
@click.option("--signal", metavar="ID", help="Take the rows of this signal alone.")
@click.option("--card", "cards", multiple=True, type=_Card(), metavar="1,2,3,4",
              help="These detectors are on one card, and are judged as one channel too; as often as there are cards. "
                   "Without it those are taken together which fall silent together.")
@click.option("--chances", is_flag=True, help="Say too how long a silence has to last until it is likely.")
@click.option("--explain", metavar="CHANNEL@STAMP",
              help="Instead of all this, what was seen in the silence of a channel (`detector 5`) at a stamp.")
@click.option("--out", type=_options.PATH, metavar="FOLDER",
              help="Write the configuration without the approaches of faulty detectors, and the hours for which it is.")
@click.option("--fail-on", type=click.Choice(GRADES),
              help="End with status 1 where a line has this grade, or a surer one.")
def command(files: tuple[Path, ...], config: Path | None, signal: str | None, cards: tuple[tuple[int, ...], ...],
            chances: bool, explain: str | None, out: Path | None, fail_on: str | None) -> int:
    """Look for what falls silent while the rest of a signal goes on, and for detectors that are stuck.

    FILEs are those of the verb hours, or any that it reads, of one signal. The verb holes looks for stretches in which
    the rows of every channel are lost. This looks for those in which one detector, several at once, the pedestrian
    inputs or the coordination (codes 131, 132, 150, 151, 152) have no row while the rest goes on, and for loops that
    don't change or don't stop changing. It learns from the log itself. It prints, by time:

    \b
    silent CHANNEL FROM TO GRADE SCORE
        no row of the channel from the row at FROM to the one at TO, or up to
        where the log ends or is silent itself for two minutes
    stuck on detector N FROM TO GRADE SCORE
        the same, and its last row said on, its next one off
    stuck off detector N FROM TO GRADE SCORE
        the same, and its last row said off, its next one on. A log can't tell a
        loop that fails so from rows of it that were lost
    chatter detector N FROM TO GRADE SCORE actuations A
        it went on so often there as vehicles don't make it go
    never CHANNEL
        a detector of the configuration without a row: nothing is known of it
    small CHANNEL rows R
        too few rows to learn from: its silences aren't judged
    learned CHANNELS of ALL SECONDS
        how many channels could be judged, and the seconds of the log
    chance CHANNEL after WORD M0 M1 .. M23
        with --chances: for each hour of the day the minutes, in the middle of
        four that begin in it, if nothing comes unanswered; 240 where it takes
        longer, - where the log has no such hour. WORD is the row before

    After a line of detectors stands ` logged C` where the log has a row of code C, 84 to 88, of one of them from a
    minute before FROM on: there sigaudit knows by itself, up to the next row of the detector.

    CHANNEL is `detector N`, `ped_detector N`, `coordination`, or several of a kind that fell silent together:
    `detector 1,2,3,4`, `detector all`. GRADE is sure, likely or weak; SCORE is the decimal logarithm of the days that
    this signal would have to run until chance alone made such a line: 1 is ten days, 3 a thousand. From 0.5 on a line
    is printed, from 1 it is likely, from 3 sure. A silence of less than five minutes is never printed.

    The program can't blank a channel. So, with --config and --out, FOLDER/config-without.toml is the configuration
    without the approaches whose detectors a line of grade sure or likely names, and FOLDER/hours-without.txt has a
    line for each hour to which it applies, `hour NUMBER HOUR APPROACH ..`; the number counts from the window's start.
    """
    from sigaudit_tools.faults import find_faults
    from sigaudit_tools.intake import read_export
    from sigaudit_tools.signal.config import read_config

    if out is not None and config is None:
        raise UsageError("--out wants --config")
    asked = None if explain is None else _asked(explain)
    read = None if config is None else read_config(config)
    intake = read_export(files, signal=signal or (read.signal if read else None))
    for line in intake.dropped_lines():
        _manners.say(f"detectors: {line}")
    faults = find_faults(read, intake.events, cards=cards, hours=intake.hours)
    if asked:
        click.echo("\n".join(faults.evidence(*asked)))
        return Status.RIGHT
    click.echo("\n".join(faults.lines() + (faults.chances() if chances else [])))
    if not faults.learned:
        _manners.say("detectors: the log is too small to learn from: a channel wants 60 silences")
    if out is not None and read is not None:
        _write_without(faults, read, out)
    failing = GRADES[:GRADES.index(fail_on) + 1] if fail_on else ()
    return Status.FINDINGS if any(finding.grade in failing for finding in faults.findings) else Status.RIGHT


def _asked(text: str) -> tuple[str, int]:
    """The channel and the tenth of CHANNEL@STAMP.

    Raises:
        UsageError: it isn't one.
    """
    from sigaudit_tools.errors import InputError
    from sigaudit_tools.times import tenth_of_stamp

    name, _, stamp = text.rpartition("@")
    try:
        tenth = tenth_of_stamp(stamp)
    except InputError as error:
        raise UsageError(f"{text!r} isn't CHANNEL@STAMP", remedy="detector 5@2024-03-04T05:00:00.0") from error
    if not name:
        raise UsageError(f"{text!r} has no channel", remedy="detector 5@2024-03-04T05:00:00.0")
    return name, tenth


def _write_without(faults: Faults, config: Config, folder: Path) -> None:
    from sigaudit_tools.files import write_text

    text, hours = faults.config_without(config), faults.hours_without(config)
    try:
        folder.mkdir(parents=True, exist_ok=True)
    except OSError as error:
        raise ResourceError(f"no folder can be made: {error.strerror}", str(folder), "choose another") from error
    write_text(folder / "config-without.toml", config.text.decode("utf-8") if text is None else text)
    write_text(folder / "hours-without.txt", "".join(f"{line}\n" for line in hours))
    if text is not None:
        _manners.say(f"detectors: arrivals, actuations and split failures of {' '.join(sorted(faults.faulty(config)))} "
                     f"mean nothing in the hours of {folder / 'hours-without.txt'}")
