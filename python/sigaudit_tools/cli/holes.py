"""The verb holes."""

from __future__ import annotations

from pathlib import Path

import click

from sigaudit_tools.cli import _manners, _options


@click.command()
@_options.files
@click.option("--config", type=click.Path(path_type=Path), metavar="CONFIG",
              help="The configuration of the signal. Without it only rows tell which channels there are, and rings "
                   "aren't known.")
@click.option("--signal", metavar="ID", help="Take the rows of this signal alone; wanted where the records have none.")
@click.option("--silence", type=float, metavar="SECONDS", help="Silences of all channels for so long are holes too.")
@click.option("--certain", is_flag=True, help="Look for contradictions alone, and learn nothing.")
@click.option("--no-chances", is_flag=True, help="Leave the lines `chance` out; they take a fifth of the time.")
@click.option("--jobs", type=click.IntRange(1), default=1, metavar="N",
              help="So many processes at a time, for a log of more than a week.")
@click.option("--top", type=click.IntRange(0), default=5, metavar="N", help="So many lines `silence` an hour.")
@click.option("--explain", metavar="STAMP", help="Say why the gap at STAMP has its grade, and nothing else.")
def command(files: tuple[Path, ...], config: Path | None, signal: str | None, silence: float | None, certain: bool,
            no_chances: bool, jobs: int, top: int, explain: str | None) -> None:
    """Look for holes in a log: gaps that hide lost rows, each with a grade.

    FILEs are those of the verb hours, or any that it reads, of one signal. sigaudit takes an hour that it holds as
    whole, so what is missing has to be found before. Times are in seconds.

    \b
    hour H rows R repeats P doubled D first STAMP last STAMP
        P as sigaudit counts them; D rows have the whole stamp, code and
        parameter of an earlier one; - in an hour without rows
    hour H missing
        an hour between others of which there is no row and no file
    nearly_empty H rows R of M
        less than a tenth of the median M of the hours' rows, or none
    quiet H CHANNEL, ..
        channels that act in other hours and not in this one
    restart STAMP code C param P NAME
        power, flash or clock: blank what may be missing around it
    silence S FROM TO
        the longest of each hour between two rows of the log
    channel NAME rows R silence S FROM TO
        the longest time without a row of that channel
    never NAME
        a channel of the configuration without a row
    small FROM TO tenths N
        too small to learn from: of it only what contradicts is proposed
    misfit KIND code C N of M first STAMP
        so many rows of the code can't follow those before them: the
        controller logs otherwise than by the machines of docs/FORMATS.md.
        That is no hole; the hours are refused
    hole S FROM TO GRADE X WHY
        a gap for which a blank is proposed; FROM and TO are the row before
        and the row after. GRADE is certain (no history has the rows on both
        sides), sure (X, the logarithm of the odds, is 0 or more) or likely
        (-2.5 or more; or an edge of the log, or --silence)
    suspect S FROM TO weak X WHY
        X from -5 on: no blank is proposed. What is neither is solid
    chance HOURS LENGTH FOUND of N
        of random outages of that length, cut into this log between these
        hours, so many get a blank. What isn't found here isn't found in
        earnest either
    proposed B blanks S of W
        how many, and their seconds of those of the hours
    blank A B
        each hole as a line of a script; those that overlap as one

    A proposal is a guess: an outage that took a few rows, or a night's few, leaves no trace (see the chances). A blank
    that is too large leaves more undecided; one that is too small can make a rule broken that was kept. So look at
    each, widen where in doubt, and never make one smaller until a file loads.
    """
    from sigaudit_tools.holes import find_holes
    from sigaudit_tools.holes.explained import explain_gap
    from sigaudit_tools.intake import read_export
    from sigaudit_tools.signal.config import read_config
    from sigaudit_tools.times import tenth_of_stamp

    moment = None if explain is None else tenth_of_stamp(explain)
    wanted = None if config is None else read_config(config)
    intake = read_export(files, signal=signal or (wanted.signal if wanted else None))
    for cause, dropped in sorted(intake.dropped.items()):
        _manners.say(f"holes: dropped {dropped.count}: {cause}; first {dropped.first}")
    if moment is not None:
        lines = explain_gap(wanted, intake.events, moment, hours=intake.hours)
    else:
        found = find_holes(wanted, intake.events, hours=intake.hours, doubled=intake.doubled_by_hour, silence=silence,
                           jobs=jobs, chances=not no_chances, certain=certain, top=top)
        lines = found.lines()
    click.echo("\n".join(lines))
