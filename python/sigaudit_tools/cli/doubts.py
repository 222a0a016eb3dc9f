"""The verb doubts."""

from __future__ import annotations

import click

from sigaudit_tools.cli import _answered
from sigaudit_tools.errors import UsageError


@click.command()
@_answered.options
@click.option("--all", "every", is_flag=True, help="Say it of all lines that are kept by little.")
def command(given: _answered.Given, every: bool) -> None:
    """Say which verdicts stand on solid log, and which on a stretch that may lack rows.

    A broken line names the stretch of log that decides it; that of a line kept by an interval rule is the time of the
    colour. It prints a line for each broken one, and for each that is kept by little (within a tenth of its bound)
    where a gap is suspected. The most doubtful come first:

    \b
    GRADE X VERDICT RULE STAMP from FROM to TO gap S FROM TO WHY
        the strongest suspicion inside the stretch: the grade and X of the
        verb holes, - where there is no X; the gap, in seconds, from its last
        row before to its first row after
    solid - VERDICT RULE STAMP from FROM to TO
        nothing there is suspected
    unlearned - VERDICT RULE STAMP from FROM to TO
        the log there is too small to learn from, so only a contradiction
        would be suspected
    count VERDICT GRADE N
        how many there are
    broken N, of them ..
        the same of the broken ones in words
    blanked S of W s, P %: GRADE S, ..
        the blanked seconds of the held hours, their share, and the seconds by
        the grade of the hole for which they were blanked; by hand for others

    Kept lines are found where the script asks for `verdicts H`. A gap that the script blanked is no doubt: no history
    of a blank undoes the verdict. But lines that begin or end at the rows on both sides of it are weak, and so are
    those near a hole of which only the contradiction is certain.
    """
    from sigaudit_tools.holes.doubts import find_doubts

    read = _answered.read(given)
    if read.holes is None:
        raise UsageError("nothing is said of holes", remedy="give --holes FILE, what the verb holes said of this log")
    click.echo("\n".join(find_doubts(read.answer, read.events, read.holes).lines(every)))
