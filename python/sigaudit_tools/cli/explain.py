"""The verb explain."""

from __future__ import annotations

from typing import TYPE_CHECKING

import click

from sigaudit_tools.cli import _answered, _manners
from sigaudit_tools.errors import InputError, UsageError

if TYPE_CHECKING:
    from collections.abc import Iterator

    from sigaudit_tools.explain.finder import Line


@click.command()
@_answered.options
@click.option("--rule", type=click.IntRange(1), metavar="K", help="Explain the lines of rule K alone.")
@click.option("--at", metavar="STAMP", help="Explain the line of rule K at STAMP, whatever it is.")
@click.option("--undecided", is_flag=True, help="Explain the undecided lines too.")
@click.option("--rows", is_flag=True, help="List the rows of the stretch that decides a line.")
def command(given: _answered.Given, rule: int | None, at: str | None, undecided: bool, rows: bool) -> None:
    """Say what a verdict is in figures, with the rows of the log that show it.

    It explains the broken lines of the last audit, or of the answers to `verdicts H` where there is none. The hour
    files have to be there as they were. Of each line:

    \b
    VERDICT K STAMP RULE    the line, with the name of its rule
      says                  what was measured beside what the rule wants
      began, ended          the rows with which that began and ended, each with
                            its line of its file
      decided               the stretch of log that decides a broken line, with
                            the number of its rows, and of those that are of the
                            rule's channels
      silent                the longest time without any row in that stretch
      doubt                 the strongest suspicion in there that rows are
                            missing, where something was said of holes
      or                    the other colours that the channel may have had
                            before the row that ended this one
      floors                where they decide, and not the rows alone
      unknown               each stretch that isn't known for which the duration
                            has two bounds
      row                   with --rows each row of the deciding stretch; *
                            marks those of the rule's channels

    Durations are by the stamps of the known rows, without the floors of the configuration. With --at it says `none K
    STAMP RULE` where there is no verdict, why there is none, and the verdicts of the rule before and after it. Where
    the answer can't tell `kept` from none, since the script asks for no `verdicts H` of the hour, it says `kept or
    none`.
    """
    from sigaudit_tools.explain import text
    from sigaudit_tools.explain.finder import Finder
    from sigaudit_tools.holes.doubts import Suspicions
    from sigaudit_tools.times import tenth_of_stamp

    if at is not None and rule is None:
        raise UsageError("--at goes with --rule", remedy="name the rule: --rule K --at STAMP")
    moment = None if at is None else tenth_of_stamp(at)
    read = _answered.read(given)
    finder = Finder(read.answer, read.events)
    if not read.answer.judging:
        raise InputError("the script asks for no `audit` and no `verdicts H`", read.answer.script_name,
                         "add a line `audit` to it, and let the program run again")
    if rule is not None and rule not in finder.names:
        raise UsageError(f"there is no rule {rule}", remedy=f"the configuration has 1 to {len(finder.names)}")
    suspicions = Suspicions(read.holes, read.answer.unknown()) if read.holes else None

    def show(line: Line) -> Iterator[str]:
        return text.lines_of(finder.explain(line), read.line_of, suspicions, rows)

    if moment is not None and rule is not None:
        found = text.lines_at(finder, rule, moment, show)
    else:
        wanted = ("broken", "undecided") if undecided else ("broken",)
        found = [told for line in finder.lines(wanted) if rule in (None, line.rule) for told in show(line)]
    if found:
        click.echo("\n".join(found))
    else:
        _manners.say(f"explain: no line is {' or '.join(wanted)}")
