"""`--version`: of the tools, and of the program that they would run."""

from __future__ import annotations

import click

from sigaudit_tools._version import VERSION
from sigaudit_tools.errors import ToolError


def show(ctx: click.Context, param: click.Parameter, value: bool) -> None:
    """Prints the versions and ends."""
    if value and not ctx.resilient_parsing:
        click.echo(f"sigaudit-tools {VERSION}")
        click.echo(_program())
        ctx.exit()


def _program() -> str:
    """The program's version and place, or why there is none."""
    from sigaudit_tools.program import find_program
    try:
        program = find_program()
    except ToolError as error:
        return f"no program: {error}"
    return f"sigaudit {program.version or 'of a version that it does not tell'}, {program.path}"
