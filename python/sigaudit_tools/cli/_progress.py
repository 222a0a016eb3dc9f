"""How far a run is, on standard error: on a terminal the step under way, else a line for each that is done."""

from __future__ import annotations

import sys
import time

import click

from sigaudit_tools.auditing import Notice
from sigaudit_tools.cli import _manners

_CLEAR_LINE = "\r\x1b[K"


class Progress:
    """Tells of the steps of a run as they come."""

    def __init__(self) -> None:
        self._begun = time.monotonic()
        self._is_terminal = sys.stderr.isatty()

    def __call__(self, notice: Notice) -> None:
        if _manners.is_quiet():
            return
        if notice.said is None:
            if self._is_terminal:
                click.echo(f"{notice.step} ..", nl=False, err=True)
            self._begun = time.monotonic()
            return
        if self._is_terminal:
            click.echo(_CLEAR_LINE, nl=False, err=True)
        took = "as before" if notice.before else f"{time.monotonic() - self._begun:.1f} s"
        click.echo(f"{notice.step}: {took}", err=True)
        for line in notice.said:
            click.echo(f"  {line}", err=True)
