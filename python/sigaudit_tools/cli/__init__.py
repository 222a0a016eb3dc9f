"""The command line: `sigaudit-tools VERB`, a verb for each module of this folder without an underscore before its name.

A module is imported when its verb is called or the verbs are listed, so it imports numpy, pandas and what stands on
them inside its function alone.
"""

from __future__ import annotations

import importlib
import pkgutil
import sys

import click

from sigaudit_tools.cli import _manners, _version


class Verbs(click.Group):
    """A group whose commands are the modules beside this file: `cli/audit_export.py` is `audit-export`."""

    def list_commands(self, ctx: click.Context) -> list[str]:
        return sorted(name.replace("_", "-") for _, name, _ in pkgutil.iter_modules(__path__) if name[0] != "_")

    def get_command(self, ctx: click.Context, cmd_name: str) -> click.Command | None:
        if cmd_name not in self.list_commands(ctx):
            return None
        module = importlib.import_module(f"{__name__}.{cmd_name.replace('-', '_')}")
        verb = module.command
        assert isinstance(verb, click.Command)
        verb.name = cmd_name
        _manners.add_options(verb)
        return verb


@click.command(cls=Verbs, context_settings={"help_option_names": ["-h", "--help"], "max_content_width": 100})
@click.option("--version", is_flag=True, is_eager=True, expose_value=False, callback=_version.show,
              help="Show the versions of the tools and of the program, and end.")
def verbs() -> None:
    """Tools around sigaudit: from the export of a traffic signal's log to its audit, tables and page.

    What sigaudit itself prints is proved; what these tools print is tested.
    """


_manners.add_options(verbs)


def main() -> None:
    """Runs the verb of the process's arguments, and ends the process with its status."""
    sys.exit(_manners.run(verbs, sys.argv[1:]))
