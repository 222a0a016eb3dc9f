"""The options that mean one thing in all verbs, and what all verbs do with files that they name."""

from __future__ import annotations

from pathlib import Path

import click

from sigaudit_tools.errors import InputError, ResourceError
from sigaudit_tools.files import write_text

PATH = click.Path(path_type=Path)

config = click.option("--config", required=True, type=PATH, metavar="CONFIG",
                      help="The configuration of the signal and its rules.")
holes = click.option("--holes", type=PATH, metavar="FILE", help="What the verb holes said of this log.")
run_folder = click.option("--run", "run_folder", required=True, type=PATH, metavar="FOLDER",
                          help="The folder of a run, as audit-export makes it.")
out_folder = click.option("--out", required=True, type=PATH, metavar="FOLDER",
                          help="The folder to write into; it is made where it isn't there.")
out_file = click.option("--out", type=PATH, metavar="FILE", help="The file to write; standard output without it.")
files = click.argument("files", nargs=-1, required=True, type=PATH, metavar="FILE...")


def text_of(path: Path) -> str:
    """The text of a file that an option names, byte by byte.

    Raises:
        InputError: there is no such file, or it is a folder.
        ResourceError: it can't be read.
    """
    try:
        return path.read_bytes().decode("latin-1")
    except (FileNotFoundError, IsADirectoryError) as error:
        raise InputError(f"can't be read: {error.strerror}", str(path), "name a file") from error
    except OSError as error:
        raise ResourceError(f"can't be read: {error.strerror}", str(path)) from error


def put(text: str, out: Path | None) -> None:
    """Prints a text, or writes it to the file that --out names."""
    if out is None:
        click.echo(text, nl=False)
    else:
        write_text(out, text)
