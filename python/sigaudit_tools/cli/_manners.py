"""How every verb behaves: errors in words, statuses, progress, the end where the reader goes or Ctrl-C comes."""

from __future__ import annotations

import errno
import os
import signal
import sys
import traceback
import types
from collections.abc import Sequence

import click
from click.shell_completion import shell_complete

from sigaudit_tools.errors import ResourceError, Status, ToolError

NAME = "sigaudit-tools"
COMPLETION = "_SIGAUDIT_TOOLS_COMPLETE"
"""The variable by which a shell asks for completions."""
ENDED = 128
"""What shells add to the number of a signal, to have the status of what it ended."""


class Ended(BaseException):
    """Someone asked the command to end, by a signal."""

    def __init__(self, number: int) -> None:
        super().__init__(number)
        self.number = number


class _Shown:
    """What the user asked to be shown, of one run of the command."""

    quiet = False
    debug = False


def add_options(command: click.Command) -> None:
    """Gives a command the options that all have: --quiet and --debug."""
    if any(param.name == "debug" for param in command.params):
        return
    command.params += [
        click.Option(["-q", "--quiet"], is_flag=True, expose_value=False, callback=_be_quiet,
                     help="Say nothing on standard error but errors."),
        click.Option(["--debug"], is_flag=True, expose_value=False, callback=_debug,
                     help="Show where in the tools an error was raised."),
    ]


def say(text: str) -> None:
    """Says on standard error, in one line, what was done or is odd; not with --quiet."""
    if not _Shown.quiet:
        click.echo(text, err=True)


def is_quiet() -> bool:
    """Whether --quiet was given."""
    return _Shown.quiet


def run(command: click.Command, arguments: Sequence[str]) -> int:
    """Runs a command, prints what went wrong, and returns the status to end with."""
    _Shown.quiet = _Shown.debug = False
    for number in (signal.SIGTERM, signal.SIGHUP):
        signal.signal(number, _end)
    try:
        status = _invoke(command, arguments)
        sys.stdout.flush()
        return status
    except (click.exceptions.Abort, KeyboardInterrupt):
        return _ended(ENDED + signal.SIGINT)
    except Ended as error:
        return _ended(ENDED + error.number)
    except BrokenPipeError:
        return _ended(ENDED + signal.SIGPIPE)
    except click.ClickException as error:
        _trace()
        error.show()
        return Status.USAGE
    except ToolError as error:
        return _refuse(error)
    except OSError as error:
        return _refuse(ResourceError(error.strerror or str(error), error.filename or "standard output",
                                     _remedy(error)))
    except MemoryError:
        return _refuse(ResourceError("memory ran out", remedy="take fewer hours at once"))
    except Exception as error:
        return _refuse(ResourceError(f"a mistake in the tools: {type(error).__name__}: {error}",
                                     remedy="--debug shows where; please report it"))


def _invoke(command: click.Command, arguments: Sequence[str]) -> int:
    """The status of a command that ends by itself; or answers a shell that completes words.

    Not by click's own `main`, which takes a reader that goes for a failure.
    """
    instruction = os.environ.get(COMPLETION)
    if instruction:
        return shell_complete(command, {}, NAME, COMPLETION, instruction)
    try:
        with command.make_context(NAME, list(arguments)) as context:
            answer = command.invoke(context)
    except click.exceptions.Exit as ended:
        return ended.exit_code
    return int(answer) if isinstance(answer, int) else Status.RIGHT


def _end(number: int, frame: types.FrameType | None) -> None:
    raise Ended(number)


def _refuse(error: ToolError) -> int:
    _trace()
    click.echo(f"{NAME}: {error}", err=True)
    return _ended(error.status)


def _ended(status: int) -> int:
    """Lets standard output go to nowhere, so that what can't be written isn't tried once more at the end."""
    try:
        sys.stdout.flush()
    except OSError:
        os.dup2(os.open(os.devnull, os.O_WRONLY), sys.stdout.fileno())
    return status


def _remedy(error: OSError) -> str:
    if error.errno in (errno.ENOSPC, errno.EDQUOT):
        return "make room, or write elsewhere"
    return "look at the file and its folder"


def _trace() -> None:
    if _Shown.debug:
        traceback.print_exc()


def _be_quiet(ctx: click.Context, param: click.Parameter, value: bool) -> None:
    _Shown.quiet |= value


def _debug(ctx: click.Context, param: click.Parameter, value: bool) -> None:
    _Shown.debug |= value
