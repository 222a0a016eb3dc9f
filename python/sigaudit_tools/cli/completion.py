"""The verb `completion`."""

from __future__ import annotations

import click
from click.shell_completion import get_completion_class

from sigaudit_tools.cli import _manners


@click.command()
@click.argument("shell", type=click.Choice(["bash", "zsh", "fish"]))
def command(shell: str) -> None:
    """Print what makes a shell complete verbs, options and files.

    \b
    bash: sigaudit-tools completion bash > ~/.local/share/bash-completion/completions/sigaudit-tools
    zsh:  sigaudit-tools completion zsh > "${fpath[1]}/_sigaudit-tools"
    fish: sigaudit-tools completion fish > ~/.config/fish/completions/sigaudit-tools.fish
    """
    from sigaudit_tools.cli import verbs

    made = get_completion_class(shell)
    assert made is not None
    click.echo(made(verbs, {}, _manners.NAME, _manners.COMPLETION).source())
