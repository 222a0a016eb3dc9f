"""Runs of the command line, in this process and in one of their own."""

from __future__ import annotations

import functools
import os
import signal
import subprocess
import sys
from pathlib import Path

import pytest
from makers.days import INTERSECTION, TOP

from sigaudit_tools.cli import _manners, verbs

CONFIG = INTERSECTION / "config.toml"
EXPORT = sorted(INTERSECTION.glob("o0?.csv"))

needs_program = pytest.mark.skipif(not os.environ.get("SIGAUDIT"), reason="SIGAUDIT names no program")


def call(*words: object) -> int:
    """Runs a command in this process, and answers its status."""
    return _manners.run(verbs, [str(word) for word in words])


def start(*words: object, **more: object) -> subprocess.Popen[bytes]:
    """Starts a command in a process of its own; its output is read by pipes, unless `more` says otherwise.

    Ctrl-C ends it also where these tests run in the background, where a shell has it ignored.
    """
    env = os.environ | {"PYTHONPATH": str(TOP / "python"), "PYTHONDONTWRITEBYTECODE": "1"}
    heed = functools.partial(signal.signal, signal.SIGINT, signal.SIG_DFL)
    options = {"stdout": subprocess.PIPE, "stderr": subprocess.PIPE, "env": env, "preexec_fn": heed} | more
    return subprocess.Popen([sys.executable, "-m", "sigaudit_tools", *map(str, words)], **options)  # type: ignore


def audit_words(out: Path, *more: object) -> list[object]:
    """The words that audit the three hours with outages."""
    return ["audit-export", "--no-chances", *more, "--config", CONFIG, "--out", out, *EXPORT]


def contents(folder: Path) -> dict[str, bytes]:
    """All files of a folder, by their names from there."""
    return {str(path.relative_to(folder)): path.read_bytes() for path in sorted(folder.rglob("*")) if path.is_file()}
