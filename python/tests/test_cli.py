"""The command line as a whole: help, version, statuses."""

from __future__ import annotations

import pytest
from click.testing import CliRunner

from sigaudit_tools import VERSION
from sigaudit_tools.cli import _manners, verbs


def test_help_is_on_standard_output_and_right(capfd: pytest.CaptureFixture[str]) -> None:
    assert _manners.run(verbs, ["--help"]) == 0
    out, err = capfd.readouterr()
    assert out.startswith("Usage: sigaudit-tools ") and not err


def test_version(capfd: pytest.CaptureFixture[str]) -> None:
    assert _manners.run(verbs, ["--version"]) == 0
    assert VERSION in capfd.readouterr().out


def test_unknown_verb_is_a_usage_error(capfd: pytest.CaptureFixture[str]) -> None:
    assert _manners.run(verbs, ["nosuch"]) == 2
    assert "nosuch" in capfd.readouterr().err


@pytest.mark.parametrize("verb", verbs.list_commands(None))  # type: ignore[arg-type]
def test_each_verb_has_help(verb: str) -> None:
    answer = CliRunner().invoke(verbs, [verb, "--help"])
    assert answer.exit_code == 0
    assert "Usage: verbs " + verb in answer.output
