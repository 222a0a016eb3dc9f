"""Configurations: what is refused is what sigaudit refuses, all mistakes are named, and what is odd."""

from __future__ import annotations

import os
import random
import subprocess
from pathlib import Path

import pytest
from makers import configs
from makers.days import INTERSECTION, TOP, intersection

from sigaudit_tools.errors import InputError
from sigaudit_tools.program import find_program
from sigaudit_tools.signal.channels import CHANNELS, Channel, channel_of
from sigaudit_tools.signal.config import Config, parse_config, read_config
from sigaudit_tools.signal.mistakes import mistakes, worded
from sigaudit_tools.signal.oddities import Others, oddities
from sigaudit_tools.signal.oddities import worded as odd_lines
from sigaudit_tools.times import HOUR, tenth_of_hour

KEPT = Path(__file__).parent / "kept" / "check"
SEEDS = range(40)
FLOORS = configs.TOP + "[[phase]]\nnumber = 2\nring = 1\nside = 1\n" + "".join(
    f'[[floor]]\nchannel = "phase 2"\ncolour = "{colour}"\ntenths = {tenths}\n'
    for colour, tenths in (("Green", 50), ("Yellow", 30)))


def config_of(text: str) -> Config:
    return parse_config(text.encode(), Path("c.toml"))


def said_by_program(text: str, folder: Path) -> str:
    """The refusal of the program, or an empty text."""
    (folder / "c.toml").write_bytes(text.encode())
    (folder / "script.txt").write_text("")
    made = subprocess.run([find_program().path, "--config", "c.toml", "--script", "script.txt"], cwd=folder,
                          capture_output=True, text=True)
    return made.stdout.rstrip("\n") if made.returncode else ""


def agree(text: str, folder: Path) -> None:
    found = mistakes(text.encode())
    assert (found[0].refusal if found else "") == said_by_program(text, folder)


needs_program = pytest.mark.skipif(not (os.environ.get("SIGAUDIT") or (TOP / "out" / "sigaudit").is_file()),
                                   reason="the program isn't built, and SIGAUDIT names none")


def test_tables_are_values() -> None:
    config = read_config(INTERSECTION / "config.toml")
    assert (config.signal, config.hours, config.coordination) == ("5101", 3, True)
    assert config.end_tenth - config.start_tenth == 3 * HOUR
    assert config.start_tenth == tenth_of_hour("2024-03-04T05")
    assert config.numbers()["phase"] == (1, 2, 3, 4, 5, 6, 7, 8)
    assert config.channels()[:2] == (Channel("phase", 1), Channel("phase", 2))
    assert config_of(FLOORS).floors_of(Channel("phase", 2)) == {"Green": 50, "Yellow": 30}
    assert all((interval.at_least is None) != (interval.at_most is None) for interval in config.intervals)
    assert {approach.high_den for approach in config.approaches} == {4, 5, 10, 20}


def test_all_mistakes_are_named_with_their_lines() -> None:
    text = (KEPT / "mistakes.toml").read_bytes()
    *lines, last = (KEPT / "mistakes.txt").read_text().splitlines()
    assert worded(mistakes(text), Path("mistakes.toml")).splitlines() == lines
    with pytest.raises(InputError) as caught:
        parse_config(text, Path("mistakes.toml"))
    assert "mistakes.toml:49: high_num = 5: expected at most high_den, which is 4" in str(caught.value)
    assert f"check: {len(lines)} mistakes, sigaudit says: {mistakes(text)[0].refusal}" == last


def test_what_is_odd_alone() -> None:
    config = parse_config((KEPT / "odd.toml").read_bytes(), Path("odd.toml"))
    assert odd_lines(config, oddities(config)) == (KEPT / "odd.txt").read_text().splitlines()


def test_what_is_odd_beside_a_log() -> None:
    config = parse_config((KEPT / "other.toml").read_bytes(), Path("other.toml"))
    assert odd_lines(config, oddities(config, intersection())) == (KEPT / "other.txt").read_text().splitlines()
    others = oddities(config, intersection(), Others(3, "line 1 of x: 8,.."))
    assert "3 rows are of another signal than 5101: line 1 of x: 8,.." in [odd.words for odd in others]


def test_a_log_outside_the_window_is_said() -> None:
    text = (INTERSECTION / "config.toml").read_text().replace("2024-03-04T05", "2025-03-04T05")
    config = config_of(text)
    assert "no row lies in the window" in [odd.words for odd in oddities(config, intersection())]


def test_too_long_and_missing_files_are_refused(tmp_path: Path) -> None:
    with pytest.raises(InputError, match="expected at most 1048576"):
        config_of("#" * (1 << 20) + "\n")
    with pytest.raises(InputError, match="no configuration"):
        read_config(tmp_path / "none.toml")
    with pytest.raises(InputError, match="no configuration"):
        read_config(tmp_path)
    with pytest.raises(InputError, match="isn't UTF-8"):
        parse_config(b"x = '\xff'", Path("c.toml"))


@pytest.mark.parametrize("seed", SEEDS)
def test_slips_are_found_at_their_lines(seed: int) -> None:
    rng = random.Random(f"slips {seed}")
    text, lines = configs.slips(rng, configs.config(rng))
    found = mistakes(text.encode())
    assert found and (found[0].reason == "not toml" or lines <= {mistake.line for mistake in found})


@pytest.mark.parametrize("seed", SEEDS)
def test_other_spellings_are_the_same(seed: int) -> None:
    rng = random.Random(f"spelled {seed}")
    text = configs.config(rng)
    config = config_of(text)
    for other in (configs.respelled(rng, text), configs.inlined(text)):
        found = config_of(other)
        assert (found.start_tenth, found.numbers(), found.conflicts, found.allows, found.floors, found.intervals,
                found.approaches) == (config.start_tenth, config.numbers(), config.conflicts, config.allows,
                                      config.floors, config.intervals, config.approaches)


@needs_program
@pytest.mark.parametrize("seed", SEEDS)
def test_the_program_refuses_the_same(seed: int, tmp_path: Path) -> None:
    rng = random.Random(f"program {seed}")
    text = configs.config(rng)
    for one in (text, configs.slips(rng, text)[0], configs.respelled(rng, text), configs.inlined(text)):
        agree(one, tmp_path)


@needs_program
@pytest.mark.parametrize("odd", configs.ODD_TOML)
def test_odd_toml_is_refused_as_by_the_program(odd: str, tmp_path: Path) -> None:
    agree((configs.TOP.replace("hours = 1\n", "") if odd == "hours = 1" else configs.TOP) + odd, tmp_path)


@needs_program
@pytest.mark.parametrize("name, text", configs.limits())
def test_limits_are_those_of_the_program(name: str, text: str, tmp_path: Path) -> None:
    agree(text, tmp_path)


def test_channels_are_found_by_code_and_parameter() -> None:
    assert channel_of(1, 16) == Channel("phase", 16) and channel_of(1, 17) is None and channel_of(1, 0) is None
    assert channel_of(150, 6) == Channel("coordination", 0) and channel_of(150, 7) is None
    assert channel_of(82, 128) == Channel("detector", 128) and channel_of(43, 2) is None
    assert len(set(CHANNELS)) == 225 and Channel("coordination", 0).name == "coordination"
