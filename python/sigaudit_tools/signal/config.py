"""A configuration of sigaudit as values."""

from __future__ import annotations

import dataclasses
import hashlib
from pathlib import Path

from sigaudit_tools.errors import InputError, ResourceError
from sigaudit_tools.signal import document, mistakes
from sigaudit_tools.signal.channels import Channel
from sigaudit_tools.signal.document import Entry
from sigaudit_tools.times import HOUR, tenth_of_hour

MOST_BYTES = 1 << 20


@dataclasses.dataclass(frozen=True)
class Phase:
    """A phase 1 to 16, its ring 1 to 4 and its side of the barrier 1 to 4."""

    number: int
    ring: int
    side: int


@dataclasses.dataclass(frozen=True)
class Ped:
    """The pedestrian signal of a phase."""

    number: int


@dataclasses.dataclass(frozen=True)
class Overlap:
    """An overlap 1 to 16 and its 1 to 8 parent phases, in the order in which they stand."""

    number: int
    parents: tuple[int, ...]


@dataclasses.dataclass(frozen=True)
class Preempt:
    """A preempt 1 to 16."""

    number: int


@dataclasses.dataclass(frozen=True)
class Pair:
    """Two phases that are said to conflict, or to be allowed together."""

    a: int
    b: int


@dataclasses.dataclass(frozen=True)
class Floor:
    """How many tenths of a second (0 to 36,000) a colour of a channel is taken to last at least."""

    channel: Channel
    colour: str
    tenths: int


@dataclasses.dataclass(frozen=True)
class Interval:
    """A rule: a colour of a channel lasts at least, or at most, so many tenths of a second; one of the two is None."""

    channel: Channel
    colour: str
    at_least: int | None
    at_most: int | None


@dataclasses.dataclass(frozen=True)
class Approach:
    """An approach: its phase, its detectors (1 to 128), the tenths that vehicles travel from the advance detector to
    the stop bar, and the share of time, `high_num / high_den`, from which on the stop bar detector counts as busy."""

    name: str
    phase: int
    advance: int | None
    stop_bar: int | None
    travel: int
    high_num: int
    high_den: int


@dataclasses.dataclass(frozen=True)
class Config:
    """A configuration that sigaudit accepts.

    Attributes:
        path: where it was read; may be a name only.
        text: its bytes.
        digest: their SHA-256, as 64 digits.
        signal: the signal's name in the log.
        start_tenth: the tenth (`times`) at which the window begins, on an hour.
        hours: how many hours the window has, 1 to 744.
        coordination: whether the coordination (code 150) is a channel.
        phases, peds, overlaps, preempts, conflicts, allows, floors, intervals, approaches: the tables, entries in the
            order in which they stand.
    """

    path: Path
    text: bytes = dataclasses.field(repr=False)
    signal: str
    start_tenth: int
    hours: int
    coordination: bool
    phases: tuple[Phase, ...]
    peds: tuple[Ped, ...]
    overlaps: tuple[Overlap, ...]
    preempts: tuple[Preempt, ...]
    conflicts: tuple[Pair, ...]
    allows: tuple[Pair, ...]
    floors: tuple[Floor, ...]
    intervals: tuple[Interval, ...]
    approaches: tuple[Approach, ...]

    @property
    def digest(self) -> str:
        return hashlib.sha256(self.text).hexdigest()

    @property
    def end_tenth(self) -> int:
        """The first tenth after the window."""
        return self.start_tenth + self.hours * HOUR

    def numbers(self) -> dict[str, tuple[int, ...]]:
        """Of each kind of channels that rules may name the numbers, in the order in which they stand."""
        return {"phase": tuple(one.number for one in self.phases), "ped": tuple(one.number for one in self.peds),
                "overlap": tuple(one.number for one in self.overlaps),
                "preempt": tuple(one.number for one in self.preempts)}

    def channels(self) -> tuple[Channel, ...]:
        """The channels that rules may name, phases first, each kind by number."""
        return tuple(Channel(kind, number) for kind, numbers in self.numbers().items() for number in sorted(numbers))

    def floors_of(self, channel: Channel) -> dict[str, int]:
        """Of each colour of a channel that has a floor its tenths."""
        return {floor.colour: floor.tenths for floor in self.floors if floor.channel == channel}


def parse_config(text: bytes, path: Path) -> Config:
    """The configuration of a file's bytes.

    Args:
        text: at most a mebibyte of TOML.
        path: what it is called in errors.

    Raises:
        InputError: sigaudit refuses it; all its mistakes are named, a line each.
    """
    if len(text) > MOST_BYTES:
        raise InputError(f"{len(text)} bytes: expected at most {MOST_BYTES}", str(path), "leave out what isn't needed")
    found = mistakes.mistakes(text)
    if found:
        raise InputError(mistakes.worded(found, path), remedy="mend them, and see docs/FORMATS.md")
    return _of_document(document.parse(text), text, path)


def read_config(path: Path | str) -> Config:
    """The configuration of a file.

    Raises:
        ResourceError: the file can't be read.
        InputError: sigaudit refuses it; all its mistakes are named, a line each.
    """
    return parse_config(bytes_of(Path(path)), Path(path))


def bytes_of(path: Path) -> bytes:
    """The bytes of a configuration, without any check.

    Raises:
        InputError: there is no such file, or it is a folder.
        ResourceError: it can't be read.
    """
    try:
        return path.read_bytes()
    except (FileNotFoundError, IsADirectoryError) as error:
        raise InputError(f"no configuration: {error.strerror}", str(path), "name a file") from error
    except OSError as error:
        raise ResourceError(f"can't be read: {error.strerror}", str(path)) from error


def _of_document(top: Entry, text: bytes, path: Path) -> Config:
    """The values of a document without a mistake."""
    def entries(name: str) -> list[Entry]:
        return document.entries(top, name)

    return Config(
        path, text, document.text_at(top, "signal"), tenth_of_hour(document.text_at(top, "start")),
        document.number_at(top, "hours"), top.get("coordination") is True,
        tuple(Phase(*document.numbers_at(one, "number", "ring", "side")) for one in entries("phase")),
        tuple(Ped(document.number_at(one, "number")) for one in entries("ped")),
        tuple(Overlap(document.number_at(one, "number"), document.list_at(one, "parents"))
              for one in entries("overlap")),
        tuple(Preempt(document.number_at(one, "number")) for one in entries("preempt")),
        tuple(Pair(*document.numbers_at(one, "a", "b")) for one in entries("conflict")),
        tuple(Pair(*document.numbers_at(one, "a", "b")) for one in entries("allow")),
        tuple(Floor(*_limit(one), document.number_at(one, "tenths")) for one in entries("floor")),
        tuple(Interval(*_limit(one), document.optional_at(one, "at_least"), document.optional_at(one, "at_most"))
              for one in entries("interval")),
        tuple(map(_approach, entries("approach"))))


def _limit(entry: Entry) -> tuple[Channel, str]:
    return Channel.named(document.text_at(entry, "channel")), document.text_at(entry, "colour")


def _approach(entry: Entry) -> Approach:
    return Approach(
        document.text_at(entry, "name"), document.number_at(entry, "phase"),
        document.optional_at(entry, "advance"), document.optional_at(entry, "stop_bar"),
        document.number_at(entry, "travel", 0), document.number_at(entry, "high_num", 4),
        document.number_at(entry, "high_den", 5))
