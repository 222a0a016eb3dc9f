"""Faults of a log, as a value: what was found, what could be judged, and what to leave out."""

from __future__ import annotations

import dataclasses
from collections.abc import Iterable

from sigaudit_tools.errors import InputError
from sigaudit_tools.events import Events
from sigaudit_tools.faults import without
from sigaudit_tools.faults.chances import chances, likely_at
from sigaudit_tools.faults.evidence import evidence
from sigaudit_tools.faults.find import Finding, find, name_of
from sigaudit_tools.faults.rows import Group, Log
from sigaudit_tools.faults.tracks import mark_in_words
from sigaudit_tools.faults.watch import Watch
from sigaudit_tools.signal.config import Config
from sigaudit_tools.times import HOUR


@dataclasses.dataclass(frozen=True, eq=False)
class Faults:
    """What was found in a log.

    Attributes:
        findings: the faults, by time.
        never: detectors of the configuration without a row: nothing is known of them.
        small: channels with too few rows to learn from, and how many rows each has: their silences aren't judged.
        learned, channels: how many channels could be judged, and how many there are.
        seconds: of the log, whole hours.
    """

    findings: tuple[Finding, ...]
    never: tuple[int, ...]
    small: tuple[tuple[str, int], ...]
    learned: int
    channels: int
    seconds: float
    _watch: Watch = dataclasses.field(repr=False)

    def lines(self) -> list[str]:
        """What is said of it, in lines."""
        found = [finding.line() for finding in self.findings]
        found += [f"never detector {number}" for number in self.never]
        found += [f"small {name} rows {rows}" for name, rows in self.small]
        return [*found, f"learned {self.learned} of {self.channels} {self.seconds:.1f}"]

    def chances(self) -> list[str]:
        """How long a silence has to last until it is likely, in lines: for each hour of the day the minutes."""
        return [f"chance {name_of(group, self._watch.log)} after {mark_in_words(mark)} "
                + " ".join("-" if minute is None else str(minute) for minute in minutes)
                for group, mark, minutes in chances(self._watch)]

    def evidence(self, channel: str, tenth: int) -> list[str]:
        """What each witness saw in the silence of a channel (as it is printed, `detector 5`) at a tenth, in lines.

        Raises:
            InputError: the log has no such channel.
        """
        return evidence(self._watch, self.findings, channel, tenth)

    def likely_at(self, finding: Finding) -> int | None:
        """The tenth at which a silence that was found had lasted long enough to be likely, to a minute.

        None for chatter, and where too few of its kind were learned from.
        """
        if finding.actuations is not None:
            return None
        return likely_at(self._watch, finding.group, finding.begin, finding.end)

    def faulty(self, config: Config) -> set[str]:
        """The approaches of which a finding that is sure or likely names a detector."""
        return without.faulty_approaches(config, self.findings)

    def config_without(self, config: Config) -> str | None:
        """The text of the configuration without the approaches of faulty detectors; None where there are none.

        Raises:
            InputError: its approaches aren't tables of their own.
        """
        names = self.faulty(config)
        return without.without_approaches(config, names) if names else None

    def hours_without(self, config: Config) -> list[str]:
        """The hours for which that one is, in lines."""
        return without.hour_lines(config, without.faulty_hours(config, self.findings))


def find_faults(config: Config | None, events: Events, *, cards: Iterable[tuple[int, ...]] = (),
                hours: Iterable[int] = ()) -> Faults:
    """Looks for channels that fall silent while the rest of a signal goes on, and for detectors that are stuck.

    Args:
        config: tells which detectors there should be.
        events: the log of one signal.
        cards: the numbers of the detectors of each card, where they are known: they are judged as one channel too.
        hours: the first tenths of hours that are known to be there without a row.

    Raises:
        InputError: the log has no row.
    """
    log = Log.of_events(events, hours)
    if not len(log.tenth):
        raise InputError("no rows in which faults could be looked for", remedy="look at what was read")
    findings, watch = find(log, cards)
    single = [group for group in watch.tracks if len(group.numbers) == 1]
    judged = watch.judged_channels()
    small = [(name_of(group, log), len(watch.tracks[group].rows)) for group in single if group not in judged]
    return Faults(tuple(findings), tuple(_never(config, single)), tuple(small),
                  sum(group in judged for group in single), len(single), len(log.hours) * HOUR / 10, watch)


def _never(config: Config | None, single: list[Group]) -> list[int]:
    """The detectors of approaches that have no row, as often as one is named."""
    return [number for approach in (config.approaches if config else ())
            for number in (approach.advance, approach.stop_bar)
            if number is not None and Group("detector", (number,)) not in single]
