"""What a verdict is in figures and in words."""

from __future__ import annotations

import dataclasses

from sigaudit_tools.explain.log import KnownLog, Row, Rows
from sigaudit_tools.explain.rules import Bound, channels_of
from sigaudit_tools.holes.spans import Span
from sigaudit_tools.signal.channels import Channel
from sigaudit_tools.signal.rule_words import CHANNELS, colour_in_words, in_short, in_words

# By kind of rule the sentence of a kept line, and that of another with the words for what is known and what may be.
TOGETHER = {
    "conflict": ("phases {} and {} were not both served",
                 "phases {} and {} {} served", "were both", "may both have been"),
    "companion": ("phase {} was on or green, or its pedestrian signal showed no walk",
                  "pedestrian signal {} {} walk while its phase was neither on nor green", "showed", "may have shown"),
    "parents": ("one of the phases of overlap {} was served, or the overlap not green",
                "overlap {} {} green while none of its phases was served", "was", "may have been")}


@dataclasses.dataclass(frozen=True)
class Explanation:
    """A line of an answer in figures. What is said agrees with every history of the log: where rows are missing, a
    duration has a least and a greatest value, which are equal where the rows tell. Floors of the configuration aren't
    used: with them less may be possible, and never more.

    Attributes:
        verdict: broken, undecided or kept.
        rule, name: the rule's number, and its name as the program prints it.
        stamp: the tenth at which it is judged.
        limit: what a duration rule wants; None of another.
        least: the tenths that the colour lasted, or that what the rule forbids lasted; at least so many.
        greatest: and at most so many; None where no end of it is known.
        begin, end: the rows with which that began and ended, where they are known.
        stretch: the stretch that decides it, its first and its last tenth; None where none is printed.
        unknown: the unknown stretches that leave least and greatest apart, each from and up to.
        instead: of a duration rule, the other colours that the channel may have had before the row.
    """

    verdict: str
    rule: int
    name: str
    stamp: int
    limit: Bound | None
    least: int
    greatest: int | None
    begin: Row | None
    end: Row | None
    stretch: Span | None
    unknown: tuple[Span, ...]
    instead: tuple[str, ...]
    log: KnownLog = dataclasses.field(repr=False, compare=False)

    @property
    def in_words(self) -> str:
        """The rule as a sentence without its end."""
        return in_words(self.name)

    @property
    def in_short(self) -> str:
        """The rule's name with its time in seconds."""
        return in_short(self.name)

    @property
    def kind(self) -> str:
        """interval, conflict, companion or parents."""
        return "interval" if self.limit else self.name.split(" ")[0]

    @property
    def channels(self) -> tuple[Channel, ...]:
        """The channels of the rule."""
        return channels_of(self.name, self.log.answer.config)

    @property
    def bound(self) -> int | None:
        """The tenths that a duration rule wants; None of another."""
        return self.limit.tenths if self.limit else None

    @property
    def at(self) -> str | None:
        """least or most, of a duration rule; None of another."""
        return self.limit.at if self.limit else None

    @property
    def excess(self) -> int | None:
        """By how many tenths a duration misses its bound, where it is told; else None."""
        if self.limit is None or self.least != self.greatest:
            return None
        return self.limit.tenths - self.least if self.limit.at == "least" else self.least - self.limit.tenths

    @property
    def shown(self) -> str:
        """The verdict that the figures show by themselves; the floors may make more of it, and never another."""
        if self.limit is None:
            return "broken" if self.least else "kept" if self.greatest == 0 else "undecided"
        return verdict_of(self.limit, self.least, self.greatest, self.instead)

    @property
    def silence(self) -> Span | None:
        """The longest time without a row in the stretch that decides it, its ends; None where there is none."""
        return self.log.silence(*self.stretch) if self.stretch else None

    @property
    def rows(self) -> Rows | None:
        """The known rows in the stretch that decides it, its ends among them; None where there is none."""
        return self.log.rows(self.stretch[0], self.stretch[1] + 1, self.channels) if self.stretch else None

    def measured(self) -> str:
        """The duration in words: `12.0 s`, `from 2.0 to 3.5 s`, `at least 9.0 s`, `at most 2.1 s`, `an unknown
        time`."""
        if self.least == self.greatest:
            return in_seconds(self.least)
        if self.greatest is None:
            return f"at least {in_seconds(self.least)}" if self.least else "an unknown time"
        if self.least == 0:
            return f"at most {in_seconds(self.greatest)}"
        return f"from {self.least / 10:.1f} to {in_seconds(self.greatest)}"

    def sentence(self) -> str:
        """What was measured beside what the rule wants, in words."""
        if self.limit is None:
            return self._sentence_of_several()
        channel, colour, at, tenths = self.limit
        ended = "would have lasted, had it ended here," if self.verdict == "undecided" else "lasted"
        text = (f"the {colour_in_words(colour)} of {CHANNELS.get(channel.kind, channel.kind)} {channel.number} {ended} "
                f"{self.measured()}, and has to last at {at} {in_seconds(tenths)}")
        if self.excess is not None and self.excess > 0:
            text += f": {in_seconds(self.excess)} too {'short' if at == 'least' else 'long'}"
        return text

    def _sentence_of_several(self) -> str:
        """The sentence of a conflict, companion or parents rule."""
        kind, *numbers = self.name.split(" ")
        kept, other, was, may = TOGETHER[kind]
        if self.verdict == "kept":
            return kept.format(*numbers)
        if self.verdict == "broken":
            return f"{other.format(*numbers, was)} for {self.measured()}"
        return f"{other.format(*numbers, may)}, for {self.measured()}"


def in_seconds(tenths: int) -> str:
    """Tenths as seconds with a unit."""
    return f"{tenths // 10}.{tenths % 10} s"


def verdict_of(limit: Bound, least: int, greatest: int | None, instead: tuple[str, ...]) -> str:
    """The verdict of a duration from least to greatest (None: of any length), where another colour may have been."""
    long = float("inf") if greatest is None else greatest
    if least >= limit.tenths if limit.at == "least" else long <= limit.tenths:
        return "kept"
    breaks = long < limit.tenths if limit.at == "least" else least > limit.tenths
    return "broken" if breaks and not instead else "undecided"
