"""Holes as lines of text, and back."""

from __future__ import annotations

from collections.abc import Callable, Iterator
from pathlib import Path

from sigaudit_tools.errors import InputError, ResourceError
from sigaudit_tools.holes.found import Holes
from sigaudit_tools.holes.model import Chance
from sigaudit_tools.holes.spans import Span
from sigaudit_tools.holes.survey import RESTARTS, ChannelRows, HourRows, Quiet, Restart, Survey
from sigaudit_tools.holes.values import Hole, Misfit, Small, Suspect
from sigaudit_tools.times import HOUR, hour_of, stamp_of, tenth_of_hour, tenth_of_stamp


def lines_of(holes: Holes) -> Iterator[str]:
    """The lines, in their order."""
    yield from _hours(holes.survey)
    for restart in holes.survey.restarts:
        yield (f"restart {stamp_of(restart.tenth)} code {restart.code} param {restart.param} "
               f"{RESTARTS[restart.code]}")
    for silence in holes.survey.silences:
        yield f"silence {_gap(silence)}"
    for channel in holes.survey.channels:
        yield f"channel {channel.name} rows {channel.rows} silence {_gap(channel.silence)}"
    for name in holes.survey.never:
        yield f"never {name}"
    yield from _found(holes)
    end = len(holes.survey.hours) * HOUR
    yield f"proposed {len(holes.blanks)} blanks {holes.blanked_tenths / 10:.1f} of {end / 10:.1f}"
    for low, high in holes.blanks:
        yield f"blank {stamp_of(low)} {stamp_of(high)}"


def _hours(survey: Survey) -> Iterator[str]:
    missing = list(survey.missing)
    for one in survey.hours:
        while missing and missing[0] < one.hour:
            yield f"hour {hour_of(missing.pop(0))} missing"
        first, last = ("-" if tenth is None else stamp_of(tenth) for tenth in (one.first, one.last))
        yield (f"hour {hour_of(one.hour)} rows {one.rows} repeats {one.repeats} doubled {one.doubled} "
               f"first {first} last {last}")
    median, empty = survey.median, set(survey.nearly_empty)
    quiet = {one.hour: one for one in survey.quiet}
    for one in survey.hours:
        if one in empty:
            yield f"nearly_empty {hour_of(one.hour)} rows {one.rows} of {median}"
        if one.hour in quiet:
            yield f"quiet {hour_of(one.hour)} {', '.join(quiet[one.hour].channels)}"


def _found(holes: Holes) -> Iterator[str]:
    for small in holes.small:
        yield f"small {stamp_of(small.begin)} {stamp_of(small.end)} tenths {small.tenths}"
    for misfit in holes.misfits:
        yield (f"misfit {misfit.kind} code {misfit.code} {misfit.count} of {misfit.rows} "
               f"first {stamp_of(misfit.first)}")
    for hole in holes.holes:
        score = "-" if hole.score is None else f"{hole.score:.1f}"
        yield f"hole {_gap((hole.begin, hole.end))} {hole.grade} {score} {hole.why}"
    for one in holes.suspects:
        yield f"suspect {_gap((one.begin, one.end))} weak {one.score:.1f} {one.why}"
    for chance in holes.chances:
        yield (f"chance {chance.first:02d}-{chance.last:02d} {chance.shortest // 10}-{chance.longest // 10} "
               f"{chance.found} of {chance.cuts}")


def _gap(gap: Span) -> str:
    return f"{(gap[1] - gap[0]) / 10:.1f} {stamp_of(gap[0])} {stamp_of(gap[1])}"


def parse(path: Path) -> Holes:
    """Holes of a file of such lines.

    Raises:
        InputError: it isn't that, or isn't whole.
        ResourceError: it can't be read.
    """
    try:
        text = path.read_text(encoding="utf-8")
    except UnicodeDecodeError as error:
        raise InputError("isn't what the verb holes says", str(path), REMEDY) from error
    except (FileNotFoundError, IsADirectoryError, NotADirectoryError) as error:
        raise InputError(f"can't be read: {error.strerror}", str(path), REMEDY) from error
    except OSError as error:
        raise ResourceError(f"can't be read: {error.strerror}", str(path)) from error
    parts = _Parts()
    for number, line in enumerate(text.splitlines(), 1):
        try:
            parts.take(line.split(" "))
        except (InputError, KeyError, ValueError, IndexError) as error:
            raise InputError("isn't a line of the verb holes", f"{path}:{number}", REMEDY) from error
    return parts.whole(path, text.endswith("\n"))


REMEDY = "make it anew by sigaudit-tools holes"


class _Parts:
    """What was read so far."""

    def __init__(self) -> None:
        self.hours: list[HourRows] = []
        self.quiet: list[Quiet] = []
        self.restarts: list[Restart] = []
        self.silences: list[Span] = []
        self.channels: list[ChannelRows] = []
        self.never: list[str] = []
        self.small: list[Small] = []
        self.misfits: list[Misfit] = []
        self.holes: list[Hole] = []
        self.suspects: list[Suspect] = []
        self.chances: list[Chance] = []
        self.proposed: int | None = None
        self.blanks: list[Span] = []

    def take(self, words: list[str]) -> None:
        """A line, word by word.

        Raises:
            InputError, KeyError, ValueError, IndexError: it is none.
        """
        takers: dict[str, Callable[[list[str]], None]] = {
            "hour": self._hour, "nearly_empty": lambda _: None,
            "quiet": lambda w: self.quiet.append(Quiet(tenth_of_hour(w[1]), tuple(" ".join(w[2:]).split(", ")))),
            "restart": lambda w: self.restarts.append(Restart(tenth_of_stamp(w[1]), int(w[3]), int(w[5]))),
            "silence": lambda w: self.silences.append(_span(w[2:4])),
            "channel": lambda w: self.channels.append(ChannelRows(" ".join(w[1:-6]), int(w[-5]), _span(w[-2:]))),
            "never": lambda w: self.never.append(" ".join(w[1:])),
            "small": lambda w: self.small.append(Small(*_span(w[1:3]), int(w[4]))),
            "misfit": lambda w: self.misfits.append(Misfit(w[1], int(w[3]), int(w[4]), int(w[6]),
                                                           tenth_of_stamp(w[8]))),
            "hole": lambda w: self.holes.append(Hole(*_span(w[2:4]), w[4], None if w[5] == "-" else float(w[5]),
                                                     " ".join(w[6:]))),
            "suspect": lambda w: self.suspects.append(Suspect(*_span(w[2:4]), float(w[5]), " ".join(w[6:]))),
            "chance": self._chance, "proposed": self._proposed,
            "blank": lambda w: self.blanks.append(_span(w[1:3])),
        }
        takers[words[0]](words)

    def whole(self, path: Path, ends: bool) -> Holes:
        """All of it.

        Raises:
            InputError: something is missing.
        """
        survey = Survey(tuple(self.hours), tuple(self.quiet), tuple(self.restarts), tuple(self.silences),
                        tuple(self.channels), tuple(self.never))
        found = Holes(survey, tuple(self.small), tuple(self.misfits), tuple(self.holes), tuple(self.suspects),
                      tuple(self.chances))
        if not self.hours or not ends or self.proposed != len(self.blanks) or self.blanks != found.blanks:
            raise InputError("isn't all that the verb holes said", str(path), REMEDY)
        return found

    def _hour(self, words: list[str]) -> None:
        if words[2] != "missing":
            ends = (None if word == "-" else tenth_of_stamp(word) for word in (words[9], words[11]))
            self.hours.append(HourRows(tenth_of_hour(words[1]), int(words[3]), int(words[5]), int(words[7]), *ends))

    def _chance(self, words: list[str]) -> None:
        (first, last), (shortest, longest) = (map(int, word.split("-")) for word in words[1:3])
        self.chances.append(Chance(first, last, shortest * 10, longest * 10, int(words[3]), int(words[5])))

    def _proposed(self, words: list[str]) -> None:
        self.proposed = int(words[1])


def _span(words: list[str]) -> Span:
    low, high = map(tenth_of_stamp, words)
    return low, high
