"""What is said of a log's holes, as values."""

from __future__ import annotations

import dataclasses

from sigaudit_tools.holes.spans import Span


@dataclasses.dataclass(frozen=True)
class Hole:
    """A gap, or several as one, for which a blank is proposed.

    Attributes:
        begin, end: the tenths of the row before and of the row behind.
        grade: certain, sure or likely.
        score: the logarithm of the odds; None of one that was found otherwise.
        why: what contradicts, or the groups whose rows on both sides go together worst; `edge`; `silence`.
    """

    begin: int
    end: int
    grade: str
    score: float | None
    why: str

    @property
    def blank(self) -> Span:
        """The first tenth that is blanked, and the first that isn't: other rows of the tenths at both ends may be lost
        too, as where rows are lost by their number and not by their time."""
        return self.begin, self.end + 1


@dataclasses.dataclass(frozen=True)
class Suspect:
    """A gap that may be a hole, graded weak; no blank is proposed. Attributes as of a hole."""

    begin: int
    end: int
    score: float
    why: str

    @property
    def grade(self) -> str:
        """weak."""
        return "weak"


@dataclasses.dataclass(frozen=True)
class Misfit:
    """Rows of a code that can't follow those before them so often that the controller logs otherwise: no holes.

    Attributes:
        kind: of the channels.
        code: of the rows.
        count, rows: so many of so many.
        first: the tenth of the first.
    """

    kind: str
    code: int
    count: int
    rows: int
    first: int


@dataclasses.dataclass(frozen=True)
class Small:
    """A log, or a portion of it, that is too small to learn from: from and up to, and its tenths with rows."""

    begin: int
    end: int
    tenths: int
