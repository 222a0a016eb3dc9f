"""What verdicts of the program are in figures, looked up in the rows of the log."""

from __future__ import annotations

from collections.abc import Sequence

import numpy as np
import pandas as pd

from sigaudit_tools.answer import Answer
from sigaudit_tools.events import Events
from sigaudit_tools.explain.explanation import Explanation
from sigaudit_tools.explain.finder import Finder

__all__ = ["Explanation", "Finder", "explain", "figures"]


def explain(answer: Answer, events: Events, verdicts: Sequence[str] = ("broken", "undecided")) -> list[Explanation]:
    """What each line of some verdicts is in figures, in the order of `answer.verdicts`.

    Args:
        answer: of the program.
        events: of the log that it was given, in the order of its hour files, repeats too; other hours don't matter.
        verdicts: some of broken, undecided.

    Raises:
        InputError: the answer is of another configuration, or the log isn't as it was when it was made.
    """
    finder = Finder(answer, events)
    return [finder.explain(line) for line in finder.lines(verdicts)]


def figures(answer: Answer, events: Events) -> pd.DataFrame:
    """The durations of the rows of `answer.verdicts`, in its order; seconds, NaN where there is none.

    Columns: least_s and greatest_s, how long the colour lasted, or what the rule forbids; bound_s, what a duration rule
    wants; silence_s, the longest time without a row in the stretch that decides it.

    Raises:
        InputError: as of `explain`.
    """
    found = explain(answer, events)
    silences = [one.silence for one in found]
    tenths = {
        "least_s": [one.least for one in found], "greatest_s": [one.greatest for one in found],
        "bound_s": [one.bound for one in found],
        "silence_s": [None if one is None else one[1] - one[0] for one in silences]}
    return pd.DataFrame({name: np.array(column, float) / 10 for name, column in tenths.items()})
