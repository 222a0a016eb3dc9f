"""Scores and grades of faults.

A score is the decimal logarithm of the days that a signal would have to run until chance alone made such a thing on any
of its channels: 1 is ten days, 3 a thousand.
"""

from __future__ import annotations

import math
from typing import TypeVar

import numpy as np
import numpy.typing as npt

Expected = TypeVar("Expected", float, npt.NDArray[np.float64])

GRADES = (("sure", 3.0), ("likely", 1.0), ("weak", 0.5))
SURE, LIKELY, WEAK = (least for _, least in GRADES)
_TEN = math.log(10)


def grade_of(score: float) -> str:
    """The grade of a score that is told.

    Raises:
        ValueError: it is too low to be told.
    """
    for grade, least in GRADES:
        if score >= least:
            return grade
    raise ValueError(f"a score of {score} has no grade")


def score_of(days: float, expected: Expected, tests: float) -> Expected:
    """The score of what is expected so often, one or several.

    Args:
        days: of the log.
        expected: how often it is expected in the log by chance, its natural logarithm.
        tests: among how many it was looked for, the decimal logarithm.
    """
    return (math.log(days) - expected) / _TEN - tests
