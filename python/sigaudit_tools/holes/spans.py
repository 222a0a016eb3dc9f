"""Stretches of time, from a first tenth up to a last one."""

from __future__ import annotations

from collections.abc import Iterable, Sequence

import numpy as np
import numpy.typing as npt

from sigaudit_tools.events import Tenths

Span = tuple[int, int]


def merged(spans: Iterable[Span]) -> list[Span]:
    """Spans in order, those that overlap or touch as one."""
    found: list[Span] = []
    for low, high in sorted(spans):
        if found and low <= found[-1][1]:
            found[-1] = found[-1][0], max(high, found[-1][1])
        else:
            found.append((low, high))
    return found


def outside(span: Span, others: Iterable[Span]) -> list[Span]:
    """What others, in order, leave of a span."""
    found, (low, high) = [], span
    for begin, end in others:
        if low < end and begin < high:
            if low < begin:
                found.append((low, begin))
            low = max(low, end)
    return [*found, (low, high)] if low < high else found


def length(spans: Iterable[Span]) -> int:
    """The tenths of spans that don't overlap."""
    return sum(high - low for low, high in spans)


def columns(spans: Sequence[Span]) -> tuple[Tenths, Tenths]:
    """The begins and the ends of spans, each rising."""
    begins, ends = np.array(spans, np.int64).reshape(-1, 2).T
    return np.sort(begins), np.sort(ends)


def overlapped(begin: Tenths, end: Tenths, spans: Sequence[Span]) -> npt.NDArray[np.bool_]:
    """Whether each stretch from `begin` up to `end`, none of them empty, has an inner part in common with a span."""
    begins, ends = columns(spans)
    over: npt.NDArray[np.bool_] = np.searchsorted(begins, end, "left") > np.searchsorted(ends, begin, "right")
    return over
