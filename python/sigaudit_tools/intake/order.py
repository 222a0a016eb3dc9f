"""The order of rows: those that stand after a later one, those of several files at once, and doubled ones."""

from __future__ import annotations

import dataclasses
from collections.abc import Sequence

import numpy as np

from sigaudit_tools.events import Tenths
from sigaudit_tools.intake.cells import Mask, Places
from sigaudit_tools.intake.records import Rows, joined
from sigaudit_tools.times import stamp_of

_LARGEST = 1 << 38  # of moments by signals: with more, moments are counted and not measured, so that they fit 64 bits


@dataclasses.dataclass(frozen=True)
class SteppedBack:
    """Rows that stand in their file after a later one: how many, the furthest step in tenths, and where that is."""

    count: int
    furthest: int
    words: str


def moments(rows: Rows) -> Tenths:
    """Numbers that are in order as the whole stamps of rows are, equal where these are."""
    if not rows.rest.any():
        return rows.tenth
    order = np.lexsort((rows.rest, rows.tenth))
    later = (np.diff(rows.tenth[order]) != 0) | (np.diff(rows.rest[order]) != 0)
    found: Tenths = np.empty(len(rows), np.int64)
    found[order] = np.concatenate(([0], np.cumsum(later)))
    return found


def stepped_back(files: Sequence[tuple[str, Rows]]) -> SteppedBack | None:
    """The rows that stand after a later one in their file, each file with its name; None where there are none."""
    count, furthest, words = 0, 0, ""
    for name, rows in files:
        if len(rows):
            moment = moments(rows)
            back = moment < np.maximum.accumulate(moment)
            count += int(back.sum())
            step = np.where(back, np.maximum.accumulate(rows.tenth) - rows.tenth, 0)
            at = int(step.argmax())
            if step[at] > furthest:
                furthest = int(step[at])
                words = f"from {stamp_of(int(rows.tenth[at]) + furthest)} to {stamp_of(int(rows.tenth[at]))} in {name}"
    return SteppedBack(count, furthest, words) if count else None


def identities(rows: Rows) -> Places:
    """Numbers that are equal where signal, whole stamp, code and parameter are."""
    if not len(rows):
        return np.empty(0, np.int64)
    moment = moments(rows)
    if (int(moment.max()) - int(moment.min())) * len(rows.names) > _LARGEST:
        moment = np.unique(moment, return_inverse=True)[1].astype(np.int64)
    of_signal = (moment - moment.min()) * len(rows.names) + rows.signal
    found: Places = of_signal << 24 | rows.code.astype(np.int64) << 16 | rows.param
    return found


def without_overlap(files: Sequence[Rows]) -> Rows:
    """The rows of all files; of one that stands in several as often as in the file that has most."""
    every = joined(files)
    filled = sorted((int(rows.tenth.min()), int(rows.tenth.max())) for rows in files if len(rows))
    if all(before[1] < after[0] for before, after in zip(filled, filled[1:])):
        return every
    of_file = np.repeat(np.arange(len(files)), [len(rows) for rows in files])
    key = identities(every)
    order = np.lexsort((of_file, key))
    key, of_file = key[order], of_file[order]
    fresh = np.concatenate(([True], (np.diff(key) != 0) | (np.diff(of_file) != 0)))
    run = np.cumsum(fresh) - 1
    head = np.flatnonzero(fresh)
    before = _most_before(np.diff(np.append(head, len(key))), key[head])
    kept = np.empty(len(key), bool)
    kept[order] = np.arange(len(key)) - head[run] >= before[run]
    return every[kept]


def _most_before(counts: Places, key: Places) -> Places:
    """Of runs with counts, in order of their keys, the greatest count of the runs with the same key before it."""
    group = np.cumsum(np.concatenate(([0], np.diff(key) != 0)))
    span = int(counts.max()) + 1
    most = np.maximum.accumulate(group * span + counts) - group * span
    return np.where(np.concatenate(([False], np.diff(key) == 0)), np.concatenate(([0], most[:-1])), 0)


def doubled(rows: Rows) -> Mask:
    """Whether a row stands there before with the same signal, whole stamp, code and parameter, shape (n,)."""
    key = identities(rows)
    order = np.argsort(key, kind="stable")
    found = np.zeros(len(key), bool)
    found[order[1:]] = np.diff(key[order]) == 0
    return found


def in_order(rows: Rows) -> Rows:
    """The rows by their whole stamps, those of one stamp as they are."""
    moment = moments(rows)
    if bool((np.diff(moment) >= 0).all()):
        return rows
    return rows[np.argsort(moment, kind="stable")]
