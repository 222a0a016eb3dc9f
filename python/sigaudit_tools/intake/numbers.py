"""Codes and parameters of exports, by columns of bytes."""

from __future__ import annotations

import numpy as np

from sigaudit_tools.intake.cells import Bytes, Mask, Places

MOST = 10 ** 6  # a greater number counts as this
_ZERO, _POINT = np.frombuffer(b"0.", np.uint8)


def read_numbers(chars: Bytes) -> tuple[Places, Mask]:
    """The whole numbers of texts, and whether each is one: decimal digits, perhaps with a point and zeros after them.

    Args:
        chars: the bytes of the texts, shape (width, n), zeros after their ends.
    """
    size = chars.shape[1]
    value, behind, pending = np.zeros(size, np.int64), np.zeros(size, bool), np.zeros(size, bool)
    bad = np.isin(chars[0], (0, _POINT)) if len(chars) else np.ones(size, bool)
    for char in chars:
        digit = char - _ZERO
        counts, point, ended = (digit <= 9) & ~behind, (char == _POINT) & ~behind, char == 0
        value = np.where(counts, np.minimum(value * 10 + digit, MOST), value)
        bad |= ended & pending | ~(ended | counts | point | behind & (digit == 0))
        behind |= point
        pending = point
    return value, ~(bad | pending)
