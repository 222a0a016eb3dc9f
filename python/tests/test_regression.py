"""The regression ends at the one least place, and its bounded weights aren't below 0."""

from __future__ import annotations

import numpy as np
import pytest
from hypothesis import given, settings
from hypothesis import strategies as st

from sigaudit_tools.holes.regression import Floats, regression

RIDGE = 0.01


def loss(weights: Floats, own: Floats, made: Floats, count: float) -> float:
    """What is least, for numbers brought to a mean of 0 and a spread of 1."""
    vectors = np.concatenate([own, made])
    means, spreads = vectors.mean(axis=0), vectors.std(axis=0)
    spreads[spreads < 1e-9] = 1
    scaled = np.append(weights[0] + (weights[1:] * means).sum(), weights[1:] * spreads)
    total = RIDGE / 2 * (scaled[1:] ** 2).sum()
    for sign, sums, times in ((-1, own, count), (1, made, 1.0)):
        margin = sign * (((sums - means) / spreads * scaled[1:]).sum(axis=1) + scaled[0])
        total += times * np.logaddexp(0, -margin).sum()
    return float(total)


@settings(max_examples=40, deadline=None)
@given(st.integers(0, 1 << 30))
def test_no_step_makes_it_less(seed: int) -> None:
    rng = np.random.default_rng(seed)
    own, made = rng.normal(0, 1, (60, 4)), rng.normal(rng.normal(0, 1, 4), 1, (40, 4))
    weights = regression(own, made, 2, RIDGE, 2)
    assert (weights[1:3] >= 0).all()
    least = loss(weights, own, made, 2)
    for place in range(5):
        for step in (-1e-2, 1e-2):
            moved = weights.copy()
            moved[place] += step
            if place not in (1, 2) or moved[place] >= 0:
                assert loss(moved, own, made, 2) >= least - 1e-9


def test_where_it_begins_is_nothing_to_the_end() -> None:
    rng = np.random.default_rng(3)
    own, made = rng.normal(0, 1, (80, 3)), rng.normal(0.5, 1, (30, 3))
    begun = regression(own, made, 1, RIDGE, 1, np.array([3.0, -2.0, 1.0, 4.0]))
    assert begun == pytest.approx(regression(own, made, 1, RIDGE, 1), abs=1e-3)


def test_a_number_that_is_the_same_in_all_rows_weighs_nothing() -> None:
    rng = np.random.default_rng(4)
    own, made = rng.normal(0, 1, (50, 2)), rng.normal(1, 1, (50, 2))
    own[:, 1] = made[:, 1] = 7.0
    assert regression(own, made, 1, RIDGE, 0)[2] == pytest.approx(0.0, abs=1e-6)
