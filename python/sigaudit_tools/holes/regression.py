"""Logistic regression with a ridge, some of whose weights aren't let below 0: what holes are learned by.

What it makes least is the loss: minus the logarithm of the likelihood, and half the ridge times the squares of all
weights but the first, which is the constant's. The loss is strictly convex, so there is one least place, and there it
ends: each step is Newton's in the weights that are free, put back to 0 where it goes below, and halved until the loss
falls by a share of what its slope promises (D. P. Bertsekas, Projected Newton Methods for Optimization Problems with
Simple Constraints, 1982). A weight that is at 0 and would go below isn't free. It stops where no free weight has more
than SETTLED of slope left. Since the loss is curved by the ridge at least, the weights are then wrong by some SETTLED
over the ridge.

Sums are numpy's own and not those of a library of linear algebra, whose order hangs on the machine.
"""

from __future__ import annotations

import dataclasses

import numpy as np
import numpy.typing as npt

Floats = npt.NDArray[np.float64]

SETTLED = 1e-5    # of slope: a hundred thousandth of a row
STEPS = 200       # a day's fit wants some ten; one that doesn't settle is refused, not used
PROMISED = 1e-4   # the share of the promise that a step has to keep; any below a half would do
ROUNDING = 1e-11  # of the loss: what a sum of some thousand rows is uncertain by
SAME = 1e-9       # of spread: the number is the same in all rows, but for rounding


def regression(own: Floats, made: Floats, weight: float, ridge: float, rising: int,
               start: Floats | None = None) -> Floats:
    """The weights that tell made vectors from own ones: the constant's, then one for each number; shape (1 + k,).

    Args:
        own: vectors of one side, shape (n, k); each counts `weight` times.
        made: vectors of the other, shape (m, k).
        weight: how often an own one counts.
        ridge: for numbers brought to a mean of 0 and a spread of 1, so each counts alike.
        rising: so many numbers, the first ones, get no weight below 0.
        start: weights to begin with; where it ends doesn't hang on them.

    Raises:
        ArithmeticError: it doesn't settle.
    """
    vectors = np.concatenate([own, made])
    means = vectors.mean(axis=0)
    spreads = np.sqrt(((vectors - means) ** 2).sum(axis=0) / len(vectors))
    spreads[spreads <= SAME] = 1.0
    sign = np.repeat([-1.0, 1.0], [len(own), len(made)])
    rows = np.column_stack([sign, (vectors - means) / spreads * sign[:, None]])
    bounded = np.zeros(rows.shape[1], bool)
    bounded[1:1 + rising] = True
    problem = _Problem(rows, np.repeat([float(weight), 1.0], [len(own), len(made)]), ridge, bounded)
    weights = np.zeros(rows.shape[1])
    if start is not None:
        weights = np.append(start[0] + (start[1:] * means).sum(), start[1:] * spreads)
        weights[bounded] = np.maximum(0.0, weights[bounded])
    weights = problem.least(weights)
    found = weights[1:] / spreads
    return np.append(weights[0] - (found * means).sum(), found)


@dataclasses.dataclass(frozen=True, eq=False)
class _Problem:
    """Rows that are to be told apart.

    Attributes:
        rows: their numbers, those of own rows turned round, so that each is on the right side where its sum with the
            weights is above 0; shape (n, k).
        counts: how much each counts, shape (n,).
        ridge: of all weights but the first.
        bounded: which weights are 0 at least, shape (k,).
    """

    rows: Floats
    counts: Floats
    ridge: float
    bounded: npt.NDArray[np.bool_]

    def least(self, weights: Floats) -> Floats:
        """The weights with the least loss."""
        loss, slope, bends = self.loss(weights)
        left = np.inf
        for _ in range(STEPS):
            free = np.flatnonzero(~(self.bounded & (weights <= 0) & (slope >= 0)))
            left = np.abs(slope[free]).max()
            if left <= SETTLED:
                return weights
            step, size = self.newton_step(slope, bends, free), 1.0
            while True:
                tried = weights.copy()
                tried[free] += size * step
                tried[self.bounded] = np.maximum(0.0, tried[self.bounded])
                there = self.loss(tried)
                if there[0] <= loss + PROMISED * (slope * (tried - weights)).sum() + ROUNDING * loss:
                    break
                size /= 2
            weights, (loss, slope, bends) = tried, there
        raise ArithmeticError(f"the regression doesn't settle: a slope of {left:g} is left")

    def loss(self, weights: Floats) -> tuple[float, Floats, Floats]:
        """The loss, its slope, and how much each row bends it."""
        margin = (self.rows * weights).sum(axis=1)
        small = np.exp(-np.abs(margin))
        wrong = np.where(margin > 0, small, 1.0) / (1 + small)    # the chance of the other side
        slope = self.ridge * weights
        slope[0] = 0.0
        loss = float((weights * slope).sum() / 2 + (self.counts * (np.log1p(small) + np.maximum(0.0, -margin))).sum())
        slope -= (self.rows * (self.counts * wrong)[:, None]).sum(axis=0)
        return loss, slope, self.counts * wrong * (1 - wrong)

    def newton_step(self, slope: Floats, bends: Floats, free: npt.NDArray[np.intp]) -> Floats:
        """The step of the free weights to where the loss were least, were it as curved everywhere."""
        rows = self.rows[:, free]
        curves = np.array([(rows * (bends * column)[:, None]).sum(axis=0) for column in rows.T])
        curves[np.diag_indices(len(free))] += np.where(free == 0, 1e-9, self.ridge)
        return _solved(curves, -slope[free])


def _solved(rows: Floats, right: Floats) -> Floats:
    """x of rows * x = right, by elimination with pivots."""
    rows = np.column_stack([rows, right])
    size = len(right)
    for i in range(size):
        pivot = i + int(np.abs(rows[i:, i]).argmax())
        rows[[i, pivot]] = rows[[pivot, i]]
        rows[i + 1:] -= (rows[i + 1:, i] / rows[i, i])[:, None] * rows[i]
    x = np.zeros(size)
    for i in reversed(range(size)):
        x[i] = (rows[i, size] - (rows[i, i + 1:size] * x[i + 1:]).sum()) / rows[i, i]
    return x
