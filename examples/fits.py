"""Logistic regression with a ridge: what `gaps` learns by. Not proved.

What it makes least is the loss: minus the logarithm of the likelihood, and half the ridge times the squares of all
weights but the first, which is the constant's. Some weights aren't let below 0. The loss is strictly convex, so there
is one least place, and there it ends: each step is Newton's in the weights that are free, put back to 0 where it goes
below, and halved until the loss falls by a share of what its slope promises (D. P. Bertsekas, Projected Newton Methods
for Optimization Problems with Simple Constraints, 1982). A weight that is at 0 and would go below isn't free. It stops
where no free weight has more than SETTLED of slope left. Since the loss is curved by the ridge at least, the weights
are then wrong by some SETTLED over the ridge.
"""
import math

SETTLED = 1e-5    # of slope: a hundred thousandth of a row
STEPS = 200       # a day's fit wants some ten; one that doesn't settle is refused, not used
PROMISED = 1e-4   # the share of the promise that a step has to keep; any below a half would do
ROUNDING = 1e-11  # of the loss: what a sum of some thousand rows is uncertain by
SAME = 1e-9       # of spread: the number is the same in all rows, but for rounding


def regression(own, made, weight, ridge, start=None, rising=0):
    """The weights that tell made vectors from own ones, which count weight times: the constant's, then one for each
    number, of which the first so many as are rising get none below 0. The ridge is for numbers brought to a mean of 0
    and a spread of 1, so each counts alike. start has weights to begin with; where it ends doesn't hang on them."""
    vectors = [[1.0] + vector for vector in own + made]
    columns = list(zip(*vectors))
    means = [0.0] + [sum(column) / len(column) for column in columns[1:]]
    spreads = [1.0] + [spread(column, mean) for column, mean in zip(columns[1:], means[1:])]
    rows = [[sign * (value - mean) / by for value, mean, by in zip(vector, means, spreads)]
            for vector, sign in zip(vectors, [-1.0] * len(own) + [1.0] * len(made))]
    problem = Problem(rows, [float(weight)] * len(own) + [1.0] * len(made), ridge, range(1, 1 + rising))
    weights = [0.0] * len(means)
    if start:
        weights = [max(0.0, w * by) if i in problem.rising else w * by for i, (w, by) in enumerate(zip(start, spreads))]
        weights[0] = start[0] + sum(w * mean for w, mean in zip(start[1:], means[1:]))
    weights = problem.least(weights)
    found = [w / by for w, by in zip(weights, spreads)]
    found[0] = weights[0] - sum(w * mean for w, mean in zip(found[1:], means[1:]))
    return found


def spread(column, mean):
    found = math.sqrt(sum((value - mean) ** 2 for value in column) / len(column))
    return found if found > SAME else 1.0


def dot(a, b):
    return sum(map(float.__mul__, a, b))


class Problem:
    """Rows that are to be told apart: their numbers, those of own rows turned round, so that each is on the right side
    where its sum with the weights is above 0; how much each counts; and which weights are rising, 0 at least."""

    def __init__(self, rows, counts, ridge, rising=()):
        self.rows, self.columns, self.counts, self.ridge = rows, list(zip(*rows)), counts, ridge
        self.rising = rising

    def least(self, weights):
        """The weights with the least loss."""
        loss, slope, bends = self.loss(weights)
        for _ in range(STEPS):
            free = [i for i, s in enumerate(slope) if not (i in self.rising and weights[i] <= 0 and s >= 0)]
            left = max(abs(slope[i]) for i in free)
            if left <= SETTLED:
                return weights
            step, size = self.newton_step(slope, bends, free), 1.0
            while True:
                tried = weights[:]
                for i, s in zip(free, step):
                    tried[i] = max(0.0, weights[i] + size * s) if i in self.rising else weights[i] + size * s
                there = self.loss(tried)
                promise = PROMISED * dot(slope, list(map(float.__sub__, tried, weights)))
                if there[0] <= loss + promise + ROUNDING * loss:
                    break
                size /= 2
            weights, (loss, slope, bends) = tried, there
        raise ArithmeticError("the regression doesn't settle: a slope of %g is left" % left)

    def loss(self, weights):
        """The loss, its slope, and how much each row bends it."""
        slope = [0.0] + [self.ridge * w for w in weights[1:]]
        loss, wrongs, bends = dot(weights, slope) / 2, [], []
        for row, count in zip(self.rows, self.counts):
            margin = dot(weights, row)
            small = math.exp(-abs(margin))
            loss += count * (math.log1p(small) + max(0.0, -margin))
            wrong = (small if margin > 0 else 1.0) / (1 + small)    # the chance of the other side
            wrongs.append(count * wrong)
            bends.append(count * wrong * (1 - wrong))
        return loss, [s - dot(wrongs, column) for s, column in zip(slope, self.columns)], bends

    def newton_step(self, slope, bends, free):
        """The step of the free weights to where the loss were least, were it as curved everywhere."""
        curves = [[0.0] * len(free) for _ in free]
        for j, column in enumerate(free):
            bent = list(map(float.__mul__, bends, self.columns[column]))
            for i in range(j + 1):
                curves[i][j] = curves[j][i] = dot(bent, self.columns[free[i]])
            curves[j][j] += self.ridge if column else 1e-9
        return solved(curves, [-slope[i] for i in free])


def solved(rows, right):
    """x of rows * x = right, by elimination with pivots."""
    rows = [row + [value] for row, value in zip(rows, right)]
    size = len(right)
    for i in range(size):
        pivot = max(range(i, size), key=lambda k: abs(rows[k][i]))
        rows[i], rows[pivot] = rows[pivot], rows[i]
        for k in range(i + 1, size):
            factor = rows[k][i] / rows[i][i]
            if factor:
                rows[k] = [a - factor * c for a, c in zip(rows[k], rows[i])]
    x = [0.0] * size
    for i in reversed(range(size)):
        x[i] = (rows[i][size] - sum(rows[i][j] * x[j] for j in range(i + 1, size))) / rows[i][i]
    return x
