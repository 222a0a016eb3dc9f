"""The part of bench/recipes on the regression of examples/fits.py: small problems at random, and the same by a slow sure
way. Nothing here is proved.

The slow way goes down the slope by a step that can't overshoot, until nothing is left of the slope but where a weight
is held at 0. It shares no line with the quick one. Some problems have labels that can be told apart wholly, a number
twice, or one that is the same in all rows; and in each some weights, or none, aren't let below 0.
"""
import math
import os
import random
import sys

sys.path.insert(0, os.path.join(os.path.dirname(os.path.dirname(os.path.abspath(__file__))), "examples"))
import fits

PROBLEMS = 60
NEAR = 1e-3       # between the weights of both ways: SETTLED over the least ridge is a tenth of it
RIDGES = 0.1, 0.3, 1.0
SLOW_LEFT, SLOW_STEPS = 1e-8, 200000


def problem(rng):
    """Vectors of own and made, what an own one counts, the ridge, and how many weights aren't let below 0."""
    size = rng.randrange(2, 5)
    way = [rng.uniform(-2, 2) for _ in range(size)]
    own, made = ([[rng.gauss(side * w, 1) for w in way] for _ in range(rng.randrange(4, 12))] for side in (0, 1))
    kind = rng.choice(("plain", "plain", "apart", "twice", "same"))
    for vector in own + made:
        if kind == "twice":
            vector[-1] = vector[0]
        if kind == "same":
            vector[-1] = 3.0
    if kind == "apart":
        made = [[value + 9 * w for value, w in zip(vector, way)] for vector in made]
    return own, made, rng.choice((1, 3)), rng.choice(RIDGES), rng.randrange(size + 1)


def slow(own, made, weight, ridge, rising):
    """The weights as examples/fits.py has them; and how much of the slope is left."""
    columns = list(zip(*own, *made))
    means = [sum(column) / len(column) for column in columns]
    spreads = [math.sqrt(sum((value - mean) ** 2 for value in column) / len(column)) or 1.0
               for column, mean in zip(columns, means)]
    rows = [([1.0] + [(value - mean) / spread for value, mean, spread in zip(vector, means, spreads)], label, count)
            for vectors, label, count in ((own, 0, weight), (made, 1, 1)) for vector in vectors]
    most = ridge + sum(count * sum(value * value for value in z) for z, _, count in rows) / 4
    weights = [0.0] * (len(columns) + 1)
    for _ in range(SLOW_STEPS):
        slope = [0.0] + [ridge * w for w in weights[1:]]
        for z, label, count in rows:
            chance = 1 / (1 + math.exp(-sum(w * value for w, value in zip(weights, z))))
            for j, value in enumerate(z):
                slope[j] += count * (chance - label) * value
        left = max(abs(s) for j, s in enumerate(slope) if not (1 <= j <= rising and weights[j] == 0 and s > 0))
        if left < SLOW_LEFT:
            break
        weights = [max(0.0, w - s / most) if 1 <= j <= rising else w - s / most
                   for j, (w, s) in enumerate(zip(weights, slope))]
    found = [w / spread for w, spread in zip(weights[1:], spreads)]
    return [weights[0] - sum(w * mean for w, mean in zip(found, means))] + found, left


def fits_both_ways():
    """Each problem by both ways, by the quick one from elsewhere too."""
    rng, out = random.Random(7), []
    for number in range(PROBLEMS):
        own, made, weight, ridge, rising = problem(rng)
        wanted, left = slow(own, made, weight, ridge, rising)
        if left >= SLOW_LEFT:
            out.append("problem %d: the slow way has a slope of %g left" % (number, left))
        starts = [None] + [[rng.uniform(-far, far) for _ in wanted] for far in (1, 100)]
        for start in starts:
            found = fits.regression(own, made, weight, ridge, start, rising)
            apart = max(abs(a - b) for a, b in zip(found, wanted))
            if apart > NEAR * max(1.0, *map(abs, wanted)):
                out.append("problem %d from %s: %s, by the slow way %s" % (number, start, found, wanted))
    out.append("%d problems from %d starts each" % (PROBLEMS, len(starts)))
    return "\n".join(out) + "\n"
