"""The charts of an audit: time lines, bars and bands by hour, coordination diagrams, shifts.

Each function gives a `Chart`. Times are tenths (`times`), hours the tenths at which they begin; stretches are (from, up
to) in tenths. What isn't known is hatched.
"""

from __future__ import annotations

import dataclasses
from collections.abc import Iterator, Mapping, Sequence

import numpy as np
import numpy.typing as npt
from markupsafe import Markup

from sigaudit_tools.report.svg import (
    BLUE, BROKEN, GREEN, HALF, INK, LEFT, LINE, ORANGE, RED, SKY, SOFT, UNDECIDED, UNKNOWN, WIDE, Chart, Floats, Key,
    Picture, Rows, Stretch, box, ring, short, shorts)
from sigaudit_tools.times import HOUR

HATCHED = Key(UNKNOWN, "not known, or partly")
# A diagram goes up to so many tenths at most.
TALLEST = 3000
MOST_POINTS = 20_000


@dataclasses.dataclass(frozen=True)
class Known:
    """The window of an audit, and what of it isn't known: frames without a file, and what was blanked."""

    start: int
    end: int
    missing: Sequence[Stretch]
    blanked: Sequence[Stretch]

    @property
    def unknown(self) -> list[Stretch]:
        """The stretches that aren't known, in order."""
        return sorted([*self.missing, *self.blanked])


@dataclasses.dataclass(frozen=True)
class Mark:
    """A verdict on a time line: its tenth, its rule, and whether it is broken (else undecided)."""

    tenth: int
    rule: int
    broken: bool


def timeline(title: str, known: Known, suspected: Sequence[Stretch], rules: Sequence[tuple[int, str]],
             marks: Sequence[Mark]) -> Chart:
    """The window: a lane of what is known, blanked and suspected, and below it a line a rule with its verdicts.

    Args:
        rules: number and name, from above.
        marks: those of one rule and kind that fall on one unit are drawn once.
    """
    row, left = 25, 290
    picture = Picture(title, known.start, known.end, 122 + row * len(rules), left=left, top=54)
    _lane(picture, known, 14, "what the log tells")
    picture.path((f"M{short((picture.x(low) + picture.x(high)) / 2)} 34l-5 9h10z" for low, high in suspected),
                 fill=BROKEN)
    picture.shade(known.unknown)
    height = {number: picture.top + row * place + row / 2 for place, (number, _) in enumerate(rules)}
    for number, words in rules:
        picture.write(left - 12, height[number] + 4.5, words, anchor="end", colour=INK)
    picture.path((f"M{short(left)} {short(at)}H{short(picture.right)}" for at in height.values()), stroke=LINE)
    spots = {(round(picture.x(mark.tenth)), mark.rule, mark.broken): mark for mark in reversed(marks)}
    shown = sorted(spots.values(), key=lambda mark: (mark.rule, mark.tenth))
    picture.path((ring(picture.x(mark.tenth), height[mark.rule], 4) for mark in shown if not mark.broken),
                 stroke=UNDECIDED, fill="#fff", stroke_width=1.6)
    picture.path((f"M{short(picture.x(mark.tenth))} {short(height[mark.rule] - 6.5)}v13" for mark in shown
                  if mark.broken), stroke=BROKEN, stroke_width=3.0)
    picture.time_axis()
    return picture.chart((Key(BROKEN, "broken"), Key(UNDECIDED, "undecided", "ring"), HATCHED))


def _lane(picture: Picture, known: Known, top: int, words: str) -> None:
    """A lane of what the log tells; frames without a file have an edge."""
    picture.write(picture.left - 12, top + 12, words, anchor="end", colour=INK)
    picture.add("rect", x=float(picture.left), y=top, width=float(picture.right - picture.left), height=18,
                fill="#cfe3f1")
    picture.shade(known.unknown, top, top + 18)
    for low, high in known.missing:
        picture.add("rect", x=picture.x(low), y=top, width=max(picture.x(high) - picture.x(low), 1.0), height=18,
                    fill="none", stroke=INK, stroke_width=1.5)


def overview(title: str, known: Known, marks: Sequence[Mark], width: int = WIDE) -> Chart:
    """The window in three lanes: broken verdicts, undecided ones, what the log tells."""
    picture = Picture(title, known.start, known.end, 118, width, left=92)
    across = float(picture.right - picture.left)
    for words, top, broken, colour, dashes in (("broken", 4, True, BROKEN, None),
                                               ("undecided", 28, False, UNDECIDED, "3 2.5")):
        picture.write(picture.left - 12, top + 14, words, anchor="end", colour=INK)
        picture.add("rect", x=float(picture.left), y=top, width=across, height=18, fill="#f5f7f8")
        ticks = sorted({round(picture.x(mark.tenth), 1) for mark in marks if mark.broken == broken})
        picture.path((f"M{short(x)} {top + 2}v14" for x in ticks), stroke=colour, stroke_width=2.4,
                     stroke_dasharray=dashes)
    picture.write(picture.left - 12, 66, "log", anchor="end", colour=INK)
    picture.add("rect", x=float(picture.left), y=52, width=across, height=18, fill="#cfe3f1")
    picture.shade(known.unknown, 52, 70)
    picture.bottom = 76
    picture.time_axis()
    return picture.chart()


def hours_bars(title: str, known: Known, parts: Sequence[tuple[Key, Mapping[int, int]]], unit: str,
               width: int = HALF, height: int = 170) -> Chart:
    """Bars by hour, stacked: of each part, from below, its key and its count by hour."""
    picture = Picture(title, known.start, known.end, height, width)
    sums: dict[int, int] = {}
    for _, counts in parts:
        for hour, count in counts.items():
            sums[hour] = sums.get(hour, 0) + count
    picture.value_axis(max([*sums.values(), 1]), unit)
    picture.shade(known.unknown)
    across = picture.x(known.start + HOUR) - picture.x(known.start)
    thin = across < 3
    gap = 0 if thin else min(3, across * 0.12)
    below = dict.fromkeys(sums, 0)
    for key, counts in parts:
        pieces = []
        for hour, count in sorted(counts.items()):
            if count:
                pieces.append(box(picture.x(hour) + gap, picture.y(below[hour]), across - 2 * gap,
                                  picture.y(below[hour] + count)))
                below[hour] += count
        picture.path(pieces, fill=key.fill, stroke=None if thin else INK, stroke_width=None if thin else 0.6)
    picture.time_axis()
    return picture.chart([*(key for key, _ in parts), HATCHED])


@dataclasses.dataclass(frozen=True)
class Band:
    """What a measure was in an hour: from the least to the greatest, and its mean where it has one."""

    hour: int
    least: float
    mean: float | None
    greatest: float


def hours_band(title: str, known: Known, rows: Sequence[Band], unit: str, percent: bool = False,
               width: int = HALF, height: int = 170) -> Chart:
    """By hour a band from the least to the greatest, and a line at the mean where there is one."""
    picture = Picture(title, known.start, known.end, height, width)
    picture.value_axis(max([row.greatest for row in rows] + [1]), unit, percent)
    picture.shade(known.unknown)
    across = picture.x(known.start + HOUR) - picture.x(known.start)
    gap = min(6, across * 0.22)
    bands, means = [], []
    for row in rows:
        low, high = picture.y(row.least), picture.y(row.greatest)
        tall = max(low - high, 1.6)
        left, wide = short(picture.x(row.hour) + gap), short(across - 2 * gap)
        bands.append(f"M{left} {short((low + high - tall) / 2)}h{wide}v{short(tall)}h-{wide}z")
        if row.mean is not None:
            means.append(f"M{short(picture.x(row.hour))} {short(picture.y(row.mean))}h{short(across)}")
    if across > 3:
        picture.path(bands, fill=SKY, stroke=BLUE, stroke_width=0.6)
    else:
        picture.path(bands, fill=BLUE)
    picture.path(means, stroke=INK, stroke_width=2.0)
    picture.time_axis()
    return picture.chart((HATCHED,))


@dataclasses.dataclass(frozen=True)
class Diagram:
    """A coordination diagram.

    Attributes:
        chart: the picture.
        cycles, arrivals: how many there are.
        highest_s: up to how many seconds it goes.
        cut, hidden: how many cycles are cut there, and how many arrivals lie above.
        every: of so many arrivals one is drawn.
    """

    chart: Chart
    cycles: int
    arrivals: int
    highest_s: int
    cut: int
    hidden: int
    every: int


def diagram(title: str, known: Known, cycles: Rows, points: Rows, most: int = MOST_POINTS) -> Diagram:
    """The coordination diagram: over each whole cycle its begins of green and yellow, and its arrivals.

    Colours as agencies have them: the line at the begin of green is green, that at the begin of yellow is yellow, that
    at the end of yellow, with which the cycle ends, is red. What lies higher than `tallest` over the begin of its cycle
    is left out.

    Args:
        cycles: begin (a tenth), length, begin of green and of yellow after the begin (tenths; 0: none); shape (n, 4),
            n at least 1.
        points: begin of the cycle (a tenth) and tenths since it; shape (m, 2).
        most: of more arrivals each k-th is drawn.
    """
    picture = Picture(title, known.start, known.end, 330)
    highest = tallest(cycles[:, 1])
    picture.value_axis(highest / 10, "seconds since the end of yellow", exactly=True)
    picture.shade(known.unknown)
    begin, length, green, yellow = cycles.T
    served = (green > 0) & (yellow > green) & (green < highest)
    x = picture.xs(begin)
    wide = picture.xs(np.minimum(begin + length, known.end)) - x
    low, top = picture.ys(green / 10), picture.ys(np.minimum(yellow, highest) / 10)
    picture.path(map(box, x[served], low[served], wide[served], top[served]), fill="#d9efe6")
    picture.path(_steps(x, low, wide, served), stroke=GREEN, stroke_width=1.6)
    picture.path(_steps(x, top, wide, served & (yellow <= highest)), stroke=ORANGE, stroke_width=1.8)
    whole = length <= highest
    picture.path(_steps(x, picture.ys(length / 10), wide, whole), stroke=RED, stroke_width=1.0)
    picture.path((f"M{short(middle - 4)} {short(picture.top + 8)}l4 -6l4 6" for middle in (x + wide / 2)[~whole]),
                 stroke=RED)
    shown = points[(points[:, 1] <= highest) & (points.sum(axis=1) < known.end)]
    every = -(-len(shown) // most) or 1
    arrivals = shown[::every].T
    picture.path((f"M{left} {at}h0" for left, at in zip(
        shorts(picture.xs(arrivals[0] + arrivals[1])), shorts(picture.ys(arrivals[1] / 10)))),
        stroke=INK, stroke_width=2.4, stroke_linecap="round", opacity=0.75)
    picture.time_axis()
    return Diagram(picture.chart((Key("#d9efe6", "green"), Key(ORANGE, "begin of yellow", "line"),
                                  Key(RED, "end of the cycle", "line"), Key(INK, "arrival", "dot"), HATCHED)),
                   len(cycles), len(points), highest // 10, int((~whole).sum()), int((points[:, 1] > highest).sum()),
                   every)


def tallest(lengths: Rows) -> int:
    """Up to where a diagram goes: half over the length that three quarters of the cycles don't pass, in tenths."""
    usual = int(np.sort(lengths)[3 * len(lengths) // 4])
    return min(TALLEST, int(lengths.max()), -(-usual * 3 // 2 // 300) * 300 + 300)


def _steps(x: Floats, y: Floats, wide: Floats, mask: npt.NDArray[np.bool_]) -> Iterator[str]:
    """Level strokes, each from a point and so wide."""
    for left, at, across in zip(shorts(x[mask]), shorts(y[mask]), shorts(wide[mask])):
        yield f"M{left} {at}h{across}"


def shifts(title: str, counts: Sequence[int], best: int) -> Chart:
    """How many arrivals of an approach meet green at each shift, 0 s and more; the best and the log's own are marked.

    Args:
        counts: at least one; the first is of the log as it is.
        best: the shift, in seconds, that is marked.
    """
    picture = Picture(title, 0, len(counts), 170, HALF)
    picture.value_axis(max([*counts, 1]), "arrivals on green")
    picture.path((f"{'L' if at else 'M'}{short(picture.x(at + 0.5))} {short(picture.y(count))}"
                  for at, count in enumerate(counts)), stroke=BLUE, stroke_width=2.0)
    picture.path(f"M{short(picture.left)} {short(picture.y(counts[0]))}H{short(picture.right)}", stroke=INK,
                 stroke_dasharray="5 4")
    picture.path(ring(picture.x(best + 0.5), picture.y(counts[best]), 5), stroke=BROKEN, fill="#fff", stroke_width=2.0)
    picture.path(f"M{short(picture.left)} {short(picture.bottom)}H{short(picture.right)}", stroke=INK)
    step = next((step for step in (10, 20, 30, 60, 120, 300) if len(counts) / step <= 8), 600)
    for at in range(0, len(counts), step):
        picture.write(picture.x(at + 0.5), picture.bottom + 18, at, anchor="middle")
    picture.write(picture.right, picture.bottom + 34, "seconds later in the cycle", anchor="end")
    return picture.chart((Key(BLUE, "at each shift", "line"), Key(INK, "as logged", "dashes"),
                          Key(BROKEN, "best", "ring")))


def small_hours(title: str, known: Known, counts: Mapping[int, int], highest: int, width: int = 220,
                height: int = 34) -> Chart:
    """A small picture of one count by hour, for an index, whose pictures share one scale up to `highest`."""
    picture = Picture(title, known.start, known.end, height, width, left=1, top=2, bottom=4)
    picture.right, picture.highest = width - 1, max(highest, 1)
    picture.shade(known.unknown)
    picture.path((box(picture.x(hour), picture.bottom, max(picture.x(hour + HOUR) - picture.x(hour) - 1, 1),
                      picture.y(count)) for hour, count in sorted(counts.items()) if count), fill=BROKEN)
    picture.path(f"M1 {short(picture.bottom)}H{short(picture.right)}", stroke=INK)
    return picture.chart()


def one_above_another(title: str, charts: Sequence[Chart]) -> Chart:
    """Charts of one width and one key as one, each below its own title."""
    parts, top = [], 0
    for chart in charts:
        parts.append(Markup('<text x="{}" y="{}" font-size="13" font-weight="600" fill="{}">{}</text>'
                            '<g transform="translate(0 {})">{}</g>').format(
                                LEFT, top + 16, SOFT, chart.title, top + 18, chart.body))
        top += chart.height + 18
    return Chart(title, charts[0].width, top, Markup("").join(parts), charts[0].keys)
