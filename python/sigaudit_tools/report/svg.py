"""Pictures as SVG: axes of time and of numbers, hatching of what isn't known, paths.

Times are tenths (`times`), drawn by the clock of the log. A picture is WIDE units wide, or HALF where two stand side by
side, and is scaled by the page. Kinds are told apart by place, shape, dash or pattern as well as by colour; the colours
are those of Okabe and Ito, which the colour-blind tell apart.
"""

from __future__ import annotations

import dataclasses
import datetime
import functools
from collections.abc import Iterable, Sequence

import numpy as np
import numpy.typing as npt
from markupsafe import Markup, escape

from sigaudit_tools.times import DAY, EPOCH, stamp_of

Stretch = tuple[int, int]
Rows = npt.NDArray[np.int64]
Floats = npt.NDArray[np.float64]

WIDE, HALF = 1040, 510
LEFT, RIGHT, TOP, BOTTOM = 68, 14, 12, 40
INK, SOFT, LINE = "#1c2127", "#59636e", "#d4d9de"
BROKEN, UNDECIDED, BLUE, SKY, GREEN, ORANGE, RED = (
    "#b34700", "#0072b2", "#0072b2", "#9fd0ee", "#00805c", "#d98a00", "#a3123a")
UNKNOWN, DOTTED, STRIPED = "url(#unknown)", "url(#dotted)", "url(#striped)"
# A pattern is drawn once in a page; its lines let what is below it be seen.
PATTERNS = Markup(
    '<defs><pattern id="unknown" width="5" height="5" patternUnits="userSpaceOnUse" patternTransform="rotate(45)">'
    '<rect width="5" height="5" fill="#eef1f3"/><path d="M0 0V5" stroke="#8b959e" stroke-width="2.2"/></pattern>'
    '<pattern id="dotted" width="6" height="6" patternUnits="userSpaceOnUse">'
    '<rect width="6" height="6" fill="#fff"/><circle cx="2" cy="2" r="1.2" fill="#59636e"/></pattern>'
    '<pattern id="striped" width="5" height="5" patternUnits="userSpaceOnUse" patternTransform="rotate(-45)">'
    '<rect width="5" height="5" fill="#e69f00"/><path d="M0 0V5" stroke="#7a5200" stroke-width="1.6"/></pattern>'
    "</defs>")
FONTS = "system-ui, 'Liberation Sans', 'DejaVu Sans', Arial, sans-serif"
# More stretches than so many are drawn as narrow as they are.
MANY = 40
# From one tick of a time axis to the next, in tenths.
STEPS = tuple(minutes * 600 for minutes in (5, 10, 15, 30, 60, 120, 180, 360, 720, 1440, 2880, 7200, 10080))


def short(number: float) -> str:
    """A coordinate with one decimal at most."""
    return f"{number:.1f}".rstrip("0").rstrip(".")


@functools.cache
def _shorts() -> list[str]:
    """The coordinates from 0 on that a picture has, in tenths of a unit."""
    return [short(tenths / 10) for tenths in range(10 * WIDE + 1)]


def shorts(numbers: Floats) -> list[str]:
    """Coordinates from 0 to WIDE with one decimal at most, shape (n,)."""
    texts = _shorts()
    return [texts[place] for place in np.rint(numbers * 10).astype(np.int64).tolist()]


def day_of(tenth: int) -> str:
    """The day of a tenth as `Mon 4 Mar`."""
    day = datetime.date.fromordinal(int(tenth) // DAY + EPOCH)
    return f"{day:%a} {day.day} {day:%b}"


def clock(tenth: int) -> str:
    """The clock of a tenth as HH:MM."""
    return stamp_of(tenth)[11:16]


def end_clock(tenth: int) -> str:
    """The clock at which something ends: 24:00 and not 00:00 of the next day."""
    return "24:00" if tenth % DAY == 0 else clock(tenth)


def nice(greatest: float) -> tuple[float, int]:
    """A round number at or over this one, and the step of its ticks."""
    step = 1
    while True:
        for times in (1, 2, 5):
            if greatest <= 4 * step * times:
                return max(-(-greatest // (step * times)), 1) * step * times, step * times
        step *= 10


def box(x: float, y: float, wide: float, to: float) -> str:
    """The path of a box from a corner: so wide, and up or down to a height."""
    return f"M{short(x)} {short(y)}h{short(wide)}V{short(to)}h-{short(wide)}z"


def ring(x: float, y: float, radius: float) -> str:
    """The path of a circle around a point."""
    r, across = short(radius), short(2 * radius)
    return f"M{short(x - radius)} {short(y)}a{r} {r} 0 1 0 {across} 0a{r} {r} 0 1 0 -{across} 0"


@dataclasses.dataclass(frozen=True)
class Key:
    """An entry of a picture's key: how it is drawn, what that means, and as what: box, line, dashes, ring or dot."""

    fill: str
    words: str
    shape: str = "box"

    def mark(self) -> Markup:
        """Its mark, 14 units wide and 10 high."""
        form = {
            "box": '<rect x="0.5" y="0.5" width="13" height="9" fill="{0}" stroke="{1}" stroke-width="0.7"/>',
            "line": '<path d="M0 5h14" stroke="{0}" stroke-width="2.4"/>',
            "dashes": '<path d="M0 5h14" stroke="{0}" stroke-width="1.6" stroke-dasharray="5 4"/>',
            "ring": '<circle cx="7" cy="5" r="4" stroke="{0}" stroke-width="1.8" fill="#fff"/>',
            "dot": '<circle cx="7" cy="5" r="2" fill="{0}"/>',
        }[self.shape]
        return Markup(form).format(self.fill, INK)


@dataclasses.dataclass(frozen=True)
class Chart:
    """A picture: its title for those who don't see it, its size in units, its elements, and its key."""

    title: str
    width: int
    height: int
    body: Markup
    keys: tuple[Key, ...] = ()

    def __html__(self) -> str:
        """As an element of a page, which draws PATTERNS and the key."""
        return Markup('<svg viewBox="0 0 {} {}" role="img"><title>{}</title>{}</svg>').format(
            self.width, self.height, self.title, self.body)

    def file(self, about: str) -> str:
        """As a file of its own: with its title and a line about it above, and its key below."""
        above, below = 52, 30 if self.keys else 6
        height = self.height + above + below
        return Markup(
            '<svg xmlns="http://www.w3.org/2000/svg" viewBox="0 0 {width} {height}" width="{width}" height="{height}" '
            'role="img" font-family="{fonts}"><title>{title}</title>{patterns}'
            '<rect width="{width}" height="{height}" fill="#fff"/>'
            '<text x="{middle}" y="22" font-size="15" text-anchor="middle" fill="{ink}">{title}</text>'
            '<text x="{middle}" y="41" font-size="13" text-anchor="middle" fill="{soft}">{about}</text>'
            '<g transform="translate(0 {above})">{body}</g>{key}</svg>\n').format(
                width=self.width, height=height, fonts=FONTS, title=self.title, about=about, patterns=PATTERNS,
                above=above, middle=self.width // 2, ink=INK, soft=SOFT, body=self.body,
                key=self._key(self.height + above + 8))

    def _key(self, top: int) -> Markup:
        """The key in a line, in the middle below the picture."""
        widths = [30 + 7 * len(key.words) for key in self.keys]
        at, found = (self.width - sum(widths)) // 2, []
        for key, wide in zip(self.keys, widths):
            found.append(Markup(
                '<g transform="translate({} {})">{}</g><text x="{}" y="{}" font-size="13" fill="{}">{}</text>').format(
                    at, top, key.mark(), at + 19, top + 10, SOFT, key.words))
            at += wide
        return Markup("").join(found)


class Picture:
    """A picture in the making: a time axis from `start` to `end` (tenths) below, and a number axis on the left."""

    def __init__(self, title: str, start: int, end: int, height: int, width: int = WIDE, left: int = LEFT,
                 top: int = TOP, bottom: int = BOTTOM) -> None:
        self.title, self.start, self.end = title, start, end
        self.width, self.height, self.left, self.right = width, height, left, width - RIGHT
        self.top, self.bottom = top, height - bottom
        self.highest: float = 1
        self._parts: list[Markup] = []

    def x(self, tenth: float) -> float:
        """Where a tenth stands."""
        return self.left + (tenth - self.start) * (self.right - self.left) / (self.end - self.start)

    def xs(self, tenths: Rows) -> Floats:
        """Where tenths stand, shape (n,)."""
        return self.left + (tenths - self.start) * ((self.right - self.left) / (self.end - self.start))

    def y(self, value: float) -> float:
        """Where a number stands, by the number axis."""
        return self.bottom - value * (self.bottom - self.top) / self.highest

    def ys(self, values: Floats) -> Floats:
        """Where numbers stand, shape (n,)."""
        return self.bottom - values * ((self.bottom - self.top) / self.highest)

    def add(self, name: str, inner: Markup | str | None = None, **given: object) -> None:
        """Adds an element; an attribute that is None is left out."""
        attributes = "".join(
            f' {key.replace("_", "-")}="{escape(short(value) if isinstance(value, float) else value)}"'
            for key, value in given.items() if value is not None)
        self._parts.append(Markup(
            f"<{name}{attributes}/>" if inner is None else f"<{name}{attributes}>{escape(inner)}</{name}>"))

    def write(self, x: float, y: float, words: object, size: int = 13, anchor: str = "start", colour: str = SOFT,
              transform: str | None = None) -> None:
        """Writes words at a point."""
        self.add("text", str(words), x=float(x), y=float(y), font_size=size, text_anchor=anchor, fill=colour,
                 transform=transform)

    def path(self, pieces: str | Iterable[str], stroke: str | None = None, fill: str = "none",
             stroke_width: float | None = None, stroke_dasharray: str | None = None,
             stroke_linecap: str | None = None, opacity: float | None = None) -> None:
        """Draws pieces of a path as one; none where there are none."""
        d = pieces if isinstance(pieces, str) else "".join(pieces)
        if d:
            self.add("path", d=d, stroke=stroke, fill=fill, stroke_width=stroke_width,
                     stroke_dasharray=stroke_dasharray, stroke_linecap=stroke_linecap, opacity=opacity)

    def shade(self, unknown: Sequence[Stretch], top: float | None = None, bottom: float | None = None) -> None:
        """Hatches the stretches that aren't known, each wide enough to be seen."""
        top, bottom = self.top if top is None else top, self.bottom if bottom is None else bottom
        least = 2.5 if len(unknown) <= MANY else 0.5
        pieces = []
        for low, high in unknown:
            low, high = max(low, self.start), min(high, self.end)
            if low < high:
                pieces.append(box(self.x(low), top, max(self.x(high) - self.x(low), least), bottom))
        self.path(pieces, fill=UNKNOWN)

    def time_axis(self) -> None:
        """Ticks by the clock, with the days below them; of a longer time ticks by the day."""
        step = self._step()
        by_day = step >= DAY
        every = DAY if by_day else step
        ticks = range(-(-self.start // every) * every, self.end + 1, step)
        self.path(f"M{short(self.left)} {short(self.bottom)}H{short(self.right)}", stroke=INK)
        self.path((f"M{short(self.x(tenth))} {short(self.bottom)}v5" for tenth in ticks), stroke=INK)
        for tenth in ticks:
            if not by_day:
                self._below(tenth, 18, end_clock(tenth) if tenth == self.end else clock(tenth))
            elif tenth < self.end:
                self._below(tenth, 18, day_of(tenth).split(" ", 1)[1])
        if not by_day:
            self._days()

    def _step(self) -> int:
        """From one tick to the next, so that there is room for their words."""
        room = max(4, (self.right - self.left) // 74)
        return next((step for step in STEPS if (self.end - self.start) / step <= room), STEPS[-1])

    def _days(self) -> None:
        days = [self.start, *range(-(-(self.start + 1) // DAY) * DAY, self.end, DAY)]
        if len(days) > 1 and self.x(days[1]) - self.left < 90:
            days.pop(0)
        for tenth in days:
            self._below(tenth, 34, day_of(tenth), at_begin=True)

    def _below(self, tenth: int, down: int, words: str, at_begin: bool = False) -> None:
        """Words below the axis: in the middle of a tick or at it, and within the picture."""
        at, wide, anchor = self.x(tenth), 3.6 * len(words), "start" if at_begin else "middle"
        if at + (2 * wide if at_begin else wide) > self.width:
            at, anchor = float(self.width - 2), "end"
        self.write(at, self.bottom + down, words, anchor=anchor)

    def value_axis(self, greatest: float, unit: str, percent: bool = False, exactly: bool = False) -> None:
        """Ticks of the numbers and faint lines through the picture, to a round number or exactly to the greatest."""
        self.highest, step = (100, 25) if percent else nice(greatest)
        if exactly:
            self.highest = greatest
        lines = []
        for value in range(0, int(self.highest) + 1, step):
            at = self.y(value)
            if value:
                lines.append(f"M{short(self.left)} {short(at)}H{short(self.right)}")
            self.write(self.left - 7, at + 4, value, anchor="end")
        self.path(lines, stroke=LINE)
        upper = short(self.top + 8)
        self.write(6, self.top + 8, unit, size=12, anchor="end", transform=f"rotate(-90 6 {upper}) translate(0 6)")

    def chart(self, keys: Sequence[Key] = ()) -> Chart:
        """What was drawn."""
        return Chart(self.title, self.width, self.height, Markup("").join(self._parts), tuple(keys))
