"""Pictures of a page as SVG: time lines, bars and bands by hour, coordination diagrams, shifts. Not proved.

Each function gives the text of one SVG element, with a title and a description for those who don't see it. Times are
tenths as in logs.py, drawn by the clock; what isn't known is hatched. A picture is WIDE units wide, or HALF where two
stand side by side, and is scaled by the page. Kinds are told apart by shape, dash or pattern as well as by colour.
"""
import datetime

import logs
import pages

WIDE, HALF = 1040, 510
LEFT, RIGHT, TOP = 68, 14, 12
INK, SOFT, LINE = "#1c2127", "#59636e", "#d4d9de"
BROKEN, UNDECIDED, BLUE, SKY, GREEN, ORANGE = "#b34700", "#0072b2", "#0072b2", "#9fd0ee", "#00805c", "#e69f00"
# A pattern is drawn once in a page; its lines let what is below it be seen.
PATTERNS = (
    '<svg class="patterns" width="0" height="0" aria-hidden="true"><defs>'
    '<pattern id="unknown" width="5" height="5" patternUnits="userSpaceOnUse" patternTransform="rotate(45)">'
    '<rect width="5" height="5" fill="#eef1f3"/><path d="M0 0V5" stroke="#8b959e" stroke-width="2.2"/></pattern>'
    '<pattern id="dotted" width="6" height="6" patternUnits="userSpaceOnUse">'
    '<rect width="6" height="6" fill="#fff"/><circle cx="2" cy="2" r="1.2" fill="#59636e"/></pattern>'
    '<pattern id="striped" width="5" height="5" patternUnits="userSpaceOnUse" patternTransform="rotate(-45)">'
    '<rect width="5" height="5" fill="#e69f00"/><path d="M0 0V5" stroke="#7a5200" stroke-width="1.6"/></pattern>'
    "</defs></svg>")
# More stretches than so many are drawn as narrow as they are.
MANY = 40
# From one tick of a time axis to the next, in tenths.
STEPS = [minutes * 600 for minutes in (5, 10, 15, 30, 60, 120, 180, 360, 720, 1440, 2880, 7200, 10080)]


def short(number):
    """A coordinate with one decimal at most."""
    return ("%.1f" % number).rstrip("0").rstrip(".")


def day_of(tenth):
    """The day of a tenth as `Mon 4 Mar`."""
    day = datetime.date.fromordinal(tenth // (24 * logs.HOUR))
    return "%s %d %s" % (day.strftime("%a"), day.day, day.strftime("%b"))


def clock(tenth):
    return logs.show(tenth)[11:16]


def end_clock(tenth):
    """The clock at which something ends: 24:00 and not 00:00 of the next day."""
    return "24:00" if tenth % (24 * logs.HOUR) == 0 else clock(tenth)


def nice(greatest):
    """A round number at or over this one, and the step of its ticks."""
    step = 1
    while True:
        for times in (1, 2, 5):
            if greatest <= 4 * step * times:
                return max(-(-greatest // (step * times)), 1) * step * times, step * times
        step *= 10


class Picture:
    """An SVG with a time axis below and a number axis on the left."""

    def __init__(self, title, start, end, height, width=WIDE, left=LEFT, top=TOP, bottom=40):
        self.title, self.start, self.end = title, start, end
        self.width, self.height, self.left = width, height, left
        self.top, self.bottom = top, height - bottom
        self.right, self.parts, self.highest = width - RIGHT, [], 1

    def x(self, tenth):
        return self.left + (tenth - self.start) * (self.right - self.left) / (self.end - self.start)

    def y(self, value):
        return self.bottom - value * (self.bottom - self.top) / self.highest

    def add(self, name, inner=None, **given):
        given = {key: short(value) if isinstance(value, float) else value for key, value in given.items()}
        whole = pages.attributes(given)
        self.parts.append("<%s%s/>" % (name, whole) if inner is None else "<%s%s>%s</%s>" % (name, whole, inner, name))

    def write(self, x, y, words, size=13, anchor="start", colour=SOFT, **given):
        self.add("text", pages.text(words), x=float(x), y=float(y), font_size=size, text_anchor=anchor, fill=colour,
                 **given)

    def path(self, d, stroke=None, fill="none", **given):
        if d:
            self.add("path", d="".join(d) if isinstance(d, list) else d, stroke=stroke, fill=fill, **given)

    def shade(self, unknown, top=None, bottom=None):
        """Hatches the stretches that aren't known, each wide enough to be seen."""
        top, bottom = self.top if top is None else top, self.bottom if bottom is None else bottom
        least, d = 2.5 if len(unknown) <= MANY else 0.5, []
        for low, high in unknown:
            low, high = max(low, self.start), min(high, self.end)
            if low < high:
                wide = max(self.x(high) - self.x(low), least)
                d.append(box(self.x(low), top, wide, bottom))
        self.path(d, fill="url(#unknown)")

    def time_axis(self):
        """Ticks by the clock, with the days below them; of a longer time ticks by the day."""
        day = 24 * logs.HOUR
        room = max(4, (self.right - self.left) // 74)
        step = next((step for step in STEPS if (self.end - self.start) / step <= room), STEPS[-1])
        self.path("M%s %sH%s" % (short(self.left), short(self.bottom), short(self.right)), stroke=INK)
        by_day = step >= day
        first = -(-self.start // day) * day if by_day else -(-self.start // step) * step
        ticks = range(first, self.end + 1, step)
        self.path(["M%s %sv5" % (short(self.x(tenth)), short(self.bottom)) for tenth in ticks], stroke=INK)
        for tenth in ticks:
            if not by_day:
                self.below(tenth, 18, end_clock(tenth) if tenth == self.end else clock(tenth))
            elif tenth < self.end:
                self.below(tenth, 18, day_of(tenth).split(" ", 1)[1])
        if not by_day:
            days = [self.start] + list(range(-(-(self.start + 1) // day) * day, self.end, day))
            if len(days) > 1 and self.x(days[1]) - self.left < 90:
                days.pop(0)
            for tenth in days:
                self.below(tenth, 34, day_of(tenth), at_begin=True)

    def below(self, tenth, down, words, at_begin=False):
        """Words below the axis: in the middle of a tick or at it, and within the picture."""
        at, wide = self.x(tenth), 3.6 * len(words)
        anchor = "start" if at_begin else "middle"
        if at + (2 * wide if at_begin else wide) > self.width:
            at, anchor = self.width - 2, "end"
        self.write(at, self.bottom + down, words, anchor=anchor)

    def value_axis(self, greatest, unit, percent=False, exactly=False):
        """Ticks of the numbers and faint lines through the picture, to a round number or exactly to the greatest."""
        self.highest, step = (100, 25) if percent else nice(greatest)
        self.highest = greatest if exactly else self.highest
        lines = []
        for value in range(0, int(self.highest) + 1, int(step)):
            at = self.y(value)
            if value:
                lines.append("M%s %sH%s" % (short(self.left), short(at), short(self.right)))
            self.write(self.left - 7, at + 4, value, anchor="end")
        self.path(lines, stroke=LINE)
        self.write(6, self.top + 8, unit, anchor="end", size=12,
                   transform="rotate(-90 6 %s) translate(0 6)" % short(self.top + 8))

    def svg(self):
        return ('<svg viewBox="0 0 %d %d" role="img"><title>%s</title>%s</svg>'
                % (self.width, self.height, pages.text(self.title), "".join(self.parts)))


def box(x, y, wide, to):
    """The path of a box from a corner: so wide, and up or down to a height."""
    return "M%s %sh%sV%sh-%sz" % (short(x), short(y), short(wide), short(to), short(wide))


def ring(x, y, radius):
    return "M%s %sa%s %s 0 1 0 %s 0a%s %s 0 1 0 -%s 0" % (
        short(x - radius), short(y), radius, radius, short(2 * radius), radius, radius, short(2 * radius))


def time_line(title, start, end, known, suspected, rules, marks):
    """The window: a lane of what is known, blanked and suspected, and a line a rule with its verdicts.

    known has the stretches without a file and those that are blanked; suspected (from, to); rules are (number, words);
    marks are (tenth, rule, verdict). Marks of one rule and verdict that fall on one unit are drawn once.
    """
    missing, blanked = known
    row, left = 25, 290
    height = 78 + row * len(rules) + 44
    picture = Picture(title, start, end, height, left=left, top=54)
    lane = 14
    picture.write(left - 12, lane + 12, "what the log tells", anchor="end", colour=INK)
    picture.add("rect", x=float(left), y=lane, width=float(picture.right - left), height=18, fill="#cfe3f1")
    picture.shade(missing + blanked, lane, lane + 18)
    for low, high in missing:
        picture.add("rect", x=picture.x(low), y=lane, width=max(picture.x(high) - picture.x(low), 1.0), height=18,
                    fill="none", stroke=INK, stroke_width=1.5)
    picture.path(["M%s %sl-5 9h10z" % (short((picture.x(low) + picture.x(high)) / 2), lane + 20)
                  for low, high in suspected], fill=BROKEN)
    picture.shade(missing + blanked)
    drawn = set()
    paths = {"broken": [], "undecided": []}
    lines = []
    for place, (number, words) in enumerate(rules):
        at = picture.top + row * place + row / 2
        lines.append("M%s %sH%s" % (short(left), short(at), short(picture.right)))
        picture.write(left - 12, at + 4.5, words, anchor="end", colour=INK)
        for tenth, rule, verdict in marks:
            if rule == number:
                x = picture.x(tenth)
                if (round(x), rule, verdict) not in drawn:
                    drawn.add((round(x), rule, verdict))
                    paths[verdict].append("M%s %sv13" % (short(x), short(at - 6.5)) if verdict == "broken"
                                          else ring(x, at, 4))
    picture.path(lines, stroke=LINE)
    picture.path(paths["undecided"], stroke=UNDECIDED, fill="#fff", stroke_width=1.6)
    picture.path(paths["broken"], stroke=BROKEN, stroke_width=3)
    picture.time_axis()
    return picture.svg()


def hours_bars(title, start, end, unknown, parts, unit, width=HALF, height=170):
    """Bars by hour, stacked: parts are (fill, {begin of the hour: count})."""
    picture = Picture(title, start, end, height, width)
    sums = {}
    for _, counts in parts:
        for hour, count in counts.items():
            sums[hour] = sums.get(hour, 0) + count
    picture.value_axis(max(list(sums.values()) + [1]), unit)
    picture.shade(unknown)
    below = dict.fromkeys(sums, 0)
    thin = (picture.x(start + logs.HOUR) - picture.x(start)) < 3
    for fill, counts in parts:
        d = []
        for hour, count in sorted(counts.items()):
            if count:
                gap = 0 if thin else min(3, (picture.x(hour + logs.HOUR) - picture.x(hour)) * 0.12)
                wide = picture.x(hour + logs.HOUR) - picture.x(hour) - 2 * gap
                d.append(box(picture.x(hour) + gap, picture.y(below[hour]), wide, picture.y(below[hour] + count)))
                below[hour] += count
        picture.path(d, fill=fill, stroke=None if thin else INK, stroke_width=None if thin else 0.6)
    picture.time_axis()
    return picture.svg()


def hours_band(title, start, end, unknown, rows, unit, percent=False, width=HALF, height=170):
    """By hour a band from the least to the greatest, and a mark at the mean where there is one.

    rows are (begin of the hour, least, mean or None, greatest).
    """
    picture = Picture(title, start, end, height, width)
    picture.value_axis(max([row[3] for row in rows] + [1]), unit, percent)
    picture.shade(unknown)
    band, means = [], []
    wide = picture.x(start + logs.HOUR) - picture.x(start)
    gap = min(6, wide * 0.22)
    for hour, least, mean, greatest in rows:
        x, low, high = picture.x(hour) + gap, picture.y(least), picture.y(greatest)
        tall = max(low - high, 1.6)
        band.append("M%s %sh%sv%sh-%sz" % (short(x), short(high - (tall - low + high) / 2), short(wide - 2 * gap),
                                           short(tall), short(wide - 2 * gap)))
        if mean is not None:
            means.append("M%s %sh%s" % (short(picture.x(hour)), short(picture.y(mean)), short(wide)))
    if wide > 3:
        picture.path(band, fill=SKY, stroke=BLUE, stroke_width=0.6)
    else:
        picture.path(band, fill=BLUE)
    picture.path(means, stroke=INK, stroke_width=2)
    picture.time_axis()
    return picture.svg()


TALLEST = 3000


def tallest(lengths):
    """Up to where a diagram goes: half over the length that three quarters of the cycles don't pass, at most 300 s."""
    usual = sorted(lengths)[3 * len(lengths) // 4]
    return min(TALLEST, max(lengths), -(-usual * 3 // 2 // 300) * 300 + 300)


def diagram(title, start, end, unknown, cycles, points, most=20000):
    """The coordination diagram: over each whole cycle its begins of green and yellow, and its arrivals.

    cycles are (begin, length, green, yellow), points (begin of the cycle, offset), in tenths. What lies higher than
    `tallest` over the begin of its cycle is left out. Of more than `most` points each k-th is drawn. It gives the
    picture, that height in seconds, how many cycles were cut there, and k.
    """
    picture = Picture(title, start, end, 330)
    highest = tallest([cycle[1] for cycle in cycles])
    picture.value_axis(highest / 10, "seconds since the end of yellow", exactly=True)
    picture.shade(unknown)
    scale = lambda tenths: picture.y(min(tenths, highest) / 10)
    greens, begins, yellows, ends, cut = [], [], [], [], 0
    for begin, length, green, yellow in cycles:
        x, wide = picture.x(begin), picture.x(begin + length) - picture.x(begin)
        step = "M%s %sh%s"
        if green and yellow > green and green < highest:
            greens.append(box(x, scale(green), wide, scale(yellow)))
            begins.append(step % (short(x), short(scale(green)), short(wide)))
            if yellow <= highest:
                yellows.append(step % (short(x), short(scale(yellow)), short(wide)))
        if length <= highest:
            ends.append(step % (short(x), short(scale(length)), short(wide)))
        else:
            cut += 1
            ends.append("M%s %sl4 -6l4 6" % (short(x + wide / 2 - 4), short(picture.top + 8)))
    picture.path(greens, fill="#d9efe6")
    picture.path(begins, stroke=GREEN, stroke_width=1.6)
    picture.path(yellows, stroke=ORANGE, stroke_width=1.8, stroke_dasharray="5 2")
    picture.path(ends, stroke=INK, stroke_width=1)
    shown = [(begin, offset) for begin, offset in points if offset <= highest]
    every = -(-len(shown) // most) or 1
    dots = ["M%s %sh0" % (short(picture.x(begin + offset)), short(scale(offset))) for begin, offset in shown[::every]]
    picture.path(dots, stroke=INK, stroke_width=2.4, stroke_linecap="round", opacity="0.75")
    picture.time_axis()
    return picture.svg(), highest // 10, cut, every


def shifts(title, counts, best):
    """How many arrivals of an approach meet green at each shift in seconds; the best and the log's own are marked."""
    picture = Picture(title, 0, max(len(counts), 1), 170, HALF)
    picture.value_axis(max(list(counts) + [1]), "arrivals on green")
    d = []
    for at, count in enumerate(counts):
        d.append("%s%s %s" % ("L" if d else "M", short(picture.x(at + 0.5)), short(picture.y(count))))
    picture.path(d, stroke=BLUE, stroke_width=2)
    if counts:
        own = picture.y(counts[0])
        picture.path("M%s %sH%s" % (short(picture.left), short(own), short(picture.right)), stroke=INK,
                     stroke_dasharray="5 4")
        picture.path(ring(picture.x(best + 0.5), picture.y(counts[best]), 5), stroke=BROKEN, fill="#fff",
                     stroke_width=2)
    picture.path("M%s %sH%s" % (short(picture.left), short(picture.bottom), short(picture.right)), stroke=INK)
    step = next(step for step in (10, 20, 30, 60, 120, 300) if len(counts) / step <= 8)
    for at in range(0, len(counts), step):
        picture.write(picture.x(at + 0.5), picture.bottom + 18, at, anchor="middle")
    picture.write(picture.right, picture.bottom + 34, "seconds later in the cycle", anchor="end")
    return picture.svg()


def overview(title, start, end, known, marks):
    """The window in three lanes: broken verdicts, undecided ones, what the log tells. marks are (tenth, verdict)."""
    missing, blanked = known
    picture = Picture(title, start, end, 118, left=92)
    lanes = {"broken": 4, "undecided": 28, "log": 52}
    for words, top in lanes.items():
        picture.write(picture.left - 12, top + 14, words, anchor="end", colour=INK)
        picture.add("rect", x=float(picture.left), y=top, width=float(picture.right - picture.left), height=18,
                    fill="#cfe3f1" if words == "log" else "#f5f7f8")
    ticks = {"broken": set(), "undecided": set()}
    for tenth, verdict in marks:
        ticks[verdict].add(round(picture.x(tenth), 1))
    for verdict, colour in (("broken", BROKEN), ("undecided", UNDECIDED)):
        picture.path(["M%s %sv14" % (short(x), lanes[verdict] + 2) for x in sorted(ticks[verdict])], stroke=colour,
                     stroke_width=2.4, stroke_dasharray=None if verdict == "broken" else "3 2.5")
    picture.shade(missing + blanked, lanes["log"], lanes["log"] + 18)
    picture.bottom = 76
    picture.time_axis()
    return picture.svg()


def small_hours(title, start, end, unknown, counts, width=220, height=34):
    """A small picture of one count by hour, for an index: counts are {begin of the hour: count}."""
    picture = Picture(title, start, end, height, width, left=1, top=2, bottom=4)
    picture.right, picture.highest = width - 1, max(list(counts.values()) + [1])
    picture.shade(unknown)
    d = []
    for hour, count in sorted(counts.items()):
        if count:
            wide = max(picture.x(hour + logs.HOUR) - picture.x(hour) - 1, 1)
            d.append(box(picture.x(hour), picture.bottom, wide, picture.y(count)))
    picture.path(d, fill=BROKEN)
    picture.path("M%s %sH%s" % (1, short(picture.bottom), short(picture.right)), stroke=INK)
    return picture.svg()
