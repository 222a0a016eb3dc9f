"""What the parts of the page of a signal share: times, headings, keys of pictures, tables by hour. Not proved."""

import drawings
import figures
import logs
import pages

text, element, link = pages.text, pages.element, pages.link
# Tables by hour are shown up to a week; of a longer window the totals, the pictures, and the tables beside the page.
LISTED_HOURS = 168
DAY = 24 * logs.HOUR


def moment(tenth):
    """A tenth as `Mon 4 Mar 2024 05:00`, with the seconds where it isn't a whole minute."""
    shown = logs.show(tenth)
    return "%s %s %s" % (drawings.day_of(tenth), shown[:4], shown[11:16] if shown.endswith("00.0") else shown[11:])


def time(tenth, words=None):
    """A time as HTML, its stamp in the attribute."""
    return element("time", words or moment(tenth), datetime=logs.show(tenth))


def clock(tenth):
    return time(tenth, logs.show(tenth)[11:])


def day_and_clock(tenth):
    return time(tenth, "%s %s" % (drawings.day_of(tenth), logs.show(tenth)[11:]))


def span(low, high):
    """From and to, with the day once where it is one; midnight at the end is the 24:00 of the day before."""
    ending = moment(high)
    if high % 600 == 0:
        ending = "%s %s" % (moment(high - 1).rsplit(" ", 1)[0], drawings.end_clock(high))
    same = low // DAY == (high - 1) // DAY
    return time(low) + " to " + time(high, ending.split(" ")[-1] if same else ending)


def seconds(tenths):
    return "%d.%d" % divmod(tenths, 10)


def heading(name, words, level="h2"):
    return element(level, words, id=name)


def section(*parts):
    return element("section", "\n".join(filter(None, parts)))


def paragraph(words, cls=None):
    return element("p", words, cls=cls)


def listed(items, cls=None):
    return element("ul", "".join(element("li", item) for item in items), cls=cls)


def pair(figures_):
    """Figures side by side."""
    return element("div", "".join(figures_), cls="pair") if figures_ else ""


def approach_link(row):
    return link("#approach-" + row["approach"], text(row["approach"]))


def key(fill, words):
    """An entry of a picture's key."""
    box = ('<svg class="key" viewBox="0 0 14 10" aria-hidden="true"><rect x="0.5" y="0.5" width="13" height="9" '
           'fill="%s" stroke="%s" stroke-width="0.7"/></svg>' % (fill, drawings.INK))
    return " " + element("span", box + text(words), cls="entry")


def keys(entries):
    return "".join(key(fill, words) for _, fill, words in entries) + HATCHED


HATCHED = key("url(#unknown)", "not known, or partly")


def by_hour(audit, rows, columns, what):
    """The hours of one channel as a folded table; of a long window a word on where they are."""
    if not rows:
        return ""
    if len(rows) > LISTED_HOURS:
        return paragraph("%s by hour: %s." % (what, audit.tables.link(rows[0].table)), cls="soft")
    label = lambda row: time(row.hour(), "%s %s" % (drawings.day_of(row.hour()), drawings.clock(row.hour())))
    return pages.folded(what + " by hour", figures.table(
        rows, {"hour": "hour", "known_s": "known s", **columns}, label=label))
