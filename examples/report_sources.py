"""The page of a signal: its head, what it rests on, and the tables and files that it is made of. Not proved."""
import drawings
import figures
import logs
import pages
from report_parts import HATCHED, approach_link, element, heading, link, listed, paragraph, seconds, section, span, text

# More stretches than so many are folded up.
LISTED = 8
PARTS = (("out", "What stands out"), ("verdicts", "Violations"), ("timeline", "Time line"),
         ("phases", "Phases and approaches"), ("tables", "Tables and files"))
RESTS = (
    "<b>Every tenth of a second that isn’t blanked is believed.</b> There the log’s rows are all that happened; lost "
    "rows that nobody found can make a verdict false.",
    "<b>The configuration is right</b>: rings, barrier, permitted pairs, bounds, detectors; and every floor in it is "
    "an assumption.",
    "<b>The log is of what the controller commanded</b>, and not of lamps, vehicles or drivers.",
    "<b>Stamps are tenths of a second</b>: a duration is off by less than a tenth either way.",
    "<b>Broken</b> means broken in every history that agrees with the known rows, <b>kept</b> in every one kept, "
    "<b>undecided</b> neither. These verdicts are proved of the program; this page and the search for holes are not.",
)
ABOUT = {
    "head": "the window; configuration, script, answer with their SHA-256; each edit with its file’s, and its answer",
    "phases": "each phase by hour: services, splits, why greens ended, cycles",
    "approaches": "each approach by hour: arrivals on green, actuations on red, split failures",
    "peds": "each pedestrian signal by hour: walks, delays",
    "preempts": "each preempt by hour: entries, delays, dwells, states",
    "coordination": "the coordination by hour: seconds in each state",
    "rules": "each rule by hour: kept, broken, undecided",
    "window_rules": "each rule over the window",
    "verdicts": "each broken and undecided verdict, with the rule in words",
}


def head(audit):
    session = audit.session
    marks = [(verdict.at, verdict.verdict) for verdict in audit.verdicts]
    lanes = drawings.overview("Broken and undecided verdicts over the window", session.start, session.end,
                              (session.missing(), session.blanked()), marks)
    return element("header", "\n".join([
        element("h1", "Signal " + text(session.config["signal"])),
        paragraph("Audit of the controller’s event log, %s." % span(session.start, session.end), cls="lead"),
        tiles(audit), pages.figure(lanes, "Each mark is a verdict." + HATCHED), contents(), rests_on(audit)]))


def tiles(audit):
    """The figures that are read first, each leading to its part."""
    session = audit.session
    whole = session.end - session.start
    known = whole - sum(high - low for low, high in session.unknown())
    # Cut off, so that 100.0 stands only where all is known.
    share = element("span", "%d.%d\u00a0%%" % divmod(1000 * known // whole, 10), data_of="known share")
    of = element("span", "%s of %s s" % (seconds(known), seconds(whole)), data_of="known")
    found = [(share, "of the window is known: " + of),
             (audit.count("broken"), link("#verdicts", "broken verdicts") + audit.grades()),
             (audit.count("undecided"), link("#verdicts", "undecided verdicts") + ": the log can’t tell")]
    rows = audit.tables.window("approaches")
    failing = max((row for row in rows if row["fail_greatest"]), key=lambda row: row.number("fail_greatest"),
                  default=None)
    if failing:
        found.append((failing.shown("fail_greatest"),
                      "of the services of %s failed, at most: the worst approach" % approach_link(failing)))
    waiting = min((row for row in rows if row["least"]), key=lambda row: row.number("least"), default=None)
    if waiting:
        found.append((waiting.shown("least"),
                      "of the arrivals of %s on green, at least: the worst approach" % approach_link(waiting)))
    return listed((element("b", figure) + element("span", words) for figure, words in found), cls="tiles")


def contents():
    items = "".join(element("li", link("#" + name, words)) for name, words in PARTS)
    return element("nav", element("ol", items), aria_label="Contents")


def rests_on(audit):
    floors = len(audit.session.config.get("floor", []))
    return element("section", "\n".join(filter(None, [
        heading("rests", "What this page rests on"), refused(audit), listed(RESTS, cls="said"),
        paragraph("The configuration has %d floors." % floors, cls="said") if floors else "",
        blanked(audit), unlearned(audit), unknown(audit), chances(audit),
        paragraph("Made %s by examples/report from %s." % (audit.made, link("#tables", "these files")),
                  cls="soft said"),
    ])), cls="rests")


def warning(words):
    return element("div", words, cls="warn")


def refused(audit):
    """A warning of the lines of the script that the program refused."""
    found = [(line, answer) for _, line, answer in audit.session.edits if answer.startswith("refused")]
    if not found:
        return ""
    count = element("span", len(found), data_of="refused")
    return warning(paragraph("<b>Refused lines of the script: %s</b>. What they would have loaded isn’t known:" % count)
                   + listed((text("%s: %s" % (" ".join(line), answer)) for line, answer in found), cls="said"))


def blanked(audit):
    """How much was blanked, by the grades of the holes: a warning where it is more than one per cent."""
    rows = audit.tables.rows("head")
    whole = next((row for row in rows if row["what"] == "blanked_s"), None)
    if not whole or not whole.number("value"):
        return ""
    grades = ["%s s %s" % (row.shown("value"), row["what"].split(" ", 1)[1]) for row in rows
              if row["what"].startswith("blanked_s ")]
    said = whole.say("Blanked: {value} s, {answer} of the hours that are held") + (
        ": " + ", ".join(grades) if grades else "") + "."
    if float(whole["answer"].rstrip(" %")) <= 1:
        return paragraph(said)
    return warning(paragraph(element("b", said) + " That is much: look at the reasons before you use a number."))


def unlearned(audit):
    """What the search for holes says of itself: portions too small to learn from, codes that it doesn't understand."""
    said = []
    for words in audit.holes:
        if words[0] == "small":
            low, high = (logs.parse_stamp(stamp)[0] for stamp in words[1:3])
            said.append("From %s the log has too few rows to learn from: there only what contradicts shows as a hole, "
                        "and silence doesn’t." % span(low, high))
        elif words[0] == "misfit":
            said.append("%s of %s rows of %s can’t follow those before them: the controller logs otherwise than is "
                        "assumed here." % (words[4], words[6], " ".join(words[1:4])))
    return "".join(paragraph(words, cls="said") for words in said)


def unknown(audit):
    """Each stretch that isn't known, and why."""
    session = audit.session
    found = [(low, high, "no file") for low, high in session.missing()]
    found += [(low, high, audit.why_blank(low, high)) for low, high in session.blanked()]
    if not found:
        return paragraph("The whole window is held, and nothing was blanked.")
    heads = '<th scope="col">not known</th><th scope="col" class="n">s</th><th scope="col" class="wide">why</th>'
    rows = [element("tr", element("th", span(low, high), scope="row", cls="window")
                    + element("td", seconds(high - low), cls="n") + element("td", text(why), cls="wide"))
            for low, high, why in sorted(found)]
    table = pages.scrolled(pages.table(heads, rows, data_stretches="unknown"))
    return table if len(found) <= LISTED else pages.folded("%d stretches aren’t known" % len(found), table, cls="said")


def chances(audit):
    """What outages the search for holes would have found in this log."""
    found = audit.chances()
    if not found:
        return ""
    lengths = list(dict.fromkeys(length for _, length, _, _ in found))
    counts = {(hours, length): "%d of %d" % (count, of) for hours, length, count, of in found}
    heads = '<th scope="col">hours</th>' + "".join(
        element("th", "%s s" % length.replace("-", " to "), scope="col", cls="n") for length in lengths)
    rows = [element("tr", element("th", "%s h" % hours.replace("-", " to "), scope="row") + "".join(
        element("td", counts.get((hours, length), ""), cls="n") for length in lengths))
        for hours in dict.fromkeys(hours for hours, _, _, _ in found)]
    return pages.folded("What holes would have been found, and what would not", paragraph(
        "Of outages that were cut into this very log at random, so many were found. A hole of a length and hour that "
        "isn’t found here isn’t found in earnest either.") + pages.scrolled(pages.table(heads, rows)), cls="said")


def about(name):
    """What a table has, in words."""
    if name.startswith("window_") and name not in ABOUT:
        return "the same as %s, over the window" % name[len("window_"):]
    return ABOUT.get(name, "")


def tables(audit):
    """The tables beside the page, and each file and edit with its digest."""
    items = []
    for name in audit.tables.names():
        count = element("span", "%d rows" % len(audit.tables.rows(name)), data_of="rows %s" % name)
        items.append("%s: %s; %s" % (audit.tables.link(name), text(about(name)), count))
    files = figures.table(audit.tables.rows("head"), {
        "what": "what", "hour": "hour", "value": "value", "answer": "answer", "sha256": "SHA-256"})
    return section(
        heading("tables", "Tables and files"),
        paragraph("By hour and over the window, for a spreadsheet; they lie beside this page."), listed(items),
        pages.folded("Files, edits and their digests", element("div", files, cls="files")))
