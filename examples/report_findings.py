"""The page of a signal: what stands out of it, each leading to its part. Not proved."""
import figures
import pages
import report_verdicts
from report_parts import approach_link, element, heading, link, listed, paragraph, section, span, text

# Conflicts, and the intervals that clear a crossing, stand first among broken rules.
CLEARING = {"Yellow", "Clear", "Walk", "Clearance"}
FAILURES = {"approach": "approach", "phase": "phase", "split_fail": "failed", "split_undecided": "undecided",
            "split_pass": "passed", "fail_least": "share failed, least", "fail_greatest": "greatest",
            "known_s": "known s"}
ARRIVALS = {"approach": "approach", "phase": "phase", "arrivals": "arrivals", "green": "on green",
            "undecided": "undecided", "unseen": "unseen", "least": "share, least", "greatest": "greatest",
            "platoon_ratio": "platoon ratio", "known_s": "known s"}


def stands_out(audit):
    return section(heading("out", "What stands out"), broken_rules(audit), failures(audit), arrivals(audit),
                   detectors(audit))


def is_clearing(name):
    """Whether a rule, by its name, is of two channels or on the least time of a clearing interval."""
    words = name.split()
    return words[0] in ("conflict", "companion", "parents") or (words[2] in CLEARING and words[4] == "least")


def broken_rules(audit):
    judged = audit.tables.window("rules")
    rows = sorted((row for row in judged if row.count("broken")),
                  key=lambda row: (not is_clearing(row["name"]), -row.count("broken"), int(row["rule"])))
    if not rows:
        return element("h3", "Rules") + paragraph(
            "No rule is broken in what is known." if judged else "The script asks for no audit, so no rule was judged.")
    heads = [("rule", "wide"), ("broken", "n"), ("kept", "n"), ("undecided", "n"), ("furthest from the bound", "far")]
    heads += [("on solid log", "n")] if audit.graded else []
    return element("h3", "Broken rules") + paragraph(
        "Conflicts and rules on clearing intervals stand first, then the rule that is broken most often.", cls="soft"
    ) + pages.scrolled(pages.table("".join(element("th", words, scope="col", cls=kind) for words, kind in heads),
                                   [broken_rule(audit, row) for row in rows]))


def broken_rule(audit, row):
    cells = element("th", link("#rule-" + row["rule"], text(row["in_words"])), scope="row", cls="wide")
    cells += "".join(element("td", row.shown(column), cls="n") for column in ("broken", "kept", "undecided"))
    cells += element("td", report_verdicts.worst(audit, row["rule"]), cls="far")
    if audit.graded:
        cells += element("td", audit.count("broken", rule=row["rule"], doubt="solid"), cls="n")
    return element("tr", cells)


def failures(audit):
    title = element("h3", "Split failures")
    rows = [row for row in audit.tables.window("approaches") if row["splits"]]
    failing = [row for row in rows if row.count("split_fail") or row.count("split_undecided")]
    if not failing:
        return title + paragraph(
            "No service of any approach failed." if rows else "No approach has a stop bar detector.")
    failing.sort(key=lambda row: -row.number("fail_greatest"))
    return title + figures.table(failing, FAILURES, label=approach_link, caption="A service failed where the stop bar "
        "detector was busy through its green and still in the first five seconds of red. The approach that failed most "
        "first.")


def arrivals(audit):
    title = element("h3", "Arrivals on green")
    rows = [row for row in audit.tables.window("approaches") if row["arrivals"]]
    if not rows:
        return title + paragraph("No approach has an advance detector.")
    rows.sort(key=lambda row: row.number("least"))
    return title + figures.table(rows, ARRIVALS, label=approach_link, caption="The share lies between least and "
                                 "greatest, by what the holes hide. The approach with the least share first.")


def detectors(audit):
    items = [fault(audit, *found) for found in audit.faulty()]
    for row in audit.tables.window("approaches"):
        for column, words in (("fault", "advance"), ("red_fault", "stop bar")):
            if row[column] and row.count(column):
                items.append("%s: %s actuations of its %s detector came while it reported a fault; they are left out."
                             % (approach_link(row), row.shown(column), words))
    if not audit.detectors:
        items += [element("span", text(said), cls="said") for said in audit.quiet_detectors()]
    return element("h3", "Detectors") + (listed(items) if items else paragraph("Nothing was found."))


def named(channel):
    """A channel of the detectors' file in words: `ped_detector 2`, `detector 1,2`, `detector all`, `coordination`."""
    kind, _, numbers = channel.replace("ped_detector", "pedestrian detector").rpartition(" ")
    if numbers == "all":
        return "all %ss" % kind
    return ("%s %s" % (kind, numbers.replace(",", ", "))).strip()


def fault(audit, grade, channel, what, low, high, logged):
    """What was found of a channel, and which numbers it makes worthless."""
    said = element("span", text("%s: %s" % (named(channel).capitalize(), what)), cls="said")
    words = "%s, from %s: %s." % (said, span(low, high), element("span", grade, cls="grade " + grade))
    if logged:
        words += " Its fault was logged too, and what it tells there is left out."
    names = audit.approaches_of(channel)
    if names and not logged:
        links = ", ".join(link("#approach-" + name, text(name)) for name in names)
        words += (" If it is so, arrivals" if grade == "weak" else " Arrivals") + (
            " and split failures of %s mean nothing there." % links)
    return words
