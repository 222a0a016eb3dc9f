"""The page of a signal: its phases, approaches, pedestrian signals, preempts and coordination by hour. Not proved."""
import drawings
import figures
import logs
import pages
from report_parts import HATCHED, by_hour, element, heading, keys, pair, paragraph, section, text

# What bars are made of, from below: the column, how it is drawn, and what it is.
TERMINATIONS = (("gap_out", drawings.SKY, "gap out"), ("max_out", "url(#striped)", "max out"),
                ("force_off", drawings.BLUE, "force off"), ("unlogged", "#fff", "not logged"))
SERVICES = (("split_fail", drawings.BROKEN, "failed"), ("split_undecided", "url(#dotted)", "undecided"),
            ("split_pass", drawings.SKY, "passed"), ("split_open", "#fff", "open"), ("split_fault", "#c4cad0", "fault"))
PHASE = {"services": "services", "split_least_s": "least s", "split_mean_s": "mean s", "split_greatest_s": "greatest s",
         "gap_out": "gap out", "max_out": "max out", "force_off": "force off", "unlogged": "not logged",
         "cycles": "cycles", "cycle_mean_s": "cycle s"}
ARRIVALS = {"arrivals": "arrivals", "green": "on green", "undecided": "undecided", "unseen": "unseen",
            "least": "share, least", "greatest": "greatest", "platoon_ratio": "platoon ratio"}
FAILURES = {"splits": "services", "split_fail": "failed", "split_pass": "passed", "split_undecided": "undecided",
            "fail_least": "failed, least", "fail_greatest": "greatest"}
PED = {"walks": "walks", "delays": "with a call", "delay_mean_s": "mean delay s", "delay_greatest_s": "greatest s",
       "uncalled": "without a call", "partial": "can’t be told"}
PREEMPT = {"entries": "entries", "delay_mean_s": "mean delay s", "dwells": "dwells", "dwell_mean_s": "mean dwell s",
           "input_on_s": "input on s", "track_s": "track s", "dwell_s": "dwell s", "undecided_s": "undecided s"}
COORDINATION = {"free_s": "free s", "in_step_s": "in step s", "add_s": "adding s", "subtract_s": "subtracting s",
                "dwell_s": "dwelling s", "local_zero_s": "local zero s", "begin_pickup_s": "pickup s",
                "undecided_s": "undecided s", "patterns": "changes of pattern", "cycle_changes": "of cycle"}


def movements(audit):
    rows = audit.tables.window("phases")
    said = ("Numbers are of whole services in known seconds; what a hole cuts isn’t in them. Hours by the clock of the "
            "controller." if rows else "No phase is configured, or the script asks for no `measures`.")
    return section(heading("phases", "Phases and approaches"), paragraph(said, cls="soft"),
                   *[phase(audit, row) for row in rows], pedestrians(audit), preempts(audit), coordination(audit))


def band(audit, title, caption, rows, columns, unit, percent=False):
    """A figure of a band by hour: of each row the columns of its least, its mean (or None) and its greatest."""
    times = 100 if percent else 1
    least, mean, greatest = columns
    found = [(row.hour(), times * row.number(least), row.number(mean) if mean else None, times * row.number(greatest))
             for row in rows if row[greatest]]
    session = audit.session
    return pages.figure(drawings.hours_band(title, session.start, session.end, session.unknown(), found, unit, percent),
                        caption + HATCHED)


def bars(audit, title, caption, rows, entries, unit):
    """A figure of bars by hour, stacked of some columns."""
    stacked = [(fill, {row.hour(): row.count(column) for row in rows}) for column, fill, _ in entries]
    session = audit.session
    return pages.figure(drawings.hours_bars(title, session.start, session.end, session.unknown(), stacked, unit),
                        caption + keys(entries))


def phase(audit, total):
    number = total["phase"]
    rows = audit.tables.rows("phases", phase=number)
    name = "Phase " + number
    parts = [heading("phase-" + number, name, "h3")]
    if total.count("services"):
        parts += [
            paragraph(total.say(
                "{services} whole services in {known_s} known seconds, their splits from {split_least_s} to "
                "{split_greatest_s} s, {split_mean_s} s in the mean; ended by gap out {gap_out}, max out {max_out}, "
                "force off {force_off}, not logged {unlogged}. {cycles} whole cycles") + (
                    total.say(" of {cycle_mean_s} s in the mean.") if total["cycle_mean_s"] else ".")),
            pair([band(audit, name + ": least, mean and greatest split by hour",
                       "Splits by hour: from least to greatest, with the mean as a line. ", rows,
                       ("split_least_s", "split_mean_s", "split_greatest_s"), "split, seconds"),
                  bars(audit, name + ": why its greens ended, by hour", "Why greens ended:", rows, TERMINATIONS,
                       "greens")]),
            by_hour(audit, rows, PHASE, name)]
    else:
        parts.append(paragraph(total.say("No whole service in {known_s} known seconds.")))
    parts.append(diagram(audit, number))
    parts += [approach(audit, row) for row in audit.tables.window("approaches", phase=number)]
    return "\n".join(filter(None, parts))


def diagram(audit, number):
    """The coordination diagram of a phase, where the script asks for its points."""
    session = audit.session
    found = session.last("points", number)
    if not found:
        return ""
    cycles, points = [], []
    for line in found.lines:
        if line[0] == "cycle":
            begin = logs.parse_stamp(line[1])[0]
            cycles.append((begin, int(line[3]), int(line[5]), int(line[7])))
        elif line[0] == "point":
            points.append((begin, int(line[2])))
    if not cycles:
        return paragraph("No whole cycle of phase %s, so no coordination diagram." % number)
    name = "Coordination diagram of phase " + number
    picture, highest, cut, every = drawings.diagram(name, session.start, session.end, session.unknown(found), cycles,
                                                    points)
    caption = name + (": over the time of day, seconds since the end of yellow. Green area: green, from its begin "
                      "(line) to the begin of yellow (dashes); black line: the end of yellow that ends the cycle; "
                      "dots: arrivals at the advance detectors. ")
    if cut:
        caption += "A tip at the top is a cycle longer than %s, cut there: %s of them. " % (
            element("span", "%d s" % highest, cls="said"),
            element("span", cut, data_of="cycles %s longer than %d" % (number, highest)))
    if every > 1:
        caption += element("span", "One dot in %d is drawn. " % every, cls="said")
    return pages.figure(picture, caption + HATCHED)


def approach(audit, total):
    name = "Approach " + text(total["approach"])
    rows = audit.tables.rows("approaches", approach=total["approach"])
    said, pictures, columns = [], [], {}
    if total["arrivals"]:
        said.append(arrived(total))
        pictures.append(band(audit, name + ": share of arrivals on green by hour",
                             "Arrivals on green by hour, per cent, from least to greatest. ", rows,
                             ("least", None, "greatest"), "% on green", percent=True))
        columns.update(ARRIVALS)
    if total["splits"]:
        said.append(served(total))
        pictures.append(bars(audit, name + ": services by hour, failed, undecided, passed", "Services by hour:", rows,
                             SERVICES, "services"))
        columns.update(FAILURES)
    pictures.append(best_shift(audit, total["approach"]))
    return "\n".join(filter(None, [
        heading("approach-" + total["approach"], name, "h4"), loops(audit, total["approach"]), *said,
        pair(list(filter(None, pictures))), by_hour(audit, rows, columns, name)]))


def share(row, least, greatest):
    """A share that lies between two, or is both."""
    if row[least] == row[greatest]:
        return "a share of " + row.shown(least)
    return "a share from %s to %s" % (row.shown(least), row.shown(greatest))


def arrived(total):
    said = total.say("{arrivals} arrivals, {green} of them on green, {not_green} not, {undecided} undecided, {unseen} "
                     "unseen, in {known_s} known seconds")
    if total["least"]:
        said += ": " + share(total, "least", "greatest")
    if total["platoon_ratio"]:
        said += total.say("; platoon ratio {platoon_ratio}")
    return paragraph(said + ".")


def served(total):
    said = total.say("{splits} services: {split_fail} failed, {split_pass} passed, {split_undecided} undecided, "
                     "{split_open} open at the end, {split_fault} with a detector’s fault")
    if total["fail_least"]:
        said += "; failed " + share(total, "fail_least", "fail_greatest")
    return paragraph(said + ".")


def loops(audit, name):
    """The detectors of an approach, from the configuration."""
    entry = next((entry for entry in audit.session.config.get("approach", []) if entry["name"] == name), {})
    said = ["%s detector %d" % (words, entry[place])
            for place, words in (("advance", "advance"), ("stop_bar", "stop bar")) if place in entry]
    if entry.get("travel"):
        said.append("%.1f s from the advance detector to the stop bar" % (entry["travel"] / 10))
    return paragraph(", ".join(said).capitalize() + ".", cls="soft said") if said else ""


def best_shift(audit, name):
    """The counts of an approach at each shift, where the script asks for them."""
    found = audit.session.last("offsets", name)
    if not found:
        return ""
    best = next(line for line in found.lines if line[0] == "best")
    counts = [int(line[3]) for line in found.lines if line[0] == "shift"]
    if not counts:
        return ""
    number = lambda what, value: element("span", value, data_of="answer offsets/%s %s" % (name, what))
    caption = ("Best shift: of %s arrivals in whole cycles %s would have met green %s s later in the cycle, %s as "
               "logged (dashes). No forecast." % (number("of", best[5]), number("count", best[3]),
                                                  number("best", best[1]), number("logged", counts[0])))
    picture = drawings.shifts("Approach %s: arrivals on green at each shift" % name, counts, int(best[1]))
    return pages.figure(picture, caption)


def each_by_hour(audit, table, column, rows, columns, what):
    """By hour each channel of a table."""
    return "".join(by_hour(audit, audit.tables.rows(table, **{column: row[column]}), columns, what + " " + row[column])
                   for row in rows)


def pedestrians(audit):
    rows = audit.tables.window("peds")
    if not rows:
        return ""
    pictures = []
    for row in rows:
        called = [each for each in audit.tables.rows("peds", ped=row["ped"]) if each.count("delays")]
        if called:
            name = "Pedestrian signal " + row["ped"]
            pictures.append(band(audit, name + ": mean and greatest delay by hour",
                                 name + ": delays by hour, from the mean to the greatest. ", called,
                                 ("delay_mean_s", None, "delay_greatest_s"), "delay, seconds"))
    return heading("peds", "Pedestrian signals", "h3") + figures.table(
        rows, {"ped": "signal", **PED, "known_s": "known s"},
        caption="Delay: from the first call since the walk before to the walk.") + pair(pictures) + each_by_hour(
            audit, "peds", "ped", rows, PED, "Pedestrian signal")


def preempts(audit):
    rows = audit.tables.window("preempts")
    if not rows:
        return ""
    return heading("preempts", "Preempts", "h3") + figures.table(
        rows, {"preempt": "preempt", **PREEMPT, "known_s": "known s"}) + each_by_hour(
            audit, "preempts", "preempt", rows, PREEMPT, "Preempt")


def coordination(audit):
    rows = audit.tables.window("coordination")
    if not rows:
        return ""
    return heading("coordination", "Coordination", "h3") + figures.table(
        rows, {"known_s": "known s", **COORDINATION}) + by_hour(
            audit, audit.tables.rows("coordination"), COORDINATION, "Coordination")
