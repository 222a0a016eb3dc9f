"""The page of a signal: its verdicts, what was measured, the rows that decide them; a time line. Not proved."""
import answers
import codes
import drawings
import explanations
import logs
import pages
from report_audit import GRADES, Verdict
from report_parts import clock, day_and_clock, element, heading, link, paragraph, section, text

# So many verdicts of one rule are shown one by one, those furthest from the bound; the others stand in verdicts.csv.
SHOWN = 40
# A longer stretch is shown by the rows of the rule's channels, and so many others at its ends and around its silence.
MOST_ROWS, ENDS = 60, 12
GRADE_IN_WORDS = {
    "solid": "no lost rows are suspected in it",
    "unlearned": "the log is too small to tell whether rows are lost in it",
    "weak": "a faint suspicion of lost rows in it, which wasn’t blanked",
    "likely": "rows are likely lost in it",
    "sure": "rows are almost surely lost in it",
    "certain": "rows are lost in it: what is there can’t follow one another",
}
NO_FILES = "Its rows can’t be shown: the hour files aren’t there as they were, or the script asks for no audit."
FORBIDDEN = {"conflict": " both served", "companion": " walk without its phase", "parents": " green without a parent"}
CHANNELS = {"ped": "pedestrian signal", "ped_detector": "pedestrian detector", "preempt_input": "preempt input"}
INTRODUCTION = (
    "Each broken verdict opens on the rows of the log that decide it, to be checked by eye. A <em>conflict</em> says "
    "that two phases were served at once, from Phase On to the end of the red clearance: it is no trip of a conflict "
    "monitor, and mostly no two greens. Of the first undecided verdict of some rules two histories are shown, one that "
    "keeps the rule and one that breaks it. Both agree with every known row; that either happened, or that a "
    "controller would do so, isn’t claimed.")


def measured(verdict, with_bound=True):
    """What was measured, in a few words, beside the bound."""
    explained = verdict.explained
    if not explained:
        return "broken"

    def said(what, value, name="span"):
        return element(name, text(value), data_of="explained %d %s" % (verdict.row.place, what))

    words = said("measured", explained.measured(), "b")
    if explained.at is None:
        return words + FORBIDDEN[explained.kind]
    if with_bound:
        words += ", at %s %s" % (explained.at, said("bound", explanations.in_seconds(explained.bound)))
    if explained.excess is not None and explained.excess > 0:
        words += "%s %s too %s" % (":" if with_bound else ",",
                                  said("excess", explanations.in_seconds(explained.excess)),
                                  "short" if explained.at == "least" else "long")
    return words


def worst(audit, rule):
    """The broken verdict of a rule that is furthest from the bound, as a link to it."""
    found = max(audit.of(rule, "broken"), key=Verdict.severity)
    return link("#" + found.id, measured(found, with_bound=False))


def broken(verdict):
    """One broken verdict: what was measured, and folded up the stretch that decides it with its rows."""
    grade = element("span", verdict.grade, cls="grade " + verdict.grade) if verdict.grade in GRADES else ""
    summary = element("span", day_and_clock(verdict.at), cls="mark") + element("span", measured(verdict)) + grade
    if not verdict.explained or not verdict.explained.stretch:
        return element("li", summary + paragraph(NO_FILES, cls="soft"), id=verdict.id, cls="plain")
    inner = decided(verdict) + rows(verdict.explained)
    return element("li", pages.folded(summary, inner), id=verdict.id)


def decided(verdict):
    """The stretch that decides a verdict, its longest silence, and the suspicion of lost rows in it."""
    low, high = verdict.explained.stretch
    said = "Decided by the stretch from %s to %s" % (clock(low), clock(high))
    if verdict.explained.silence and verdict.explained.silence[0] < verdict.explained.silence[1]:
        begin, end = verdict.explained.silence
        length = element("span", explanations.in_seconds(end - begin),
                         data_of="explained %d silence" % verdict.row.place)
        said += "; the longest time in it without a row is %s, from %s" % (length, clock(begin))
    if verdict.explained.log.unknown_in(low, high + 1):
        said += "; part of it isn’t known, and no row is shown from there"
    said = paragraph(said + ".")
    if verdict.grade in GRADES:
        _, _, which = verdict.row["doubt"].partition(": ")
        which = " (%s)" % element("span", text(which), cls="said") if which else ""
        grade = element("b", verdict.grade.capitalize())
        said += paragraph("%s: %s%s." % (grade, GRADE_IN_WORDS[verdict.grade], which))
    return said


def subject(code, param):
    """What a row is about: `phase 2`, `detector 5`, or of a code without a channel `parameter 7`."""
    kind = (logs.channel_of(code, param) or ("parameter",))[0]
    return "%s %d" % (CHANNELS.get(kind, kind), param)


def rows(explained):
    """The rows of a stretch as they stand in the files, with their lines; those of the rule's channels are bold."""
    found = explained.rows()
    if not found:
        return paragraph("No row stands in it.", cls="soft")
    keep = shown_rows(explained, found)
    lines, left = [], 0
    for place, row in enumerate(found):
        if place not in keep:
            left += 1
            continue
        if left:
            lines.append("        .. %d rows of other channels ..\n" % left)
            left = 0
        line = text("%7d  %s %4d %-26s %s" % (row.line, logs.show(row.tenth)[11:], row.code, codes.name_of(row.code),
                                              subject(row.code, row.param)))
        lines.append((element("b", line) if explained.is_own(row) else line) + "\n")
    files = " and ".join(element("code", text(file)) for file in sorted({row.file for row in found}))
    return paragraph("Rows of %s, by their lines:" % files, cls="soft") + element("pre", "".join(lines), cls="rows",
                                                                                 tabindex="0")


def shown_rows(explained, found):
    """The places of the rows of a stretch that are shown: all of a short one."""
    if len(found) <= MOST_ROWS:
        return set(range(len(found)))
    begin = explained.silence[0] if explained.silence else None
    near = next((place for place, row in enumerate(found) if row.tenth == begin), 0)
    keep = {place for place, row in enumerate(found) if explained.is_own(row) or place < ENDS
            or place >= len(found) - ENDS or abs(place - near) <= ENDS // 2}
    # A row alone between two that are shown is shown too.
    return keep | {place for place in range(len(found)) if {place - 1, place + 1} <= keep}


def undecided(audit, verdict):
    """One undecided verdict, and its two fillings where they were asked for."""
    summary = element("span", day_and_clock(verdict.at), cls="mark")
    summary += element("span", "undecided" + possible(verdict.row))
    pair = audit.pairs.get((verdict.rule, verdict.at))
    if not pair:
        return element("li", summary, id=verdict.id, cls="plain")
    return element("li", pages.folded(summary, "".join(history(*side, verdict.at) for side in pair)), id=verdict.id)


def possible(row):
    """Between what the duration of an undecided verdict lies, beside the bound, by its fields."""
    least, greatest = row.get("least_s"), row.get("greatest_s")
    if not row.get("bound_s"):
        return row.say(": may have been so for {greatest_s} s at most") if greatest else ""
    if least == greatest:
        lasted = "{least_s} s"
    elif greatest:
        lasted = "{least_s} to {greatest_s} s"
    else:
        lasted = "{least_s} s or more"
    words = ": if it ended here, after %s, at %s {bound_s} s" % (lasted, row["name"].split()[4])
    return row.say(words) if least else ""


def history(side, channels, upto):
    """A history of the rule's channels: what of it is put into the unknown tenths up to the verdict."""
    lines = []
    for (kind, number, _, colour, age), fills in channels:
        lines.append("%s %s comes into the window in %s, in which it then was for %s\n" % (
            CHANNELS.get(kind, kind), number, colour, explanations.in_seconds(int(age))))
        lines += ["  + %s %4d %-26s %s\n" % (logs.show(tenth), code, codes.name_of(code), subject(code, param))
                  for tenth, code, param in fills if tenth <= upto] or [
                      "  nothing is put into the unknown tenths up to here\n"]
    return paragraph("<b>%s</b> in this history:" % ("Kept" if side == "keeps" else "Broken")) + element(
        "pre", text("".join(lines)), cls="rows", tabindex="0")


def violations(audit):
    """All rules with broken or undecided verdicts, those that are broken first."""
    judged = {row["rule"]: row for row in audit.tables.window("rules")}
    numbers = audit.rules()
    if not numbers:
        return section(heading("verdicts", "Violations"),
                       paragraph("Every verdict is kept." if judged else "The script asks for no audit."))
    shown, found, only_undecided = chosen(audit), [], []
    for number in numbers:
        if audit.of(number, "broken"):
            found.append(rule(audit, number, judged.get(str(number)), shown, "h3"))
        else:
            only_undecided.append(rule(audit, number, judged.get(str(number)), shown, "h4"))
    if only_undecided:
        only_undecided.insert(0, element("h3", "Undecided, and nowhere broken"))
    return section(heading("verdicts", "Violations"), paragraph(INTRODUCTION, cls="soft"), *found, *only_undecided)


def chosen(audit):
    """The HTML of each broken verdict that is shown, by its place; in order of time, so that files are read once."""
    found = []
    for number in audit.rules():
        found += sorted(audit.of(number, "broken"), key=lambda verdict: (-verdict.severity(), verdict.at))[:SHOWN]
    return {verdict.row.place: broken(verdict) for verdict in sorted(found, key=lambda verdict: verdict.at)}


def rule(audit, number, row, shown, level):
    """A rule in words, its counts, and its verdicts."""
    words = answers.in_words(audit.name(number)) or "rule %d" % number
    all_broken, all_undecided = audit.of(number, "broken"), audit.of(number, "undecided")
    items = [shown[verdict.row.place] for verdict in all_broken if verdict.row.place in shown]
    items += [undecided(audit, verdict) for verdict in all_undecided[:SHOWN]]
    parts = [heading("rule-%d" % number, text(words[:1].upper() + words[1:]), level),
             row and paragraph(row.say("Rule {rule}: {broken} broken, {undecided} undecided, {kept} kept."), "soft"),
             element("ol", "\n".join(items), cls="lines")]
    for every, which in ((all_broken, "The %d furthest from the bound are"),
                         (all_undecided, "The first %d undecided are")):
        if len(every) > SHOWN:
            parts.append(paragraph("%s shown; all stand in %s." % (which % SHOWN, audit.tables.link("verdicts")),
                                   cls="soft said"))
    return "\n".join(filter(None, parts))


def time_line(audit):
    session = audit.session
    suspected = audit.suspected()
    picture = drawings.time_line(
        "Time line of signal %s: rules with broken or undecided verdicts" % session.config["signal"], session.start,
        session.end, (session.missing(), session.blanked()), suspected,
        [(number, "%d  %s" % (number, answers.in_short(audit.name(number)))) for number in audit.rules()],
        [(verdict.at, verdict.rule, verdict.verdict) for verdict in audit.verdicts])
    caption = ("A filled bar is a broken verdict, an open ring an undecided one; where many fall on one spot one is "
               "drawn. Hatched is what the log doesn’t tell: blanked, or in a frame without a file.")
    if suspected:
        caption += " A triangle is a weak suspicion of lost rows, which wasn’t blanked."
    return section(heading("timeline", "Time line"), pages.figure(picture, caption))
