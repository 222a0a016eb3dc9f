"""Random files and scripts: answers of the form that is said, and edits that change nothing; for bench/hostile."""
import random

import hostile_data as data
import hostile_laws as laws
from hostile_runs import SESSION


def odd(bench, count):
    """Configurations, scripts and files at random: the answer has its form, and a second run gives the same bytes."""
    told = {}
    for turn in range(count):
        rng = random.Random("odd %d %d" % (bench.seed, turn))
        signal = data.Signal(rng)
        rows = data.legal_rows(rng, signal)
        files = {"c": signal.text if rng.random() < 0.6 else data.odd_config(rng, signal)}
        for hour in range(signal.hours):
            here = data.of_hour(rows, hour)
            near = data.of_hour(data.nearly(rng, signal, rows), hour)
            files["f%d" % hour] = data.spelled_log(rng, signal, here)
            files["n%d" % hour] = data.spelled_log(rng, signal, near)
            files["p%d" % hour] = data.packed_hour(signal.name, signal.hour_word(hour), here, hour * data.HOUR)
        files["g"] = data.garbled(rng, files[rng.choice(sorted(files))])
        files["s"] = data.odd_script(rng, signal, sorted(files) + ["nothing", "f0", "n0"])
        bench.folder(files)
        status, out = bench.run(SESSION)
        told[status] = told.get(status, 0) + 1
        name = "odd %d" % turn
        faults = laws.session_faults(files["s"], status, out.decode("latin-1"))
        bench.check(name, not faults and not bench.err, "; ".join(faults[:3]) + ";")
        bench.check(name + ", again", bench.run(SESSION) == (status, out), "another answer;")
        of_files(bench, name, rng, signal, sorted(files))
    print("odd: sessions by their status: %s" % ", ".join("%s: %d" % one for one in sorted(told.items(), key=str)))


def of_files(bench, name, rng, signal, names):
    """One file counted and packed; what is packed packs to itself."""
    words = [rng.choice(names), "--signal=" + signal.name, "--hour=" + signal.hour_word(rng.randrange(signal.hours))]
    status, out = bench.run(["--count"] + words)
    bench.check(name + ", counted", status == (1 if out.startswith(b"refused") else 0) and not bench.err
                and laws.COUNT.fullmatch(out.decode("latin-1")) is not None, repr(out[:60]))
    status, out = bench.run(["--pack"] + words)
    if status == 1:
        bench.check(name + ", packed", laws.REFUSED_FILE.fullmatch(out.decode("latin-1")) is not None and not bench.err)
        return
    bench.check(name + ", packed", status == 0 and out.startswith(b"\0SGP") and not bench.err)
    bench.put("packed", out)
    bench.run(["--pack", "packed"] + words[1:])
    bench.expect(name + ", packed again", 0, out)


class Story:
    """A script that is written line by line, and the answers to it."""

    def __init__(self, bench, signal):
        self.bench, self.signal, self.lines, self.answers = bench, signal, [], {}

    def add(self, *lines):
        """The numbers of these lines, as a range."""
        self.lines += lines
        return range(len(self.lines) - len(lines) + 1, len(self.lines) + 1)

    def report(self):
        return self.add(*self.signal.report())

    def carry_out(self, name):
        """Whether the script was carried out, with an answer to each line."""
        script = ("\n".join(self.lines) + "\n").encode()
        self.bench.put("s", script)
        status, out = self.bench.run(SESSION)
        faults = laws.session_faults(script, status, out.decode("latin-1"))
        self.bench.check(name + ", answers", not faults and not self.bench.err, "; ".join(faults[:3]) + ";")
        if not faults:
            self.answers = laws.answers(out.decode("latin-1"))
        return not faults

    def blocks(self, numbers):
        return [self.answers[number] for number in numbers]

    def head(self, number):
        return self.answers[number][0]


def random_edits(rng, signal, count):
    """Edits of the window: (word, hour or range, line). Some begin with all hours, some with all hours blanked."""
    end, hours = signal.hours * data.HOUR, list(range(signal.hours))
    loads = [("load", hour, "load %d n%d" % (hour, hour)) for hour in rng.sample(hours, len(hours))]
    whole = ("blank", (0, end), "blank %s %s" % (signal.stamp(0), signal.stamp(end)))
    found = rng.choice([[], loads, [whole] + loads])
    while len(found) < count:
        hour, a = rng.choice(hours), rng.randrange(end)
        b = min(end, rng.choice([rng.randrange(a, end) + 1, a + 1, a + 30, a + 3000, a + 20000]))
        stamps = "%s %s" % (signal.stamp(a), signal.stamp(b))
        words = ["unblank"] * 6 + ["blank"] if found[:1] == [whole] else ["blank"] * 2 + ["unblank"]
        word = rng.choice(words)
        file = "%s%d" % (rng.choice("fn"), hour)
        ranged = (word, (a, b), word + " " + stamps)
        found.append(rng.choice([("load", hour, "load %d %s" % (hour, file)), ranged, ranged,
                                 ("replace", hour, "replace %d %s" % (hour, file)),
                                 ("withdraw", hour, "withdraw %d" % hour)]))
    return found


def edits(bench, name, rng, signal):
    """Reports between random edits; answers the files held at the end, by hours, the blanked tenths, the report."""
    story, held, blanked = Story(bench, signal), {}, bytearray(signal.hours * data.HOUR)
    made = random_edits(rng, signal, 14)
    reports, numbers = [story.report()], []
    for _, _, line in made:
        numbers += story.add(line)
        reports.append(story.report())
    if not story.carry_out(name):
        return None
    for number, (kind, where, line), before, after in zip(numbers, made, reports, reports[1:]):
        before, after = story.blocks(before), story.blocks(after)
        one = "%s, line %d, %s" % (name, number, line)
        refused = story.head(number).startswith("refused")
        if refused:
            bench.check(one + ", refused", before == after, "the report changed;")
            continue
        touched = (where, where + 1) if isinstance(where, int) else (where[0] // data.HOUR, (where[1] - 1) // data.HOUR + 1)
        faults = laws.report_faults(signal, after) + laws.moved_faults(signal, touched, story.head(number), before, after)
        less, more = laws.broken_intervals(signal, before), laws.broken_intervals(signal, after)
        if kind in ("blank", "withdraw"):
            faults += laws.lost(more, less)
        elif kind in ("load", "unblank"):
            faults += laws.lost(less, more)
        bench.check(one, not faults, "; ".join(faults[:3]) + ";")
        if kind in ("load", "replace"):
            held[where] = line.split(" ")[2]
        elif kind == "withdraw":
            del held[where]
        else:
            blanked[where[0]:where[1]] = bytes([kind == "blank"]) * (where[1] - where[0])
    return held, blanked, story.blocks(reports[-1])


def ranges(blanked):
    """The ranges of the blanked tenths."""
    found, at = [], blanked.find(1)
    while at >= 0:
        to = blanked.find(0, at)
        to = len(blanked) if to < 0 else to
        found.append((at, to))
        at = blanked.find(1, to)
    return found


def fresh(bench, name, rng, signal, held, blanked, suffix=""):
    """The report of these files and blanks, given in an order of their own; None where something is refused."""
    story = Story(bench, signal)
    lines = ["load %d %s%s" % (hour, file, suffix) for hour, file in held.items()]
    lines += ["blank %s %s" % (signal.stamp(a), signal.stamp(b)) for a, b in ranges(blanked)]
    rng.shuffle(lines)
    lines.sort(key=lambda line: line.startswith("load"))
    numbers, report = story.add(*lines), story.report()
    if not story.carry_out(name):
        return None
    refused = [story.head(number) for number in numbers if story.head(number).startswith("refused")]
    bench.check(name + ", taken", not refused, "refused: %s;" % refused[:2])
    return None if refused else story.blocks(report)


def there_and_back(bench, name, rng, signal, held, blanked):
    """Edits that together change nothing, on what is held."""
    story, end, pairs = Story(bench, signal), signal.hours * data.HOUR, []
    story.add(*["blank %s %s" % (signal.stamp(a), signal.stamp(b)) for a, b in ranges(blanked)])
    story.add(*["load %d %s" % one for one in held.items()])
    for hour, file in held.items():
        pairs += [["replace %d %s" % (hour, file)], ["withdraw %d" % hour, "load %d %s" % (hour, file)],
                  ["load %d %s" % (hour, file)],
                  ["replace %d %s.packed" % (hour, file), "replace %d %s" % (hour, file)]]
    for _ in range(4):
        a = rng.randrange(end)
        b = min(end, a + rng.choice([1, 10, 500, 20000]))
        if 1 not in blanked[a:b]:
            pairs.append([word + " %s %s" % (signal.stamp(a), signal.stamp(b)) for word in ("blank", "unblank")])
        elif 0 not in blanked[a:b]:
            pairs.append([word + " %s %s" % (signal.stamp(a), signal.stamp(b)) for word in ("blank",)])
    rng.shuffle(pairs)
    reports = [story.report()]
    for lines in pairs:
        story.add(*lines)
        reports.append(story.report())
    if story.carry_out(name):
        first = story.blocks(reports[0])
        for lines, report in zip(pairs, reports[1:]):
            bench.check("%s, %s" % (name, " and ".join(lines)), story.blocks(report) == first, "the report changed;")


def law_files(rng, signal, legal):
    """The logs of the hours: f of a legal log, n of one that is nearly so, each in two spellings more and packed."""
    rows, files = data.legal_rows(rng, signal), {"c": signal.text}
    for kind, log in (("f", rows), ("n", rows if legal else data.nearly(rng, signal, rows))):
        for hour in range(signal.hours):
            here = data.of_hour(log, hour)
            files["%s%d" % (kind, hour)] = data.plain_log(signal, here)
            files["%s%d.spelled" % (kind, hour)] = data.spelled_log(rng, signal, here)
    return files


def pack_all(bench, name, signal):
    """Packs each log, beside it; the count of its rows is that of the spelled log."""
    for hour in range(signal.hours):
        for file in ("f%d" % hour, "n%d" % hour):
            words = ["--signal=" + signal.name, "--hour=" + signal.hour_word(hour)]
            status, out = bench.run(["--pack=" + file] + words)
            bench.expect("%s, %s packed" % (name, file), 0)
            bench.put(file + ".packed", out)
            bench.run(["--pack=%s.spelled" % file] + words)
            bench.expect("%s, %s in another spelling" % (name, file), 0, out)


def law(bench, name, rng, legal):
    signal = data.Signal(rng)
    bench.folder(law_files(rng, signal, legal))
    pack_all(bench, name, signal)
    if legal:
        everything = {hour: "f%d" % hour for hour in range(signal.hours)}
        fresh(bench, name + ", a legal log", rng, signal, everything, bytearray(signal.hours * data.HOUR))
    made = edits(bench, name, rng, signal)
    if made is None:
        return
    held, blanked, report = made
    for suffix, title in (("", "afresh"), ("", "in another order"), (".packed", "packed"), (".spelled", "spelled")):
        again = fresh(bench, "%s, %s" % (name, title), rng, signal, held, blanked, suffix)
        bench.check("%s, the report %s" % (name, title), again in (None, report), "another report;")
    there_and_back(bench, name + ", there and back", rng, signal, held, blanked)


def laws_hold(bench, count):
    for turn in range(count):
        law(bench, "laws %d" % turn, random.Random("laws %d %d" % (bench.seed, turn)), turn % 3 == 0)
