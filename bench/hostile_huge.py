"""Runs at the greatest sizes, with their time and peak memory; for bench/hostile."""
import os
import random
import time

import hostile_data as data
from hostile_runs import BASE, SESSION, STAMP

GNU_TIME = "/usr/bin/time"


def measured(bench, name):
    """A session with its output in a file; the seconds and peak MiB (by GNU time, else 0) are printed and answered."""
    note, before = os.path.join(bench.place, "time"), [GNU_TIME, "-q", "-o", "time", "-f", "%M"]
    before = before if os.access(GNU_TIME, os.X_OK) else []
    begin = time.perf_counter()
    with open(os.path.join(bench.place, "out"), "wb") as out:
        child = bench.start(SESSION, stdout=out, before=before)
        bench.err = child.communicate()[1]
    taken, bench.status = time.perf_counter() - begin, child.returncode
    with open(os.path.join(bench.place, "out"), "rb") as out:
        bench.out = out.read()
    peak = 0
    if before:
        with open(note) as file:
            peak = int(file.read()) / 1024
    print("%-50s %8.2f s %8.0f MiB" % (name, taken, peak), flush=True)
    return taken, peak


def loosely(bench, name, sizes, found):
    """Between the sizes, time and memory grow at most half as fast again as the size, and a little."""
    for i in range(1, len(sizes)):
        most = 1.5 * sizes[i] / sizes[i - 1]
        (taken, peak), (next_taken, next_peak) = found[i - 1], found[i]
        fine = next_taken <= most * taken + 0.5 and next_peak <= most * peak + 10
        title = "%s, from %d to %d" % (name, sizes[i - 1], sizes[i])
        bench.check(title, fine, "%.2f s to %.2f s, %.0f MiB to %.0f MiB;" % (taken, next_taken, peak, next_peak))


def hour_word(hour):
    return "2024-03-%02dT%02d" % (4 + (6 + hour) // 24, (6 + hour) % 24)


def script(bench, lines):
    bench.put("s", ("\n".join(lines) + "\n").encode())


def held_rows(bench, sizes=(10, 25, 50)):
    """400,000 rows in each hour, as packed hours, up to 20,000,000; then one row more."""
    bench.folder({"c": BASE.replace(b"hours = 2", b"hours = 51")})
    rows = [(i // 100, 200, i % 100) for i in range(400000)]
    whole, start = data.packed_hour("7", STAMP, rows, 0), len(b"\0SGP") + 2
    for hour in range(sizes[-1]):
        bench.put("p%d" % hour, whole[:start] + hour_word(hour).encode() + whole[start + 13:])
    bench.put("one", data.packed_hour("7", hour_word(50), [(0, 200, 1)], 0))
    found = []
    for size in sizes:
        full = size == 50
        loads = ["load %d p%d" % (hour, hour) for hour in range(size)]
        script(bench, loads + ["load 50 one", "replace 0 p0", "measures"])
        found.append(measured(bench, "%d hours of 400,000 rows" % size))
        lines = bench.out.decode().splitlines()
        wanted = "refused too many held rows" if full else "ok rows 1 repeats 0 moved 50 51"
        wanted = ["%d %s" % (size + 1, wanted), "%d ok rows 400000 repeats 0 moved 0 1" % (size + 2)]
        fine = lines[size:size + 2] == wanted
        fine = fine and lines[size + 3].startswith("held %d rows %d " % (size + (not full), size * 400000 + (not full)))
        bench.check("huge, %d hours of 400,000 rows" % size, fine and bench.status == full and not bench.err)
    loosely(bench, "huge, held rows", sizes, found)


def one_tenth(bench, sizes=(100000, 200000, 400000)):
    """Up to as many rows as an hour may have, all in one tenth, as a log and packed, beside as many over the hour.

    Codes 200 to 207 are of no channel. Among many rows of one tenth a repeat is looked for in a table, which rows over
    the hour do without: they may take twice the time of the others and a tenth of a second, growing with their number.
    """
    bench.folder({"c": BASE, "s": b"load 0 f\n"})
    for name, write in (("a log", log_of), ("a packed hour", packed_of)):
        found = []
        for size in sizes:
            bench.put("f", write([(0, *row) for row in of_no_channel(size)]))
            found.append(loaded(bench, "%s of %d rows in one tenth" % (name, size), size))
        loosely(bench, "huge, %s in one tenth" % name, sizes, found)
        bench.put("f", write([(i * data.HOUR // size, *row) for i, row in enumerate(of_no_channel(size))]))
        spread, _ = loaded(bench, "%s of %d rows over the hour" % (name, size), size)
        bench.check("huge, %s in one tenth takes little more time" % name, found[-1][0] <= 2 * spread + 0.1)


def of_no_channel(size):
    return [(200 + i // 50000, i % 50000) for i in range(size)]


def loaded(bench, title, size):
    """The time and memory of a load of so many rows, each once."""
    found = measured(bench, title)
    bench.expect("huge, " + title, 0, b"1 ok rows %d repeats 0 moved 0 2\n" % size)
    return found


def log_of(rows):
    """A log of rows (tenth, code, parameter) of hour 06."""
    lines = [b"7,2024-03-04 06:%02d:%02d.%d,%d,%d\n" % (at // 600, at // 10 % 60, at % 10, code, param)
             for at, code, param in rows]
    return b"".join(lines)


def packed_of(rows):
    return data.packed_hour("7", STAMP, rows, 0)


def month(bench, hour_sizes=(186, 372, 744), blank_sizes=(2500, 5000, 10000)):
    """A month of hours of one row each, then blanks of one tenth over it, and one blank too many."""
    signal = data.Signal(random.Random(0))
    signal.start = signal.start.replace(2024, 3, 4, 6)
    bench.folder({"c": BASE.replace(b"hours = 2", b"hours = 744")})
    for hour in range(744):
        bench.put(str(hour), b"7,%s,82,5\n" % signal.stamp(hour * data.HOUR + 5, " ").encode())
    loads, found = ["load %d %d" % (hour, hour) for hour in range(744)], []
    for size in hour_sizes:
        script(bench, loads[:size] + ["measures", "audit"])
        found.append(measured(bench, "%d hours of one row" % size))
        fine = bench.status == 0 and b"held %d rows %d " % (size, size) in bench.out
        bench.check("huge, %d hours of one row" % size, fine and not bench.err)
    loosely(bench, "huge, hours of one row", hour_sizes, found)
    apart, found = 744 * data.HOUR // 10001, []
    blanks = ["blank %s %s" % (signal.stamp(apart * n), signal.stamp(apart * n + 1)) for n in range(10001)]
    for size in blank_sizes:
        full = size == 10000
        script(bench, loads + blanks[:size + full] + ["measures"])
        found.append(measured(bench, "%d blanks over a held month" % size))
        fine = bench.out.count(b" ok moved ") == size and bench.status == full and not bench.err
        bench.check("huge, %d blanks" % size, fine and (b"\n10745 refused too many blanks\n" in bench.out) == full)
    loosely(bench, "huge, blanks", blank_sizes, found)


def huge(bench):
    held_rows(bench)
    one_tenth(bench)
    month(bench)
