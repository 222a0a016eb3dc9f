"""Odd files, configurations and scripts with the answers that docs/FORMATS.md gives them; for bench/hostile."""
import hostile_data as data
from hostile_runs import BASE, GOOD, HEADER, MIB, RULE, SESSION, STAMP, stamp


def many(count, param=40000, code=200):
    """Records in row order: so many parameters at each tenth."""
    rows = (divmod(i, param) for i in range(count))
    return "".join("7,%s,%d,%d\n" % (stamp(at, " "), code, value) for at, value in rows).encode()


def padded(text, size):
    return text + b"#" * (size - len(text) - 1) + b"\n"


def widest():
    """The widest configuration: all phases, pedestrian signals, overlaps, preempts, and 128 detectors."""
    out = ['signal = "7"', 'start = "2024-03-04T06"', "hours = 2", "coordination = true"]
    for n in range(1, 17):
        out += ["[[phase]]", "number = %d" % n, "ring = 1", "side = 1", "[[ped]]", "number = %d" % n]
        out += ["[[overlap]]", "number = %d" % n, "parents = [%d]" % n, "[[preempt]]", "number = %d" % n]
    for n in range(64):
        out += ["[[approach]]", 'name = "A%d"' % n, "phase = %d" % (n % 16 + 1)]
        out += ["advance = %d" % (2 * n + 1), "stop_bar = %d" % (2 * n + 2)]
    return ("\n".join(out) + "\n").encode()


def loaded(bench, name, log, status, text):
    """What a load of this file answers, and that after a refusal the measures are as before."""
    bench.put("f", log)
    bench.put("s", b"measures\nload 0 f\nmeasures\n")
    bench.run(SESSION)
    lines = bench.out.decode().splitlines()
    said = [line for line in lines if line.startswith("2 ")]
    at = lines.index(said[0]) if said else 0
    before, after = lines[1:at], lines[at + 2:]
    fine = bench.status == status and said == ["2 " + text] and not bench.err
    bench.check("table, " + name, fine and (status == 0 or before == after), "wanted %r, is %r;" % (text, said))


def table(bench):
    bench.folder({"c": BASE})
    none = "ok rows 0 repeats 0 moved 0 2"
    loaded(bench, "no bytes", b"", 0, none)
    loaded(bench, "the header alone", HEADER, 0, none)
    loaded(bench, "a mark alone", b"\xef\xbb\xbf", 0, none)
    loaded(bench, "empty lines", b"\n" * (32 * MIB), 0, none)
    loaded(bench, "byte 0xFF", b"7,\xff,1,2", 1, "refused row 1 stamp")
    loaded(bench, "byte 0x00", b"7,\x00,1,2", 1, "refused row 1 stamp")
    three = HEADER + GOOD + b"7,2024-03-04 06:00:10.0"
    loaded(bench, "a third record of three fields", three, 1, "refused row 3 fields")
    next_row = GOOD + b"7,2024-03-04 06:00:01.0,"
    loaded(bench, "a code of ten digits", next_row + b"0000000082,5\n", 1, "refused row 2 code")
    loaded(bench, "a parameter of ten digits", next_row + b"82,0000000005\n", 1, "refused row 2 param")
    digits = b"7,2024-03-04 06:00:01.123456789%s,82,5"
    loaded(bench, "nine digits of a second", digits % b"", 0, "ok rows 1 repeats 0 moved 0 2")
    loaded(bench, "ten digits of a second", digits % b"0", 1, "refused row 1 stamp")
    loaded(bench, "a quote that isn't closed", GOOD + b'"' + GOOD * 1000, 1, "refused row 2 fields")
    loaded(bench, "a field of 32 MiB", b"7" * (32 * MIB), 1, "refused row 1 fields")
    loaded(bench, "16,777,216 fields", b",\n".rjust(32 * MIB, b","), 1, "refused row 1 fields")
    loaded(bench, "zeros", b"\0" * 100000, 1, "refused row 1 fields")
    loaded(bench, "a packed mark alone", b"\0SGP", 1, "refused packed short")
    head = data.packed_hour("7", STAMP, [], 0)[:-4]
    loaded(bench, "a packed hour of 2^32 - 1 rows", head + b"\xff" * 4, 1, "refused too many rows")
    loaded(bench, "a packed hour that counts rows and ends", head + b"\0\6\x1a\x80", 1, "refused packed short")
    loaded(bench, "32 MiB and one byte", b"\n" * (32 * MIB + 1), 1, "refused file too long")
    loaded(bench, "400,000 records", many(400000), 0, "ok rows 400000 repeats 0 moved 0 2")
    loaded(bench, "one record more", many(400001), 1, "refused too many rows")
    backward = b"\n".join(reversed(many(400000, 20).split(b"\n")))
    loaded(bench, "400,000 records, backward", backward, 0, "ok rows 400000 repeats 0 moved 0 2")
    loaded(bench, "400,000 records of one tenth and parameter", GOOD * 400000, 0, "ok rows 1 repeats 399999 moved 0 2")
    configurations(bench)
    at_limits(bench)
    scripts(bench)


def configured(bench, name, config, status, out=None):
    bench.put("c", config)
    bench.run(SESSION)
    bench.expect("table, configuration: " + name, status, out)


def configurations(bench):
    bench.put("s", b"measures\n")
    bench.put("c", BASE)
    short = bench.run(SESSION)[1]
    not_toml = b"config refused: not toml\n"
    configured(bench, "1 MiB", padded(BASE, MIB), 0, short)
    configured(bench, "1 MiB and one byte", padded(BASE, MIB + 1), 6, b"")
    configured(bench, "no bytes", b"", 3, b"config refused: missing top.signal\n")
    long = BASE.replace(b"hours = 2", b"hours = 745")
    configured(bench, "745 hours", long, 3, b"config refused: bad value top.hours\n")
    configured(bench, "744 hours", BASE.replace(b"hours = 2", b"hours = 744"), 0)
    configured(bench, "zeros", b"\0" * MIB, 3, not_toml)
    configured(bench, "deep arrays", BASE + b"x = " + b"[" * 500000 + b"]" * 500000, 3)
    configured(bench, "deep arrays that aren't closed", b"x = " + b"[" * (MIB - 4), 3, not_toml)
    configured(bench, "deep tables", b"x = " + b"{a=" * 200000 + b"1" + b"}" * 200000, 3)
    configured(bench, "a long key", b"a." * 500000 + b"a = 1\n", 3)
    configured(bench, "a long header", b"[" + b"a." * 500000 + b"a]\n", 3)
    keys = b"".join(b"k%d=1\n" % i for i in range(90000))
    configured(bench, "90,000 keys", keys, 3, b"config refused: unknown top.?\n")
    configured(bench, "80,000 tables", BASE + b"[[phase]]\n" * 80000, 3, b"config refused: too many phase[16].?\n")
    text = b'signal = "' + b"a" * (MIB - 20) + b'"\n'
    configured(bench, "a text of 1 MiB", text, 3, b"config refused: bad value top.signal\n")
    configured(bench, "400,000 parents", BASE + b"[[overlap]]\nnumber = 1\nparents = [" + b"2," * 400000 + b"]\n", 3,
               b"config refused: bad value overlap[0].parents\n")
    configured(bench, "the widest", widest(), 0)
    fine = bench.out.count(b"\n") == 1 + 1 + 3 * 16 + 1 + 3 * 64
    bench.check("table, configuration: a line for each channel of the widest", fine)


def tables(name, count, rest):
    return b"".join(b"[[%s]]\n%s\n" % (name, rest(n)) for n in range(1, count + 1))


def one_over(limit, make, refusal):
    """The configurations of a limit: one at it, that is taken, and one over it with its refusal."""
    return [(make(limit), None), (make(limit + 1), refusal)]


def at_limits(bench):
    """Each limit of a configuration: what is at it is taken, and what is over it is refused by name."""
    sixteen = BASE[:BASE.index(b"[[")] + tables(b"phase", 16, lambda n: b"number = %d\nring = 1\nside = 1" % n)
    pairs = [b"a = %d\nb = %d" % (a, b) for a in range(1, 17) for b in range(a + 1, 17)] + [b"a = 1\nb = 2"]
    green = b'channel = "phase 2"\ncolour = "Green"\n'
    place = BASE + b"[[approach]]\nphase = 2\n"
    name = lambda n: b'name = "%s"' % (b"x" * n)
    day = BASE.replace(b"2024-03-04T06", b"9999-12-31T00")
    last = lambda n: day.replace(b"hours = 2", b"hours = %d" % n)
    phases = lambda n: BASE[:BASE.index(b"[[")] + tables(b"phase", n, lambda n: b"number = %d\nring = 1\nside = 1" % n)
    parents = lambda n: sixteen + b"[[overlap]]\nnumber = 1\nparents = %s" % str(list(range(1, n + 1))).encode()
    found = [
        one_over(32, lambda n: BASE.replace(b'"7"', b'"%s"' % (b"7" * n)), "bad value top.signal"),
        one_over(744, lambda n: BASE.replace(b"hours = 2", b"hours = %d" % n), "bad value top.hours"),
        one_over(24, last, "bad value top.hours"),
        one_over(16, phases, "too many phase[16].?"),
        one_over(16, lambda n: sixteen + tables(b"ped", n, lambda n: b"number = %d" % n), "too many ped[16].?"),
        one_over(16, lambda n: BASE + tables(b"preempt", n, lambda n: b"number = %d" % n), "too many preempt[16].?"),
        one_over(16, lambda n: BASE + tables(b"overlap", n, lambda n: b"number = %d\nparents = [2]" % n),
                 "too many overlap[16].?"),
        one_over(120, lambda n: sixteen + tables(b"conflict", n, lambda n: pairs[n - 1]), "too many conflict[120].?"),
        one_over(120, lambda n: sixteen + tables(b"allow", n, lambda n: pairs[n - 1]), "too many allow[120].?"),
        one_over(256, lambda n: BASE + tables(b"interval", n, lambda n: green + b"at_least = 1"),
                 "too many interval[256].?"),
        one_over(64, lambda n: BASE + tables(b"approach", n, lambda n: b'name = "x%d"\nphase = 2' % n),
                 "too many approach[64].?"),
        one_over(8, parents, "bad value overlap[0].parents"),
        one_over(36000, lambda n: BASE + b"[[floor]]\n" + green + b"tenths = %d" % n, "bad value floor[0].tenths"),
        one_over(36000, lambda n: BASE + b"[[interval]]\n" + green + b"at_most = %d" % n,
                 "bad value interval[0].at_most"),
        one_over(32, lambda n: place + name(n), "bad value approach[0].name"),
        one_over(128, lambda n: place + name(1) + b"\nadvance = %d" % n, "bad value approach[0].advance"),
        one_over(1000, lambda n: place + name(1) + b"\nhigh_num = 1\nhigh_den = %d" % n,
                 "bad value approach[0].high_den"),
        [(BASE + tables(b"floor", 512, lambda n: green + b"tenths = 1"), "repeated floor[1].channel"),
         (BASE + tables(b"floor", 513, lambda n: green + b"tenths = 1"), "too many floor[512].?")],
    ]
    for config, refusal in sum(found, []):
        line = None if refusal is None else b"config refused: %s\n" % refusal.encode()
        configured(bench, "at the limit of %s" % (refusal or "the next one"), config, 3 if refusal else 0, line)


def scripted(bench, name, script, status, out):
    bench.put("s", script)
    bench.run(SESSION)
    bench.expect("table, script: " + name, status, out)


def scripts(bench):
    bench.put("c", BASE + RULE)
    scripted(bench, "4 MiB", padded(b"audit\n", 4 * MIB), 0, b"1 audit\n")
    scripted(bench, "4 MiB and one byte", padded(b"audit\n", 4 * MIB + 1), 6, b"")
    late = b"\n" * (4 * MIB - 5) + b"audit"
    scripted(bench, "4 MiB of empty lines, then a line", late, 0, b"%d audit\n" % (4 * MIB - 4))
    scripted(bench, "4 MiB of spaces", b" " * (4 * MIB), 0, b"")
    scripted(bench, "no bytes", b"", 0, b"")
    words = ["withdraw 000001", "withdraw 0000001", "points 02", "points 002"]
    words += ["load 0 " + "n" * 255, "load 0 " + "n" * 256]
    made = ["refused not held", "refused bad line", "points 2", "refused bad line"]
    made += ["refused missing file", "refused bad line"]
    made = "".join("%d %s\n" % one for one in enumerate(made, 1))
    scripted(bench, "at the limits of words", "\n".join(words).encode(), 1, made.encode())
    scripted(bench, "byte 0x80", b"# \x80\naudit \x80\naudit", 1, b"2 refused bad line\n3 audit\n")
    scripted(bench, "zeros", b"\0" * (4 * MIB), 1, b"1 refused bad line\n")
    lines = b"x\n" * (2 * MIB)
    refused = b"".join(b"%d refused bad line\n" % n for n in range(1, 2 * MIB + 1))
    scripted(bench, "2,097,152 bad lines", lines, 1, refused)
    blanks = ["blank %s %s" % (stamp(at), stamp(at + 1)) for at in range(2000, 3999, 2)]
    bench.put("f", b"7,2024-03-04 06:01:40.0,1,2\n7,2024-03-04 06:01:54.9,8,2\n")
    text = "\n".join(["load 0 f"] + blanks + ["audit"]) + "\n"
    made = ["1 ok rows 2 repeats 0 moved 0 2"] + ["%d ok moved 0 2" % n for n in range(2, 1002)]
    made += ["1002 audit", "rule 1 phase 2 Green at least 150 kept 0 broken 1 undecided 0"]
    made += ["broken 1 2024-03-04T06:01:54.9 from 2024-03-04T06:01:40.0 to 2024-03-04T06:01:54.9"]
    scripted(bench, "1,000 blanks, then a broken line", text.encode(), 0, ("\n".join(made) + "\n").encode())
