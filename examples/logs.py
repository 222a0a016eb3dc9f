"""What the recipes share: how an export of a log is read, and stamps as numbers. Not proved.

A tenth is a number: tenths of a second since the first day of the year 1, by the clock as it is
written. There is no time zone here and no change of clocks.
"""
import csv
import datetime
import re
import sys

csv.field_size_limit(2**31 - 1)

HOUR = 36000
SIGNAL = {"signalid", "locationidentifier", "signal", "signalidentifier", "deviceid", "controllerid",
          "intersectionid", "locationid"}
DATE = {"date", "eventdate"}
STAMP = {"timestamp", "datetime", "stamp", "eventtime", "eventtimestamp", "time"}
CODE = {"eventcode", "eventcodeid", "code", "eventid"}
PARAM = {"eventparam", "param", "parameter", "eventparameter", "eventparamid"}
TIME = re.compile(
    r"(?:(\d{4})([-/])(\d{1,2})\2(\d{1,2})|(\d{1,2})([-/.])(\d{1,2})\6(\d{4}))(?: +|T)"
    r"(\d{1,2}):(\d\d):(\d\d)(?:[.,](\d+))? *([AaPp]\.?[Mm]\.?)? *(Z|[+-]\d\d:?\d\d)?"
)


class Row:
    """One row of a log: its signal, tenth, the digits of its second after the tenth, code, parameter."""

    __slots__ = ("signal", "tenth", "rest", "code", "param")

    def __init__(self, signal, tenth, rest, code, param):
        self.signal, self.tenth, self.rest, self.code, self.param = signal, tenth, rest, code, param

    def moment(self):
        return self.tenth, self.rest


def tenth_of(day, hour, minute, second, tenth):
    return (((day * 24 + hour) * 60 + minute) * 60 + second) * 10 + tenth


def parse_stamp(text, day_first=False):
    """The tenth, the digits after it and the zone that is written; None where it isn't a stamp."""
    found = TIME.fullmatch(text)
    if not found:
        return None
    y, _, m, d, a, mark, b, year, hour, minute, second, fraction, half, zone = found.groups()
    if y is None:
        y, m, d = (year, b, a) if day_first or mark == "." else (year, a, b)
    hour, minute, second = int(hour), int(minute), int(second)
    if half:
        if not 1 <= hour <= 12:
            return None
        hour = hour % 12 + (12 if half[0] in "Pp" else 0)
    if hour > 23 or minute > 59 or second > 59:
        return None
    try:
        day = datetime.date(int(y), int(m), int(d)).toordinal()
    except ValueError:
        return None
    fraction = (fraction or "") + "0"
    return tenth_of(day, hour, minute, second, int(fraction[0])), fraction[1:].rstrip("0"), zone


def hour_of(text):
    """The tenth at which the hour YYYY-MM-DDTHH begins."""
    found = re.fullmatch(r"(\d{4}-\d\d-\d\d)T([01]\d|2[0-3])", text)
    if not found:
        raise ValueError("not an hour (YYYY-MM-DDTHH): " + text)
    return tenth_of(datetime.date.fromisoformat(found[1]).toordinal(), int(found[2]), 0, 0, 0)


def show(tenth, separator="T"):
    """The stamp of a tenth, as the program prints it."""
    seconds, tenths = divmod(tenth, 10)
    day, second = divmod(seconds, 86400)
    return "%s%s%02d:%02d:%02d.%d" % (datetime.date.fromordinal(day).isoformat(), separator,
                                      second // 3600, second // 60 % 60, second % 60, tenths)


def show_hour(tenth):
    return show(tenth)[:13]


def read_config(path):
    """The configuration as tables."""
    try:
        import tomllib
    except ImportError:
        sys.exit("reading a configuration wants Python 3.11 or later")
    try:
        with open(path, "rb") as file:
            config = tomllib.load(file)
        hour_of(config["start"]), config["signal"] + "", config["hours"] + 0
    except (OSError, KeyError, ValueError, TypeError) as error:
        sys.exit("%s: not a configuration: %r" % (path, error))
    return config


def text_of(path):
    """The text of a file in UTF-8 or UTF-16, without a byte order mark."""
    with open(path, "rb") as file:
        data = file.read()
    if data[:2] in (b"\xff\xfe", b"\xfe\xff"):
        return data.decode("utf-16", "replace")
    if data[1:2] == b"\0" or data[:1] == b"\0":
        return data.decode("utf-16-le" if data[1:2] == b"\0" else "utf-16-be", "replace")
    return data.decode("utf-8-sig", "replace")


class Reader:
    """Reads exports, and counts what it leaves out by its cause, with the first such record."""

    def __init__(self, signal=None, day_first=False, start=None, end=None):
        self.signal, self.day_first, self.start, self.end = signal, day_first, start, end
        self.left_out = {}
        self.zones = {}
        self.records = self.headers = self.kept = 0

    def leave_out(self, why, path, number, line):
        count, first = self.left_out.get(why, (0, None))
        self.left_out[why] = count + 1, first or "line %d of %s: %s" % (number, path, repr(line[:60])[1:-1])

    def rows(self, path, backward=False):
        """The rows of the file in its order, last line first where backward is set."""
        lines = list(enumerate(re.split(r"\r\n|\r|\n", text_of(path)), 1))
        first = [line for _, line in lines if line.strip()][:100]
        mark = max(",;\t|", key=lambda mark: sum(line.count(mark) > 1 for line in first))
        places = None
        found = []
        for number, line in lines:
            if not line.strip(" \t"):
                continue
            fields = line.split(mark) if '"' not in line else next(csv.reader([line], delimiter=mark))
            fields = [field.strip(" \t") for field in fields]
            names = [re.sub(r"[^a-z0-9]", "", field.lower()) for field in fields] if self.is_name(fields) else []
            named = [next((i for i, n in enumerate(names) if n in known), None)
                     for known in (SIGNAL, STAMP, CODE, PARAM, DATE)]
            if None not in named[1:4]:
                self.headers += 1
                places = named
                continue
            self.records += 1
            row = self.row(fields, places, path, number, line)
            if row:
                found.append(row)
        self.kept += len(found)
        return found[::-1] if backward else found

    @staticmethod
    def is_name(fields):
        return len(fields) >= 3 and not any(field.isdigit() for field in fields)

    def row(self, fields, places, path, number, line):
        if places:
            if len(fields) <= max(place for place in places if place is not None):
                return self.leave_out("too few fields", path, number, line)
        elif len(fields) in (3, 4):
            places = [None, 0, 1, 2, None] if len(fields) == 3 else [0, 1, 2, 3, None]
        else:
            return self.leave_out("not three or four fields", path, number, line)
        signal, stamp, code, param, date = (None if place is None else fields[place] for place in places)
        if date is not None:
            stamp = date + " " + stamp
        if signal is None:
            signal = self.signal
            if signal is None:
                sys.exit("%s has no signal: give it by --signal ID or --config C" % path)
        if self.signal is not None and signal != self.signal:
            return self.leave_out("other signal", path, number, line)
        if not re.fullmatch(r"[!#-+\--~]{1,32}", signal):
            return self.leave_out("no signal", path, number, line)
        time = parse_stamp(stamp, self.day_first)
        if time is None:
            return self.leave_out("no stamp", path, number, line)
        tenth, rest, zone = time
        numbers = [re.fullmatch(r"0*(\d{1,5})(?:\.0+)?", text, re.ASCII) for text in (code, param)]
        if not numbers[0] or int(numbers[0][1]) > 255:
            return self.leave_out("no code from 0 to 255", path, number, line)
        if not numbers[1] or int(numbers[1][1]) > 65535:
            return self.leave_out("no parameter from 0 to 65535", path, number, line)
        if self.start is not None and not self.start <= tenth < self.end:
            return self.leave_out("outside the window", path, number, line)
        if zone:
            self.zones[zone] = self.zones.get(zone, 0) + 1
        return Row(signal, tenth, rest, int(numbers[0][1]), int(numbers[1][1]))


def is_doubled(row, seen):
    """Whether a row with its whole stamp, code and parameter was seen before; it is seen now."""
    key = row.signal, row.tenth, row.rest, row.code, row.param
    seen[key] = seen.get(key, 0) + 1
    return seen[key] > 1


CHANNELS = (
    ("phase", (0, 1, 7, 8, 9, 10, 11, 12), 1, 16),
    ("ped", (21, 22, 23, 24), 1, 16),
    ("overlap", (61, 62, 63, 64, 65, 66), 1, 16),
    ("detector", (81, 82, 83, 84, 85, 86, 87, 88), 1, 128),
    ("ped_detector", (89, 90), 1, 16),
    ("preempt_input", (102, 104), 1, 16),
    ("preempt", (105, 106, 107, 111), 1, 16),
)
KINDS = {code: (kind, low, high) for kind, codes, low, high in CHANNELS for code in codes}


def channel_of(code, param):
    """The channel of a row, as a kind and a number, or None."""
    if code == 150 and param <= 6:
        return "coordination", 0
    kind, low, high = KINDS.get(code, (None, 1, 0))
    return (kind, param) if low <= param <= high else None
