"""What the recipes share: the rows of the hours that a session holds, as sigaudit takes them. Not proved.

HeldLog(session) reads the hour files that are held at the end of a session, or at one of its answers, when they are
asked for, CSV or packed, and keeps the last few of them. A row at an unknown tenth isn't there, and neither is a
repeat. A file that isn't there, or has another number of rows than it had when the answer was made, raises OtherFile.
"""
import bisect
import collections
import itertools
import operator
import re
from typing import NamedTuple

import answers
import logs

KEPT_HOURS = 16  # of one signal, each of some 10,000 rows and 2 MB
PLAIN = re.compile(
    r"^[^,\"\r\n]+,\d{4}-\d\d-\d\d[ T](\d\d):(\d\d):(\d\d)\.(\d)\d*,(\d{1,3}),(\d{1,5})\r?$", re.M | re.A)
HEADER = re.compile(r"(?i) *(signalid|locationidentifier) *,[^\"\n]*\n")
MARK = b"\0SGP"


class OtherFile(Exception):
    """A file isn't as it was when the answer was made; in words."""


class Row(NamedTuple):
    """A row of a log: its tenth, code, parameter, and its line of its file (its number in a packed hour)."""

    tenth: int
    code: int
    param: int
    line: int
    file: str

    @property
    def channel(self):
        return channel_of(self)


def plain_rows(text, hour, file):
    """The rows of an hour file in its plain form, which is read quickest; None where a line has another form."""
    header = HEADER.match(text)
    body = text[header.end():] if header else text
    found = PLAIN.findall(body)
    if len(found) != body.count("\n") + (body[-1:] not in ("\n", "")) or any(
            clock != "%02d" % (hour // logs.HOUR % 24) for clock in {row[0] for row in found}):
        return None
    return [Row(hour + int(minute) * 600 + int(second) * 10 + int(tenth), int(code), int(param), line, file)
            for line, (_, minute, second, tenth, code, param) in enumerate(found, 2 if header else 1)]


class NumberedReader(logs.Reader):
    """Reads any form, and has the line of each row that it kept."""

    def row(self, fields, places, path, number, line):
        row = super().row(fields, places, path, number, line)
        return row and Row(row.tenth, row.code, row.param, number, path)


def packed_rows(data, hour, file):
    """The rows of a packed hour."""
    at = 5 + data[4] + 13
    count = int.from_bytes(data[at:at + 4], "big")
    at, tenth, rows = at + 4, hour, []

    def number():
        nonlocal at
        value, shift = 0, 0
        while True:
            byte = data[at]
            at, value, shift = at + 1, value | (byte & 127) << shift, shift + 7
            if byte < 128:
                return value

    for place in range(1, count + 1):
        tenth += number()
        code = data[at]
        at += 1
        rows.append(Row(tenth, code, number(), place, file))
    return rows


def rows_of(path, signal, hour):
    """All rows of an hour file, in its order."""
    with open(path, "rb") as file:
        data = file.read()
    if data.startswith(MARK):
        return packed_rows(data, hour, path)
    rows = plain_rows(data.decode("utf-8-sig", "replace"), hour, path)
    return NumberedReader(signal).rows(path) if rows is None else rows


def channel_of(row, known={}):
    """The channel of a row; those that were asked for are kept, since a log has few codes and numbers."""
    key = row.code, row.param
    if key not in known:
        known[key] = logs.channel_of(*key)
    return known[key]


def without_repeats(rows):
    """The rows by tenth, those of one tenth in their order, without those that sigaudit leaves out as repeats."""
    kept = []
    for _, group in itertools.groupby(sorted(rows, key=operator.attrgetter("tenth")), operator.attrgetter("tenth")):
        group, last = list(group), {}
        if len(group) == 1 or len({row[1:3] for row in group}) == len(group):
            kept += group
            continue
        for row in group:
            among = channel_of(row) or row[1:3]
            if last.get(among) != row[1:3]:
                kept.append(row)
            last[among] = row[1:3]
    return kept


class Hour:
    """The known rows of one hour: all in order, and those of each channel."""

    def __init__(self, rows):
        self.rows = rows
        self.tenths = [row.tenth for row in rows]
        self.by_channel = {}
        for row in rows:
            channel = channel_of(row)
            if channel:
                self.by_channel.setdefault(channel, []).append(row)


class HeldLog:
    """The known rows of a session at an answer (a section of it), or at its end."""

    def __init__(self, session, section=None):
        self.session = session
        self.files = (section or session).known[0]
        self.unknown = session.unknown(section)
        self.hours = collections.OrderedDict()

    def hour(self, number):
        """The hour of this number; one that isn't held has no rows."""
        if number in self.hours:
            self.hours.move_to_end(number)
            return self.hours[number]
        rows, start = [], self.session.start + number * logs.HOUR
        if number in self.files:
            name, count = self.files[number]
            path = answers.find(name, self.session.paths[1])
            try:
                rows = without_repeats(rows_of(path, self.session.config["signal"], start))
            except OSError as error:
                raise OtherFile("%s: %s" % (error.filename, error.strerror)) from error
            if len(rows) != count:
                raise OtherFile("%s: has %d rows now, and had %d when the answer was made" % (path, len(rows), count))
        if self.unknown_in(start, start + logs.HOUR):
            rows = [row for row in rows if self.is_known(row.tenth)]
        found = Hour(rows)
        self.hours[number] = found
        if len(self.hours) > KEPT_HOURS:
            self.hours.popitem(last=False)
        return found

    def is_known(self, tenth):
        place = bisect.bisect_right(self.unknown, (tenth, float("inf"))) - 1
        return place < 0 or tenth >= self.unknown[place][1]

    def unknown_in(self, low, high):
        """The unknown stretches, as far as they reach into the time from low up to high."""
        place = max(bisect.bisect_right(self.unknown, (low, float("inf"))) - 1, 0)
        found = []
        while place < len(self.unknown) and self.unknown[place][0] < high:
            begin, end = self.unknown[place]
            if end > low:
                found.append((max(begin, low), min(end, high)))
            place += 1
        return found

    def hours_of(self, low, high):
        """The hours that have tenths from low up to high, by number."""
        first = max((low - self.session.start) // logs.HOUR, 0)
        last = min((high - 1 - self.session.start) // logs.HOUR, self.session.config["hours"] - 1)
        return range(first, last + 1)

    def rows(self, low, high):
        """The known rows from low up to high, all of them."""
        found = []
        for number in self.hours_of(low, high):
            hour = self.hour(number)
            found += hour.rows[bisect.bisect_left(hour.tenths, low):bisect.bisect_left(hour.tenths, high)]
        return found

    def channel_rows(self, channel, low, high):
        """The known rows of a channel from low up to high."""
        return [row for number in self.hours_of(low, high) for row in self.hour(number).by_channel.get(channel, ())
                if low <= row.tenth < high]

    def silence(self, low, high):
        """The longest time from low to high without a row, known to be so, as its ends; None where nothing is known."""
        marks = [(row.tenth, row.tenth) for row in self.rows(low, high + 1)] + self.unknown_in(low, high + 1)
        marks = [(low, low)] + sorted(marks) + [(high, high)]
        spans = [(after - before, -before, after) for (_, before), (after, _) in zip(marks, marks[1:])]
        length, begin, end = max(spans)
        return (-begin, end) if length > 0 or not self.unknown_in(low, high + 1) else None
