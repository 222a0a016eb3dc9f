"""Exports of one small log in the forms that loggers and databases write, and records at random."""

from __future__ import annotations

import random
from pathlib import Path

# Signal 7: two rows of one tenth whose order counts, and one row a tenth before the hour.
PLAIN = (("7", "2024-03-04", 5, "59:59.9", 1, 2), ("7", "2024-03-04", 6, "00:00.0", 82, 5),
         ("7", "2024-03-04", 6, "00:00.4", 82, 6), ("7", "2024-03-04", 6, "00:00.4", 81, 6),
         ("7", "2024-03-04", 12, "30:00.1", 8, 2), ("7", "2024-03-04", 23, "59:59.9", 82, 65535))
# Of each form what stands before the rows, a row, what stands after them, and the encoding.
FORMS = {
    "plain": ("SignalID,Timestamp,EventCode,EventParam\n", "{0},{1} {2:02d}:{3},{4},{5}\n", "", "utf-8"),
    "quoted": ("\"Signal ID\",\"Time Stamp\",\"Event Code\",\"Event Param\"\r\n",
               "\"{0}\",\"{1} {2:02d}:{3}\",\"{4}\",\"{5}\"\r\n", "", "utf-8-sig"),
    "clock": ("", "{0},{6} {8}:{3}00 {7},{4},{5}\n", "", "utf-8"),
    "utf16": ("SignalID\tTimestamp\tEventCode\tEventParam\r\n--------\t---------\t---------\t----------\r\n",
              "{0}\t{1} {2:02d}:{3}000000\t{4}\t{5}\r\n", "\r\n(6 rows affected)\r\n", "utf-16"),
    "bare16": ("", " {0} , {1}T{2:02d}:{3}Z , {4} , {5}\n", "", "utf-16-le"),
    "three": ("TimeStamp,EventCodeId,EventParam\n", "{1} {2:02d}:{3},{4},{5}\n", "", "utf-8"),
    "turned": ("eventParam;eventCode;deviceId;timestamp;note\n", "{5}.0;{4}.0;{0};{1}T{2:02d}:{3}-06:00;x\n",
               "", "utf-8"),
    "two": ("Events; of; signal 7\n\nSignal_ID,Date,Time,Event_Code,Event_Param\n", "{0},{6},{2}:{3},{4},{5}\n", "",
            "utf-16-be"),
    "day_first": ("", "{0},4.3.2024 {2}:{3},{4},{5}\r", "", "utf-8"),
}
NAMES = {"signal": ("SignalID", "signal_id", "Device Id"), "stamp": ("Timestamp", "time_stamp", "Event Time"),
         "code": ("EventCode", "event code", "EventId"), "param": ("EventParam", "Param"), "note": ("note", "x"),
         "date": ("Date",), "time": ("Time",)}
ORDERS = (("signal", "stamp", "code", "param"), ("stamp", "code", "param"),
          ("code", "param", "signal", "stamp", "note"), ("param", "date", "time", "code", "signal"))
ODD_LINES = ("", " ", "\t", "foo", '"', "(3 rows)", "-----,----,----", 'é,ü,ö,"ä')


def text_of(form: str) -> str:
    """The log in a form."""
    head, line, foot, _ = FORMS[form]
    rows = (line.format(signal, date, hour, rest, code, param, "3/4/2024", "PM" if hour > 11 else "AM", hour % 12 or 12)
            for signal, date, hour, rest, code, param in PLAIN)
    return head + "".join(rows) + foot


def write(folder: Path, form: str) -> Path:
    """Writes the log in a form, and answers where."""
    path = folder / f"{form}.csv"
    path.write_bytes(text_of(form).encode(FORMS[form][3]))
    return path


# ---- at random


def stamp(rng: random.Random) -> str:
    """A stamp that may be one."""
    year, month, day = (rng.choice(some) for some in ((2024, 2023, 1969, 9999, 0), (0, 1, 2, 3, 12, 13),
                                                      (0, 1, 29, 30, 31)))
    form = rng.choice(("{0:04d}-{1:02d}-{2:02d}", "{0:04d}/{1}/{2}", "{1}/{2}/{0:04d}", "{1:02d}-{2:02d}-{0:04d}",
                       "{1}.{2}.{0:04d}", "{1}/{2}-{0:04d}"))
    clock = rng.choice(("{:02d}:{:02d}:{:02d}", "{}:{:02d}:{:02d}", "{:02d}:{:02d}:{}")).format(
        rng.choice((0, 1, 11, 12, 13, 23, 24)), rng.choice((0, 7, 59, 60)), rng.choice((0, 3, 59, 60)))
    fraction = rng.choice(("", ".0", ".1", ".123", ".1230000", ".1239999999", ",5", "."))
    half = rng.choice(("",) * 5 + (" AM", " PM", "pm", "a.m.", " P.M", "A.M.x"))
    zone = rng.choice(("",) * 5 + ("Z", "+01:00", "-0600", "+1:00", " Z"))
    return form.format(year, month, day) + rng.choice((" ", " ", "T", "  ", "", "t")) + clock + fraction + half + zone


def plain_stamp(rng: random.Random) -> str:
    """A stamp of few seconds, so that many are the same."""
    return (f"2024-03-{rng.randint(4, 5):02d} {rng.randint(0, 3):02d}:{rng.randint(0, 1):02d}:{rng.randint(0, 3):02d}."
            f"{rng.randint(0, 1)}")


def number(rng: random.Random, greatest: int) -> str:
    """A number that may be a code or a parameter."""
    odd = ("", "0", "007", "5.0", "5.", ".0", "5.00", "5.01", "-1", "+1", "99999", "100000", "00000000012", "1e3",
           " 4 ", "NULL", "12345678901234567890")
    return str(rng.randint(0, greatest)) if rng.random() < 0.8 else rng.choice(odd)


def quoted(rng: random.Random, text: str) -> str:
    """A field in quotes, or in what somebody took for such."""
    return rng.choice((f'"{text}"',) * 8 + (f'"{text}" ', f'"{text}""', f'a"{text}', f'"{text}'))


def record(rng: random.Random, order: tuple[str, ...], mark: str, quotes: bool) -> str:
    """A line that may be a record."""
    when = stamp(rng) if rng.random() < 0.4 else plain_stamp(rng)
    date, _, clock = when.partition(" ")
    values = {"signal": rng.choice(("7",) * 8 + ("8", "A b", "", "x" * 33, "é")), "stamp": when,
              "code": number(rng, 260), "param": number(rng, 70000) if rng.random() < 0.3 else str(rng.randint(0, 3)),
              "note": rng.choice(("", "foo", "1")), "date": date, "time": clock}
    line = mark.join(quoted(rng, values[name]) if quotes and rng.random() < 0.7 else values[name] for name in order)
    chance = rng.random()
    if chance < 0.05:
        return line.rsplit(mark, 1)[0]
    if chance < 0.1:
        return line + mark + "z"
    return rng.choice(ODD_LINES) if chance < 0.13 else line


def text(rng: random.Random) -> str:
    """An export of some lines, with headers or without."""
    mark, quotes, order = rng.choice(",;\t|"), rng.random() < 0.4, rng.choice(ORDERS)
    lines = []
    if rng.random() < 0.7:
        lines.append(mark.join(rng.choice(NAMES[name]) for name in order))
    for _ in range(rng.choice((0, 1, 5, 60))):
        if rng.random() < 0.02:
            order = tuple(rng.sample(order, len(order)))
            lines.append(mark.join(rng.choice(NAMES[name]) for name in order))
        lines.append(record(rng, order, mark, quotes))
    end = rng.choice(("\n", "\r\n", "\r"))
    return end.join(lines) + rng.choice(("", end))
