"""The tables of an answer, looked up for a page: each number with the place it stands at. Not proved.

A page makes no number: it shows fields of the tables that examples/tables wrote, and says of each where it stands
(pages.py says how).
"""
import csv
import os
import re
import sys
import urllib.parse

import logs
import pages

# Columns of shares, which are shown in per cent, and of texts, which stand at the left.
SHARES = {"least", "greatest", "red_least", "red_greatest", "fail_least", "fail_greatest"}
TEXTS = {"hour", "approach", "ped", "preempt", "what", "value", "answer", "sha256"}
WIDE = {"value", "answer", "sha256"}


class Row:
    """A row of a table: its fields by their column, and the place at which they stand."""

    def __init__(self, table, place, fields):
        self.table, self.place, self.fields = table, place, fields

    def __getitem__(self, column):
        return self.fields[column]

    def get(self, column):
        return self.fields.get(column) or ""

    def number(self, column):
        """The field as a number for a picture; 0 where it is empty."""
        return float(self.fields[column] or 0)

    def count(self, column):
        return int(self.fields[column] or 0)

    def hour(self):
        """The tenth at which the row's hour begins."""
        return logs.hour_of(self.fields["hour"])

    def text(self, column):
        """The field as a page shows it: escaped, a share in per cent."""
        return pages.percent(self[column]) if column in SHARES else pages.text(self[column])

    def shown(self, column):
        """The field as HTML that says where it stands."""
        return pages.element("span", self.text(column), data_of="%s %d %s" % (self.table, self.place, column))

    def say(self, words, **more):
        """Words in which `{column}` stands for that field; or for HTML that is given by this name."""
        return re.sub(r"\{(\w+)\}", lambda found: more.get(found[1]) or self.shown(found[1]), words)


class Tables:
    """The tables of a folder, each read once; a table that isn't there has no rows. page is the page's own folder."""

    def __init__(self, folder, page="."):
        self.folder, self.read = folder, {}
        self.beside = os.path.relpath(folder, page or ".")

    def rows(self, name, **wanted):
        """The rows of a table whose columns have these values."""
        if name not in self.read:
            self.read[name] = []
            path = os.path.join(self.folder, name + ".csv")
            if os.path.exists(path):
                with open(path, newline="") as file:
                    reader = csv.DictReader(file)
                    if ";" in (reader.fieldnames or [""])[0]:
                        sys.exit("%s: has semicolons; a page wants tables made without --decimal" % path)
                    self.read[name] = [Row(name, place, fields) for place, fields in enumerate(reader)]
        return [row for row in self.read[name] if all(row[key] == str(value) for key, value in wanted.items())]

    def window(self, name, **wanted):
        """The rows of the table over the whole window that stands beside one by hour."""
        return self.rows("window_" + name, **wanted)

    def names(self):
        return sorted(name[:-4] for name in os.listdir(self.folder) if name.endswith(".csv"))

    def link(self, name):
        """A link to a table, from the page."""
        path = os.path.normpath(os.path.join(self.beside, name + ".csv"))
        return pages.link(urllib.parse.quote(path), pages.text(path))


def style(column):
    """The class of a column's cells."""
    return ("wide" if column in WIDE else None) if column in TEXTS else "n"


def table(rows, columns, caption="", label=None):
    """Rows of one table as HTML: columns are {column: head}, the first of them the head of its row.

    label makes another text of the first field.
    """
    if not rows:
        return ""
    heads = "".join(pages.element("th", head, data_column=column, scope="col", cls=style(column))
                    for column, head in columns.items())
    first, *others = columns
    body = []
    for row in rows:
        cells = pages.element("th", label(row) if label else row.text(first), scope="row", cls=style(first))
        cells += "".join(pages.element("td", row.text(column), cls=style(column)) for column in others)
        body.append(pages.element("tr", cells, data_row=row.place))
    return pages.scrolled(pages.table(heads, body, caption, data_table=rows[0].table))
