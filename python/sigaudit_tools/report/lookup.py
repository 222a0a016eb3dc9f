"""Tables looked up for a page: each field with the place at which it stands.

A page makes no number: it shows fields of tables, and its elements say from where. `data-of="TABLE ROW COLUMN"` says
that the text is that field of TABLE.csv, rows counted from 0 after the head; in a table with `data-table="TABLE"` the
row has `data-row="ROW"` and the column's head `data-column="COLUMN"`. A share is written in per cent, which moves the
point and rounds nothing.
"""

from __future__ import annotations

import dataclasses
from collections.abc import Iterator, Mapping

import pandas as pd

from sigaudit_tools.report.tables import as_text
from sigaudit_tools.times import tenth_of_hour

# Columns of shares, which are shown in per cent, and of texts, which stand at the left.
SHARES = frozenset(("least", "greatest", "red_least", "red_greatest", "fail_least", "fail_greatest"))
TEXTS = frozenset(("hour", "approach", "ped", "preempt", "what", "value", "answer", "sha256"))
WIDE = frozenset(("value", "answer", "sha256"))


@dataclasses.dataclass(frozen=True)
class Row:
    """A row of a table: the table's name, the row's number from 0, and its fields as in CSV by their column."""

    table: str
    place: int
    fields: Mapping[str, str] = dataclasses.field(repr=False)

    def __getitem__(self, column: str) -> str:
        return self.fields[column]

    def number(self, column: str) -> float:
        """The field as a number for a picture; 0 where it is empty."""
        return float(self.fields[column] or 0)

    def count(self, column: str) -> int:
        """The field as a count; 0 where it is empty."""
        return int(self.fields[column] or 0)

    @property
    def hour(self) -> int:
        """The tenth at which the row's hour begins."""
        return tenth_of_hour(self.fields["hour"])

    def text(self, column: str) -> str:
        """The field as a page shows it: a share in per cent."""
        return percent(self[column]) if column in SHARES else self[column]


class Tables:
    """Tables by name; one that isn't there has no rows."""

    def __init__(self, tables: Mapping[str, pd.DataFrame]) -> None:
        self._tables = tables
        self._rows: dict[str, list[Row]] = {}

    def __iter__(self) -> Iterator[str]:
        """The names, in order."""
        return iter(sorted(self._tables))

    def rows(self, table: str, **wanted: str | int) -> list[Row]:
        """The rows of a table whose fields in these columns are these."""
        if table not in self._rows:
            self._rows[table] = self._read(table)
        return [row for row in self._rows[table] if all(row[key] == str(value) for key, value in wanted.items())]

    def window(self, table: str, **wanted: str | int) -> list[Row]:
        """The rows of the table over the whole window that stands beside one by hour."""
        return self.rows("window_" + table, **wanted)

    def _read(self, table: str) -> list[Row]:
        if table not in self._tables:
            return []
        text = as_text(self._tables[table])
        names = list(text.columns)
        return [Row(table, place, dict(zip(names, fields)))
                for place, fields in enumerate(zip(*(text[name].tolist() for name in names)))]


def percent(share: str) -> str:
    """A share of three decimals in per cent: 0.640 is 64.0 %. The point moves, nothing is rounded."""
    if not share:
        return ""
    whole, decimals = share.split(".")
    return f"{int(whole + decimals[:2])}.{decimals[2]}\u00a0%"


def style(column: str) -> str:
    """The class of a column's cells: numbers (n), long texts, texts."""
    return ("wide" if column in WIDE else "text") if column in TEXTS else "n"
