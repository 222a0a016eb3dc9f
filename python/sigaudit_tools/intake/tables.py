"""Exports that are tables already: DataFrames, and Parquet by way of them."""

from __future__ import annotations

import io
from typing import TYPE_CHECKING

import numpy as np

from sigaudit_tools.errors import InputError
from sigaudit_tools.intake import records
from sigaudit_tools.intake.cells import Bytes, Places
from sigaudit_tools.intake.columns import Layout, layout_of
from sigaudit_tools.intake.records import Names, Part, Records, Wanted
from sigaudit_tools.intake.stamps import FINEST, NO_ZONE, Stamps, read_stamps

if TYPE_CHECKING:
    import pandas as pd

_TENTH = 100_000_000  # nanoseconds


def read_parquet(data: bytes, place: str) -> pd.DataFrame:
    """The table of a Parquet file's bytes.

    Raises:
        InputError: pyarrow isn't there, or it doesn't take the file.
    """
    try:
        import pyarrow
        import pyarrow.parquet
    except ImportError as error:
        raise InputError("reading Parquet wants pyarrow", place, "pip install pyarrow, or save it as CSV") from error
    try:
        return pyarrow.parquet.read_table(io.BytesIO(data)).to_pandas()
    except (pyarrow.ArrowException, OSError) as error:
        raise InputError("no Parquet that pyarrow reads", place, "write it again, or save it as CSV") from error


def read_table(frame: pd.DataFrame, place: str, wanted: Wanted) -> Records:
    """The records of a table whose columns have the names that headers of exports have.

    Args:
        frame: stamps are texts or datetime64 (of one with a zone the clock is kept), codes and parameters numbers or
            texts; signals, which may lack, numbers or texts.
        place: what it is called in what is said of it.
        wanted: which of its rows count.

    Raises:
        InputError: a column is missing; or no signal is wanted, and there is none.
    """
    layout = layout_of([str(name) for name in frame.columns])
    if layout is None:
        names = ", ".join(map(str, frame.columns))
        raise InputError(f"no columns of stamp, code and parameter among: {names}", place,
                         "name them Timestamp, EventCode, EventParam, and SignalID")
    signals, signal = _signals(frame, layout)
    part = Part(np.arange(1, len(frame) + 1), signals, signal, _stamps(frame, layout, wanted.day_first),
                _numbers(frame.iloc[:, layout.code], records.GREATEST_CODE),
                _numbers(frame.iloc[:, layout.param], records.GREATEST_PARAM))

    def words(line: int) -> str:
        return f"row {line} of {place}: {','.join(map(str, frame.iloc[line - 1]))[:records.SHOWN]}"

    return records.judged([part], {}, wanted, place, words)


def _signals(frame: pd.DataFrame, layout: Layout) -> tuple[list[str], Names]:
    if layout.signal is None:
        return [], np.full(len(frame), -1)
    which, names = frame.iloc[:, layout.signal].factorize()
    whole = [int(name) if isinstance(name, float) and name.is_integer() else name for name in names]
    return [*map(str, whole), ""], np.where(which < 0, len(names), which)


def _stamps(frame: pd.DataFrame, layout: Layout, day_first: bool) -> Stamps:
    import pandas as pd
    stamp = frame.iloc[:, layout.stamp]
    if pd.api.types.is_datetime64_any_dtype(stamp):
        return _of_datetimes(stamp)
    text = stamp.astype(str)
    if layout.date is not None:
        text = frame.iloc[:, layout.date].astype(str) + " " + text
    return read_stamps(_chars(text), day_first)


def _of_datetimes(stamp: pd.Series) -> Stamps:
    found = Stamps.none(len(stamp))
    zone = str(stamp.dt.tz) if stamp.dt.tz is not None else ""
    clock = stamp.dt.tz_localize(None).to_numpy("datetime64[ns]")
    good = ~np.isnat(clock)
    tenth, rest = np.divmod(clock.astype(np.int64), _TENTH)
    return Stamps(good, np.where(good, tenth, 0), np.where(good, rest, 0) * 10 ** (FINEST - 8),
                  found.zone + 1 if zone else found.zone + NO_ZONE, ("", zone))


def _numbers(column: pd.Series, greatest: int) -> Places:
    """The whole numbers of a column, -1 where one isn't from 0 to the greatest."""
    import pandas as pd
    values = pd.to_numeric(column, errors="coerce").to_numpy(np.float64, na_value=np.nan)
    good = (values >= 0) & (values <= greatest) & (values == np.floor(values))
    return np.where(good, values, -1).astype(np.int64)


def _chars(column: pd.Series) -> Bytes:
    """The bytes of texts without blanks around, shape (width, n)."""
    texts = np.char.encode(column.str.strip().to_numpy(str), "utf-8")
    width = max(texts.dtype.itemsize, 1)
    found: Bytes = texts.astype(f"S{width}").view(np.uint8).reshape(len(texts), width).T
    return found
