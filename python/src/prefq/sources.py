"""A partition that is open: its columns are read as they are asked for, and whole rows once it is known which are left."""
import os
from typing import Any, Dict, Sequence

from .carried import CellRows, FrameRows, Rows, ValueRows
from .errors import Refused
from .loading import Encoded, File, check_kinds
from .missing import Missing
from .partition import Numbered, Partition, Reading, Source, is_frame, values_of_rows
from .reading import check_names, read_csv


class Opened:
    """A partition whose rows are in memory. `names` are those of its columns; `words` are those that were taken for missing, with the number of their rows, by column."""

    # Whether words such as n/a may be missing values.
    has_words = False

    def __init__(self, rows: Rows, reading: Reading) -> None:
        self.names = rows.names
        self.words: Dict[str, Dict[str, int]] = {}
        self._rows, self._reading = rows, reading

    @property
    def count(self) -> int:
        """The number of rows."""
        return len(self._rows)

    def load(self, names: Sequence[str]) -> None:
        """Reads these columns, all at once."""

    def column(self, name: str) -> Encoded:
        """A column, and its numbers."""
        check_names(other for other in self.names if other == name)
        return self._rows.column(name, self._reading)

    def rows_at(self, places: Sequence[int]) -> Rows:
        """Whole rows, by their numbers from 0, ascending."""
        return self._rows.at(places)


class OpenedFile(Opened):
    """A CSV file, of which no two columns have one name. One that is written to meanwhile is refused."""

    def __init__(self, path: Any, reading: Reading) -> None:
        self._cells = read_csv(path, reading.dialect)
        self._cells.check_columns(self._cells.names)
        super().__init__(CellRows(self._cells.names, []), reading)
        self.has_words = reading.missing is None
        self._file = File(self._cells, reading.kinds, Missing(reading.missing), reading.form)

    @property
    def count(self) -> int:
        return self._file.rows

    def load(self, names: Sequence[str]) -> None:
        self._file.load(names)
        self.words = self._file.words

    def column(self, name: str) -> Encoded:
        return self._file.column(name)

    def rows_at(self, places: Sequence[int]) -> Rows:
        found = self._cells.rows_at(places)
        self._cells.check_unchanged()
        return CellRows(self.names, [found[place] for place in places])


def opened(source: Source, reading: Reading) -> Opened:
    """A partition, open. What is none is a `TypeError`."""
    if isinstance(source, Numbered):
        source = source.source
    if isinstance(source, (str, os.PathLike)):
        if not is_parquet(source):
            return OpenedFile(source, reading)
        source = parquet(source)
    if is_frame(source):
        from .pandas_frames import native
        check_kinds(reading.kinds, list(source.columns))
        return Opened(FrameRows(native(source)), reading)
    if not isinstance(source, Partition):
        raise TypeError(f"a partition is a path, a Partition or a DataFrame of pandas, not {source!r}")
    names = check_names(source.columns)
    check_kinds(reading.kinds, names)
    return Opened(ValueRows(names, values_of_rows(source)), reading)


def is_parquet(path: Any) -> bool:
    """Whether a path is by its name that of a Parquet file."""
    return str(os.fspath(path)).endswith((".parquet", ".pq"))


def parquet(path: Any) -> Any:
    """The DataFrame of a Parquet file. It is `Refused` where nothing is there that reads one."""
    try:
        import pandas
        return pandas.read_parquet(path)
    except ImportError as why:
        raise Refused(f"{os.fspath(path)}: a Parquet file is read by pandas and pyarrow ({why})", "table") from None
