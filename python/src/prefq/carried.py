"""Whole rows as they came from a source: they go with the columns that are asked, and are understood once they are in an answer."""
from itertools import groupby, islice
from typing import Any, Iterable, List, Optional, Sequence, Tuple, TypeVar, Union

from .loading import CellRefused, Encoded, column_of_texts, column_of_values
from .missing import Missing
from .partition import Reading
from .widening import Segment, as_in_a_frame, joined

Self = TypeVar("Self", bound="Listed")


class Listed:
    """Some rows of one source, by the names of its columns, as lists of what stands there."""

    def __init__(self, names: Sequence[str], rows: Iterable[Sequence[Any]]) -> None:
        self.names, self.rows = tuple(names), list(rows)

    def __eq__(self, other: Any) -> bool:
        return type(self) is type(other) and (self.names, self.rows) == (other.names, other.rows)

    def __len__(self) -> int:
        return len(self.rows)

    def at(self: Self, places: Iterable[int]) -> Self:
        """The rows with these numbers, counted from 0."""
        return type(self)(self.names, [self.rows[place] for place in places])

    def values(self, name: str) -> List[Any]:
        """What stands in a column."""
        place = self.names.index(name)
        return [row[place] for row in self.rows]


class CellRows(Listed):
    """Rows of a file, as the texts of their cells."""

    def column(self, name: str, reading: Reading, ids: Optional[Sequence[int]] = None) -> Encoded:
        """A column, and its numbers. A value that is refused is named with the id of its row, or its number where none are given."""
        try:
            return column_of_texts(name, self.values(name), reading.kinds.get(name), Missing(reading.missing), reading.form)
        except CellRefused as why:
            raise type(why.why)(f"row {ids[why.row] if ids else why.row + 1}, {why}") from None


class ValueRows(Listed):
    """Rows of Python's values."""

    def column(self, name: str, reading: Reading, ids: Optional[Sequence[int]] = None) -> Encoded:
        return column_of_values(name, self.values(name), reading.kinds, ids)


class FrameRows:
    """Rows of a DataFrame of pandas."""

    def __init__(self, frame: Any) -> None:
        self.frame = frame
        self.names = tuple(frame.columns)

    def __eq__(self, other: Any) -> bool:
        return isinstance(other, FrameRows) and bool(self.frame.equals(other.frame))

    def __len__(self) -> int:
        return len(self.frame)

    def at(self, places: Iterable[int]) -> "FrameRows":
        return FrameRows(self.frame.iloc[list(places)])

    def column(self, name: str, reading: Reading, ids: Optional[Sequence[int]] = None) -> Encoded:
        from .pandas_frames import encoded_series
        return encoded_series(self.frame[name], name, reading.kinds, ids)


Rows = Union[CellRows, ValueRows, FrameRows]


def column_of(rows: Sequence[Rows], name: str, reading: Reading, ids: Iterable[int]) -> Segment:
    """A column of rows of all partitions, in their order, which have these ids: of files that follow each other it is read at once, and all are brought together."""
    numbered = list(enumerate(rows, 1))
    some, left = [pair for pair in numbered if len(pair[1])] or numbered[:1], iter(ids)
    runs = [list(run) for _, run in groupby(some, lambda pair: 0 if isinstance(pair[1], CellRows) else pair[0])]
    return as_in_a_frame(joined([_segment(run, name, reading, list(islice(left, sum(len(found) for _, found in run)))) for run in runs]))


def _segment(run: Sequence[Tuple[int, Rows]], name: str, reading: Reading, ids: Sequence[int]) -> Segment:
    """The column of rows of files, or of another partition, by their numbers."""
    (first, found), (last, _) = run[0], run[-1]
    what = f"partition {first}" if first == last else f"the partitions {first} to {last}"
    if isinstance(found, CellRows):
        found = CellRows([name], [[text] for _, rows in run for text in rows.values(name)])
    return Segment.of(*found.column(name, reading, ids), what, is_given=name in reading.kinds, has_words=isinstance(found, CellRows) and reading.missing is None)


def frame_of(rows: Sequence[Any]) -> Any:
    """One DataFrame of rows of several. A column of several types has each value as it is."""
    import pandas
    some = [found.frame for found in rows if len(found)] or [rows[0].frame]
    mixed = [name for name in some[0].columns if any(frame[name].dtype != some[0][name].dtype for frame in some)]
    return pandas.concat([frame.astype(dict.fromkeys(mixed, object)) for frame in some])
