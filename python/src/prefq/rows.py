"""Rows as the library takes and gives them: whole numbers of 64 bits, one row after the other."""
import gc
import struct
from array import array
from bisect import bisect_right
from collections.abc import Iterable, Mapping, Set
from itertools import accumulate, chain, islice
from typing import Any, Callable, Iterator, List, NamedTuple, Optional, Sequence, Tuple, TypeVar

from .checks import LEAST, MOST, MOST_ROWS, NO_LISTS, check_rows, whole
from .engine import BYTES, Engine
from .library import Setup
from .pauses import extended, let_others_run
from .records import Record

Made = TypeVar("Made")
TOGETHER = 256
ANSWER_PIECE = 4_096        # numbers of an answer
LISTS = (list, tuple)


class Row(NamedTuple):
    """A row of an answer as numbers: its level (1 is the best), its id and its values in the order of the columns."""

    level: int
    id: int
    values: List[int]


class ColumnarRows(Sequence[Tuple[Any, List[int]]]):
    """The rows of answers that follow each other, as pairs of what a row is known by and its numbers. They stay as the library gave them: a row or a column is taken of
    them when it is asked for."""

    def __init__(self, answers: Sequence[bytes], width: int, known_by: Optional[Sequence[Any]] = None, order: Optional[Sequence[int]] = None) -> None:
        """`known_by` is what the rows are known by, where these are not their ids; `order` has the places that the rows have in the answers, where it is another one."""
        self._size = 2 + width
        self._answers = answers
        self._numbers = [memoryview(answer).cast("q") for answer in answers]
        self._ends = list(accumulate(len(numbers) // self._size for numbers in self._numbers))
        self._known_by, self._order = known_by, order

    def __len__(self) -> int:
        return self._ends[-1] if self._ends else 0

    def __iter__(self) -> Iterator[Tuple[Any, List[int]]]:
        pairs = list(chain.from_iterable(rows_of(answer, self._size - 2, as_pairs) for answer in self._answers))
        if self._known_by is not None:
            pairs = [(known_by, numbers) for known_by, (_, numbers) in zip(self._known_by, pairs)]
        return iter(pairs) if self._order is None else map(pairs.__getitem__, self._order)

    def __getitem__(self, number: int) -> Tuple[Any, List[int]]:  # type: ignore[override]
        place = range(len(self))[number] if self._order is None else self._order[number]
        answer = bisect_right(self._ends, place)
        begin = self._size * (place - (self._ends[answer - 1] if answer else 0))
        _, id, *numbers = self._numbers[answer][begin:begin + self._size]
        return id if self._known_by is None else self._known_by[place], numbers

    def column(self, place: int) -> "array[int]":
        """The numbers of the column at this place."""
        found = array("q", b"".join(numbers[2 + place::self._size].tobytes() for numbers in self._numbers))
        return found if self._order is None else extended(array("q"), map(found.__getitem__, self._order))


class WholeRows:
    """Rows of whole numbers that a table can have for sure, so that they are handed over without a look at each."""

    def __len__(self) -> int:
        raise NotImplementedError

    def opened(self, columns: Sequence[str], setup: Setup) -> Engine:
        """A table of these columns and rows."""
        raise NotImplementedError


class Packed(WholeRows):
    """Rows one after the other."""

    def __init__(self, values: bytes, width: int) -> None:
        self.values = values
        self._width = width

    def __len__(self) -> int:
        return len(self.values) // (BYTES * self._width)

    def opened(self, columns: Sequence[str], setup: Setup) -> Engine:
        return Engine.opened(columns, self.values, len(self), setup)


class Zipped(WholeRows):
    """The rows of columns of numbers, which are arrays: these take nothing but whole numbers of 64 bits."""

    def __init__(self, columns: Sequence[Sequence[int]]) -> None:
        self.columns = [column if isinstance(column, array) else array("q", column) for column in columns]

    def __len__(self) -> int:
        return len(self.columns[0]) if self.columns else 0

    def __getitem__(self, some: slice) -> "Zipped":
        return Zipped([column[some] for column in self.columns])

    def opened(self, columns: Sequence[str], setup: Setup) -> Engine:
        found = array("q", bytes(BYTES * len(columns) * len(self)))
        for place, column in enumerate(self.columns):
            found[place::len(columns)] = column
            let_others_run()
        return Engine.opened(columns, found.tobytes(), len(self), setup)


def as_records(names: Sequence[str], numbers: Sequence[int], _: int) -> List[Record]:
    """The rows of an answer as records with these names. Each row is so many numbers: its level, its id and its values."""
    new, records, rest = Record.__new__, [], iter(numbers)
    for level in rest:
        record = new(Record)        # without its `__init__`, which is written in Python, and takes longer
        record.level, record.id = level, next(rest)
        for name in names:
            record[name] = next(rest)
        records.append(record)
    return records


def as_rows(numbers: Sequence[int], size: int) -> List[Row]:
    """The same as plain rows."""
    new = tuple.__new__         # that of a named tuple is written in Python, and takes longer
    return [new(Row, row) for row in zip(numbers[::size], numbers[1::size], _values(numbers, size))]


def as_pairs(numbers: Sequence[int], size: int) -> List[Tuple[int, List[int]]]:
    """The same as pairs of an id and its values."""
    return list(zip(numbers[1::size], _values(numbers, size)))


def _values(numbers: Sequence[int], size: int) -> Iterator[List[int]]:
    return map(list, zip(*(numbers[place::size] for place in range(2, size))))


def rows_of(answer: bytes, width: int, make: Callable[[Sequence[int], int], List[Made]]) -> List[Made]:
    """What is made of the level, the id and the values of each row of an answer. The numbers are given as a memoryview, of which a slice is no copy."""
    numbers, size = memoryview(answer).cast("q"), 2 + width
    if len(numbers) <= ANSWER_PIECE:
        return make(numbers, size)
    rows: List[Made] = []
    piece = size * (ANSWER_PIECE // size)
    collects = gc.isenabled()
    try:
        # Rows are no garbage. Left to itself, the collector looks through all of them again and again while every thread waits; this looks at the new ones,
        # while they are near to the processor.
        gc.disable()
        for begin in range(0, len(numbers), piece):
            rows += make(numbers[begin:begin + piece], size)
            if collects:
                gc.collect(0)
            let_others_run()
    finally:
        if collects:
            gc.enable()
    return rows


def in_pieces(rows: Any) -> Iterator[Any]:
    """The rows, which may come one by one, some at a time."""
    check_rows(rows)
    count = 0
    for piece in _sliced(rows):
        count += len(piece)
        if count > MOST_ROWS:
            raise ValueError(f"there are more than {MOST_ROWS} rows: no table holds them (prefq.parts.best asks more)")
        yield piece
        let_others_run()


def _sliced(rows: Any) -> Iterator[Any]:
    # Arrays of numpy are taken apart in pieces. A slice of another thing with tolist, such as a series of pandas, may count by its labels.
    if hasattr(rows, "__array_interface__"):
        return (listed_array(rows[at:at + TOGETHER]) for at in range(0, len(rows), TOGETHER))
    if hasattr(rows, "tolist"):
        rows = rows.tolist()
    if isinstance(rows, LISTS):
        return (rows[at:at + TOGETHER] for at in range(0, len(rows), TOGETHER))
    one_by_one = iter(rows)
    return iter(lambda: list(islice(one_by_one, TOGETHER)), [])


def listed_array(values: Any) -> List[Any]:
    """What an array of numpy has, or one of its records, as a list. numpy itself makes whole numbers of times in nanoseconds."""
    if not has_times(values.dtype):
        return values.tolist()  # type: ignore[no-any-return]
    if values.ndim == 0:
        return [values[name] for name in values.dtype.names]
    return list(values) if values.ndim == 1 and not values.dtype.names else list(map(listed_array, values))


def has_times(dtype: Any) -> bool:
    """Whether values of this type of numpy, or fields of them, are times or distances of times."""
    return dtype.kind in "mM" or any(has_times(dtype[name]) for name in dtype.names or ())


def packed(rows: Any, columns: Sequence[str]) -> Packed:
    """Rows of whole numbers, looked at. What is wrong names its row, from 1, and its column."""
    if _is_plain_array(rows, len(columns)):
        return Packed(rows.astype("int64").tobytes(), len(columns))
    found, begin = array("q"), 1
    for piece in in_pieces(rows):
        values = _at_once(piece, len(columns))
        if values is None:
            values = array("q", chain.from_iterable(checked(row, columns, f"row {number}, ") for number, row in enumerate(piece, begin)))
        found.extend(values)
        begin += len(piece)
    return Packed(found.tobytes(), len(columns))


def _is_plain_array(rows: Any, width: int) -> bool:
    """Whether this is an array of numpy that a table takes as it is: of whole numbers with a sign, in so many columns. One with a mask is another type."""
    kind = type(rows)
    return ((kind.__module__, kind.__name__) == ("numpy", "ndarray") and rows.dtype.kind == "i" and rows.ndim == 2 and rows.shape[1] == width
            and len(rows) <= MOST_ROWS)


def _at_once(rows: Sequence[Any], width: int) -> "Optional[array[int]]":
    """Rows that are lists or tuples of Python's own whole numbers, without a look at each; None where they are not, or where something is wrong."""
    if not {*LISTS}.issuperset(map(type, rows)) or set(map(len, rows)) != {width}:
        return None
    cells = list(chain.from_iterable(rows))
    if set(map(type, cells)) != {int}:
        return None
    try:
        return array("q", cells)
    except OverflowError:
        return None


class Packing:
    """Packs a row of a table with these columns."""

    def __init__(self, columns: Sequence[str]) -> None:
        self._columns = columns
        self._width = len(columns)
        self._pack = struct.Struct(f"{self._width}q").pack

    def packed(self, row: Any, where: str = "") -> bytes:
        """Its values one after the other. What is wrong names its column, behind `where`."""
        if type(row) in LISTS and len(row) == self._width:
            for cell in row:
                if type(cell) is not int:
                    break
            else:
                try:
                    return self._pack(*row)
                except struct.error:
                    pass        # A number is out of range, which is said with its column.
        return self._pack(*checked(row, self._columns, where))


def checked(row: Any, columns: Sequence[str], where: str) -> List[int]:
    """The values of a row, if they are whole numbers that a table has."""
    if isinstance(row, (*NO_LISTS, Mapping, Set)) or not isinstance(row, Iterable):
        raise TypeError(f"{where}{row!r} is of type {type(row).__name__}: not a list of the values of {', '.join(columns)}")
    cells = tuple(row)
    if len(cells) != len(columns):
        raise ValueError(f"{where}{len(cells)} values: not {len(columns)}, those of {', '.join(columns)}")
    return [whole(cell, f"{where}column {name}", LEAST, MOST) for name, cell in zip(columns, cells)]
