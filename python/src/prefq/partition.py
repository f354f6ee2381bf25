"""A partition of a large table: rows in memory, a CSV or a Parquet file, or a DataFrame of pandas; and how it is read."""
import os
import re
from dataclasses import dataclass, field
from typing import Any, Callable, Iterable, Iterator, List, Mapping, Optional, Sequence, Tuple, Union

from .checks import NO_LISTS, check_rows
from .hints import check_options
from .kinds.forms import PLAIN, Form
from .missing import words_given
from .reading import Dialect
from .records import in_order
from .rows import listed_array

CELLS = re.compile(r"[ \t]*[-+]?[0-9]+[ \t]*(?:,[ \t]*[-+]?[0-9]+[ \t]*)*")
OPTIONS = ("kinds", "missing", "encoding", "delimiter", "decimal", "thousands", "skip", "null_padding")


@dataclass(frozen=True)
class Partition:
    """Names of columns and rows of values in memory. Each row is a sequence of values, or a line of text with whole numbers and commas between them.

    >>> Partition(["price", "dist"], [[49.5, 8], [None, 2], "80,2"]).columns
    ['price', 'dist']
    """

    columns: Sequence[str]
    rows: Iterable[Any]


@dataclass(frozen=True)
class Reading:
    """How partitions are read: the kinds that are given for columns, and how files are written, as `Frame.from_csv` takes them."""

    kinds: Mapping[str, str] = field(default_factory=dict)
    missing: Optional[Tuple[str, ...]] = None
    dialect: Dialect = Dialect()
    form: Form = PLAIN

    @staticmethod
    def of(options: Mapping[str, Any], what: str) -> "Reading":
        """That of the options of a function, which is called so in what is said of a wrong one."""
        check_options(options, OPTIONS, what)
        given = {name: options[name] for name in ("encoding", "delimiter", "skip", "null_padding") if name in options}
        form = Form(options.get("decimal", "."), options.get("thousands", ""))
        missing = None if options.get("missing") is None else words_given(options["missing"])
        return Reading(dict(options.get("kinds") or {}), missing, Dialect(**given), form)


@dataclass(frozen=True)
class Numbered:
    """One of several partitions, with its number, or what else it is called in what is said."""

    source: Any
    called: str


# Any is a DataFrame of pandas.
Source = Union[Partition, str, "os.PathLike[str]", Any]


def partitions_of(partitions: Iterable[Source]) -> List[Source]:
    """The partitions by their numbers, where they are a list of some: a single one would be taken for a list of its letters or columns."""
    for what, is_one, instead in [("a DataFrame", is_frame, "give a list of DataFrames, or ask it by prefq.psel"),
                                  ("one path", lambda some: isinstance(some, (str, bytes, os.PathLike)), "give a list of partitions"),
                                  ("one partition", lambda some: isinstance(some, Partition), "give a list of partitions")]:
        if is_one(partitions):
            raise TypeError(f"partitions is {what}: {instead}")
    found = list(partitions)
    for number, source in enumerate(found, 1):
        if is_of_dask(source):
            raise TypeError(f"partition {number} is a DataFrame of Dask: give it alone, in place of the list")
    return [numbered(_readable_again(source), number) for number, source in enumerate(found, 1)]


def numbered(source: Source, number: int) -> Source:
    """A partition that is called by its number; a file is called by its path as it is."""
    return source if isinstance(source, (str, os.PathLike)) else Numbered(source, f"partition {number}")


def is_frame(source: Any) -> bool:
    """Whether this is a DataFrame of pandas."""
    return hasattr(source, "itertuples") and not is_of_dask(source)


def is_of_dask(source: Any) -> bool:
    """Whether this is a DataFrame of Dask."""
    return hasattr(source, "to_delayed")


def called(source: Source) -> str:
    """What a partition is called in what is said."""
    if isinstance(source, Numbered):
        return source.called
    if isinstance(source, (str, os.PathLike)):
        return os.fspath(source)
    return "a partition" if isinstance(source, Partition) else "a DataFrame"


def values_of_rows(partition: Partition) -> Iterator[Sequence[Any]]:
    """The rows of a partition in memory, each with a value for each column."""
    check_rows(partition.rows)
    width = len(partition.columns)
    for number, row in enumerate(_as_they_come(partition.rows), 1):
        values = _numbers(number, row) if isinstance(row, NO_LISTS) else in_order(row, partition.columns)
        if not isinstance(values, Sequence):
            if not hasattr(values, "tolist"):
                raise TypeError(f"row {number} is {row!r}, of type {type(row).__name__}: not a list of values")
            values = listed_array(values) if hasattr(values, "__array_interface__") else values.tolist()
        if len(values) != width:
            raise ValueError(f"row {number}, {len(values)} values: not {width}, those of {', '.join(partition.columns)}")
        yield values


def _numbers(number: int, row: Union[str, bytes, bytearray, memoryview]) -> List[int]:
    """The whole numbers of a line of text."""
    text = row if isinstance(row, str) else bytes(row).decode(errors="replace")
    if not CELLS.fullmatch(text):
        raise TypeError(f"row {number} is {row!r}: not whole numbers with commas between them")
    return list(map(int, text.split(",")))


def _readable_again(source: Source) -> Source:
    """The same, whose rows can be read as often as one likes."""
    if isinstance(source, Partition) and iter(source.rows) is source.rows:
        return Partition(source.columns, list(_as_they_come(source.rows)))
    return source


def _as_they_come(rows: Iterable[Any]) -> Iterable[Any]:
    """The rows; what makes them one by one may change a list for the next one, so of these each is copied."""
    return (list(row) if isinstance(row, list) else row for row in rows) if iter(rows) is rows else rows


def partitions_in(frame: Any) -> List[Any]:
    """The partitions of a DataFrame of Dask by their numbers: each is one of pandas where Dask's scheduler has it, which Dask is still to compute."""
    from dask import delayed
    return [delayed(numbered)(part, number) for number, part in enumerate(frame.to_delayed(), 1)]


def mapped(function: Callable[[Any], Any], items: Iterable[Any]) -> List[Any]:
    """What Dask is to do for each of these; nothing is done yet."""
    from dask import delayed
    return [delayed(function, pure=False)(item) for item in items]
