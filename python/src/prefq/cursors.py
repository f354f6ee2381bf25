"""Rows of a database, by the cursor of a query that was executed, as Python's DB-API has it."""
from collections.abc import Iterable, Mapping, Set
from typing import Any, Iterator, List, Sequence, Tuple

from .checks import MOST_ROWS, NO_LISTS
from .errors import Refused
from .partition import Numbered, Partition
from .parts import MERGED, Found, Job, merged
from .reading import check_names
from .records import in_order


def is_cursor(source: Any) -> bool:
    """Whether this is a cursor."""
    return hasattr(source, "description") and hasattr(source, "fetchmany")


def names_of(cursor: Any) -> Tuple[str, ...]:
    """The names of the columns of its query. A cursor without one is `Refused`."""
    if not is_cursor(cursor):
        raise TypeError(f"cursor is of type {type(cursor).__name__}: not the cursor of a query, as connection.execute(..) returns one (from_records takes records)")
    if cursor.description is None:
        raise Refused("the cursor has no rows: execute a SELECT first", "table")
    return check_names(column[0] for column in cursor.description)


def fetched(cursor: Any, names: Sequence[str]) -> Iterator[List[Sequence[Any]]]:
    """The rows that were not fetched yet, at most as many at a time as one table holds: a cursor may give fewer."""
    before = 0
    while rows := cursor.fetchmany(MOST_ROWS):
        yield [_values_of(row, names, number) for number, row in enumerate(rows, before + 1)]
        before += len(rows)


def _values_of(row: Any, names: Sequence[str], number: int) -> Sequence[Any]:
    """The values of a row. A connection may have rows made into other things, as into the first value alone, and a text is no list of its letters."""
    found = [row[name] for name in names] if isinstance(row, Mapping) and set(row) == set(names) else in_order(row, names)
    if isinstance(found, (*NO_LISTS, Mapping, Set)) or not isinstance(found, Iterable):
        raise TypeError(f"row {number} of the query is {row!r}: not the values of {', '.join(names)}")
    values = tuple(found)
    if len(values) != len(names):
        raise ValueError(f"row {number} of the query has {len(values)} values: not {len(names)}, those of {', '.join(names)}")
    return values


def parts_of_rows(names: Sequence[str], parts: Iterable[Sequence[Any]]) -> Iterator[Numbered]:
    """The parts of many rows, each of as many as one table holds at most."""
    before = 0
    for number, rows in enumerate(parts, 1):
        yield Numbered(Partition(names, rows), f"part {number} (rows {before + 1} to {before + len(rows)})")
        before += len(rows)


def found_of(cursor: Any, job: Job) -> Found:
    """The answer over all rows of a query. They come once, so `at_least k` is asked for k levels, which are always enough."""
    names, wanted = names_of(cursor), job.rows_wanted()
    asked = job if wanted is None else job.of_levels(wanted)
    partials = []
    for part in parts_of_rows(names, fetched(cursor, names)):
        partials.append(asked.part(part))
        if len(partials) == MERGED:
            partials = [asked.merge(partials)]
    return merged(asked, partials or [asked.part(Partition(names, []))], map)
