"""Rows as mappings."""
import dataclasses
from collections.abc import Mapping, Sequence
from typing import Any, Callable, Dict, Iterable, Iterator, List, Optional, Tuple

from .checks import NO_LISTS
from .columns import Column
from .errors import Refused, placed
from .hints import unknown_column
from .kinds.texts import plain_text
from .reading import check_names


class Record(Dict[str, Any]):
    """A row: a mapping from the names of the columns to its values, with its `id`, and its `level` where it is a row of an answer.

    A name that is a word is an attribute too.

    >>> from prefq import Record
    >>> row = Record({"City": "Lyon", "Price (EUR)": 60}, id=3, level=1)
    >>> row["Price (EUR)"], row.City, row.id, row.level
    (60, 'Lyon', 3, 1)
    """

    __slots__ = ("id", "level")

    def __init__(self, values: Any = (), *, id: Optional[int] = None, level: Optional[int] = None) -> None:
        super().__init__(values)
        self.id = id
        self.level = level

    def __getattr__(self, name: str) -> Any:
        try:
            return self[name]
        except KeyError:
            raise AttributeError(unknown_column(name, list(self))) from None

    def __dir__(self) -> List[str]:
        """The names of columns that are words come first, so that a prompt completes them."""
        return [*(name for name in self if isinstance(name, str) and name.isidentifier()), *super().__dir__()]

    def _ipython_key_completions_(self) -> List[str]:
        return list(self)

    def __repr__(self) -> str:
        level = "" if self.level is None else f"level {self.level} "
        return f"<{level}id {self.id}: {dict(self)!r}>"

    def __reduce__(self) -> Any:
        return _record, (dict(self), self.id, self.level)


def _record(values: Dict[str, Any], id: Optional[int], level: Optional[int]) -> Record:
    return Record(values, id=id, level=level)


def mapping_of(record: Any) -> Optional[Dict[str, Any]]:
    """What is a mapping, a named tuple or a data class, as a mapping; None for another thing."""
    if isinstance(record, Mapping):
        found = dict(record)
        # Names of an enumeration are of a type of their own.
        return found if {str}.issuperset(map(type, found)) else {plain_text(name) if isinstance(name, str) else name: value for name, value in found.items()}
    if hasattr(record, "keys") and hasattr(record, "__getitem__"):
        # Such as a row of sqlite3, which gives the first of two values of one name.
        return {plain_text(name): record[name] for name in check_names(record.keys())}
    if isinstance(record, tuple) and hasattr(record, "_asdict"):
        return dict(record._asdict())
    if dataclasses.is_dataclass(record) and not isinstance(record, type):
        return {field.name: getattr(record, field.name) for field in dataclasses.fields(record) if hasattr(record, field.name)}
    return None


def in_order(row: Any, names: Sequence[str]) -> Any:
    """The values of a named tuple in the order of these names, where it has just these; another row as it is."""
    found = row._asdict() if isinstance(row, tuple) and hasattr(row, "_asdict") else {}
    return [found[name] for name in names] if set(found) == set(names) else row


def values_of(record: Any, columns: Tuple[Column, ...]) -> List[Any]:
    """The values of a record in the order of the columns, None where it has none. A plain list has one value for each column."""
    names = [column.name for column in columns]
    found = mapping_of(record)
    if found is not None:
        for name in found:
            if name not in names:
                raise Refused(unknown_column(str(name), names), "table")
        return [found.get(name) for name in names]
    if not isinstance(record, Sequence) or isinstance(record, NO_LISTS):
        raise TypeError(f"a record is a mapping or a list of values, not {record!r}")
    if len(record) != len(names):
        raise Refused(f"a row of {len(record)} values, where there are {len(names)} columns: {', '.join(names)}", "table")
    return list(record)


def values_of_each(records: Iterable[Any], columns: Tuple[Column, ...], called: Callable[[int], str]) -> Iterator[List[Any]]:
    """The values of each of these records, which are called so by their number."""
    for number, record in enumerate(records, 1):
        try:
            yield values_of(record, columns)
        except (Refused, TypeError) as why:
            raise placed(f"{called(number)}: ", why) from None
