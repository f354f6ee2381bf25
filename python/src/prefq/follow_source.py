"""Where a followed frame has its rows from: a table of a database, which is read as of a place in the order of the database's commits."""
from typing import Any, Callable, Collection, Mapping, NamedTuple, Optional, Sequence, Tuple, Type

from .checks import MOST, whole
from .columns import Column
from .dealt import Key
from .errors import Refused

Cells = Sequence[Any]


class Unchanged:
    """What stands for a value that is what it was."""


UNCHANGED = Unchanged()


class Everything(NamedTuple):
    """A table as of a place: the kinds that its columns have by themselves, where they have, and the values of its rows by their keys."""

    place: int
    kinds: Mapping[str, Column]
    rows: Mapping[Key, Cells]


class Changes(NamedTuple):
    """What has changed up to a place: whether all rows were deleted at first; the values of rows that are new or others, and None for those that have gone; and
    how many rows there are then, where the source cannot say for sure which ones have gone."""

    place: int
    is_cleared: bool
    rows: Mapping[Key, Optional[Cells]]
    total: Optional[int] = None


class Source:
    """A table of a database. Its calls are made one after the other, but for `interrupt`, which any thread makes meanwhile."""

    name = ""
    columns: Tuple[str, ...] = ()
    faults: Tuple[Type[Exception], ...] = ()    # what the database itself raises
    until: Optional[float] = None       # how long a call may wait for others, as `time.monotonic` has it
    _db: Any                            # its own connection

    def everything(self) -> Everything:
        """The table as it is now. What cannot be followed is refused."""
        raise NotImplementedError

    def changes(self, since: int) -> Optional[Changes]:
        """What has changed since this place; None where everything has to be read."""
        raise NotImplementedError

    def now(self) -> Optional[int]:
        """The place behind all that is committed; None where everything has to be read."""
        raise NotImplementedError

    def place(self, given: Any) -> int:
        """A place as it was given."""
        return whole(given, "at_least", 0, MOST)

    def interrupt(self) -> None:
        """Ends what a call waits for, where it can."""

    def close(self) -> None:
        """Ends the connection."""
        self._db.close()

    def withdraw(self) -> None:
        """The same where no frame was made: what was added to the database for it is removed."""
        self.close()


def source_of(connection: Any, table: str, key: str, columns: Optional[Sequence[str]], kinds: Collection[str]) -> Source:
    """The table of the database that a connection is of; some of its columns are given kinds."""
    for what, name in ((table, "table"), (key, "key")):
        if not isinstance(what, str):
            raise TypeError(f"{name} is {what!r}: not a name")
    client = client_of(connection)
    if client == "sqlite3":
        from .follow_sqlite import SqliteSource
        return SqliteSource(connection, table, key, columns)
    if client in ("psycopg2", "psycopg"):
        from .follow_postgres import PostgresSource
        return PostgresSource(connection, table, key, columns, kinds)
    raise TypeError(f"connection is of type {type(connection).__name__}: not a connection of sqlite3, psycopg2 or psycopg")


def check_columns(table: str, followed: Mapping[str, Any], there: Mapping[str, Any], shown: Callable[[Any], str]) -> None:
    """Refuses a table some of whose columns that are followed have gone, or have another type."""
    for name, declared in followed.items():
        if there.get(name) != declared:
            now = f"has the type {shown(there[name])} now, and had {shown(declared)}" if name in there else "is not there any more"
            raise Refused(f"table {table} was changed: column {name!r} {now}. Follow it again", "follow")


def client_of(connection: Any) -> str:
    """The name of the module that a connection, or its class of the caller's own, comes from; an empty one where it is no connection that is known."""
    modules = [base.__module__.partition(".")[0] for base in type(connection).__mro__]
    return next((name for name in ("sqlite3", "psycopg2", "psycopg") if name in modules), "")
