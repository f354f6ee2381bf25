"""A table of whole numbers that other threads change and ask."""
from functools import partial
from typing import Any, Dict, Iterable, Iterator, List, Optional, Sequence, Tuple, Type, Union

from . import checks
from .answer import Answer
from .clients import Clients
from .columns import Column
from .engine import Asker
from .errors import Ended, Refused
from .kinds import Whole
from .library import Setup
from .query import Query
from .questions import explained
from .reading import Progress
from .records import Record
from .rows import ColumnarRows, Packing, Row, WholeRows, Zipped, as_records, packed, rows_of

Values = Iterable[int]
IN_COMMIT = 8


class Table:
    """A live table of whole numbers, with these rows under the ids 1, 2, 3 and so on. Any thread may call it.

    - `columns`: 1 to 16 names, each a letter, then letters, digits, `_` or `.`, 32 of them at most
    - `rows`: up to 65,536 rows of whole numbers from -2**63 to 2**63 - 1
    - `capacity`: how many versions of rows there is room for, 1 to 65536; if it is not given, at least 1024, and twice as many as there are rows
    - `clients`: 1 to 8, how many queries may be open at once
    - `block`: how many slots one scan reads, 1 to 65536; `window`: the rows of a window of block-nested-loops, 1 to 65536, which no question uses

    What is refused raises `Refused` and changes nothing. An interruption, as by Ctrl-C, comes before or after a change, and between two pieces of a long
    question, which is abandoned then; the table goes on.

    >>> with Table(["price", "dist"], [[50, 8], [80, 2], [90, 9]]) as hotels:
    ...     hotels.best("best low(price) * low(dist)")
    level  id  price  dist
        1   1     50     8
        1   2     80     2
    """

    def __init__(self, columns: Iterable[str], rows: Union[Iterable[Values], WholeRows] = (), *, capacity: Optional[int] = None, clients: int = 8, block: int = 1024,
                 window: int = 64) -> None:
        self.columns = checks.names(columns)
        self._packed = Packing(self.columns).packed
        self._as_records = partial(as_records, self.columns)
        self._columns = tuple(Column(name, Whole()) for name in self.columns)
        opening = rows if isinstance(rows, WholeRows) else packed(rows, self.columns)
        if capacity is None:
            capacity = min(checks.MOST_ROWS, max(1024, 2 * len(opening)))
        self.capacity = checks.whole(capacity, "capacity", 1, checks.MOST_ROWS)
        self.clients = checks.whole(clients, "clients", 1, 8)
        setup = Setup(self.clients, self.capacity, checks.whole(block, "block", 1, checks.MOST_ROWS), checks.whole(window, "window", 1, checks.MOST_ROWS))
        self._is_one_block = self.capacity <= block
        self._engine = opening.opened(self.columns, setup)
        self._free = Clients(self.clients, self._engine)

    def __enter__(self) -> "Table":
        return self

    def __exit__(self, failed: Optional[Type[BaseException]], *_: object) -> None:
        try:
            if failed is None:
                self.check()
        except Ended as why:
            if why.kind != "closed":
                raise
        finally:
            self.close()

    def __repr__(self) -> str:
        try:
            return f"<prefq.Table of {', '.join(self.columns)}: {len(self)} rows>"
        except Ended as why:
            return f"<prefq.Table of {', '.join(self.columns)}: {why}>"

    def __len__(self) -> int:
        """The number of rows."""
        self.check()
        return self.count

    def __bool__(self) -> bool:
        return True

    @property
    def count(self) -> int:
        """The number of rows after the last call that changed it."""
        rows = self._engine.rows
        if rows is None:
            changes = self._engine.changes
            rows = len(self.rows())
            self._engine.counted(rows, changes)
        return rows

    def check(self) -> None:
        """Raises `Ended` if the table has ended."""
        self._engine.check()

    def __iter__(self) -> Iterator[Tuple[int, List[int]]]:
        """Each row as its id and its values, as `rows` has them."""
        return iter(self.rows())

    def __reduce__(self) -> Any:
        raise TypeError("a table cannot be copied or pickled: open another one from its rows()")

    def close(self) -> None:
        """Ends the table; the same again does nothing."""
        self._engine.end()

    def insert(self, values: Values) -> int:
        """Adds a row, and returns its id. Refused where the table is full.

        >>> with Table(["price", "dist"]) as hotels:
        ...     hotels.insert([40, 9])
        1
        """
        return self._engine.insert(self._packed(values))

    def insert_many(self, rows: Iterable[Values]) -> range:
        """Adds rows at one moment, and returns their ids; all of them or, where there is no room, none.

        >>> with Table(["price", "dist"]) as hotels:
        ...     hotels.insert_many([[40, 9], [60, 3]])
        range(1, 3)
        """
        added = packed(rows, self.columns)
        if not added:
            self.check()
            return range(0)
        first = self._engine.insert_many(added.values, len(added))
        return range(first, first + len(added))

    def update(self, id: int, values: Values) -> None:
        """Gives a row these values. Refused where there is no such row, or no room for one more version.

        >>> with Table(["price", "dist"], [[40, 9]]) as hotels:
        ...     hotels.update(1, [45, 9])
        ...     hotels.get(1)
        [45, 9]
        """
        self._engine.update(_id(id), self._packed(values))

    def delete(self, id: int) -> None:
        """Deletes a row; its id is never used again. Refused where there is no such row.

        >>> with Table(["price", "dist"], [[40, 9]]) as hotels:
        ...     hotels.delete(1)
        ...     len(hotels)
        0
        """
        self._engine.delete(_id(id))

    def commit(self, *changes: Sequence[Any]) -> int:
        """Makes one to eight changes at one moment, or none: each is ("insert", values), ("update", id, values) or ("delete", id).

        Returns the id of the first new row, 0 where none is new; the others have the next ones.

        >>> with Table(["price", "dist"], [[50, 8], [80, 2]]) as hotels:
        ...     hotels.commit(("update", 1, [45, 8]), ("delete", 2), ("insert", [60, 3]))
        3
        """
        checked = check_changes(changes)
        return self._engine.commit([(verb, id, None if verb == "delete" else self._packed(values, f"change {place}, "))
                                    for place, (verb, id, values) in enumerate(checked, 1)])

    def get(self, id: int) -> List[int]:
        """The values of a row. Refused where there is no such row.

        >>> with Table(["price", "dist"], [[50, 8]]) as hotels:
        ...     hotels.get(1)
        [50, 8]
        """
        return self._engine.get(_id(id))

    def room(self) -> int:
        """How many more versions of rows there is room for.

        >>> with Table(["price"], [[50]], capacity=10) as hotels:
        ...     hotels.room()
        9
        """
        return self._engine.room()

    def rows(self) -> List[Tuple[int, List[int]]]:
        """All rows as they are now, each with its id, in order of id.

        >>> with Table(["price"], [[50], [80]]) as hotels:
        ...     hotels.rows()
        [(1, [50]), (2, [80])]
        """
        with self.query(self.all_rows) as query:
            return query.pairs()

    def columnar_rows(self, terms: Sequence[str] = ()) -> ColumnarRows:
        """The same, of which a row or a column is taken when it is asked for; or only the rows that are best by some terms, of which the first decides first."""
        with self.query(self.best_by(terms)) as query:
            return ColumnarRows([query.columnar()], len(self.columns))

    def best_by(self, terms: Sequence[str]) -> str:
        """A question for the rows that are best by some terms; for all rows where there are none."""
        return f"best {' & '.join(terms)}" if terms else self.all_rows

    @property
    def all_rows(self) -> str:
        """A question under which all rows are the same, whatever they are."""
        return f"best between({self.columns[0]}, {checks.LEAST}, {checks.MOST})"

    def query(self, question: str, client: Optional[int] = None) -> Query:
        """Begins a query, which asks the table as it is now. Without a number it takes a client that has no open query, and waits for one if need be.

        >>> with Table(["price"], [[50], [80]]) as hotels:
        ...     with hotels.query("best high(price)") as query:
        ...         query.scan(), query.answer().ids
        (0, [2])
        """
        text = checks.text_of_question(question)
        try:
            return Query(self._engine, self._free, text, None if client is None else checks.whole(client, "client", 1, self.clients), self._answered)
        except Refused as why:
            raise explained(why, self.columns) from None

    def best(self, question: str) -> Answer:
        """The answer to a question, by level and then by id.

        >>> with Table(["price", "dist"], [[50, 8], [80, 2], [90, 9]]) as hotels:
        ...     answer = hotels.best("top_level 2 low(price) & low(dist)")
        >>> answer
        level  id  price  dist
            1   1     50     8
            2   2     80     2
        >>> answer[1].id, answer[1].price, list(answer[1].values())
        (2, 80, [80, 2])
        """
        if not self._is_one_block:
            with self.query(question) as query:
                return query.answer()
        text, asker = checks.text_of_question(question), Asker()
        try:
            self._free.give(asker, None)
            answer = self._engine.ask(asker, text)
        except Refused as why:
            raise explained(why, self.columns) from None
        return self._answered(text, answer)

    def _answered(self, question: str, numbers: bytes) -> Answer:
        """An answer, of the numbers of its rows."""
        return Answer(question, self._columns, rows_of(numbers, len(self.columns), self._as_records), others=self._records)

    def _records(self) -> List[Record]:
        """All rows as they are now."""
        return [Record(zip(self.columns, values), id=id) for id, values in self.rows()]


def check_changes(changes: Sequence[Any]) -> List[Tuple[str, int, Any]]:
    """The changes of a commit, each as its verb, the id of its row, which is 0 of a new one, and its values, which are None of one that is deleted."""
    if not 1 <= len(changes) <= IN_COMMIT:
        raise ValueError(f"there are {len(changes)} changes: not from 1 to {IN_COMMIT}")
    forms = {"insert": 2, "update": 3, "delete": 2}
    found: List[Tuple[str, int, Any]] = []
    for place, change in enumerate(changes, 1):
        if not isinstance(change, (tuple, list)) or not change or not isinstance(change[0], str) or len(change) != forms.get(change[0]):
            raise TypeError(f'change {place}, {change!r}: not ("insert", values), ("update", id, values) or ("delete", id)')
        verb, *rest = change
        id = 0 if verb == "insert" else checks.whole(rest[0], f"change {place}, id", 0, checks.MOST_IDS)
        found.append((verb, id, None if verb == "delete" else rest[-1]))
    return found


def _id(id: Any) -> int:
    return id if type(id) is int and 0 <= id <= checks.MOST_IDS else checks.whole(id, "id", 0, checks.MOST_IDS)


def ask_once(columns: Sequence[str], rows: Zipped, question: str, *, progress: Optional[Progress] = None, **options: Any) -> List[Row]:
    """The answer to a question over these rows of whole numbers, as many as one table holds, whose ids are 1, 2, 3 and so on."""
    settings: Dict[str, Any] = {"clients": 1, "capacity": max(1, len(rows)), **options}
    with Table(columns, rows, **settings) as table:
        with table.query(question) as query:
            return query.rows(partial(progress, "comparing") if progress else None)
