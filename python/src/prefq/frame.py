"""Frames: live tables of columns of every kind."""
import threading
from dataclasses import replace
from functools import partial
from typing import Any, Dict, Iterable, Iterator, List, Mapping, Optional, Sequence, Tuple

from .answer import Answer
from .checks import MOST_ROWS, check_rows
from .columns import Column, listed
from .condition_terms import ReadCondition, condition_of, planned
from .errors import Refused
from .follow import Followed
from .follow_source import source_of
from .frame_query import FrameQuery, Over
from .hasse import Hasse, ranked
from .kinds.forms import Form
from .hints import check_options
from .kept import Answered
from .live_rows import LiveRows, Path
from .loading import Encoded, File, Found, check_kinds, chosen, column_of_values, encoded, records_of
from .missing import Missing
from .opened import Ids, Opened
from .preferences import Asked, Operand, text_asked, text_preferred
from .questions import Question
from .reading import Dialect, Progress, Source, check_names, read_csv
from .records import mapping_of, values_of_each
from .rows import Row, WholeRows, Zipped
from .selection import Names, Selection, first_rows, picked, query_of, reading, without_twins
from .warned import warn_of
from .why import explained, number_of

TABLE_OPTIONS = ("capacity", "clients", "block", "window")
CSV_OPTIONS = ("columns", "kinds", "missing", "encoding", "delimiter", "decimal", "thousands", "skip", "null_padding")


class Frame(LiveRows):
    """A live table of records, whose columns are whole numbers, decimals, floats, true and false, dates, times or texts, with gaps or without.

    It is made from a CSV file, from records, or from a DataFrame of pandas; every value comes back exactly. Its rows have the ids 1, 2, 3 and so on. Any
    thread may call it. Beside its columns it takes what `Table` takes by name: capacity, clients, block, window.

    >>> import prefq
    >>> with prefq.Frame.from_records([{"City": "Lyon", "Price (EUR)": 60}, {"City": "Bern", "Price (EUR)": 90}, {"City": "Köln"}]) as hotels:
    ...     hotels.best('best low("Price (EUR)")')
    level  id  City  Price (EUR)
        1   1  Lyon           60
    """

    def __init__(self, columns: Iterable[Column], rows: Iterable[Sequence[Any]] = (), **options: Any) -> None:
        columns = tuple(columns)
        wrong = next((column for column in columns if not isinstance(column, Column)), None)
        if wrong is not None:
            raise TypeError(f"columns has {wrong!r}: a frame has Columns, as Column('price', 'whole'), and Frame.empty takes names and kinds")
        check_rows(rows)
        values = zip(*values_of_each(fitting(rows, "rows"), columns, "row {}".format))
        self._open(columns, Zipped([encoded(column, some) for column, some in zip(columns, values)]), options)

    def _open(self, columns: Sequence[Column], rows: WholeRows, options: Dict[str, Any], index: Any = None, notes: Iterable[str] = (), ids: Ids = Ids()) -> None:
        check_options(options, TABLE_OPTIONS, "Frame")
        super().__init__(columns, rows, options, notes, ids)
        self._index = index

    @classmethod
    def from_csv(cls, source: Source, *, columns: Optional[Sequence[str]] = None, kinds: Optional[Mapping[str, str]] = None, missing: Optional[Iterable[str]] = None,
                 encoding: Optional[str] = None, delimiter: Optional[str] = None, decimal: str = ".", thousands: str = "", skip: int = 0,
                 null_padding: bool = False, **options: Any) -> "Frame":
        """The frame of a CSV file with names in its first line: a path, or an open file, packed by gzip or not.

        - `columns`: which columns to take; `kinds`: what a column is, where that is not to be seen, as in {"Stars": "decimal(1)"}
        - `missing`: the words that stand for a missing value, in any case, in every column. An empty cell always does; where no words are given, NA, n/a, nan,
          null, none and - do in columns of numbers, dates, times and bools, and `notes` of the frame says so
        - `encoding`, `delimiter`, the sign before `decimal` digits and between `thousands`, how many lines to `skip`, and `null_padding`, by which a short row
          ends in missing values: how the file is written

        >>> import io, prefq
        >>> with prefq.Frame.from_csv(io.StringIO("City,Price (EUR)\\nLyon,57.40\\nBern,n/a\\n")) as hotels:
        ...     hotels.rows()
        [<id 1: {'City': 'Lyon', 'Price (EUR)': Decimal('57.40')}>, <id 2: {'City': 'Bern', 'Price (EUR)': None}>]
        """
        check_options(options, [*CSV_OPTIONS, *TABLE_OPTIONS], "Frame.from_csv")
        file = File(read_csv(source, Dialect(encoding, delimiter, skip, null_padding)), kinds, Missing(missing), Form(decimal, thousands))
        names = file.cells.names if columns is None else chosen(file.cells.names, columns)
        return cls._made(*file.opening(names, MOST_ROWS), options, notes=file.notes.values())

    @classmethod
    def from_records(cls, records: Iterable[Any], *, columns: Optional[Sequence[str]] = None, kinds: Optional[Mapping[str, str]] = None,
                     **options: Any) -> "Frame":
        """The frame of records: mappings, named tuples or data classes. What a record does not have is missing, and so are None and NaN. Where there are no records,
        `columns` and the kind of each make a frame without rows, as `empty` does.

        >>> import prefq
        >>> with prefq.Frame.from_records([{"x": 1, "y": 2.5}, {"x": 2}]) as frame:
        ...     frame.columns
        (Column('x', 'whole'), Column('y', 'float'))
        """
        check_options(options, ["columns", "kinds", *TABLE_OPTIONS], "Frame.from_records")
        if hasattr(records, "iloc"):
            raise TypeError(f"records is of type {type(records).__name__}: not a list of records (from_dataframe takes a DataFrame)")
        check_rows(records, "records")
        rows = list(mappings(fitting(records, "records")))
        if not rows and columns is not None:
            return cls.empty(columns, kinds or {}, **options)
        there = list(dict.fromkeys(name for row in rows for name in row))
        names = chosen(there, columns)
        check_kinds(kinds, there)
        return cls._of_numbers([column_of_values(name, [row.get(name) for row in rows], kinds) for name in names], options)

    @classmethod
    def from_sql(cls, cursor: Any, *, columns: Optional[Sequence[str]] = None, kinds: Optional[Mapping[str, str]] = None, **options: Any) -> "Frame":
        """The frame of the rows that a cursor of Python's DB-API has, behind a query that was executed. NULL is missing.

        >>> import prefq, sqlite3
        >>> offers = sqlite3.connect(":memory:").execute("SELECT 'Lyon' AS city, 57.5 AS price UNION SELECT 'Bern', NULL ORDER BY city")
        >>> with prefq.Frame.from_sql(offers) as frame:
        ...     frame.rows()
        [<id 1: {'city': 'Bern', 'price': None}>, <id 2: {'city': 'Lyon', 'price': 57.5}>]
        """
        from .cursors import fetched, names_of
        check_options(options, ["columns", "kinds", *TABLE_OPTIONS], "Frame.from_sql")
        there = names_of(cursor)
        names = chosen(list(there), columns)
        check_kinds(kinds, there)
        rows = list(fitting((row for some in fetched(cursor, there) for row in some), "rows of the query"))
        return cls._of_numbers([column_of_values(name, [row[there.index(name)] for row in rows], kinds) for name in names], options)

    @classmethod
    def from_dataframe(cls, dataframe: Any, *, columns: Optional[Sequence[str]] = None, kinds: Optional[Mapping[str, str]] = None,
                       **options: Any) -> "Frame":
        """The frame of a DataFrame of pandas. Answers as DataFrames have its index and its types again."""
        from .pandas_frames import encoded_series, index_of, native
        if not hasattr(dataframe, "columns") or not hasattr(dataframe, "index"):
            raise TypeError(f"dataframe is of type {type(dataframe).__name__}: not a DataFrame of pandas (from_records takes records)")
        check_options(options, ["columns", "kinds", *TABLE_OPTIONS], "Frame.from_dataframe")
        if len(dataframe) > MOST_ROWS:
            raise Refused(f"the DataFrame has {len(dataframe)} rows, and a table holds {MOST_ROWS}: prefq.psel and prefq.parts ask more", "table")
        names = chosen(list(dataframe.columns), columns)
        check_names(name for name in dataframe.columns if name in names)
        check_kinds(kinds, list(dataframe.columns))
        frame = native(dataframe)
        return cls._of_numbers([encoded_series(frame[name], name, kinds) for name in names], options, index_of(dataframe.index))

    @classmethod
    def empty(cls, columns: Iterable[str], kinds: Mapping[str, str], **options: Any) -> "Frame":
        """A frame without rows, each of whose columns has the kind that is given for it.

        >>> import prefq
        >>> with prefq.Frame.empty(["hotel", "price"], {"hotel": "text", "price": "decimal(2)"}) as hotels:
        ...     hotels.insert({"hotel": "Ritz", "price": "129.99"})
        ...     hotels.get(1)
        1
        <id 1: {'hotel': 'Ritz', 'price': Decimal('129.99')}>
        """
        names = check_names(columns)
        check_kinds(kinds, names)
        without = [name for name in names if name not in kinds]
        if without:
            raise Refused(f"without rows a column has to be given its kind: {listed(without)}", "table")
        return cls([Column(name, kinds[name]) for name in names], **options)

    @classmethod
    def open(cls, path: Path, **options: Any) -> "Frame":
        """The frame that was saved at this path: the same rows under the same ids, the same columns, and the next row has the id that it would have had.

        What pandas had beside them, the types of columns and the index, is not saved. A file that is no saved frame, or of another version, or damaged is
        `Refused`, of the kind "saved".
        """
        from .saved import columns_of, read
        check_options(options, TABLE_OPTIONS, "Frame.open")
        contents = read(path)
        return cls._made(columns_of(contents), Zipped(contents.numbers), options, notes=contents.notes, ids=Ids(contents.ids, contents.last))

    @classmethod
    def follow(cls, connection: Any, table: str, *, key: str = "id", columns: Optional[Sequence[str]] = None, kinds: Optional[Mapping[str, str]] = None,
               **options: Any) -> Followed:
        """A frame that follows a table of a database: one of SQLite (a connection of sqlite3), or of PostgreSQL 13 or later (one of psycopg2 or psycopg).

        Each call sees what is committed by then. The ids of the rows are the values of the column `key`, which are whole numbers or texts; `columns` are all
        others, where none are given. There may be any number of rows. The frame opens a connection of its own. What cannot be followed is `Refused`, of the kind
        "follow"; what the database refuses is the database's own exception.

        >>> import os, prefq, sqlite3, tempfile
        >>> with tempfile.TemporaryDirectory() as folder:
        ...     db = sqlite3.connect(os.path.join(folder, "hotels.db"), isolation_level=None)
        ...     created = db.execute("create table hotels (id integer primary key, city text, price real)")
        ...     with prefq.Frame.follow(db, "hotels", kinds={"price": "decimal(2)"}) as hotels:
        ...         inserted = db.execute("insert into hotels values (7, 'Lyon', 60.5), (8, 'Bern', 90)")
        ...         hotels.best("best low(price)")
        ...     db.close()
        level  id  city  price
            1   7  Lyon  60.50
        """
        check_options(options, ["key", "columns", "kinds", *TABLE_OPTIONS], "Frame.follow")
        return Followed(source_of(connection, table, key, columns, kinds or {}), kinds or {}, options)

    @classmethod
    def _of_numbers(cls, columns: Sequence[Encoded], options: Dict[str, Any], index: Any = None) -> "Frame":
        """The frame of columns with their numbers."""
        return cls._made([column for column, _ in columns], Zipped([numbers for _, numbers in columns]), options, index)

    @classmethod
    def _made(cls, columns: Sequence[Column], rows: WholeRows, options: Dict[str, Any], index: Any = None, notes: Iterable[str] = (), ids: Ids = Ids()) -> "Frame":
        """The frame of columns and rows of their numbers."""
        frame = cls.__new__(cls)
        frame._open(columns, rows, options, index, notes, ids)
        return frame

    def __repr__(self) -> str:
        return f"<prefq.Frame of {listed(self.names)}: {repr(self.table).rpartition(': ')[2]}"

    def _repr_html_(self) -> str:
        """The first rows as a table, as a notebook shows them."""
        rows = self.rows()
        return Answer(f"{len(rows)} rows" if len(rows) != 1 else "1 row", self.columns, rows)._repr_html_()

    def best(self, question: Asked, *, where: Optional[Operand] = None, top: Optional[int] = None, ties: Optional[Asked] = None, by: Names = None,
             progress: Optional[Progress] = None) -> Answer:
        """The answer to a question in the names and values of the columns; of a preference made by `prefq.low` and so on, its best rows.

        Only rows that meet the condition `where` count, such as "Stars >= 4 and City = 'Lyon'". With `top` the answer has so many rows (1 to 1000), in each group:
        those of whole levels, and of the last one those that `ties`, a preference, likes best, then those with the smallest ids. `best` then goes on behind level 1.
        `by` are the columns of groups, where the question has none.

        A question is refused at its place, with what could stand there; a value that no row has is warned of (`UnknownValue`). `progress` is called with
        "scanning", the blocks that are scanned, and how many there are.

        >>> import prefq
        >>> with prefq.Frame.from_records([{"x": 1, "y": 2}, {"x": 2, "y": 1}, {"x": 3, "y": 3}, {"x": 4, "y": 3}]) as frame:
        ...     frame.best("best low(x) * low(y)", top=3).ids, frame.best("best low(x) * low(y)", top=1, ties="low(y)").ids
        ([1, 2, 3], [2])
        """
        return self.answer(text_asked(question), Selection.of(where=where, top=top, ties=ties, by=by), progress)

    def answer(self, question: str, selection: Selection, progress: Optional[Progress] = None) -> Answer:
        """The same with what is asked beside the question."""
        opened = self._opened

        def asked() -> Answered:
            with self._query(opened, question, selection) as query:
                return query.answered(partial(progress, "scanning") if progress else None)

        engine = opened.table._engine
        version = None if progress else engine.version()
        # A thread that has an open query waits for no other one, which may wait for its client.
        if version is None or threading.get_ident() in engine.threads():
            return self._answer(question, asked())
        least = version

        def made() -> Tuple[int, Answered]:
            # The version now, behind the wait for others: that of who asks meanwhile.
            return engine.version() or least, asked()

        return self._answer(question, opened.kept.get((question, selection), least, made)[1])

    def begun(self, question: str, selection: Selection, *, waits: bool = True) -> FrameQuery:
        """A query, whose answer is kept; one that is over where it was. Where it `waits` for no client, there is `NoClient` in place of a wait."""
        opened, key = self._opened, (question, selection)
        version = opened.table._engine.version()
        found = None if version is None else opened.kept.find(key, version)
        if found is not None:
            kept: Answered = found
            return FrameQuery(Over(), lambda _: kept, partial(self._answer, question))
        if not waits:
            opened.table._free.check_at_hand()
        query = self._query(opened, question, selection)
        return query if version is None else query.keeping(partial(opened.kept.keep, key, version))

    def query(self, question: Asked, *, where: Optional[Operand] = None, top: Optional[int] = None, ties: Optional[Asked] = None, by: Names = None) -> FrameQuery:
        """Begins a query, which asks the frame as it is now, as `best` asks it; see `Table.query`.

        >>> import prefq
        >>> with prefq.Frame.from_records([{"x": 1}, {"x": 2}]) as frame, frame.query("best low(x)") as query:
        ...     frame.delete(1)         # after the begin, so the answer still has the row
        ...     query.answer().ids
        [1]
        """
        return self._query(self._opened, text_asked(question), Selection.of(where=where, top=top, ties=ties, by=by))

    def _query(self, opened: Opened, question: str, selection: Selection) -> FrameQuery:
        read = selection.read(question, opened.by_name.get, opened.names)
        condition, query = condition_of(selection.where, opened), None
        if replace(selection, where=None).is_answered_by(read, opened.columns):
            query = self._of_table(opened, question, read, selection, condition)
        return self._of_moment(opened, question, selection, condition) if query is None else query

    def _of_table(self, opened: Opened, question: str, read: Question, selection: Selection, condition: ReadCondition) -> Optional[FrameQuery]:
        """A query of the table below; None where it cannot be asked with this condition."""
        while True:
            asked, whole = planned(question, read, condition, opened), condition.whole
            if asked is None or whole is None:
                return None
            with asked.refusing():
                query = opened.table.query(asked.text)
            # A row that came in the meantime may have a new text, or the first gap of a column.
            if condition.may_change:
                condition = condition_of(selection.where, opened)
            again = planned(question, read, condition, opened)
            if again is not None and again.text == asked.text:
                break
            query.abandon()         # It may have the only client.
        of_table, met = asked, whole

        def found(rows: List[Row]) -> Answered:
            there = [row for row in rows if met.is_met(row.values)] if met.ranges else rows
            some = first_rows(without_twins(there, of_table), of_table, selection.top)
            return answered(opened, [(row.level, row.id, row.values) for row in some], [*met.unknown, *of_table.unknown])

        return FrameQuery(query, found, partial(self._answer, question))

    def _of_moment(self, opened: Opened, question: str, selection: Selection, condition: ReadCondition) -> FrameQuery:
        """A query of a table of what is computed over the rows as they are now."""
        while True:
            pairs, terms = opened.table.columnar_rows(condition.narrowing), condition.narrowing
            # A row that came in the meantime may have a new text.
            if condition.may_change:
                condition = condition_of(selection.where, opened)
            if condition.narrowing == terms:
                break
        moment = opened.moment(pairs)
        read = reading(question, selection, moment)

        def found(rows: List[Row]) -> Answered:
            some, absent_in_ties = picked(rows, read, selection, moment)
            return answered(opened, [(row.level, *pairs[row.id - 1]) for row in some], [*read.unknown, *absent_in_ties])

        return FrameQuery(query_of(read), found, partial(self._answer, question))

    def _answer(self, question: str, found: Answered) -> Answer:
        warn_of(found.unknown)
        return Answer(question, found.columns, records_of(found.columns, found.rows), others=self.rows, index=self._index)

    def why(self, id: int, question: Asked, *, where: Optional[Operand] = None, by: Names = None) -> Answer:
        """The rows that dominate this one in a question: those because of which it is not in the answer. Each has its own level.

        >>> import prefq
        >>> with prefq.Frame.from_records([{"x": 1, "y": 2}, {"x": 2, "y": 3}, {"x": 0, "y": 9}]) as frame:
        ...     frame.why(2, "best low(x) * low(y)").ids
        [1]
        """
        text, opened = text_asked(question), self._opened
        pairs = opened.table.columnar_rows()
        number = number_of(pairs, opened.ids.inside(id))
        return self._answer(text, answered(opened, *explained(text, Selection.of(where=where, by=by), opened.moment(pairs), pairs, number, id)))

    def hasse(self, question: Asked, *, where: Optional[Operand] = None, by: Names = None) -> Hasse:
        """The better-than graph of a question or a preference: which rows dominate which with none in between. There may be 10,000 rows.

        >>> import prefq
        >>> with prefq.Frame.from_records([{"x": 1, "y": 2}, {"x": 2, "y": 1}, {"x": 2, "y": 3}]) as frame:
        ...     frame.hasse("low(x) * low(y)")
        [(1, 3), (2, 3)]
        """
        text, opened = text_preferred(question), self._opened
        pairs = opened.table.columnar_rows()
        moment = opened.moment(pairs)
        read = reading(text, Selection.of(("best", 1), where=where, by=by), moment)
        order, worse = ranked(read)
        there = answered(opened, [(None, *pairs[moment.id(place + 1) - 1]) for place in order], read.unknown)
        warn_of(there.unknown)
        return Hasse(text, there.columns, records_of(there.columns, there.rows), worse)


def answered(opened: Opened, rows: Sequence[Found], unknown: Sequence[str]) -> Answered:
    """An answer of rows as they stand in the table."""
    return Answered(opened.columns, [(level, opened.ids.outside(inside), numbers) for level, inside, numbers in rows], unknown)


def fitting(some: Iterable[Any], what: str) -> Iterator[Any]:
    """The same, of which there may be as many as a table holds: one more is `Refused`, without a look at those behind it."""
    for number, one in enumerate(some, 1):
        if number > MOST_ROWS:
            raise Refused(f"there are more than {MOST_ROWS} {what}, which no table holds: prefq.psel and prefq.parts ask more", "table")
        yield one


def mappings(records: Iterable[Any]) -> Iterator[Dict[str, Any]]:
    """Records as mappings. One that is none is named with its row."""
    for row, record in enumerate(records, 1):
        found = mapping_of(record)
        if found is None:
            instead = ": Frame.from_sql takes the cursor of a query, and Frame(columns, rows) lists of values" if isinstance(record, (list, tuple)) else ""
            raise TypeError(f"row {row} is no mapping, but {record!r}{instead}")
        yield found
