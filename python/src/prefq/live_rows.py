"""The rows of a frame: records that go in and come out, each change at one moment; and columns that become wider where a value needs it."""
import os
import sys
import threading
from contextlib import ExitStack, suppress
from functools import partial
from typing import Any, Callable, Dict, Iterable, Iterator, List, Mapping, Optional, Sequence, Tuple, TypeVar, Union

from .checks import check_rows
from .clients import hastily, locked
from .columns import Column
from .errors import Error, Refused, no_such_row, placed
from .kinds import Kind
from .loading import CellRefused, records_of
from .opened import Ids, Opened
from .records import Record, mapping_of, values_of, values_of_each
from .rows import WholeRows
from .table import Table, check_changes

Result = TypeVar("Result")
Self = TypeVar("Self", bound="LiveRows")
Path = Union[str, "os.PathLike[str]"]


class LiveRows:
    """Rows of columns of every kind, which any thread may change. Their ids are 1, 2, 3 and so on, also where the table below is opened anew."""

    def __init__(self, columns: Sequence[Column], rows: WholeRows, options: Dict[str, Any], notes: Iterable[str] = (), ids: Ids = Ids()) -> None:
        self._opened = Opened(columns, rows, options, ids)
        # What is to be known of how the data were read: which words of a file were taken for missing.
        self.notes = list(notes)
        # Held while the rows change, by the thread that changes them; and the last id that was given.
        self._changing = threading.RLock()
        self._subscribed: List[Callable[[], None]] = []
        self._is_changing = self._is_opening = False
        self._is_closed = False
        self._last = max(len(rows), ids.last)

    def __enter__(self: Self) -> Self:
        return self

    def __exit__(self, *failed: Any) -> None:
        self._is_closed = True
        self.table.__exit__(*failed)

    def __len__(self) -> int:
        """The number of rows."""
        return len(self.table)

    def __reduce__(self) -> Any:
        raise TypeError("a frame cannot be copied or pickled: save it in a file, or make another one of its rows()")

    def __iter__(self) -> Iterator[Record]:
        return iter(self.rows())

    def close(self) -> None:
        """Ends the frame; the same again does nothing."""
        self._is_closed = True
        self.table.close()

    @property
    def columns(self) -> Tuple[Column, ...]:
        """The columns, with their kinds as they are now."""
        return self._opened.columns

    @property
    def table(self) -> Table:
        """The table below, of whole numbers. It is another one after a column has become wider, and its ids are then its own."""
        return self._opened.table

    @property
    def names(self) -> List[str]:
        """The names of the columns."""
        return self._opened.names

    def insert(self, record: Any) -> int:
        """Adds a record, and returns its id. What it does not name is missing. A list has a value for each column.

        A column whose kind was taken from its values becomes wider where a value has more decimals: the table is opened anew under the same ids, which takes
        the time of reading all rows. What a column does not take is a `TypeError` or a `ValueError`.

        >>> import prefq
        >>> with prefq.Frame.from_records([{"x": 1, "y": 2}]) as frame:
        ...     frame.insert({"x": 5})
        2
        """
        return self._change(lambda: self._insert(record))

    def insert_many(self, records: Iterable[Any]) -> Sequence[int]:
        """Adds records at one moment, and returns their ids; all of them or, where there is no room, none.

        >>> import prefq
        >>> with prefq.Frame.from_records([{"x": 1, "y": 2}]) as frame:
        ...     frame.insert_many([{"x": 5}, [6, 7]])
        range(2, 4)
        """
        check_rows(records, "records")
        some = list(values_of_each(records, self.columns, "record {}".format))

        def insert_many() -> range:
            numbers = self._numbers(some, more=len(some), called="record {}".format)        # By this the table may become another one.
            self._opened.note_gaps(numbers)
            inside = self.table.insert_many(numbers)
            if not inside:
                return inside
            first = self._opened.ids.outside(inside[0])
            self._last = first + len(inside) - 1
            return range(first, self._last + 1)
        return self._change(insert_many)

    def update(self, id: int, record: Any) -> None:
        """Gives a row the values of a record; where that is a mapping, what it does not name stays as it is. Kinds grow as by `insert`.

        >>> import prefq
        >>> with prefq.Frame.from_records([{"x": 1, "y": 2}]) as frame:
        ...     frame.update(1, {"y": None})
        ...     frame.get(1)
        <id 1: {'x': 1, 'y': None}>
        """
        self._change(lambda: self._update(id, record))

    def delete(self, id: int) -> None:
        """Deletes a row; its id is never used again."""
        self._change(lambda: self._delete(id))

    def commit(self, *changes: Sequence[Any]) -> int:
        """Makes one to eight changes at one moment, or none: each is ("insert", record), ("update", id, record) or ("delete", id). Kinds grow as by `insert`.

        Returns the id of the first new row, 0 where none is new; the others have the next ones.

        >>> import prefq
        >>> with prefq.Frame.from_records([{"x": 1, "y": 2}]) as frame:
        ...     frame.commit(("update", 1, {"y": 3}), ("insert", {"x": 5}))
        ...     frame.rows()
        2
        [<id 1: {'x': 1, 'y': 3}>, <id 2: {'x': 5, 'y': None}>]
        """
        return self._change(lambda: self._commit(check_changes(changes)))

    def subscribe(self, call: Callable[[], None]) -> Callable[[], None]:
        """Has this called after each change, by the thread that made it, so it must be quick; what it raises is shown by `threading.excepthook`. Returns what ends it.

        >>> import prefq
        >>> with prefq.Frame.from_records([{"x": 1}]) as frame:
        ...     end = frame.subscribe(lambda: print(frame.best("best low(x)").ids))
        ...     frame.update(1, {"x": 2})
        ...     end()
        ...     frame.delete(1)
        [1]
        """
        return subscribed(self._subscribed, call)

    def get(self, id: int) -> Record:
        """The row with this id."""
        opened = self._opened
        return records_of(opened.columns, [(None, id, self._of_row(id, opened.table.get, opened))])[0]

    def rows(self) -> List[Record]:
        """All rows, in order of id."""
        opened = self._opened
        return records_of(opened.columns, [(None, opened.ids.outside(id), numbers) for id, numbers in opened.table.rows()])

    def save(self, path: Path) -> None:
        """Saves the frame as it is now in one file, in place of one that is there: whoever opens that finds the frame before or this one, whole.

        >>> import os, prefq, tempfile
        >>> with tempfile.TemporaryDirectory() as folder, prefq.Frame.from_records([{"x": 1}, {"x": 2}]) as frame:
        ...     frame.delete(1)
        ...     frame.save(os.path.join(folder, "rows.prefq"))
        ...     with prefq.Frame.open(os.path.join(folder, "rows.prefq")) as opened:
        ...         opened.rows(), opened.insert({"x": 3})
        ([<id 2: {'x': 2}>], 3)
        """
        from .saved import Contents, Description, write

        def contents() -> Contents:
            opened = self._opened
            opened.table._free.check_at_hand()
            pairs = opened.table.rows()
            columns = tuple(map(Description.of, opened.columns))
            ids = [opened.ids.outside(inside) for inside, _ in pairs]
            # An interruption may have come between an insert and the note of its id.
            last = max([self._last, *ids[-1:]])
            return Contents(columns, ids, list(zip(*(numbers for _, numbers in pairs))) or [()] * len(columns), last, tuple(self.notes))

        write(path, self._alone(contents))

    def room(self) -> int:
        """How many more versions of rows there is room for."""
        return self.table.room()

    def _insert(self, record: Any) -> int:
        [numbers] = self._numbers([values_of(record, self.columns)], more=1)
        self._opened.note_gaps([numbers])
        self._last = self._opened.ids.outside(self.table.insert(numbers))
        return self._last

    def _update(self, id: int, record: Any) -> None:
        [numbers] = self._numbers([values_of(record, self.columns)], [id])
        whole = self._whole(id, record, numbers)
        self._opened.note_gaps([whole])
        self._of_row(id, lambda row: self.table.update(row, whole))

    def _delete(self, id: int) -> None:
        self._of_row(id, self.table.delete)

    def _numbers(self, rows: Sequence[Sequence[Any]], ids: Iterable[int] = (), *, more: int = 0, called: Optional[Callable[[int], str]] = None) -> List[List[int]]:
        """The numbers of some rows of values, for which columns that are too narrow become wider, if the rows with these ids are there, and room for so many `more`.
        What is refused is said of the row, which is called so by its number."""
        if self._opened.is_outgrown():
            self._open_anew({})
        if more > 0 and (self.table._engine.rows or 0) + more > self.table.capacity:
            # Before columns become wider for rows that no table holds, or code books have their texts.
            raise Refused(f"full needed {self.table.capacity - self.table.room() + more}", "client", 8)
        wider: Mapping[str, Kind] = {}
        while True:
            try:
                numbers = self._opened.numbers(rows, wider)
            except CellRefused as why:
                # What is refused by wider columns, too, changes nothing.
                wider = {} if wider else self._opened.wider(rows)
                if not wider:
                    raise placed(f"{called(why.row + 1)}, ", why.why) if called else why.why from None
                continue
            if not wider:
                return numbers
            for id in ids:
                self._of_row(id, self.table.get)
            self._open_anew(wider)
            wider = {}

    def _whole(self, id: int, record: Any, numbers: List[int]) -> List[int]:
        """The numbers of a record for a row, with those that the row has where the record is a mapping that does not name them."""
        found = mapping_of(record)
        if found is None or set(self.names) <= set(found):
            return numbers
        return [number if name in found else old for name, number, old in zip(self.names, numbers, self._of_row(id, self.table.get))]

    def _commit(self, changes: Sequence[Tuple[str, int, Any]]) -> int:
        """Makes changes, each of which is a verb, an id and a record."""
        ids = [id for verb, id, _ in changes if verb != "insert"]
        twice = next((place for place, (verb, id, _) in enumerate(changes) if verb != "insert" and id in [other for _, other, _ in changes[:place]]), None)
        if twice is not None:       # which the table says as well, but only after a column became wider
            raise Refused(f"twice place {twice + 1}", "commit", 12, twice + 1)
        written = {f"change {place}": record for place, (verb, _, record) in enumerate(changes, 1) if verb != "delete"}
        called: Callable[[int], str] = lambda number: list(written)[number - 1]
        rows = list(values_of_each(written.values(), self.columns, called))
        numbers = iter(self._numbers(rows, ids, more=sum({"insert": 1, "delete": -1}.get(verb, 0) for verb, _, _ in changes), called=called))
        inside = self._opened.ids.inside
        made: List[Tuple[Any, ...]] = []
        for verb, id, record in changes:
            row = () if verb == "insert" else (inside(id),)
            made.append((verb, *row) if verb == "delete" else (verb, *row, next(numbers) if verb == "insert" else self._whole(id, record, next(numbers))))
        for id in ids:
            self._of_row(id, self.table.get)
        self._opened.note_gaps(change[-1] for change in made if change[0] != "delete")
        first = self.table.commit(*made)
        if first == 0:
            return 0
        first = self._opened.ids.outside(first)
        self._last = first + sum(verb == "insert" for verb, _, _ in changes) - 1
        return first

    def _change(self, change: Callable[[], Result]) -> Result:
        """A change, of which those who subscribed are told. A signal handler or a finalizer in the middle of one makes none: what is read for a change and what is
        written belong together."""
        def made() -> Result:
            if self._is_changing:
                raise Refused("a change is under way in this thread", "client")
            engine, code_books = self.table._engine, self._opened.code_books()
            begun = engine.changes
            try:
                self._is_changing = True
                return change()
            except (Error, TypeError, ValueError):
                # That of a handler may come behind the change. No row has the texts of one that was not begun, or was refused.
                if engine.changes == begun or engine.changes == begun + 1 == engine.refused:
                    for book, state in code_books:
                        book.give_back(state)
                raise
            finally:
                self._is_changing = False

        result = self._alone(made)
        if self._subscribed:
            call_all([partial(hastily, call, is_hasty=False) for call in self._subscribed])
        return result

    def _alone(self, call: Callable[[], Result]) -> Result:
        """One call after the other. A signal handler of this thread makes none while the table is opened anew, which has no client for it."""
        def made() -> Result:
            if self._is_opening:
                raise Refused("a change that opens the table anew is under way in this thread", "client")
            return call()
        self.table._engine.ours()       # A fork may have copied the lock while it was held.
        return locked(self._changing, made)

    def _open_anew(self, kinds: Mapping[str, Kind]) -> None:
        self.table._free.check_at_hand()      # for all of its rows
        self._is_opening = True
        try:
            self._opened = self._opened.anew(kinds, self._last)
            if self._is_closed:         # meanwhile, which ended the table before
                self.table.close()
        finally:
            self._is_opening = False

    def _of_row(self, id: int, call: Callable[[int], Result], opened: Optional[Opened] = None) -> Result:
        """A call for a row, by its id in the table."""
        inside = (opened or self._opened).ids.inside(id)
        try:
            return call(inside)
        except Refused as why:
            raise (no_such_row(id) if why.kind == "client" and why.number == 7 else why) from None


def subscribed(calls: List[Callable[[], None]], call: Callable[[], None]) -> Callable[[], None]:
    """Adds a call to others, and returns what takes it away; the same again does nothing."""
    own = partial(call)         # which is none of the others, whatever these are equal to
    calls.append(own)

    def end() -> None:
        with suppress(ValueError):
            calls.remove(own)
    return end


def call_all(calls: Sequence[Callable[[], None]]) -> None:
    """Makes these calls in their order. What one raises is shown as that of a thread, since it is of no call that is there: the others are made, and the change that they
    are told of was made before."""
    with ExitStack() as left:
        for call in reversed(calls):
            left.callback(showing, call)


def showing(call: Callable[[], None]) -> None:
    """Makes a call whose exception is shown."""
    try:
        call()
    except Exception:
        threading.excepthook(threading.ExceptHookArgs([*sys.exc_info(), threading.current_thread()]))
