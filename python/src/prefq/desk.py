"""Rows that several people change and ask at once: what the page of `python -m prefq serve` shows.

A desk keeps the rows of its frame in Python too. Each change is made there and in the frame under one lock, and a query is begun under the same lock, so the rows
and the answer of a picture are those of one version.
"""
import time
from contextlib import suppress
from functools import partial
from queue import Empty, SimpleQueue
from typing import Any, Callable, Dict, Iterable, List, Mapping, NamedTuple, Optional, Sequence, Tuple, TypeVar

from .clients import locked
from .columns import Column, listed
from .dealt import Found
from .errors import Ended, Error, Refused, no_such_row
from .frame import Frame
from .frame_query import FrameQuery
from .hints import unknown_column
from .live_rows import call_all, subscribed
from .moment import Moment, moment_of
from .questions import Question
from .selection import Selection, picked, query_of, reading
from .table import Table
from .translate import columns_in

Numbers = Tuple[int, ...]
Result = TypeVar("Result")


class Held(NamedTuple):
    """A row of a desk: its id, and its numbers as they stand in the table."""

    id: int
    numbers: Numbers


class Changed(Refused):
    """Others have changed a row since the version that was seen, so it is neither updated nor deleted.

    `version` is the one now; `values` are those that have changed since the one that was seen, as they are now, by the names of their columns.
    """

    def __init__(self, message: str, version: int, values: Dict[str, Any]) -> None:
        super().__init__(message, "changed")
        self.version = version
        self.values = values

    def __reduce__(self):  # type: ignore[no-untyped-def]
        return type(self), (self.args[0], self.version, self.values)


class Picture(NamedTuple):
    """All rows at one version with the columns that their numbers stand for, and the answer to a question over exactly these; the columns of the question in their
    order, and what is said of its values."""

    version: int
    columns: List[Column]
    rows: List[Held]
    best: List[Found]
    asked: List[Column]
    notes: Tuple[str, ...]

    def record(self, numbers: Numbers) -> Dict[str, Any]:
        """The values of one of its rows by the names of their columns, whatever the columns of the desk are by now."""
        return named_values(self.columns, numbers)


class Desk:
    """The rows of a frame, which any thread may change and ask here, and nobody elsewhere. They keep their ids, also where a column becomes wider.

    >>> import prefq
    >>> hotels = prefq.Frame.from_records([{"Hotel": "Quay", "Price (EUR)": 60}])
    >>> with Desk(hotels) as desk:
    ...     desk.insert({"Hotel": "Alpine", "Price (EUR)": "49"})
    ...     seen = desk.picture('best low("Price (EUR)")')
    ...     [seen.record(row.numbers) for row in seen.best]
    2
    [{'Hotel': 'Alpine', 'Price (EUR)': 49}]
    """

    def __init__(self, frame: Frame) -> None:
        self.version = 1
        self._frame: Any = frame        # or one that follows a table
        # The lock of the frame's own changes, so that none waits for a client while it holds that of the desk.
        self._lock = frame._changing
        self._closed = False
        # The versions in which the cells of a row changed last, by its id; none of a row that is as it came.
        self._since: Dict[int, Tuple[int, ...]] = {}
        self._subscribed: List[Callable[[], None]] = []
        # Whether the rows here are those of the frame: not where a change was interrupted, nor where the answer to a question has a row that is not here.
        self._is_whole = True
        self._rows = self._there()

    def __enter__(self) -> "Desk":
        return self

    def __exit__(self, *_: object) -> None:
        self.close()

    def close(self) -> None:
        """Ends the frame, and wakes who waits for a change."""
        if not self._is_ours():
            return
        with self._lock:
            self._closed = True
        self._wake()
        self._frame.close()

    def _is_ours(self) -> bool:
        """Whether this is the process of the frame, and the lock no copy, which a fork may have made while it was held."""
        return self.table._engine.is_ours()

    def __reduce__(self) -> Any:
        raise TypeError("a desk cannot be copied or pickled")

    @property
    def table(self) -> Table:
        """The table that is asked now."""
        return self._frame.table  # type: ignore[no-any-return]

    @property
    def is_closed(self) -> bool:
        return self._closed

    def check(self) -> None:
        """Raises `Ended` in another process than that of the frame, and where the desk was closed."""
        if not self._is_ours():
            raise Ended("this desk belongs to another process: open another one in each process", "process")
        if self._closed:
            raise Ended("the desk was closed", "closed")

    def __len__(self) -> int:
        return len(self._rows)

    def record(self, numbers: Numbers) -> Dict[str, Any]:
        """The values of a row of this desk, by the names of their columns: as it stands in the table now, or stood there in a picture."""
        return named_values(getattr(numbers, "columns", self.columns), numbers)

    def insert(self, values: Mapping[str, Any]) -> int:
        """Adds a row of these values, by the names of their columns, and returns its id. A value that is not given is missing. Kinds grow as by `Frame.insert`."""
        def change() -> int:
            id: int = self._frame._insert(values)
            self._note(id)
            return id
        return self._change(change, values)

    def update(self, id: int, values: Mapping[str, Any], *, seen: Optional[int] = None) -> None:
        """Gives a row these values; the others stay. With the version that was `seen`, no value is overwritten that others have changed since: `Changed` has
        what it is now. Without it the last one counts."""
        def change() -> None:
            before = self.record(self._row(id).numbers)
            self._check_unchanged(id, [name in values for name in self._named], seen)
            self._frame._update(id, values)
            self._note(id, before)
        self._change(change, values)

    def delete(self, id: int, *, seen: Optional[int] = None) -> Dict[str, Any]:
        """Deletes a row, and returns its values. With the version that was `seen`, a row that others have changed since stays: `Changed` has what is new."""
        def change() -> Dict[str, Any]:
            row = self._row(id)
            self._check_unchanged(id, [True] * len(self.columns), seen)
            self._frame._delete(id)
            self.version += 1
            del self._rows[id]
            self._since.pop(id, None)
            return self.record(row.numbers)
        return self._change(change)

    def subscribe(self, call: Callable[[], None]) -> Callable[[], None]:
        """Has this called after each change and at the close, by the thread that makes it, so it must be quick; see `Frame.subscribe`. Returns what ends it. Neither waits for a change that
        is under way, so an event loop may call them."""
        return subscribed(self._subscribed, call)

    def wait(self, seen: Optional[int], seconds: float) -> int:
        """The version, as soon as it is another than `seen`, but after this number of seconds at the latest."""
        self.check()
        end = time.monotonic() + seconds
        # It has no lock, which an interruption within a `Condition` would leave locked.
        woken: "SimpleQueue[None]" = SimpleQueue()
        stop = self.subscribe(partial(woken.put, None))
        try:
            while not self._closed and self.version == seen and time.monotonic() < end:
                with suppress(Empty):
                    woken.get(timeout=max(0.0, end - time.monotonic()))
        finally:
            stop()
        self.check()
        return self.version

    def read(self, text: str, selection: Selection = Selection()) -> Question:
        """The tree of a question, which is refused where it is wrong."""
        return selection.read(text, self._named.get, list(self._named))

    def picture(self, text: str, selection: Selection = Selection()) -> Picture:
        """The rows and the answer to a question, and to what is asked beside it, at one version."""
        def begun() -> Tuple[Question, List[Column], int, Dict[int, Held], Optional[FrameQuery]]:
            self._look_again()
            question, columns = self.read(text, selection), self.columns
            query = self._frame.begun(text, selection, waits=False) if selection.is_answered_by(question, columns) else None
            return question, columns, self.version, dict(self._rows), query

        self.check()
        question, columns, version, rows, query = self._waking(lambda: locked(self._lock, begun))
        if query is None:
            return computed_picture(text, selection, version, columns, list(rows.values()))
        with query:
            found = query.answered()
        if not all(id in rows for _, id, _ in found.rows):
            # They were inserted beside the desk.
            with self._lock:
                self._is_whole = False
            return self.picture(text, selection)
        return Picture(version, columns, list(rows.values()), [Found(level or 0, id, rows[id].numbers) for level, id, _ in found.rows], columns_in(question), tuple(found.unknown))

    def _there(self) -> Dict[int, Held]:
        """The rows as they are in the frame, whose columns are taken."""
        self._show_opened()
        outside, row = self._opened.ids.outside, self._row_type
        return {id: Held(id, row(numbers)) for id, numbers in ((outside(inside), numbers) for inside, numbers in self.table.rows())}

    def _note(self, id: int, before: Optional[Mapping[str, Any]] = None) -> None:
        """Takes a row as it is in the frame, which had these values before; all of them where that has opened another table for it. The version is the next one before
        the rows here are others, and never after: behind an interruption nobody would see that they are."""
        self.version += 1
        changed: Iterable[int] = [id]
        if self._opened is not self._frame._opened:
            self._show_opened()
            # The others were deleted beside the desk.
            self._rows = {other: row for other, row in self._rows.items() if self._opened.ids.inside(other)}
            changed = [*self._rows, id]
        # One by one, which takes no client.
        rows = {id: Held(id, self._row_type(self.table.get(self._opened.ids.inside(id)))) for id in changed}
        if before is not None:
            after = self.record(rows[id].numbers)
            self._since[id] = tuple(version if is_same(after[name], before[name]) else self.version for name, version in zip(after, self._versions(id)))
        # Last: behind an interruption, a row that is here as it is in the frame counts as unchanged.
        self._rows.update(rows)

    def _show_opened(self) -> None:
        self._opened = self._frame._opened
        self._show_columns(self._opened.columns)

    def _show_columns(self, columns: Iterable[Column]) -> None:
        self.columns = list(columns)
        self._row_type = row_type(self.columns)
        self._named = {column.name: column for column in self.columns}

    def _row(self, id: int) -> Held:
        if id not in self._rows:
            raise no_such_row(id)
        return self._rows[id]

    def _versions(self, id: int) -> Tuple[int, ...]:
        """The versions in which the cells of a row changed last."""
        return self._since.get(id, (1,) * len(self.columns))

    def _check_unchanged(self, id: int, wanted: List[bool], seen: Optional[int]) -> None:
        """Refuses a change of the columns that are wanted, where others have changed one of them since the version that was seen."""
        if seen is None:
            return
        if seen > self.version:     # of another desk: nothing of this one was seen
            seen = 0
        are_new = [version > seen for version in self._versions(id)]
        if any(is_new and is_wanted for is_new, is_wanted in zip(are_new, wanted)):
            values = self.record(self._rows[id].numbers)
            names = [column.name for column, is_new, is_wanted in zip(self.columns, are_new, wanted) if is_new and is_wanted]
            raise Changed(f"somebody else has changed {listed(names)} of row {id} since", self.version,
                          {column.name: values[column.name] for column, is_new in zip(self.columns, are_new) if is_new})

    def _change(self, change: Callable[[], Result], values: Iterable[str] = ()) -> Result:
        """A change, for which columns of these names have values."""
        def made() -> Result:
            self.check()
            for name in values:
                if name not in self._named:
                    raise ValueError(unknown_column(name, list(self._named)))
            self._look_again()
            before = self._changes()
            self._is_whole = False
            try:
                result = change()
            except (Error, TypeError, ValueError):
                # Of a handler, it may come behind the change.
                self._is_whole = self._changes() == before
                raise
            self._is_whole = True
            return result

        def changed() -> Result:
            result: Result = self._frame._change(made)
            return result

        self.check()
        return self._waking(changed)

    def _changes(self) -> Tuple[Any, int]:
        """The table below, and how many changes of it were begun."""
        engine = self.table._engine
        return engine, engine.changes

    def _look_again(self) -> None:
        """Takes the rows as they are in the frame where they may be others than those here: a change that was interrupted may have been made there."""
        if self._is_whole:
            return
        self.table._free.check_at_hand()
        opened, rows = self._opened, self._there()
        if (opened, self._rows) != (self._opened, rows):
            self.version += 1
            self._since = {id: self._versions(id) if self._rows.get(id) == row else (self.version,) * len(self.columns) for id, row in rows.items()}
        self._rows, self._is_whole = rows, True

    def _waking(self, call: Callable[[], Result]) -> Result:
        """A call, behind which those are woken who wait for another version. They may change rows themselves, so this has no lock."""
        before = self.version
        try:
            return call()
        finally:
            if self.version != before:
                self._wake()

    def _wake(self) -> None:
        call_all(list(self._subscribed))


def row_type(columns: Sequence[Column]) -> Callable[[Iterable[int]], Numbers]:
    """The type of rows whose numbers stand for values of these columns, also when the desk has wider ones."""
    return type("Row", (tuple,), {"__slots__": (), "__reduce__": lambda row: (tuple, (tuple(row),)), "columns": columns})


def named_values(columns: Iterable[Column], numbers: Numbers) -> Dict[str, Any]:
    """The values of a row by the names of their columns."""
    return {column.name: column.decode(number) for column, number in zip(columns, numbers)}


def is_same(value: Any, before: Any) -> bool:
    """Whether a value is that of before. Python says so of both times that clocks which are put back show alike."""
    return bool(value == before) and getattr(value, "fold", 0) == getattr(before, "fold", 0)


def computed_picture(text: str, selection: Selection, version: int, columns: List[Column], rows: List[Held]) -> Picture:
    """The picture of a question for which something is computed over the rows, as a condition or an expression."""
    moment = moment_of_picture(columns, rows)
    read = reading(text, selection, moment)
    with query_of(read) as query:
        found, absent_in_ties = picked(query.rows(), read, selection, moment)
    best = [Found(row.level, *rows[row.id - 1]) for row in found]
    named = {column.name: column for column in columns}
    return Picture(version, columns, rows, best, [named[name] for name in selection.names(text, moment.names)], (*read.unknown, *absent_in_ties))


def moment_of_picture(columns: Sequence[Column], rows: Sequence[Held]) -> Moment:
    """The rows of a picture as those of a moment, counted from 1."""
    return moment_of(columns, lambda place: [row.numbers[place] for row in rows], lambda number: rows[number - 1].id)
