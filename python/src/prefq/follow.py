"""A frame that follows a table of a database: the database keeps the rows, and the frame answers questions about them.

A source (`follow_sqlite`, `follow_postgres`) reads the table as of a place in the order of the database's commits, and then what has changed up to another
place. The frame makes these changes at one moment, so that a question sees whole transactions, and all of those up to a place that is known.
"""
import os
import time
from contextlib import suppress
from functools import partial
from typing import Any, Callable, Dict, Iterator, List, Mapping, NamedTuple, Optional, Sequence, Tuple, TypeVar

from .answer import Answer
from .checks import LEAST, MOST, seconds, whole
from .columns import Column
from .dealt import Begun, Dealt, Found, Key, Numbers, ordered
from .dealt_questions import Asked, asked_of, asked_of_rows, moment_of_keyed
from .errors import Ended, Refused, no_such_row
from .follow_source import UNCHANGED, Cells, Changes, Source, Unchanged
from .kept import Answered, Kept
from .kinds import Floats, Whole
from .loading import check_kinds, column_of_values, encoded, plain_whole_numbers, records_of
from .locks import FRAME, TURNS, Turns
from .parts import RowsLeft
from .preferences import Asked as AskedFor, Operand, text_asked
from .records import Record
from .rows import Zipped
from .selection import Names, Selection
from .warned import warn_of
from .why import explained, number_of

Ask = Callable[[Dealt, str, Selection], Asked]
Result = TypeVar("Result")
TRIES = 3           # how often a call reads the table anew where its own were refused memory
PAUSE = 0.002       # seconds between two looks at a place that is waited for
INTERRUPTS = 0.05   # seconds between two interruptions of a call that waits for others
# Of which values a kind was taken; another one was taken of texts.
TYPES: Dict[Any, Any] = {Whole: int, Floats: (int, float)}


class Snapshot(NamedTuple):
    """All rows and the answer to a question at one moment. `version` counts how often the rows have changed, and `unknown` is what is said of the question's
    values."""

    version: int
    columns: Sequence[Column]
    rows: Mapping[Key, Numbers]
    best: Sequence[Found]
    asked: Sequence[Column]
    unknown: Sequence[str]


class Followed:
    """A frame that follows a table of a database, which `Frame.follow` makes. Any thread may call it.

    The ids of its rows are the keys of the table. Each call first takes in what the database has committed by then, whole transactions in their order; `at` is
    the place up to which it has, and `answer.at` that of an answer. It has no limit of 65,536 rows: they are dealt to as many tables as they need, which
    questions see at one moment.

    >>> import os, prefq, sqlite3, tempfile
    >>> with tempfile.TemporaryDirectory() as folder:
    ...     db = sqlite3.connect(os.path.join(folder, "hotels.db"), isolation_level=None)
    ...     created = db.execute("create table hotels (id integer primary key, price int)")
    ...     with prefq.Frame.follow(db, "hotels") as hotels:
    ...         inserted = db.execute("insert into hotels values (7, 60), (8, 90)")
    ...         hotels.best("best low(price)", at_least=hotels.now()).ids, hotels.at
    ...     db.close()
    ([7], 2)
    """

    def __init__(self, source: Source, kinds: Mapping[str, str], options: Mapping[str, Any]) -> None:
        self.at = 0
        self.version = 0        # how often the rows have changed
        self._source, self._kinds, self._options = source, dict(kinds), dict(options)
        self._owner = os.getpid()
        # Whose turn it is with the tables never waits for the database; who talks with that takes a turn with the tables in the middle.
        self._with_tables, self._with_source = Turns(TURNS), Turns(FRAME)
        self._is_closed = False
        # Whether the rows are those of the table at that place. They are not while they change, nor where that was interrupted.
        self._is_whole = False
        self._is_followed = False       # whether the source says what has changed since these rows: not where it has read others, which were refused
        self._dealt: Optional[Dealt] = None
        self._kept: Kept[Answered] = Kept(Answered.size)
        try:
            check_kinds(kinds, source.columns)
            self._catch_up()
        except BaseException:
            source.withdraw()
            raise

    def __enter__(self) -> "Followed":
        return self

    def __exit__(self, *_: object) -> None:
        self.close()

    def __len__(self) -> int:
        """The number of rows."""
        return self._surviving(len)

    def __bool__(self) -> bool:
        return True

    def __iter__(self) -> Iterator[Record]:
        return iter(self.rows())

    def __repr__(self) -> str:
        return f"<prefq.Followed {self._source.name}: {'closed' if self._is_closed else f'{len(self._tables)} rows at {self.at}'}>"

    def __reduce__(self) -> Any:
        raise TypeError("a frame that follows a table cannot be copied or pickled: follow the table again")

    def close(self) -> None:
        """Ends the frame and its connection, and calls that wait; the same again does nothing. What the database has for it there stays (docs/PYTHON.md)."""
        if not self._is_ours():
            return
        with self._with_tables.lock:
            self._is_closed = True
            if self._dealt is not None:
                self._dealt.close()
        while self._with_source.is_of_another():
            self._source.interrupt()
            time.sleep(INTERRUPTS)
        with self._with_source.lock:
            self._source.close()

    @property
    def columns(self) -> Tuple[Column, ...]:
        """The columns, with their kinds as they are now."""
        return self._tables.columns

    @property
    def names(self) -> List[str]:
        """The names of the columns."""
        return self._tables.names

    @property
    def tables(self) -> int:
        """How many tables have the rows."""
        return len(self._tables.tables)

    @property
    def clients(self) -> int:
        """How many questions may be under way at once."""
        return self._tables.tables[0].clients

    def now(self) -> int:
        """The place behind all that the database has committed: with `at_least=frame.now()` a question sees what was committed before."""
        def found() -> int:
            place = self._source.now() if self._is_followed else None
            if place is None:
                self._read_everything()
            return self.at if place is None else place

        return self._talking(found)

    def refresh(self) -> int:
        """Takes in what the database has committed, and returns the place."""
        return self._surviving(lambda _: self.at)

    def get(self, id: Key) -> Record:
        """The row with this key."""
        key = key_given(id)

        def found(dealt: Dealt) -> Record:
            numbers = dealt.get(key)
            if numbers is None:
                raise no_such_row(key)
            return records_of(dealt.columns, [(None, key, numbers)])[0]

        return self._surviving(found)

    def rows(self) -> List[Record]:
        """All rows, in order of key: numbers, then texts."""
        def begun(dealt: Dealt) -> Tuple[Sequence[Column], Begun]:
            return dealt.columns, dealt.begin_all()

        columns, pairs = self._answered(begun, lambda begun: (begun[0], begun[1].rows()))
        return records_of(columns, [(None, key, numbers) for key, numbers in pairs])

    def best(self, question: AskedFor, *, at_least: Any = None, wait: float = 60.0, where: Optional[Operand] = None, top: Optional[int] = None,
             ties: Optional[AskedFor] = None, by: Names = None) -> Answer:
        """The answer to a question, as of the place that its `at` has. `where`, `top`, `ties` and `by` are those of `Frame.best`; rows are in the order of keys.

        With `at_least` it sees what was committed up to this place, and is not before it: a place that is there already is answered at once, without a look at
        the database, and another one is waited for, so many seconds at most.
        """
        return self.answer(text_asked(question), Selection.of(where=where, top=top, ties=ties, by=by), at_least=at_least, wait=wait)

    def answer(self, question: str, selection: Selection, *, at_least: Any = None, wait: float = 60.0) -> Answer:
        """The same with what is asked beside the question."""
        place = None if at_least is None else self._source.place(at_least)
        longest = seconds(wait, "wait")
        if place is not None:
            self._wait(place, longest)

        version, at = self._surviving(lambda _: (self.version, self.at), is_there=place is not None)

        def made() -> Tuple[int, Answered]:
            return self._made(question, selection)

        found_version, found = self._kept.get((question, selection), version, made)
        warn_of(found.unknown)
        # Where no row has changed since, it is the answer at each place up to now.
        return Answer(question, found.columns, records_of(found.columns, found.rows), others=self.rows, at=at if found_version == version else found.at)

    def _made(self, question: str, selection: Selection) -> Tuple[int, Answered]:
        """The answer to a question over the rows as they are in the tables, with their version."""
        def begun(ask: Ask, dealt: Dealt) -> Tuple[int, int, Asked]:
            return self.version, self.at, ask(dealt, question, selection)

        def answered(begun: Tuple[int, int, Asked]) -> Tuple[int, Answered]:
            version, at, asked = begun
            rows = asked.answer()
            return version, Answered(asked.columns, rows, asked.unknown, at)

        return self._asked(begun, answered, selection, is_there=True)

    def snapshot(self, question: str, selection: Selection = Selection(), until: Optional[float] = None) -> Snapshot:
        """All rows and the answer to a question, with what is asked beside it, at one moment, as numbers; others are waited for until then."""
        def begun(ask: Ask, dealt: Dealt) -> Tuple[int, Sequence[Column], Asked, Begun]:
            asked = ask(dealt, question, selection)
            return self.version, [dealt.by_name[name] for name in selection.names(question, dealt.names)], asked, dealt.begin_all()

        def answered(begun: Tuple[int, Sequence[Column], Asked, Begun]) -> Snapshot:
            version, columns, asked, everything = begun
            return Snapshot(version, asked.columns, dict(everything.rows()), asked.answer(), columns, asked.unknown)

        return self._asked(begun, answered, selection, until=until)

    def why(self, id: Key, question: AskedFor, *, where: Optional[Operand] = None, by: Names = None) -> Answer:
        """The rows that dominate this one in a question: those because of which it is not in the answer, among those that meet the condition `where`."""
        text, selection, id = text_asked(question), Selection.of(where=where, by=by), key_given(id)

        def begun(dealt: Dealt) -> Tuple[Dealt, Begun, int]:
            return dealt, dealt.begin_all(), self.at

        dealt, at, pairs = self._answered(begun, lambda begun: (begun[0], begun[2], begun[1].rows()))
        found, unknown = explained(text, selection, moment_of_keyed(dealt.columns, pairs), pairs, number_of(pairs, id), id)
        warn_of(unknown)
        return Answer(text, dealt.columns, records_of(dealt.columns, found), others=self.rows, at=at)

    def _is_ours(self) -> bool:
        return os.getpid() == self._owner

    @property
    def _tables(self) -> Dealt:
        assert self._dealt is not None
        return self._dealt

    def _alone(self, call: Callable[[], Result]) -> Result:
        """A call in its turn with the tables."""
        def made() -> Result:
            self._check_open()
            return call()

        self._check_process()
        return self._with_tables.taken(made)

    def _talking(self, call: Callable[[], Result], until: Optional[float] = None) -> Result:
        """A call in its turn with the source, which may wait for others until then. What the end of the frame interrupts has ended."""
        def made() -> Result:
            self._check_open()
            self._source.until = until
            try:
                return call()
            except Exception:
                self._check_open()
                raise

        self._check_process()
        return self._with_source.taken(made, until)

    def _check_process(self) -> None:
        if not self._is_ours():
            raise Ended(f"this frame belongs to process {self._owner}: follow the table again in each process", "process")

    def _check_open(self) -> None:
        if self._is_closed:
            raise Ended("the frame was closed", "closed")

    def _surviving(self, call: Callable[[Dealt], Result], is_there: bool = False, until: Optional[float] = None) -> Result:
        """A call of the tables once they have what is committed, or as they are where that `is_there`."""
        return self._answered(call, lambda found: found, is_there, until)  # type: ignore[no-any-return]

    def _asked(self, begin: Any, answer: Callable[[Any], Result], selection: Selection, is_there: bool = False, until: Optional[float] = None) -> Result:
        """What a question begins, which is answered while others go on. Where too many rows were left of the tables with a condition, it is begun once more, over the rows
        that meet it."""
        if selection.where is None:
            return self._answered(partial(begin, asked_of), answer, is_there, until)
        with suppress(RowsLeft):
            return self._answered(partial(begin, asked_of), answer, is_there, until)
        return self._answered(partial(begin, asked_of_rows), answer, is_there, until)

    def _answered(self, begin: Callable[[Dealt], Any], answer: Callable[[Any], Result], is_there: bool = False, until: Optional[float] = None) -> Result:
        """What is begun by such a call, and answered while others go on. Where a table has ended, as for want of memory, everything is read anew."""
        self._check_process()
        for last in [False] * TRIES + [True]:
            try:
                if not is_there:
                    self._catch_up(until)
                begun = self._alone(lambda: [begin(self._tables)] if self._is_whole else [])
                if begun:
                    return answer(begun[0])
            except Ended:
                self._is_whole = False
                if last or self._is_closed:
                    raise
            is_there = False
        raise Refused(f"{self._source.name} was read {TRIES + 1} times, and other calls of this frame were interrupted each time: ask again", "follow")

    def _wait(self, place: int, seconds: float) -> None:
        """Waits until the rows are those of this place or a later one."""
        end = time.monotonic() + seconds
        while True:
            if self._alone(lambda: self._is_whole and self.at >= place):
                return
            if self._surviving(lambda _: self.at, until=end) >= place:
                return
            if time.monotonic() >= end:
                raise Refused(f"{self._source.name} is at {self.at}, and not at {place} after {seconds:g} seconds", "follow")
            time.sleep(PAUSE)

    def _catch_up(self, until: Optional[float] = None) -> None:
        """Takes in what has changed, or everything. Calls with a place that is there go on while the database is waited for."""
        def caught_up() -> None:
            changes = self._source.changes(self.at) if self._is_whole and self._is_followed and not self._tables.is_outgrown() else None
            if changes is None or not self._alone(partial(self._take, changes)):
                self._read_everything()

        self._talking(caught_up, until)

    def _take(self, changes: Changes) -> bool:
        """Makes these changes, in a turn with the tables; False where everything has to be read: a kind that was taken from the values has to be another one, or rows
        have gone unseen."""
        dealt = self._tables
        try:
            rows = numbers_of_rows(dealt, {key: cells for key, cells in changes.rows.items() if cells is not None})
        except (TypeError, ValueError):
            return False        # where it is refused, if need be
        gone = [key for key, cells in changes.rows.items() if cells is None]
        count = len(rows) if changes.is_cleared else dealt.count_with(rows, gone)
        if changes.total not in (None, count):
            return False
        self._is_whole = False
        if changes.is_cleared:
            dealt.clear()
        if changes.rows:
            dealt.change(rows, gone)
        if changes.rows or changes.is_cleared:
            self.version += 1
        self.at, self._is_whole = changes.place, True
        return True

    def _read_everything(self) -> None:
        """Reads the table, and opens tables with its rows in place of those before. Until then these stay as they are."""
        self._is_followed = False
        found = self._source.everything()
        keys = sorted(found.rows, key=ordered)
        values = list(zip(*(found.rows[key] for key in keys))) or [()] * len(self._source.columns)
        columns = [self._column(name, values[place], found.kinds.get(name), keys) for place, name in enumerate(self._source.columns)]
        dealt = Dealt([column for column, _ in columns], keys, Zipped([numbers for _, numbers in columns]), self._options)

        def takes() -> None:
            self._is_whole = False
            self._dealt, self.at = dealt, found.place
            self.version += 1
            self._is_whole = self._is_followed = True

        try:
            self._alone(takes)
        finally:
            if self._dealt is not dealt:
                dealt.close()

    def _column(self, name: str, values: Sequence[Any], own: Optional[Column], keys: Sequence[Key]) -> Tuple[Column, Sequence[int]]:
        """A column of these values: of the kind that is given for it, or that it has by itself, or else of the kind of its values. A value that it does not take is
        `Refused`, with its key."""
        column = Column(name, self._kinds[name]) if name in self._kinds else own
        try:
            return column_of_values(name, values, None, keys, "key") if column is None else (column, encoded(column, values, keys, "key"))
        except (Refused, TypeError, ValueError) as why:
            raise Refused(f"{self._source.name}: {why}", "follow") from None


def key_given(id: Any) -> Key:
    """A key as it was given."""
    return id if isinstance(id, str) else whole(id, "id", LEAST, MOST)


def numbers_of_rows(dealt: Dealt, rows: Mapping[Key, Cells]) -> Mapping[Key, Numbers]:
    """The numbers of rows by their values. A value that a column does not take, or for which it would have another kind, is a `ValueError` or a `TypeError`."""
    cells = list(zip(*rows.values())) or [()] * len(dealt.columns)
    found = {place: _numbers_of_column(dealt, place, list(rows), cells[place]) for places in dealt.order for place in places}
    return dict(zip(rows, zip(*(found[place] for place in range(len(cells))))))


def _numbers_of_column(dealt: Dealt, place: int, keys: Sequence[Key], cells: Sequence[Any]) -> Sequence[int]:
    column, types = dealt.columns[place], set(map(type, cells))
    if Unchanged in types:
        others = iter(_numbers_of_column(dealt, place, keys, [cell for cell in cells if cell is not UNCHANGED]))
        return [_number_before(dealt, place, key) if cell is UNCHANGED else next(others) for key, cell in zip(keys, cells)]
    if column.grows and not all(issubclass(found, (type(None), TYPES.get(type(column.kind), str))) for found in types):
        raise TypeError(f"column {column.name!r} has another kind with these values")
    numbers = plain_whole_numbers(cells) if type(column.kind) is Whole else None
    if numbers is None:
        return encoded(column, cells)
    column.has_gaps = column.has_gaps or type(None) in types
    return numbers


def _number_before(dealt: Dealt, place: int, key: Key) -> int:
    before = dealt.get(key)
    if before is None:
        raise ValueError(f"key {key!r} has a value that was never seen")
    return before[place]
