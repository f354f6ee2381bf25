"""Rows under keys of their own, dealt to as many tables as they need, which questions see at one moment.

Whoever changes the rows or begins a question holds one lock meanwhile (that of `Followed`), so a question begins on all tables between two changes.
"""
import operator
import os
from array import array
from collections import deque
from concurrent.futures import ThreadPoolExecutor
from contextlib import ExitStack
from itertools import chain, islice, starmap
from struct import Struct
from typing import Any, Callable, Collection, Deque, Dict, Iterable, List, Mapping, NamedTuple, Optional, Sequence, Tuple, TypeVar, Union
from weakref import ref

from .checks import MOST_ROWS
from .columns import Column
from .engine import BYTES
from .errors import Refused
from .opened import Columns
from .pauses import extended
from .query import Query
from .rows import ColumnarRows, Zipped
from .table import IN_COMMIT, Table

Key = Union[int, str]
Numbers = Sequence[int]
Answer = TypeVar("Answer")
FULL = ("client", 8)
# How much of a table rows may fill, which leaves room for their next versions.
FILLED = 7 / 8
# How many rows of a table are updated by one call, for which other threads wait: some milliseconds.
TOGETHER = 4096
# A place is the number of a table, and in its last bits the id of a row there: one number takes less memory than two, and the collector passes over it.
ID_BITS = 48
IDS = (1 << ID_BITS) - 1


class Found(NamedTuple):
    """A row of an answer: its level, its id or key, and its numbers as they stand in a table."""

    level: int
    id: Any
    numbers: Numbers


class Shard:
    """One of the tables, and the keys of its rows by their ids there. A key stays for a while after its row has gone, for questions that began before."""

    def __init__(self, columns: Sequence[str], keys: Sequence[Key], rows: Zipped, options: Mapping[str, Any]) -> None:
        self.table = Table(columns, rows, **options)
        self.keys: Dict[int, Key] = dict(enumerate(keys, 1))

    def room(self) -> int:
        """How many rows may still be added."""
        return min(self.table.room(), int(self.table.capacity * FILLED) - self.table.count)

    def insert(self, keys: Sequence[Key], rows: Sequence[Numbers]) -> Sequence[int]:
        """Adds rows, and returns their ids."""
        inside = self.table.insert_many(rows)
        self.keys.update(zip(inside, keys))
        return inside

    def update(self, ids: Sequence[int], addresses: Sequence[int]) -> List[int]:
        """Gives the rows with these ids the numbers at these addresses. Returns the ids of those that had to be deleted in place of an update, since the table has no
        room for their new versions."""
        moved: List[int] = []
        of_rows, of_numbers = array("Q", ids), array("Q", addresses)
        made, update_many = 0, self.table._engine.update_many
        while made < len(ids):
            at = made * BYTES
            try:
                made += update_many(of_rows.buffer_info()[0] + at, of_numbers.buffer_info()[0] + at, min(TOGETHER, len(ids) - made))
            except Refused as why:
                if (why.kind, why.number) != FULL:
                    raise
                some = ids[made:made + IN_COMMIT]
                moved += some
                for id in some:
                    self.table.delete(id)
                made += len(some)
        return moved


class Dealt(Columns):
    """The rows in their tables, with the columns that their numbers stand for. Whoever has a question of them keeps them, when a frame has others already."""

    def __init__(self, columns: Sequence[Column], keys: Sequence[Key], rows: Zipped, options: Mapping[str, Any]) -> None:
        super().__init__(columns)
        self._options = dict(options)
        self._shards: List[Shard] = []
        self._places: Dict[Key, int] = {}
        # Questions that are under way, each with the number of changes before its begin; and rows that have gone, with the number of changes before that. One that an
        # interruption has lost before its answer is kept by nobody, and gives its clients back.
        self._asking: Dict["ref[Begun]", int] = {}
        self._gone: Deque[Tuple[int, Shard, int]] = deque()
        self._changes = 0
        try:
            self._open(keys, rows)
        except BaseException:
            self.close()
            raise

    def __len__(self) -> int:
        return len(self._places)

    def close(self) -> None:
        """Ends the tables."""
        for shard in self._shards:
            shard.table.close()

    @property
    def tables(self) -> List[Table]:
        """The tables that have the rows now."""
        return [shard.table for shard in self._shards]

    def is_outgrown(self) -> bool:
        """Whether the code books may be mostly texts that no row has any more."""
        return self.have_outgrown(len(self))

    def get(self, key: Key) -> Optional[Numbers]:
        """The numbers of a row, None where there is none."""
        if key not in self._places:
            return None
        shard, inside = self._row(self._places[key])
        return shard.table.get(inside)

    def count_with(self, rows: Collection[Key], gone: Collection[Key]) -> int:
        """How many rows there are once these are written, and those have gone."""
        return len(self) + len(rows) - sum(map(self._places.__contains__, chain(rows, gone)))

    def change(self, rows: Mapping[Key, Numbers], gone: Iterable[Key] = ()) -> None:
        """Gives the rows with these keys these numbers, adds those that are not there, and deletes others, which have gone."""
        self._changes += 1
        self._forget()
        for key in filter(self._places.__contains__, gone):
            shard, inside = self._row(self._places[key])
            shard.table.delete(inside)
            self._has_gone(key)
        # All rows in turn, as they lie in memory: those of one table after the other lie far apart, and took several times as long.
        numbers = array("q", b"".join(starmap(Struct(f"{len(self.below)}q").pack, rows.values())))
        there, new = self._by_shards(rows, numbers.buffer_info()[0])
        for shard, (ids, addresses) in zip(self._shards, there):
            for key in map(shard.keys.__getitem__, shard.update(ids, addresses)):
                self._has_gone(key)
                new[key] = rows[key]
        self._insert(new)

    def clear(self) -> None:
        """Deletes all rows."""
        self.change({}, list(self._places))

    def begin_all(self, terms: Sequence[str] = ()) -> "Begun":
        """Begins a question on all tables whose answer has all rows, or those of each table that are best by some terms. No row may change meanwhile."""
        return Begun(self, self._shards[0].table.best_by(terms))

    def began(self, begun: "Begun") -> List[Shard]:
        """The tables that a question begins on; what they have is kept for it."""
        self._asking[ref(begun, self._asking.pop)] = self._changes
        return list(self._shards)

    def ended(self, begun: "Begun") -> None:
        """A question has its answer, or has none."""
        self._asking.pop(ref(begun), None)

    def _open(self, keys: Sequence[Key], rows: Zipped) -> None:
        """Opens as many tables as these rows need, of which each has the same number, and one where there is none."""
        most = max(1, int(self._options.get("capacity", MOST_ROWS) * FILLED))
        count = max(1, -(-len(keys) // most))
        ends = [len(keys) * number // count for number in range(count + 1)]
        for begin, end in zip(ends, ends[1:]):
            self._add(keys[begin:end], rows[begin:end])

    def _add(self, keys: Sequence[Key], rows: Zipped) -> None:
        capacity = min(MOST_ROWS, max(1024, 2 * len(keys), 2 * len(self)))
        shard = Shard(list(self.below.values()), keys, rows, {"capacity": capacity, **self._options})
        self._shards.append(shard)
        self._note_places(len(self._shards) - 1, shard.keys.values(), shard.keys)

    def _note_places(self, number: int, keys: Iterable[Key], ids: Iterable[int]) -> None:
        """The rows with these keys have these ids in the table of this number."""
        self._places.update(zip(keys, map((number << ID_BITS).__or__, ids)))

    def _row(self, place: int) -> Tuple[Shard, int]:
        """The table of a place, and the id of the row there."""
        return self._shards[place >> ID_BITS], place & IDS

    def _by_shards(self, rows: Mapping[Key, Numbers], address: int) -> Tuple[List[Tuple[List[int], List[int]]], Dict[Key, Numbers]]:
        """Of the rows that are there the ids in each table, and where their numbers are, which stand from this address on; and the rows that are new."""
        there: List[Tuple[List[int], List[int]]] = [([], []) for _ in self._shards]
        adding = [(ids.append, addresses.append) for ids, addresses in there]
        new: Dict[Key, Numbers] = {}
        size = BYTES * len(self.below)
        for key, place, at in zip(rows, map(self._places.get, rows), range(address, address + size * len(rows), size)):
            if place is None:
                new[key] = rows[key]
                continue
            add_id, add_address = adding[place >> ID_BITS]
            add_id(place & IDS)
            add_address(at)
        return there, new

    def _insert(self, rows: Mapping[Key, Numbers]) -> None:
        """Adds rows where there is room, and opens further tables for the rest."""
        keys = list(rows)
        for number, shard in enumerate(self._shards):
            some = keys[:max(0, shard.room())] if keys else []
            if some:
                self._note_places(number, some, shard.insert(some, [rows[key] for key in some]))
                keys = keys[len(some):]
        if keys:
            self._open(keys, Zipped(list(zip(*(rows[key] for key in keys)))))

    def _has_gone(self, key: Key) -> None:
        shard, inside = self._row(self._places.pop(key))
        self._gone.append((self._changes, shard, inside))

    def _forget(self) -> None:
        """Forgets the keys of rows that had gone before each question that is under way began."""
        first = min(list(self._asking.values()), default=self._changes)
        while self._gone and self._gone[0][0] <= first:
            _, shard, inside = self._gone.popleft()
            del shard.keys[inside]


class Begun:
    """A question that has begun on all tables at one moment."""

    def __init__(self, dealt: Dealt, text: str) -> None:
        self._dealt = dealt
        self._queries: List[Tuple[Shard, Query]] = []
        try:
            for shard in dealt.began(self):
                self._queries.append((shard, shard.table.query(text)))
        except BaseException:
            self._end()
            raise

    def answers(self) -> List[List[Found]]:
        """What each table answers; the question has ended then."""
        return self._of_each(lambda shard, query: [Found(row.level, shard.keys[row.id], row.values) for row in query.rows()])

    def rows(self) -> ColumnarRows:
        """The rows that the tables answer with their keys, in the order of these; the question has ended then."""
        width = len(self._dealt.below)
        parts = self._of_each(lambda shard, query: keyed(shard, query.columnar(), width))
        keys = list(chain.from_iterable(keys for keys, _ in parts))
        return ColumnarRows([answer for _, answer in parts], width, keys, places_in_order(keys))

    def _of_each(self, answer: Callable[[Shard, Query], Answer]) -> List[Answer]:
        """What a call gives of each table and its query."""
        try:
            if len(self._queries) == 1:
                return [answer(*self._queries[0])]
            with ThreadPoolExecutor(min(len(self._queries), os.cpu_count() or 1)) as pool:
                return list(pool.map(answer, *zip(*self._queries)))
        finally:
            self._end()

    def _end(self) -> None:
        """Abandons what has no answer."""
        with ExitStack() as left:
            left.callback(self._dealt.ended, self)
            for _, query in self._queries:
                left.callback(query.abandon)


def keyed(shard: Shard, answer: bytes, width: int) -> Tuple[List[Key], bytes]:
    """The keys of the rows of an answer, and the answer."""
    return extended([], map(shard.keys.__getitem__, memoryview(answer).cast("q")[1::2 + width])), answer


def places_in_order(keys: Sequence[Key]) -> Optional[List[int]]:
    """The places of keys in their order; None where they are in order."""
    if len(set(map(type, keys))) > 1:
        return sorted(range(len(keys)), key=lambda place: ordered(keys[place]))
    if all(map(operator.lt, keys, islice(keys, 1, None))):
        return None
    return sorted(range(len(keys)), key=keys.__getitem__)


def ordered(key: Key) -> Tuple[bool, Key]:
    """What keys are sorted by: numbers come before texts."""
    return isinstance(key, str), key
