"""A table of the library in this process: the calls of prefq.h over Python's numbers and texts.

A call of C is made whole: what interrupts Python comes before it or after it. What Python itself keeps of a table is the number of its rows and who has which
client; both are right whatever comes between two steps.
"""
import ctypes
import os
import threading
from collections import deque
from ctypes import c_size_t, c_uint32, c_uint64, c_void_p
from functools import partial
from itertools import chain, compress
from operator import attrgetter, is_
from typing import Any, Callable, Dict, List, Optional, Sequence, Set, Tuple, TypeVar
from weakref import ref

from .errors import Ended, Error, Refused
from .library import Change, Numbers, Refusal, Setup, calls
from .locks import TABLE, holding

Result = TypeVar("Result")
OK, REFUSED, OUT_OF_MEMORY = 0, -1, -2
KINDS = ("", "client", "table", "term", "commit", "opening", "arguments", "")
VERBS = {"insert": 1, "update": 2, "delete": 3}
BYTES = 8                   # of a number
CLOSED = ("the table was closed", "closed")
OUT_OF_MEMORY_SAID = ("the table was refused memory: open it again", "memory")


# How many forks led to this process, which is told at once by this number.
_forks = 0


def _count_fork() -> None:
    global _forks
    _forks += 1


os.register_at_fork(after_in_child=_count_fork)


class _Last(threading.local):
    """The words of the last call of this thread that the library may have refused."""

    words: Tuple[Any, ...] = ()


_last = _Last()


class Asker:
    """Who asks a table: its client, and the thread that took it. `is_wanted` until the query is abandoned, `is_used` within its calls."""

    client = thread = 0
    is_wanted, is_used = True, False


class Engine:
    """A table of the library, which belongs to the Python process that opened it.

    `lock` is held where what Python keeps changes with the table, and by queries; a signal handler or a finalizer of the same thread may take it once more.
    """

    _close: Callable[[], Any] = int      # does nothing yet

    def __init__(self, columns: Sequence[str]) -> None:
        """Use `opened` or `opened_text`."""
        self._pointer = c_void_p()
        self._calls = calls()
        self._owner, self._forks = os.getpid(), _forks
        self._ends: List[Tuple[str, str]] = []      # why it has ended, the first one
        end, close, forget = map(self._ends.append, (CLOSED,)), map(self._calls.prefq_close, (self._pointer,)), map(setattr, (self._pointer,), ("value",), (None,))
        self._close = partial(deque, chain(end, close, forget), 0)
        self.width = len(columns)
        self._width = c_size_t(self.width)
        self._row = ctypes.c_int64 * self.width
        self.rows: Optional[int] = 0            # None where an interruption came between a change and its count
        self.changes = 0                        # how many calls were begun that may change rows
        self.refused = 0                        # which of them was refused last, by this number
        self.lock = threading.RLock()
        self.queries: Dict[int, "ref[Asker]"] = {}     # by their clients

    # Here alone its memory is given back: whoever is in the middle of a call still has the engine. Other finalizers of the same garbage may still use it. Nothing of it is
    # written in Python, so that no interruption comes, which would be lost here and have the memory kept.
    __del__ = property(attrgetter("_close"))

    @staticmethod
    def opened(columns: Sequence[str], values: bytes, rows: int, setup: Setup) -> "Engine":
        """The table of these rows, which are one after the other."""
        engine, header = Engine(columns), ",".join(columns).encode()
        engine._open(engine._calls.prefq_open, rows, header, len(header), values, rows, len(columns), setup)
        return engine

    @staticmethod
    def opened_text(columns: Sequence[str], text: bytes, rows: int, setup: Setup) -> "Engine":
        """The table of rows one to a line."""
        engine, whole = Engine(columns), f"{','.join(columns)}\n".encode() + text
        engine._open(engine._calls.prefq_open_text, rows, whole, len(whole), setup)
        return engine

    def _open(self, call: Any, rows: int, *words: Any) -> None:
        self._call(call, *words, self._pointer)
        self.rows = rows

    # ---- the end ----

    @property
    def _ended(self) -> Optional[Tuple[str, str]]:
        return self._ends[0] if self._ends else None

    def is_ours(self) -> bool:
        """Whether this is the process that opened the table."""
        return self._forks == _forks

    def ours(self) -> None:
        """Raises `Ended` in another process than the owner: without the lock, which a fork may have copied while it was held."""
        if not self.is_ours():
            raise Ended(f"this table belongs to process {self._owner}: open another one in each process", "process")

    def check(self) -> None:
        """Raises `Ended` where the table has ended."""
        self.ours()
        if self._ended is not None:
            raise Ended(*self._ended)

    def end(self) -> None:
        """Ends the table, and gives back its rows; the call that another thread makes is waited for, and its later ones raise `Ended`."""
        if self.is_ours():
            self._ends.append(CLOSED)
            self._calls.prefq_end(self._pointer)

    def _call(self, call: Any, *words: Any) -> None:
        """Makes a call of the library, or raises why it has done nothing."""
        result = call(*words)
        if result:
            self._fail(result, call, words)

    def _fail(self, result: int, call: Any, words: Tuple[Any, ...]) -> None:
        """Raises why a call with these words has done nothing, unless it is done by now."""
        why = self._failure(result, call, words)
        if why is not None:
            raise why

    def _failure(self, result: int, call: Any, words: Tuple[Any, ...], question: Optional[str] = None) -> Optional[Error]:
        """Why a call with these words has done nothing; None where it is done by now. It is returned, since a handler may raise an `Error` too, behind a call that is done.

        The library tells that of the last one of a thread alone, which may be that of a signal handler. So a call that is refused is made once more, until no
        handler's comes before the refusal is read; where it is done then, that counts.
        """
        while result == REFUSED and self._ended is None:
            _last.words = words
            result = call(*words)
            if result == OK:
                return None
            refused = self._refused(question)
            if result == REFUSED and _last.words is words:
                return refused
        if result == OUT_OF_MEMORY:
            # What it has done is not known.
            self._ends.append(OUT_OF_MEMORY_SAID)
            self._calls.prefq_end(self._pointer)
        self.ours()
        return Ended(*self._ended) if self._ended is not None else Ended(self._refused(question).args[0], "closed")

    def _refused(self, question: Optional[str]) -> Refused:
        """Why the last call of this thread was refused."""
        why: Refusal = self._calls.prefq_last_refusal()[0]
        kind = KINDS[why.kind]
        return Refused(why.text.decode(errors="replace"), kind, why.number or None, None if why.place < 0 else why.place, question if kind == "term" else None)

    # ---- rows ----

    def insert(self, values: bytes) -> int:
        """Adds a row, and returns its id."""
        id = c_uint64()
        self._change(1, self._calls.prefq_insert, (self._pointer, values, self._width, id))
        return id.value

    def insert_many(self, values: bytes, rows: int) -> int:
        """Adds rows, and returns the id of the first."""
        first = c_uint64()
        self._change(rows, self._calls.prefq_insert_many, (self._pointer, values, rows, self._width, first))
        return first.value

    def update(self, id: int, values: bytes) -> None:
        """Gives a row these values."""
        self._change(0, self._calls.prefq_update, (self._pointer, id, values, self._width))

    def delete(self, id: int) -> None:
        """Deletes a row."""
        self._change(-1, self._calls.prefq_delete, (self._pointer, id))

    def commit(self, changes: Sequence[Tuple[str, int, Optional[bytes]]]) -> int:
        """Makes changes at one moment, and returns the id of the first new row, or 0. Each is a verb, an id and values."""
        made, first = (Change * len(changes))(), c_uint64()
        kept = [ctypes.c_char_p(values) for _, _, values in changes]
        for place, (verb, id, _) in enumerate(changes):
            made[place] = Change(VERBS[verb], id, ctypes.cast(kept[place], c_void_p))
        more = sum({"insert": 1, "delete": -1}.get(verb, 0) for verb, _, _ in changes)
        self._change(more, self._calls.prefq_commit, (self._pointer, made, len(changes), self._width, first))
        return first.value

    def update_many(self, ids: int, addresses: int, count: int) -> int:
        """Makes so many updates one after the other, up to eight at one moment, and returns how many were made before one that is refused: the first one is made, or
        raises. The ids stand at one address one after the other, and those of their values at another."""
        made = c_size_t()
        self._change(0, self._calls.prefq_update_many, (self._pointer, ids, addresses, count, self._width, made))
        return made.value

    def get(self, id: int) -> List[int]:
        """The values of a row."""
        values = self._row()
        result = self._calls.prefq_get(self._pointer, id, values, self._width)
        if result:
            self._fail(result, self._calls.prefq_get, (self._pointer, id, values, self._width))
        return values[:]

    def room(self) -> int:
        """How many more versions there is room for, after what is no longer read is given up."""
        room = c_uint32()
        if self.queries:
            self.settle()
        self._call(self._calls.prefq_room, self._pointer, room)
        return room.value

    def version(self) -> Optional[int]:
        """How many changes were begun. What is begun from now on sees all of these, since it has the lock behind them. None in the middle of a call of this thread, as
        in a signal handler or a finalizer."""
        self.check()
        # As `threading.Condition` asks it.
        return None if self.lock._is_owned() else self.changes      # type: ignore[attr-defined]

    def threads(self) -> Set[int]:
        """The threads that have open queries."""
        return {asker.thread for asker in [held() for held in list(self.queries.values())] if asker is not None}

    def counted(self, rows: int, changes: int) -> None:
        """So many rows were counted, once so many changes were begun: where one has begun since, that is no longer their number."""
        with self.lock:
            if self.changes == changes:
                self.rows = rows

    def _change(self, more: int, call: Any, words: Tuple[Any, ...]) -> None:
        """A call with these words, behind which there are so many rows more."""
        if self._forks != _forks:
            self.ours()
        holding(TABLE, self.lock, self._changed, more, call, words)

    def _changed(self, more: int, call: Any, words: Tuple[Any, ...]) -> None:
        self.changes += 1
        if self.queries:
            self.settle()
        try:
            result = call(*words)
            why = self._failure(result, call, words) if result else None
            if why is None and more and self.rows is not None:
                self.rows += more
        except BaseException:
            if more:
                self.rows = None
            raise
        if why is not None:
            self.refused = self.changes
            raise why

    # ---- queries; each is of a client ----

    def settle(self) -> None:
        """Abandons the queries that nobody uses any more."""
        self.ours()
        holding(TABLE, self.lock, self._settle)

    def _settle(self) -> None:
        for client, held in list(self.queries.items()):
            asker = held()
            if asker is None or not asker.is_wanted and not asker.is_used:
                self._abandon(client, held)

    def _abandon(self, client: int, held: "ref[Asker]") -> None:
        """Ends a query, and gives its client back. One that has ended before is refused, which does no harm.

        All of it is one step of iterators that are written in C: between two steps a signal handler may have done the same, and have begun a query of this client.
        """
        _last.words = ()
        is_there = map(is_, map(self.queries.get, (client,)), (held,))
        abandoned = map(self._calls.prefq_abandon, (self._pointer,), compress((client,), is_there))
        list(map(self.queries.pop, (client,), abandoned))

    def is_open(self, asker: Asker) -> bool:
        """Whether a query may be used: nobody has abandoned it, and its client has no other one. The collector says that a query is gone before it runs the
        finalizers that may still use it."""
        held = self.queries.get(asker.client)
        return asker.is_wanted and held is not None and held() is asker

    def begin(self, asker: Asker, question: str, left: c_uint32) -> None:
        """Begins a query, of which so many blocks are left then."""
        self._call_as(asker, self._call_with, question, self._calls.prefq_begin, left)

    def scan(self, asker: Asker, blocks: int, left: c_uint32) -> None:
        """Scans some blocks. How many are left is told by the call itself, so that no interruption can come in between."""
        self._call_as(asker, self._scan, blocks, left)

    def finish(self, asker: Asker) -> bytes:
        """The rows of the answer one after the other: each is its level, its id and its values. The query has ended then."""
        return self._call_as(asker, self._answer, None)

    def ask(self, asker: Asker, question: str) -> bytes:
        """The answer to a question, as `finish` has it, by one call: only where that cannot take long."""
        return self._call_as(asker, self._answer, question)

    def _call_as(self, asker: Asker, call: Callable[..., Result], *words: Any) -> Result:
        """A call of a query, which has its client as long as that takes."""
        if self._forks != _forks:
            self.ours()
        return holding(TABLE, self.lock, self._called_as, asker, call, words)

    def _called_as(self, asker: Asker, call: Callable[..., Result], words: Tuple[Any, ...]) -> Result:
        if not self.is_open(asker):
            self.check()
            raise Refused("this query has ended", "client", 4)
        if asker.is_used:
            raise Refused("a call of this query is under way in this thread", "client", 3)
        try:
            asker.is_used = True
            return call(asker, *words)
        finally:
            asker.is_used = False

    def _call_with(self, asker: Asker, question: str, call: Any, *results: Any) -> None:
        """A call with a question. Where that is refused, the client is free again."""
        text = question.encode()
        words = (self._pointer, asker.client, text, len(text), *results)
        result = call(*words)
        if result:
            why = self._failure(result, call, words, question)
            if why is not None:
                del self.queries[asker.client]
                raise why

    def _scan(self, asker: Asker, blocks: int, left: c_uint32) -> None:
        self._call(self._calls.prefq_scan, self._pointer, asker.client, blocks, left)

    def _answer(self, asker: Asker, question: Optional[str]) -> bytes:
        """A copy of the answer to this question, or of one that was begun. Until it is made, the client gets no other query."""
        numbers: Any = Numbers()
        count = c_size_t()
        if question is None:
            self._call(self._calls.prefq_finish, self._pointer, asker.client, numbers, count)
        else:
            self._call_with(asker, question, self._calls.prefq_ask, numbers, count)
        found: bytes = numbers[:BYTES * count.value * (2 + self.width)]
        del self.queries[asker.client]
        return found
