"""The table and the frame for asyncio: the same calls, awaited."""
import asyncio
import weakref
from collections import deque
from concurrent.futures import Future, ThreadPoolExecutor
from contextlib import suppress
from functools import partial
from typing import Any, Callable, Deque, Generator, Iterable, List, Optional, Sequence, Tuple, Type, TypeVar, Union

from .answer import Answer
from .checks import check_rows
from .clients import SECONDS_TO_COLLECTION, Clients, NoClient, hastily
from .columns import Column
from .errors import Ended, Refused
from .follow import Followed
from .frame import Frame
from .hasse import Hasse
from .live_rows import Path
from .preferences import Asked, Operand, text_asked
from .query import Query
from .records import Record, values_of_each
from .selection import Names, Selection
from .table import Table, Values

Result = TypeVar("Result")
Opened = TypeVar("Opened", Table, Frame)
Self = TypeVar("Self", bound="Awaited")


class FreeClients:
    """The clients that no task has. Tasks of any event loop wait for one, also one after the other: a queue of asyncio belongs to the loop in which one has waited.

    It has no lock, which a finalizer that gives a client back in the middle of a step here would wait for: each step of a deque is made whole.
    """

    def __init__(self, count: int) -> None:
        self._clients: Deque[int] = deque(range(1, count + 1))
        self._waiting: Deque["asyncio.Future[None]"] = deque()
        self._has_ended = False

    def __len__(self) -> int:
        return len(self._clients)

    async def get(self) -> int:
        """A client, once there is one; 0 behind the end, with which each call raises `Ended`."""
        while not self._has_ended:
            with suppress(IndexError):
                return self._clients.popleft()
            try:
                await self._woken()
            except BaseException:
                if self._clients:       # for which this task may have been woken
                    self._wake()
                raise
        return 0

    def put(self, client: int) -> None:
        """Gives a client back, from any thread."""
        self._clients.append(client)
        self._wake()

    def end(self) -> None:
        """Has nobody wait any more."""
        self._has_ended = True
        while self._waiting:
            self._wake()

    async def _woken(self) -> None:
        """Waits until there may be a client."""
        woken = asyncio.get_running_loop().create_future()
        self._waiting.append(woken)
        try:
            if not (self._clients or self._has_ended):      # before anybody waited here
                await woken
        finally:
            with suppress(ValueError):
                self._waiting.remove(woken)

    def _wake(self) -> None:
        """Wakes the one who waits for longest, and those before it whose loop has stopped: it may go on later. One that is closed has nobody who waits."""
        with suppress(IndexError):
            is_awake = False
            while not is_awake:
                woken = self._waiting.popleft()
                with suppress(RuntimeError):
                    woken.get_loop().call_soon_threadsafe(wake, woken)
                    is_awake = woken.get_loop().is_running()


def wake(woken: "asyncio.Future[None]") -> None:
    """Has who awaits this go on."""
    if not woken.done():
        woken.set_result(None)


class Awaited:
    """Calls that are awaited: they are made one after the other on a thread of their own, in the order in which they were asked for, but that one which needs a client
    waits where each client scans for another task."""

    def __init__(self, executor: ThreadPoolExecutor, called: Union[Table, Frame], clients: int) -> None:
        self._executor, self._called = executor, called
        self._closed = False
        self._free = FreeClients(clients)

    @property
    def _table(self) -> Table:
        return self._called.table if isinstance(self._called, Frame) else self._called

    async def __aenter__(self: Self) -> Self:
        return self

    async def __aexit__(self, failed: Optional[Type[BaseException]], *_: object) -> None:
        try:
            if failed is None and not self._closed:
                await self._call(self._table.check)
        finally:
            await self.close()

    def __len__(self) -> int:
        """The number of rows, without a wait."""
        return self._table.count

    def __bool__(self) -> bool:
        return True

    async def delete(self, id: int) -> None:
        """See `Table.delete`."""
        await self._call(self._called.delete, id)

    async def commit(self, *changes: Sequence[Any]) -> int:
        """See `Table.commit` and `Frame.commit`."""
        return await self._asks(self._called.commit, *changes)

    async def room(self) -> int:
        """See `Table.room`."""
        return await self._call(self._called.room)

    async def close(self) -> None:
        """Ends the table; a call that waits raises `Ended`."""
        self._closed = True
        if not self._table._engine.is_ours():
            return
        self._free.end()
        self._executor.shutdown(wait=False)
        await asyncio.get_running_loop().run_in_executor(None, self._called.close)

    def _submit(self, function: Callable[..., Result], *words: Any) -> "Future[Result]":
        self._usable()
        return self._executor.submit(function, *words)

    def _usable(self) -> None:
        """A fork has no thread that would make a call, nor has a table that was closed."""
        self._table._engine.ours()
        if self._closed:
            raise Ended("the table was closed", "closed")

    async def _call(self, function: Callable[..., Result], *words: Any) -> Result:
        return await asyncio.wrap_future(self._submit(function, *words))

    async def _asks(self, function: Callable[..., Result], *words: Any) -> Result:
        """A call that may need a client. Where none is free, it waits until one is, and is made again: the thread itself goes on with the queries of other tasks."""
        try:
            return await self._call(hastily, function, *words)
        except NoClient:
            client = await self._free.get()
        try:
            return await self._call(function, *words)
        finally:
            self._free.put(client)


async def on_a_thread(make: Callable[[], Opened]) -> Tuple[ThreadPoolExecutor, Opened]:
    """A thread, and what is made there."""
    executor = ThreadPoolExecutor(1, "prefq")
    try:
        return executor, await asyncio.wrap_future(executor.submit(make))
    except BaseException:
        executor.shutdown(wait=False)
        raise


class AsyncTable(Awaited):
    """A live table whose calls are awaited. They are made one after the other on a thread of the table's own, so the event loop goes on; in the order in which they
    were asked for, but that a question waits where each client scans for another task, and others' calls come between its pieces.

    `open` takes what `prefq.Table` takes. A task that is cancelled while it awaits a call leaves the table as it is: a call that has not begun is not
    made, and one that has is made whole, though nobody gets its reply. A query of a cancelled task is abandoned.

    >>> async def main():
    ...     async with await AsyncTable.open(["price", "dist"], [[50, 8], [80, 2], [90, 9]]) as hotels:
    ...         await hotels.insert([40, 9])
    ...         return await hotels.best("best low(price) & low(dist)")
    >>> asyncio.run(main())
    level  id  price  dist
        1   4     40     9
    """

    def __init__(self, table: Table, executor: ThreadPoolExecutor) -> None:
        """Use `open`."""
        super().__init__(executor, table, table.clients)
        self.columns = table.columns

    @classmethod
    async def open(cls, columns: Iterable[str], rows: Iterable[Values] = (), **options: Any) -> "AsyncTable":
        """Opens a table as `prefq.Table(columns, rows, **options)` does."""
        executor, table = await on_a_thread(partial(Table, columns, rows, **options))
        return cls(table, executor)

    def __repr__(self) -> str:
        return f"<prefq.AsyncTable of {', '.join(self.columns)}>"

    async def insert(self, values: Values) -> int:
        """See `Table.insert`."""
        return await self._call(self._table.insert, values)

    async def insert_many(self, rows: Iterable[Values]) -> range:
        """See `Table.insert_many`."""
        return await self._call(self._table.insert_many, rows)

    async def update(self, id: int, values: Values) -> None:
        """See `Table.update`."""
        await self._call(self._table.update, id, values)

    async def get(self, id: int) -> List[int]:
        """See `Table.get`."""
        return await self._call(self._table.get, id)

    async def rows(self) -> List[Tuple[int, List[int]]]:
        """See `Table.rows`."""
        async with self.query(self._table.all_rows) as query:
            return await query.pairs()

    async def best(self, question: str) -> Answer:
        """See `Table.best`. Other tasks' calls may come between the pieces that it scans."""
        async with self.query(question) as query:
            return await query.answer()

    def query(self, question: str) -> "AsyncQuery":
        """A query, which begins where it is awaited, `query = await table.query(question)`, or entered, `async with table.query(question) as query`; once where
        it is both.

        It waits until one of the clients has no open query.
        """
        return AsyncQuery(self, question)


class AsyncQuery:
    """A query of an `AsyncTable`; see `Query`. It is abandoned where its `async with` block ends without an answer, or where nobody has it any more.

    >>> async def main():
    ...     async with await AsyncTable.open(["price"], [[50], [80]]) as hotels:
    ...         async with hotels.query("best low(price)") as query:
    ...             await hotels.delete(1)      # after the begin, so the answer still has the row
    ...             return await query.answer()
    >>> asyncio.run(main())
    level  id  price
        1   1     50
    """

    def __init__(self, table: AsyncTable, question: str) -> None:
        self.question = question
        self._table = table
        self._query: Optional[Query] = None
        self._turns = FreeClients(1)        # of the tasks that begin it: the first one does, and where it fails or is cancelled the next

    def __repr__(self) -> str:
        return f"<prefq.AsyncQuery {self.question!r}>"

    def __await__(self) -> Generator[Any, None, "AsyncQuery"]:
        return self._begin().__await__()

    async def __aenter__(self) -> "AsyncQuery":
        return await self

    async def __aexit__(self, failed: Optional[Type[BaseException]], *_: object) -> None:
        try:
            await self.abandon()
        except Ended:
            if failed is None:
                raise

    @property
    def left(self) -> int:
        """How many blocks are still to be scanned."""
        return self._begun().left

    async def scan(self) -> int:
        """See `Query.scan`."""
        return await self._table._call(self._begun().scan)

    async def answer(self) -> Answer:
        """See `Query.answer`."""
        return await self._finish(self._begun().answer)

    async def pairs(self) -> List[Tuple[int, List[int]]]:
        """See `Query.pairs`."""
        return await self._finish(self._begun().pairs)

    async def _finish(self, answer: Callable[[], Result]) -> Result:
        """Scans piece by piece, so that other tasks' calls come in between, and finishes."""
        query = self._begun()
        while query.left:
            await self._table._call(query.scan_piece)
        result = await self._table._call(answer)
        self._give_back()
        return result

    async def abandon(self) -> None:
        """See `Query.abandon`."""
        await self._table._call(self._begun().abandon)
        self._give_back()

    def _begun(self) -> Query:
        if self._query is None:
            raise Refused("this query has not begun: await it, or enter it by `async with`", "client", 4)
        return self._query

    async def _begin(self) -> "AsyncQuery":
        turn = await self._turns.get()
        try:
            if self._query is None:
                await self._begin_first()
        finally:
            self._turns.put(turn)
        return self

    async def _begin_first(self) -> None:
        self._table._usable()
        free = self._table._free
        collections = Collections(self._table._table._free)
        try:
            client = await free.get()
        finally:
            collections.cancel()
        try:
            job = self._table._submit(self._table._table.query, self.question, client)
        except BaseException:
            free.put(client)
            raise
        try:
            query = await asyncio.wrap_future(job)
        except BaseException:
            job.add_done_callback(partial(_give_up, free, client))
            raise
        self._query = query
        self._give_back = weakref.finalize(self, _give_up, free, client, job)


class Collections:
    """Has queries that are garbage found again and again until it is cancelled: one look may come too early, or be left out so soon behind another one."""

    def __init__(self, clients: Clients) -> None:
        self._clients = clients
        self._later()

    def _later(self) -> None:
        self._next = asyncio.get_running_loop().call_later(SECONDS_TO_COLLECTION, self._collect)

    def _collect(self) -> None:
        self._clients.collect()
        self._later()

    def cancel(self) -> None:
        self._next.cancel()


def _give_up(free: FreeClients, client: int, job: "Future[Query]") -> None:
    """Gives the client of a query back that nobody has any more; one that has begun and not ended is abandoned before, since another thread may take the client at once."""
    if not job.cancelled() and job.exception() is None:
        try:
            job.result().abandon()
        except Ended:
            return
    free.put(client)


class AsyncFrame(Awaited):
    """A frame whose calls are awaited, as those of an `AsyncTable` are. `open` takes what makes the frame.

    >>> import asyncio, prefq
    >>> async def main():
    ...     async with await prefq.AsyncFrame.open(prefq.Frame.from_records, [{"City": "Lyon", "Price": 60}, {"City": "Bern", "Price": 90}]) as hotels:
    ...         await hotels.insert({"City": "Ulm", "Price": "49.50"})
    ...         return await hotels.best("best low(Price)")
    >>> asyncio.run(main())
    level  id  City  Price
        1   3  Ulm   49.50
    """

    def __init__(self, frame: Frame, executor: ThreadPoolExecutor) -> None:
        """Use `open`."""
        super().__init__(executor, frame, frame.table.clients)
        self._frame = frame

    @classmethod
    async def open(cls, make: Callable[..., Frame], *words: Any, **options: Any) -> "AsyncFrame":
        """The frame that `make(*words, **options)` returns: `Frame.from_csv`, `Frame.from_records` and so on, but for `Frame.follow`."""
        executor, frame = await on_a_thread(partial(_made, make, *words, **options))
        return cls(frame, executor)

    def __repr__(self) -> str:
        return f"<prefq.AsyncFrame of {', '.join(self._frame.names)}>"

    @property
    def columns(self) -> Tuple[Column, ...]:
        """See `Frame.columns`."""
        return self._frame.columns

    async def insert(self, record: Any) -> int:
        """See `Frame.insert`."""
        return await self._asks(self._frame.insert, record)

    async def insert_many(self, records: Iterable[Any]) -> Sequence[int]:
        """See `Frame.insert_many`."""
        check_rows(records, "records")
        listed: List[List[Any]] = []

        def insert_many() -> Sequence[int]:
            if not listed:      # once, also where the insert is made again; a generator may ask the frame itself, and waits for a client then
                listed.append(hastily(list, values_of_each(records, self.columns, "record {}".format), is_hasty=False))
            return self._frame.insert_many(listed[0])
        return await self._asks(insert_many)

    async def update(self, id: int, record: Any) -> None:
        """See `Frame.update`."""
        await self._asks(self._frame.update, id, record)

    async def get(self, id: int) -> Record:
        """See `Frame.get`."""
        return await self._call(self._frame.get, id)

    async def rows(self) -> List[Record]:
        """See `Frame.rows`."""
        return await self._asks(self._frame.rows)

    async def save(self, path: Path) -> None:
        """See `Frame.save`."""
        await self._asks(self._frame.save, path)

    async def why(self, id: int, question: Asked, *, where: Optional[Operand] = None, by: Names = None) -> Answer:
        """See `Frame.why`."""
        return await self._asks(partial(self._frame.why, id, question, where=where, by=by))

    async def hasse(self, question: Asked, *, where: Optional[Operand] = None, by: Names = None) -> Hasse:
        """See `Frame.hasse`."""
        return await self._asks(partial(self._frame.hasse, question, where=where, by=by))

    async def best(self, question: Asked, *, where: Optional[Operand] = None, top: Optional[int] = None, ties: Optional[Asked] = None, by: Names = None) -> Answer:
        """See `Frame.best`. Other tasks' calls may come between the pieces that it scans."""
        self._usable()
        client = await self._free.get()
        try:
            with await self._call(self._frame.begun, text_asked(question), Selection.of(where=where, top=top, ties=ties, by=by)) as query:
                while query.left:
                    await self._call(query.scan_piece)
                return await self._call(query.answer)
        finally:
            self._free.put(client)


def _made(make: Callable[..., Frame], *words: Any, **options: Any) -> Frame:
    """The frame that is made, which is none that follows a table: that one is asked while others are."""
    frame = make(*words, **options)
    if isinstance(frame, Followed):
        frame.close()
        raise TypeError("a frame that follows a table is no Frame: any thread may call it, as by asyncio.to_thread")
    return frame
