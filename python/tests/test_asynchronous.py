"""The table for asyncio."""
import asyncio
import contextlib
import gc
import os
import random
import threading
import unittest
from concurrent.futures import ThreadPoolExecutor
from contextlib import AsyncExitStack, closing
from unittest import mock

import prefq
from prefq.asynchronous import FreeClients
from support import HOTELS, QUESTION, SKYLINE, TestCase, around, in_a_fork

SECONDS = 120
COUNT = int(os.environ.get("PREFQ_TEST_COUNT", 1000)) // 10


class Tasks(TestCase):
    def run_async(self, function):
        return asyncio.run(asyncio.wait_for(function(), SECONDS))

    def open(self, **options):
        return prefq.AsyncTable.open(["price", "dist"], HOTELS, **options)

    def test_calls(self):
        async def main():
            async with await self.open() as table:
                self.assertEqual((await table.insert([55, 1]), len(table), await table.room()), (8, 8, 1016))
                await table.update(8, [56, 1])
                self.assertEqual(await table.get(8), [56, 1])
                await table.delete(8)
                self.assertEqual(await table.commit(("insert", [200, 200]), ("delete", 7)), 9)
                self.assertEqual(await table.insert_many([[300, 300]] * 20), range(10, 30))
                self.assertEqual([row.id for row in await table.best(QUESTION)], SKYLINE)
                self.assertEqual(len(await table.rows()), len(table))
                self.assertEqual(repr(table), "<prefq.AsyncTable of price, dist>")
        self.run_async(main)

    def test_queries(self):
        async def main():
            async with await self.open(block=2, capacity=16) as table:
                query = await table.query(QUESTION)
                self.assertEqual((query.left, await query.scan()), (8, 7))
                await table.insert([1, 1])
                self.assertEqual([row.id for row in await query.answer()], SKYLINE)
                async with table.query(QUESTION) as query:
                    pass
                with self.refuses(prefq.Refused, "ended", number=4):
                    await query.answer()
                with self.refuses(prefq.Refused, "has not begun"):
                    await table.query(QUESTION).scan()
                with self.refuses(prefq.Refused, kind="term", place=9):
                    await table.best("best low(prise)")
                with self.refuses(TypeError, "column price"):
                    await table.insert([1.5, 2])
        self.run_async(main)

    def test_two_hundred_requests_of_twenty_tasks(self):
        async def main():
            done = 0
            async with await prefq.AsyncTable.open(["task", "value"], capacity=8192, clients=3) as table:
                async def work(number):
                    nonlocal done
                    chance, mine = random.Random(number), {}
                    for _ in range(10):
                        values = [number, chance.randrange(1000)]
                        if chance.random() < 0.5 or not mine:
                            mine[await table.insert(values)] = values
                        elif chance.random() < 0.5:
                            id = chance.choice(sorted(mine))
                            self.assertEqual(await table.get(id), mine[id])
                        else:
                            best = [row for row in await table.best("best low(value) by task") if row.task == number]
                            least = min(value for _, value in mine.values())
                            self.assertEqual({row.id: list(row.values()) for row in best}, {id: values for id, values in mine.items() if values[1] == least})
                        done += 1
                    return mine
                rows = await asyncio.gather(*(work(number) for number in range(20)))
                self.assertEqual((done, dict(await table.rows())), (200, {id: values for mine in rows for id, values in mine.items()}))
        self.run_async(main)

    def test_more_open_queries_than_clients(self):
        async def main():
            async with await self.open(clients=2) as table:
                async def work():
                    async with table.query(QUESTION) as query:
                        await asyncio.sleep(0.001)
                        return len(await query.answer())
                self.assertEqual(await asyncio.gather(*(work() for _ in range(50))), [4] * 50)
        self.run_async(main)

    def test_a_cancelled_task_leaves_the_table_as_it_is(self):
        async def main():
            async with await self.open(clients=2, block=16) as table:
                chance = random.Random(1)
                for _ in range(40):
                    calls = [table.best(QUESTION), table.insert([200, 200]), table.query(QUESTION).__aenter__(), table.get(2), table.room()]
                    tasks = [asyncio.ensure_future(call) for call in calls]
                    await asyncio.sleep(chance.random() * 0.01)
                    for task in tasks:
                        task.cancel()
                    await asyncio.gather(*tasks, return_exceptions=True)
                    del tasks, calls, task
                    self.assertEqual(await table.get(2), [60, 5])
                gc.collect()
                self.assertEqual([row.id for row in await table.best(QUESTION)], SKYLINE)
                self.assertEqual(await asyncio.gather(*(table.best(QUESTION) for _ in range(4))), [await table.best(QUESTION)] * 4)
                self.assertEqual(await table.room(), 1024 - len(table))
                self.assertEqual(len(await table.rows()), len(table))
        self.run_async(main)

    def test_a_call_that_was_cancelled_before_it_began_is_not_made(self):
        async def main():
            async with await self.open() as table:
                release = threading.Event()
                with around(table._table, "get", before=lambda: release.wait(30)):
                    first, second = asyncio.ensure_future(table.get(1)), asyncio.ensure_future(table.insert([1, 1]))
                    await asyncio.sleep(0.1)
                    first.cancel()
                    second.cancel()
                    await asyncio.gather(first, second, return_exceptions=True)
                    release.set()
                    self.assertEqual((await table.get(2), len(table)), ([60, 5], 7))
        self.run_async(main)

    def test_dropped_queries(self):
        async def main():
            async with await self.open(clients=2) as table:
                for _ in range(10):
                    await table.query(QUESTION)
                    gc.collect()
                self.assertEqual(len(await table.best(QUESTION)), 4)
        self.run_async(main)

    def test_a_client_is_given_back_behind_its_query(self):
        """Another thread may take it at once."""
        async def main():
            async with await self.open(clients=2) as table:
                are_open, put = [], table._free.put

                def puts(client):
                    held = table._table._engine.queries.get(client, lambda: None)()
                    are_open.append(held is not None and held.is_wanted)
                    put(client)

                with mock.patch.object(table._free, "put", puts):
                    await table.query(QUESTION)
                    query = await table.query(QUESTION)
                    query.itself = query
                    del query
                    gc.collect()
                    await (await table.query(QUESTION)).abandon()
                    await table.best(QUESTION)
                self.assertEqual(are_open, [False] * 4)
        self.run_async(main)

    def test_a_client_that_garbage_has_is_waited_for_a_second_at_most(self):
        async def main():
            async with await self.open(clients=1) as table:
                query = await table.query(QUESTION)
                query.itself = query
                del query
                return [row.id for row in await asyncio.wait_for(table.best(QUESTION), 20)]

        gc.disable()
        try:
            self.assertEqual(self.run_async(main), SKYLINE)
        finally:
            gc.enable()

    def test_a_client_that_becomes_garbage_behind_the_first_look_is_found(self):
        """Such a look is left out where another one was just made, too. A task waited without an end where the program made no other garbage."""
        async def main():
            async with await self.open(clients=1) as table:
                query = await table.query(QUESTION)
                query.itself = query
                waiting = asyncio.ensure_future(table.best(QUESTION))
                await asyncio.sleep(1.5)
                del query
                return [row.id for row in await asyncio.wait_for(waiting, 20)]

        gc.disable()
        try:
            self.assertEqual(self.run_async(main), SKYLINE)
        finally:
            gc.enable()

    def test_closed(self):
        async def main():
            table = await self.open()
            await table.close()
            with self.refuses(prefq.Ended, "closed"):
                await table.get(1)
            async with await self.open() as table:
                await table.close()
            with self.refuses(prefq.Ended, "closed"):
                async with await self.open() as table:
                    table._table.close()
        self.run_async(main)

    def test_who_waits_for_a_client_is_told_of_the_end(self):
        async def main():
            async with await self.open(clients=1) as table:
                query = await table.query(QUESTION)
                waiting = [asyncio.ensure_future(call) for call in (table.best(QUESTION), table.rows(), table.query(QUESTION).__aenter__())]
                await asyncio.sleep(0.05)
                await table.close()
                for call in waiting:
                    with self.refuses(prefq.Ended, "closed"):
                        await asyncio.wait_for(call, 20)
                return query
        self.run_async(main)

    def test_a_query_that_is_awaited_and_entered_begins_once(self):
        async def main():
            async with await self.open(clients=1) as table:
                async with await asyncio.wait_for(table.query(QUESTION), 20) as query:
                    self.assertIs(await query, query)
                    self.assertEqual((await query.answer()).ids, SKYLINE)
                return len(await table.best(QUESTION))
        self.assertEqual(self.run_async(main), 4)

    def test_a_query_that_two_tasks_await_at_once_begins_once(self):
        """The second one waited for ever for the client that the first one has; where there was another one, it was lost."""
        async def main():
            async with await self.open(clients=1) as table:
                query = table.query(QUESTION)
                for begun in await asyncio.wait_for(asyncio.gather(*(query.__aenter__() for _ in range(3))), 20):
                    self.assertIs(begun, query)
                self.assertEqual((await query.answer()).ids, SKYLINE)
                return len(await table.best(QUESTION))
        self.assertEqual(self.run_async(main), 4)

    def test_a_query_whose_first_task_is_cancelled_is_begun_by_the_next(self):
        async def main():
            async with await self.open(clients=1) as table:
                other, query = await table.query(QUESTION), table.query(QUESTION)
                waiting = [asyncio.ensure_future(query.__aenter__()) for _ in range(2)]
                await asyncio.sleep(0.05)
                waiting[0].cancel()
                await other.answer()
                self.assertEqual((await (await asyncio.wait_for(waiting[1], 20)).answer()).ids, SKYLINE)
                return len(await table.best(QUESTION))
        self.assertEqual(self.run_async(main), 4)

    def test_a_fork_cannot_use_it(self):
        table = asyncio.run(self.open())
        for call in (lambda: table.get(1), lambda: table.best(QUESTION), lambda: table.query(QUESTION).__aenter__()):
            self.assertEqual(in_a_fork(lambda: asyncio.run(call()))[0], "process")
        self.assertEqual(asyncio.run(table.get(1)), HOTELS[0])
        asyncio.run(table.close())

    def test_another_loop_goes_on(self):
        table = asyncio.run(self.open(clients=1))

        async def leaves_a_query():
            self.query = await table.query(QUESTION)

        asyncio.run(leaves_a_query())
        del self.query
        gc.collect()
        self.assertEqual(len(asyncio.run(table.best(QUESTION))), 4)
        asyncio.run(table.close())

    def test_tasks_of_several_loops_wait_for_a_client(self):
        """One loop after the other, and two at the same time."""
        async def many(table):
            return await asyncio.gather(*(table.best(QUESTION) for _ in range(10)))

        async def open_frame():
            return await prefq.AsyncFrame.open(prefq.Frame.from_records, [{"price": price, "dist": dist} for price, dist in HOTELS], clients=1)

        for opening in (lambda: self.open(clients=1), open_frame):
            table = asyncio.run(opening())
            with ThreadPoolExecutor(2) as pool:
                for answers in (asyncio.run(many(table)), asyncio.run(many(table)), *pool.map(asyncio.run, [many(table), many(table)])):
                    self.assertEqual([len(answer) for answer in answers], [4] * 10)
            asyncio.run(table.close())

    def test_a_task_of_a_loop_that_has_stopped_keeps_no_client_from_others(self):
        async def begins():
            table = await self.open(clients=1)
            return table, await table.query(QUESTION), asyncio.ensure_future(table.best(QUESTION)), await asyncio.sleep(0.1)

        async def goes_on(table, query):
            waiting = asyncio.ensure_future(table.best(QUESTION))
            await asyncio.sleep(0.1)
            await query.answer()
            return len(await asyncio.wait_for(waiting, 20))

        with closing(asyncio.new_event_loop()) as stopped:
            table, query, waiting, _ = stopped.run_until_complete(begins())
            self.assertEqual(asyncio.run(goes_on(table, query)), 4)
            self.assertEqual(len(stopped.run_until_complete(waiting)), 4)
            stopped.run_until_complete(table.close())

    def test_a_client_that_a_cancelled_task_was_woken_for_is_anothers(self):
        async def main():
            free = FreeClients(1)
            client, waiting = await free.get(), [asyncio.ensure_future(free.get()) for _ in range(3)]
            await asyncio.sleep(0)
            free.put(client)
            await asyncio.sleep(0)          # The first one is woken, and has not gone on.
            waiting[0].cancel()
            self.assertEqual(await asyncio.wait_for(waiting[1], 30), client)
            waiting[2].cancel()
            await asyncio.wait(waiting)
            free.put(client)
            self.assertEqual((len(free), list(free._waiting)), (1, []))
        self.run_async(main)

    def test_closed_while_a_call_is_under_way(self):
        async def main():
            table, release = await self.open(), threading.Event()
            with around(table._table, "get", before=lambda: release.wait(30)):
                call = asyncio.ensure_future(table.get(1))
                await asyncio.sleep(0.1)
                with self.within(30):
                    await table.close()
                release.set()
                with self.refuses(prefq.Ended, "closed"):
                    await call
        self.run_async(main)

    def test_the_opening_is_refused(self):
        async def main():
            with self.refuses(TypeError, "row 1, column price"):
                await prefq.AsyncTable.open(["price"], [[0.5]])
            with self.refuses(prefq.Refused, kind="opening"):
                await self.open(capacity=3)
        self.run_async(main)


class OfAFrame(TestCase):
    """Tasks that call an `AsyncFrame`, of which some are cancelled."""

    CLIENTS = 2

    async def opened(self, rows=200):
        chance = random.Random(4)
        records = [{"x": chance.randrange(60), "y": chance.randrange(60)} for _ in range(rows)]
        return await prefq.AsyncFrame.open(prefq.Frame.from_records, records, clients=self.CLIENTS, block=16)

    def run_async(self, function):
        return asyncio.run(asyncio.wait_for(function(), SECONDS))

    def test_calls_that_need_a_client_wait_while_each_one_scans(self):
        calls = {"rows": lambda frame: frame.rows(), "why": lambda frame: frame.why(1, "best low(x) * low(y)"), "hasse": lambda frame: frame.hasse("low(x) * low(y)"),
                 "grows": lambda frame: frame.insert({"x": "0.5"}), "many": lambda frame: frame.insert_many({"x": number} for number in ("1.5", 7)),
                 "commit": lambda frame: frame.commit(("delete", 1), ("insert", ["0.25", 1])), "update": lambda frame: frame.update(1, {"x": "0.5"})}

        async def main(call):
            async with await self.opened() as frame, AsyncExitStack() as stack:
                queries = [await frame._call(frame._frame.query, "best low(x) * low(y)") for _ in range(self.CLIENTS)]
                held = [await frame._free.get() for _ in queries]
                for query in queries:
                    stack.enter_context(query)
                calling = asyncio.ensure_future(call(frame))
                await asyncio.sleep(0.05)
                for query, client in zip(queries, held):
                    answer = await asyncio.wait_for(frame._call(query.answer), 0.8)
                    frame._free.put(client)
                found = await calling
                self.assertEqual(answer.ids, [row.id for row in answer])
                return found, len(frame), await frame.rows()

        for name, call in calls.items():
            with self.subTest(name):
                found, count, rows = self.run_async(lambda: main(call))
                self.assertEqual(count, len(rows))
                self.assertEqual(count, 200 + {"grows": 1, "many": 2}.get(name, 0))
                self.assertEqual(found, {"grows": 201, "many": range(201, 203), "commit": 201, "update": None}.get(name, found))

    def test_changes_come_in_the_order_in_which_they_were_asked_for(self):
        async def main():
            async with await self.opened(1) as frame:
                changes = [frame.insert_many([[2, 2], [3, 3]]), frame.insert_many([4, 4] for _ in "a"), frame.insert([5, 5]), frame.update(5, [6, 6]), frame.commit(("insert", [7, 7])),
                           frame.insert_many(iter(())), frame.insert_many([number, 1 // (8 - number)] for number in (7, 8)), frame.insert_many([[8, 8]]), frame.delete(7)]
                found = await asyncio.gather(*changes, return_exceptions=True)
                self.assertIsInstance(found[6], ZeroDivisionError)
                return found[:6] + found[7:], [(row.id, row.x) for row in await frame.rows()][1:]

        self.assertEqual(self.run_async(main), ([range(2, 4), range(4, 5), 5, None, 6, range(0), range(7, 8), None], [(2, 2), (3, 3), (4, 4), (5, 6), (6, 7)]))

    def test_one_record_that_is_another_one_each_time(self):
        """All rows were the last one, though not by the frame's own call."""
        def records():
            record = {}
            for record["x"] in range(3):
                yield record

        async def main():
            async with await self.opened(1) as frame:
                await frame.insert_many(records())
                return [row.x for row in await frame.rows()][1:]
        self.assertEqual(self.run_async(main), [0, 1, 2])

    def test_who_is_told_of_a_change_may_wait_for_a_client(self):
        """The change was made by then, and is not made again."""
        async def main():
            told = []
            async with await self.opened() as frame:
                frame._frame.subscribe(lambda: frame._frame.best("best low(x)"))
                queries = [await frame._call(frame._frame.query, "best low(x) * low(y)") for _ in range(self.CLIENTS)]
                with mock.patch("threading.excepthook", lambda why: told.append(why.exc_type)):
                    self.assertEqual(await frame.insert([5, 5]), 201)
                for query in queries:
                    query.abandon()
                return len(frame), told

        self.assertEqual(self.run_async(main), (201, [prefq.Refused]))

    def test_tasks_that_are_cancelled_at_random_moments(self):
        """Each change is made whole or not at all, each answer is one of rows that there were meanwhile, and no client is lost."""
        chance = random.Random(5)

        async def at_random(call):
            task, delay = asyncio.ensure_future(call), chance.choice([0, 0, 0.0005, 0.003, None]) and chance.random() * 0.005
            if delay is None:
                return await task
            for _ in range(chance.randrange(8)):
                await asyncio.sleep(0)
            await asyncio.sleep(delay)
            task.cancel()
            return await task

        def best(rows):
            values = set(rows.values())
            return sorted(id for id, (x, y) in rows.items() if not any(a <= x and b <= y and (a, b) != (x, y) for a, b in values))

        async def main():
            async with await self.opened(60) as frame:
                async def rows():
                    return {row.id: (row.x, row.y) for row in await frame.rows()}

                async def changes():
                    for _ in range(COUNT):
                        before, id, values = seen[-1], chance.randrange(1, 60), [chance.randrange(60), chance.randrange(60)]
                        seen.append(None)       # while it is not known whether it was made
                        with contextlib.suppress(asyncio.CancelledError):
                            await at_random(frame.commit(("update", id, values), ("update", 60, values[::-1])))
                        after = await rows()
                        self.assertIn(after, [before, {**before, id: tuple(values), 60: tuple(values[::-1])}])
                        seen[-1] = after

                async def asks():
                    while not changing.done():
                        first = max(0, len(seen) - 2)
                        with contextlib.suppress(asyncio.CancelledError):
                            answer = await at_random(frame.best(*chance.choice([("best low(x) * low(y)",), ("best low(x) * low(y + 0)",)])))
                            while seen[-1] is None:
                                await asyncio.sleep(0.001)
                            self.assertIn(sorted(answer.ids), [best(some) for some in seen[first:] if some])

                seen = [await rows()]
                changing = asyncio.ensure_future(changes())
                await asyncio.gather(changing, *(asks() for _ in range(5)))
                while len(frame._free) < self.CLIENTS or frame._table._engine.queries:
                    frame._table._engine.settle()
                    await asyncio.sleep(0.001)

        self.run_async(main)


if __name__ == "__main__":
    unittest.main()
