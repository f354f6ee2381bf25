"""Queries that are garbage: no query is ever that of another one, and no client is lost.

PREFQ_TIMES=100 makes the tests that try many moments try a hundred times as many.
"""
import contextlib
import gc
import sys
import threading
import time
import unittest
import weakref
from itertools import count
from unittest import mock

import prefq
from interrupting import NEVER, TIMES, Interrupter
from prefq.library import calls
from support import QUESTION, TestCase, around, hotels, numbers


class Holder:
    """An object that keeps its own generator, so that both are garbage that only the collector finds."""

    def __init__(self, table, question):
        self.generator = self.asks(table, question)
        next(self.generator)

    def asks(self, table, question):
        with table.query(question):
            yield self


class Thing:
    """An object that can be referred to weakly."""


class Garbage(TestCase):
    def test_a_query_that_another_one_follows_before_its_finalizer_runs(self):
        """The collector says that the query is gone, its client gets another query, and only then the generator ends its block."""
        with numbers(9, clients=1) as table:
            followed = []

            def follows(_):
                if not followed:
                    with contextlib.suppress(prefq.Refused):
                        followed.append(table.query("best pos(x, 22)"))

            holder = Holder(table, "best pos(x, 11)")
            holder.behind = Thing()
            callback = weakref.ref(holder, follows), weakref.ref(holder.behind, follows)
            del holder
            gc.collect()
            self.assertEqual((len(callback), len(followed)), (2, 1))
            self.assertEqual([row.id for row in followed[0].answer()], [2])
            self.assertEqual(len(table.best(QUESTION.replace("price", "x").replace(" * low(dist)", ""))), 1)

    def test_a_finalizer_that_goes_on_with_a_query_that_is_gone(self):
        with numbers(9, clients=1) as table:
            said = []

            class Late:
                def __del__(self):
                    for call in (self.query.scan, self.query.answer, self.query.pairs):
                        try:
                            said.append(call())
                        except prefq.Refused as why:
                            said.append(why.number)
                    said.append(self.query.abandon())

            late = Late()
            late.query, late.itself = table.query("best low(x)"), late
            del late
            gc.collect()
            self.assertEqual(said, [4, 4, 4, None])
            self.assertEqual([row.id for row in table.best("best high(x)")], [9])

    def test_finalizers_of_a_table_that_is_gone_itself(self):
        """Whichever of them runs first."""
        said = []

        class Late:
            def __del__(self):
                for call in (self.query.scan, self.query.answer, self.table.room, lambda: self.table.get(1), lambda: self.table.insert([1]), lambda: len(self.table),
                             lambda: self.table.update(1, [1]), lambda: self.table.query("best low(x)"), self.table.check, self.table.close, self.query.abandon):
                    try:
                        call()
                    except prefq.Error as why:
                        said.append(why.kind)

        for first in (Late(), None):
            table = numbers(9)
            late = first or Late()
            late.table, late.query, late.itself = table, table.query("best low(x)"), late
            del table, late, first
            gc.collect()
        self.assertLessEqual(set(said), {"closed", "client"})

    def test_an_interruption_as_a_table_is_given_back(self):
        """At the very begin it was lost, and the memory of the table was kept."""
        closed, close = [], calls().prefq_close
        with mock.patch.object(calls(), "prefq_close", lambda table: closed.append(close(table))):
            for place in range(1, 5):
                held = [numbers(9), numbers(5).query("best low(x)")]
                interrupter = Interrupter(place)
                interrupter.runs(held.clear)
                self.assertEqual((len(closed), interrupter.where), (2 * place, None))
            with self.refuses(prefq.Refused):
                prefq.Table(["x"], [[1]] * 9, capacity=3)
            gc.collect()
            self.assertEqual(len(closed), 2 * place + 1)

    def test_a_finalizer_in_the_middle_of_a_call(self):
        """It abandons a query before the next call, and waits for nothing."""
        with numbers(9, clients=2) as table:
            query = table.query("best low(x)")
            with around(table, "get", behind=query.abandon):
                self.assertEqual(table.get(1), [11])
            queries = [table.query("best low(x)"), table.query("best high(x)")]
            self.assertEqual([query.answer()[0].id for query in queries], [1, 9])
            with self.refuses(prefq.Refused, "this query has ended", number=4):
                query.answer()

    def test_a_finalizer_waits_for_no_call_of_another_thread(self):
        """Else two calls of two tables, each with garbage of the other one, would wait for each other."""
        with numbers(9) as table:
            holder, begun, release = Holder(table, "best low(x)"), threading.Event(), threading.Event()

            def stands_still():
                begun.set()
                release.wait(NEVER)

            with around(table, "room", before=stands_still):
                other = threading.Thread(target=table.room)
                other.start()
                begun.wait(NEVER)
                del holder
                collects = threading.Thread(target=gc.collect)
                collects.start()
                collects.join(NEVER)
                self.assertFalse(collects.is_alive())
                self.assertTrue(other.is_alive())
                release.set()
                other.join(NEVER)
            self.assertEqual(len([table.query("best low(x)") for _ in range(8)]), 8)

    def test_finalizers_that_insert_crosswise(self):
        """Those of two threads, each in the middle of an insert into the table that the other one's finalizer inserts into: they waited for each other for ever."""
        def frame():
            return prefq.Frame.from_records([{"x": 1, "name": "n"}])

        for make, row in ((numbers, [7]), (frame, {"x": 7, "name": "new"})):
            tables = [make(1) if make is numbers else make() for _ in range(2)]
            both, own, said = threading.Barrier(2, timeout=NEVER), threading.local(), []

            def finalizes():
                if not getattr(own, "is_in", False):
                    own.is_in = True
                    both.wait()
                    try:
                        said.append(own.other.insert(row))
                    except prefq.Refused as why:
                        said.append(why.kind)

            def inserts(number):
                own.other = tables[1 - number]
                said.append(tables[number].insert(row))

            with around(getattr(tables[0], "table", tables[0]), "insert", before=finalizes), around(getattr(tables[1], "table", tables[1]), "insert", before=finalizes):
                threads = [threading.Thread(target=inserts, args=[number], daemon=True) for number in range(2)]
                for thread in threads:
                    thread.start()
                for thread in threads:
                    thread.join(10)
            self.assertEqual([thread.is_alive() for thread in threads], [False] * 2)
            self.assertIn("client", said)
            self.assertEqual(sum(map(len, tables)), 2 + len(said) - said.count("client"))
            for table in tables:
                table.insert(row)
                table.close()

    def test_garbage_that_another_thread_is_collecting(self):
        """A collection does nothing then, and all clients are of this thread: they are waited for, a moment at most."""
        collect, calls = gc.collect, []

        def collects_later():
            calls.append(1)
            return 0 if len(calls) < 3 else collect()

        gc.disable()
        try:
            with numbers(3, clients=2) as table, mock.patch("gc.collect", collects_later):
                Holder(table, "best low(x)")
                Holder(table, "best low(x)")
                self.assertEqual([row.id for row in table.best("best high(x)")], [3])
                self.assertEqual(len(calls), 3)
        finally:
            gc.enable()

    def test_clients_that_garbage_has_are_waited_for_a_second_at_most(self):
        gc.disable()
        try:
            with hotels(clients=1) as table:
                Holder(table, QUESTION)
                with self.within(1):
                    self.assertEqual(len(table.best(QUESTION)), 4)      # all clients are this thread's own
                thread = threading.Thread(target=Holder, args=(table, QUESTION))
                thread.start()
                thread.join()
                with self.within(10):
                    self.assertEqual(len(table.best(QUESTION)), 4)
        finally:
            gc.enable()

    def test_cycles_under_eight_threads(self):
        """The collector runs wherever a thread makes objects, also in the middle of a call."""
        wrong, answers = [], []
        end = time.monotonic() + 1 * TIMES
        with numbers(40, clients=8) as table:
            def asks(number):
                try:
                    for tries in count(number):
                        if time.monotonic() > end or wrong:
                            break
                        if tries % 10 == 0:
                            Holder(table, f"best pos(x, {11 * number})")
                        filled = [[] for _ in range(100)]
                        found = [row.id for row in table.best(f"best pos(x, {11 * number})")]
                        answers.append(len(filled))
                        if found != [number]:
                            wrong.append((number, found))
                except BaseException as why:
                    wrong.append(why)

            threads = [threading.Thread(target=asks, args=(number,), daemon=True) for number in range(1, 9)]
            before = gc.get_threshold()
            gc.set_threshold(50, 2, 2)
            try:
                for thread in threads:
                    thread.start()
                for thread in threads:
                    thread.join(NEVER + TIMES)
            finally:
                gc.set_threshold(*before)
            self.assertFalse(any(thread.is_alive() for thread in threads), "a thread hangs")
            self.assertEqual(wrong, [])
            self.assertGreater(len(answers), 8)
            if TIMES > 1:
                print(f"\n{len(answers)} answers", file=sys.stderr)


if __name__ == "__main__":
    unittest.main()
