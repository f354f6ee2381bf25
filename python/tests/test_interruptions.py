"""Ctrl-C at any moment: nothing waits for ever, and no answer is that of another question.

PREFQ_TIMES=100 makes the tests that try many moments try a hundred times as many.
"""
import contextlib
import gc
import random
import sys
import threading
import time
import unittest
from itertools import count

import prefq
from interrupting import NEVER, SEED, TIMES, Handler, Interrupter, Interruption
from support import TestCase, around, numbers, raised_after, raises


def once(function):
    """A function that runs this one, the first time."""
    left = [function]
    return lambda: left.pop()() if left else None


class Interrupted(TestCase):
    """An interruption leaves the table as it is; no client and no lock is lost, no answer is that of another question, and the number of rows is right."""

    def test_between_two_pieces_of_a_question(self):
        with numbers(20, block=1, capacity=20, clients=1) as table:
            for name, when in [("begin", "before"), ("begin", "behind"), ("scan", "before"), ("scan", "behind"), ("finish", "before"), ("finish", "behind")]:
                with self.subTest(f"{when} {name}"):
                    with around(table, name, **{when: raises(Interruption())}), self.assertRaises(Interruption):
                        table.best("best low(x)")
                    self.assertEqual([row.id for row in table.best("best high(x)")], [20])

    def test_before_and_behind_a_question_of_one_block(self):
        with numbers(20, clients=1) as table:
            for when in ("before", "behind"):
                with self.subTest(when):
                    with around(table, "ask", **{when: raises(Interruption())}), self.assertRaises(Interruption):
                        table.best("best low(x)")
                    self.assertEqual([row.id for row in table.best("best high(x)")], [20])

    def test_a_query_that_is_interrupted_goes_on(self):
        with numbers(20, block=1, capacity=20) as table, table.query("best high(x)") as query:
            for when in ("before", "behind"):
                with around(table, "scan", **{when: raises(Interruption())}), self.assertRaises(Interruption):
                    query.answer()
            self.assertEqual([row.id for row in query.answer()], [20])

    def test_an_interruption_right_behind_the_last_scan(self):
        with numbers(20, block=10, capacity=20) as table, table.query("best high(x)") as query:
            for left in (1, 0):
                with around(table, "scan", behind=raises(Interruption())), self.assertRaises(Interruption):
                    query.scan()
                self.assertEqual(query.left, left)
            self.assertEqual([row.id for row in query.answer()], [20])

    def test_an_answer_that_is_interrupted_is_lost(self):
        with numbers(3) as table, table.query("best high(x)") as query:
            with around(table, "finish", behind=raises(Interruption())), self.assertRaises(Interruption):
                query.answer()
            with self.refuses(prefq.Refused, number=4):
                query.answer()
            self.assertEqual([row.id for row in table.best("best low(x)")], [1])

    def test_a_change_is_made_or_not_and_counted(self):
        for when, rows in [("before", 3), ("behind", 5)]:
            with numbers(3) as table:
                with around(table, "insert_many", **{when: raises(Interruption())}), self.assertRaises(Interruption):
                    table.insert_many([[1], [2]])
                self.assertEqual((len(table), len(table.rows())), (rows, rows))
                table.insert([3])
                self.assertEqual((len(table), table.count), (rows + 1, rows + 1))

    def test_a_change_of_no_row_more_leaves_their_number(self):
        with numbers(3) as table:
            for name, change in (("update", lambda: table.update(1, [5])), ("commit", lambda: table.commit(("delete", 1), ("insert", [6])))):
                with around(table, name, behind=raises(Interruption())), self.assertRaises(Interruption):
                    change()
                self.assertEqual(table._engine.rows, 3)

    def test_a_change_while_the_rows_are_counted_behind_an_interruption(self):
        """As another thread makes it: what was counted before it is no longer their number."""
        with numbers(3) as table:
            with around(table, "insert", behind=raises(Interruption())), self.assertRaises(Interruption):
                table.insert([4])
            with around(table, "finish", behind=lambda: table.insert([5])):
                self.assertEqual(table.count, 4)
            self.assertEqual((table.count, len(table.rows())), (5, 5))

    def test_a_settlement_that_is_interrupted(self):
        with numbers(3, clients=1) as table:
            for when in ("before", "behind"):
                table.query("best low(x)")
                gc.collect()
                with around(table, "abandon", **{when: raises(Interruption())}), self.assertRaises(Interruption):
                    table.best("best low(x)")
                self.assertEqual([row.id for row in table.best("best high(x)")], [3])

    def test_a_signal_handler_that_calls(self):
        """Before or behind each call of C, it may make any call of its own, but for those of the query that is in the middle of one."""
        for block, names in [(1024, ("get", "ask", "room")), (512, ("get", "begin", "scan", "finish", "room"))]:
            with numbers(5, clients=2, block=block) as table:
                said = []

                def calls():
                    said.append((table.get(2), [row.id for row in table.best("best low(x)")], table.insert([1000]), len(table)))
                    table.delete(said[-1][2])

                for name in names:
                    for when in ("before", "behind"):
                        with around(table, name, **{when: once(calls)}):
                            table.room()
                            self.assertEqual(table.get(3), [33])
                            self.assertEqual([row.id for row in table.best("best high(x)")], [5])
                self.assertEqual(len(said), 2 * len(names))
                self.assertEqual({(*got, *best, rows) for got, best, _, rows in said}, {(22, 1, 6)})
                self.assertEqual(len(table), 5)

    def test_a_signal_handler_that_ends_the_query_of_a_call(self):
        """Its client gets no other query before the call is over."""
        for name in ("scan", "finish"):
            for when in ("before", "behind"):
                with numbers(5, clients=1) as table:
                    query, said = table.query("best high(x)"), []

                    def calls():
                        query.abandon()
                        with self.assertRaises(prefq.Refused) as caught:
                            table.query("best low(x)")
                        said.append(caught.exception.number)
                        with self.assertRaises(prefq.Refused) as caught:
                            query.scan()
                        said.append(caught.exception.number)

                    with around(table, name, **{when: once(calls)}):
                        try:
                            self.assertEqual([row.id for row in query.answer()], [5])
                        except prefq.Refused as why:
                            self.assertEqual((why.number, name), (4, "scan"))
                    self.assertEqual(said, [3, 4])
                    self.assertEqual([row.id for row in table.best("best low(x)")], [1])

    @unittest.skipIf(sys.version_info < (3, 11), "where Python calls signal handlers is known of 3.11 and later")
    def test_a_refused_call_of_a_signal_handler_at_each_place_of_a_refused_call(self):
        """Each has its own reason, though the library keeps that of the last one."""
        with numbers(3, capacity=3) as table, numbers(5, block=5, capacity=5) as other, other.query("best low(x)") as query:
            query.scan()

            def handler():
                with self.refuses(prefq.Refused, "no such row 77", kind="client", number=7):
                    other.get(77)

            calls = {"no such row 99": lambda: table.get(99), "no such row 98": lambda: table.update(98, [1]), "no such row 97": lambda: table.delete(97),
                     "no such row 96": lambda: table.commit(("delete", 96)), "full": lambda: table.insert([1]), "full needed 5": lambda: table.insert_many([[1], [2]]),
                     "no column 'y'": lambda: table.best("best low(y)"), "no column 'z'": lambda: table.query("best low(z)"), "all scanned": query.scan}
            for text, call in calls.items():
                with self.subTest(text):
                    self.handled_at_each_place(call, handler, text)
            self.assertEqual(len(table), 3)

    def handled_at_each_place(self, call, handler, text):
        for place in count(1):
            interrupted = Handler(place, handler)
            with self.refuses(prefq.Refused, text):
                interrupted.runs(call)
            if interrupted.where is None:
                break
        self.assertGreater(place, 5)

    @unittest.skipIf(sys.version_info < (3, 11), "where Python calls signal handlers is known of 3.11 and later")
    def test_a_query_that_a_signal_handler_begins_at_each_place_of_a_settlement(self):
        """It keeps its client, which is that of a query that nobody uses any more."""
        for place in count(1):
            with numbers(5, clients=1) as table:
                table.query("best low(x)")
                begun = []
                interrupted = Handler(place, lambda: begun.append(table.query("best pos(x, 22)")))
                interrupted.runs(table.room)
                if not begun:
                    break
                with self.subTest(interrupted.where):
                    self.assertEqual(begun[0].answer().ids, [2])
                    self.assertEqual(table.best("best high(x)").ids, [5])
        self.assertGreater(place, 5)

    @unittest.skipIf(sys.version_info < (3, 10), "Python before 3.10 may lose a lock itself where the end of a with block is interrupted")
    def test_at_any_moment(self):
        chance = random.Random(SEED)
        with numbers(50, clients=2, block=16) as table:
            for tries in range(60 * TIMES):
                with contextlib.suppress(Interruption), raised_after(chance.uniform(0.000_05, 0.03), Interruption):
                    while True:
                        self.use(table)
                said = self.in_a_thread(lambda: self.use_all_clients(table))
                self.assertEqual(said, [1, 50])
                if tries % 10 == 0:
                    self.assertEqual(self.in_a_thread(lambda: len(table)), len(table.rows()))
                    for id, _ in table.rows()[50:]:
                        table.delete(id)
        print(f"\n{60 * TIMES} interruptions", file=sys.stderr)

    @unittest.skipIf(sys.version_info < (3, 11), "where Python calls signal handlers is known of 3.11 and later")
    def test_at_each_place(self):
        """Wherever Python may call a signal handler within the package, one after the other."""
        for block in (16, 64):
            with numbers(50, clients=2, block=block, capacity=64) as table:
                self.interrupt_each_place(table)

    def interrupt_each_place(self, table):
        counted = Interrupter(-1)
        counted.runs(lambda: self.use(table))
        places = range(1, -counted.left, max(1, 10 // TIMES))
        for place in places:
            interrupter = Interrupter(place)
            with contextlib.suppress(Interruption):
                interrupter.runs(lambda: self.use(table))
            # A call may take fewer steps than before, as where a scan took less time.
            with self.subTest(interrupter.where):
                self.assertEqual(self.in_a_thread(lambda: self.use_all_clients(table)), [1, 50])
                self.assertEqual(self.in_a_thread(lambda: len(table)), len(table.rows()))
                self.assertEqual(len(table._engine.queries), 0)
            for id, _ in table.rows()[50:]:
                table.delete(id)
        print(f"\n{len(places)} places of {-counted.left - 1}", file=sys.stderr)

    def use(self, table):
        self.assertEqual(table.get(7), [77])
        with table.query("best low(x)") as query:
            self.assertEqual([row.id for row in query.answer()], [1])
        table.query("best high(x)")
        self.assertEqual([row.id for row in table.best("best pos(x, 77)")], [7])
        table.delete(table.insert([100]))
        table.delete(table.insert_many([[101]])[0])
        self.assertGreaterEqual(len(table), 50)

    def use_all_clients(self, table):
        queries = [table.query("best low(x)"), table.query("best between(x, 550, 550)")]
        return [query.answer()[0].id for query in queries]

    def in_a_thread(self, function):
        """What a function returns or raises on a thread of its own, which would wait for a lock that is lost."""
        said = []

        def runs():
            try:
                said.append(function())
            except prefq.Error as why:
                said.append(why)

        thread = threading.Thread(target=runs, daemon=True)
        thread.start()
        thread.join(NEVER)
        self.assertFalse(thread.is_alive(), "a lock is lost")
        return said[0]

    @unittest.skipIf(sys.version_info < (3, 10), "Python before 3.10 may lose a lock itself where the end of a with block is interrupted")
    def test_length_and_close_at_any_moment(self):
        chance = random.Random(SEED)
        for _ in range(10 * TIMES):
            table = numbers(3)
            with contextlib.suppress(Interruption), raised_after(chance.uniform(0.000_05, 0.002), Interruption):
                while True:
                    self.assertEqual(len(table), 3)
            self.assertEqual(self.in_a_thread(lambda: (len(table), table.get(2))), (3, [22]))
            with contextlib.suppress(Interruption), raised_after(chance.uniform(0.000_02, 0.000_5), Interruption):
                table.close()
                while True:
                    pass
            self.assertIsNone(self.in_a_thread(table.close))
            with self.refuses(prefq.Ended, kind="closed"):
                table.get(1)

    def test_control_c_within_a_long_question(self):
        """It comes after a piece of the question."""
        chance = random.Random(SEED)
        with prefq.Table(list("abc"), [[chance.randrange(10**6) for _ in range(3)] for _ in range(1500)], block=16) as table:
            pieces, question = [], "top_level 1000 low(a) * low(b) * low(c)"
            with around(table, "scan", before=lambda: pieces.append(time.monotonic()), behind=lambda: pieces.append(time.monotonic())):
                with self.assertRaises(Interruption), raised_after(0.1, Interruption):
                    while True:
                        table.best(question)
            self.assertLess(sorted(end - begin for begin, end in zip(pieces[::2], pieces[1::2]))[len(pieces) // 4], 0.5)
            self.assertEqual(len(table.best("best low(a)")), 1)


class OfFrames(TestCase):
    @unittest.skipIf(sys.version_info < (3, 11), "where Python calls signal handlers is known of 3.11 and later")
    def test_at_each_place(self):
        """A change is made or is not, no id is given twice, and nothing is kept from other threads, also where a column becomes wider."""
        changes = [lambda frame: frame.insert({"x": "0.5"}), lambda frame: frame.update(2, {"x": "7.25"}), lambda frame: frame.insert_many([[8], [9]]),
                   lambda frame: frame.commit(("insert", {"x": "0.125"}), ("delete", 1), ("update", 3, {"x": 4}))]
        count = 0
        for change in changes:
            with self.frame() as frame:
                before = self.rows(frame)
                counted = Interrupter(-1)
                counted.runs(lambda: change(frame))
                behind = self.rows(frame)
            for place in range(1, -counted.left, max(1, 20 // TIMES)):
                interrupter = Interrupter(place)
                with self.frame() as frame:
                    with contextlib.suppress(Interruption):
                        interrupter.runs(lambda: change(frame))
                    with self.subTest(interrupter.where):
                        found = self.rows(frame)
                        self.assertIn(found, (before, behind))
                        said = []
                        thread = threading.Thread(target=lambda: said.append(frame.insert({"x": 1})), daemon=True)
                        thread.start()
                        thread.join(NEVER)
                        self.assertEqual(said, [1 + max(found)], "a lock is lost, or an id is given twice")
                        self.assertEqual(len(frame), len(found) + 1)
                count += 1
        print(f"\n{count} places of changes of a frame", file=sys.stderr)

    def frame(self):
        return prefq.Frame.from_records([{"x": 1}, {"x": 2}, {"x": 3}])

    def rows(self, frame):
        return {row.id: row.x for row in frame.rows()}


if __name__ == "__main__":
    unittest.main()
