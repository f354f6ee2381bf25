"""Commits, queries and notices of a frame, and a frame for asyncio; over random changes, against a dictionary of rows."""
import asyncio
import os
import random
import unittest
from decimal import Decimal
from fractions import Fraction
from functools import partial
from unittest import mock

import prefq
from prefq.desk import Desk
from prefq.kinds import NotRead
from support import TestCase, around, raises

COUNT = int(os.environ.get("PREFQ_TEST_COUNT", "40"))
SECONDS = 120


def prices(*numbers, **options):
    return prefq.Frame.from_records([{"price": number, "name": f"n{number}"} for number in numbers], **options)


class Commits(TestCase):
    def test_what_it_makes(self):
        with prices(60, 50) as frame:
            self.assertEqual(frame.commit(("update", 1, {"price": 45}), ("delete", 2), ("insert", {"price": 70}), ["insert", [80, "n"]]), 3)
            self.assertEqual([(row.id, row.price, row.name) for row in frame.rows()], [(1, 45, "n60"), (3, 70, None), (4, 80, "n")])
            self.assertEqual(frame.commit(("delete", 4)), 0)
            self.assertEqual(frame.insert({"price": 1}), 5)

    def test_a_column_becomes_wider(self):
        with prices(60, 50) as frame:
            frame.delete(1)
            self.assertEqual(frame.commit(("update", 2, {"price": "49.5"}), ("insert", {"price": Decimal("0.25")})), 3)
            self.assertEqual([(row.id, str(row.price), row.name) for row in frame.rows()], [(2, "49.50", "n50"), (3, "0.25", None)])
            self.assertEqual(frame.commit(("insert", {"price": 1}), ("delete", 3)), 4)
            self.assertEqual([row.id for row in frame.rows()], [2, 4])

    def test_what_is_refused_changes_nothing(self):
        with prices(60, 50, capacity=3) as frame:
            for changes, exception, words in [
                    ([("delete", 7)], prefq.Refused, "no such row 7"),
                    ([("update", 1, {"price": "0.5"}), ("delete", 7)], prefq.Refused, "no such row 7"),
                    ([("update", 1, {"price": "0.5"}), ("delete", 1)], prefq.Refused, "twice place 2"),
                    ([("insert", {"price": 1}), ("insert", {"price": 2})], prefq.Refused, "full needed 4"),
                    ([("insert", {"prise": 1})], prefq.Refused, "price"),
                    ([("insert", {"price": "x"})], ValueError, "price"),
                    ([("update", 1, {"price": "0.5"}), ("insert", {"name": 5})], TypeError, "name"),
                    ([("update", 1)], TypeError, "change 1"),
                    ([("update", -1, {})], ValueError, "change 1, id is -1"),
                    ([], ValueError, "0 changes"),
                    ([("delete", 1)] * 9, ValueError, "9 changes")]:
                with self.subTest(words), self.refuses(exception, words):
                    frame.commit(*changes)
                self.assertEqual([(row.id, row.price) for row in frame.rows()], [(1, 60), (2, 50)])
                self.assertEqual(str(frame.columns[0].kind), "whole")

    def test_one_fault_is_one_exception(self):
        """That of an insert is one that the kind does not take; of the same value among many, and in a commit, it was any ValueError."""
        with prices(60, 50) as frame:
            for value, kind in (("x", NotRead), (Fraction(1, 3), NotRead), (float("inf"), NotRead), (b"5", TypeError)):
                calls = {"": frame.insert, "record 2, ": lambda record: frame.insert_many([{"price": 1}, record]), "change 2, ": lambda record: frame.commit(("delete", 1), ("insert", record))}
                for where, call in calls.items():
                    with self.assertRaises(kind) as caught:
                        call({"price": value})
                    self.assertEqual((type(caught.exception), str(caught.exception).partition("column")[0]), (kind, where))
            self.assertEqual([(row.id, row.price) for row in frame.rows()], [(1, 60), (2, 50)])

    def test_a_change_that_is_refused_leaves_no_texts(self):
        """As full, since open queries have old versions, or since its row is not there: nobody was warned of its texts any more. They come with the next change."""
        refused = {"full needed": [lambda frame: frame.insert({"name": "n9"}), lambda frame: frame.insert_many([{"name": "n8"}, {"name": "n9"}]), lambda frame: frame.update(1, {"name": "n9"}),
                                   lambda frame: frame.commit(("update", 3, {"name": "n9"}), ("insert", {"name": "n8"}))],
                   "no such row": [lambda frame: frame.update(7, [1, "n9"]), lambda frame: frame.update(7, {"name": "n9"}), lambda frame: frame.commit(("update", 7, [1, "n9"]))],
                   "no text": [lambda frame: frame.commit(("update", 1, {"name": "n9"}), ("update", 3, {"name": 9}))]}
        for words, calls in refused.items():
            for call in calls:
                with prices(60, 50, 40, capacity=4) as frame:
                    with frame.query("best low(price)"):
                        frame.delete(2)
                        frame.insert({"name": "n5"})
                        with self.refuses((prefq.Refused, TypeError), words):
                            call(frame)
                        with self.assertWarns(prefq.UnknownValue):
                            frame.best("best pos(name, 'n9')")
                        with self.assertWarns(prefq.UnknownValue):
                            self.assertEqual(frame.best("best high(price)", where="name = 'n9'").ids, [])
                    frame.update(1, {"name": "n9"})
                    frame.update(3, {"name": "n7"})
                    self.assertEqual((frame.best("best pos(name, 'n9')").ids, frame.best("best pos(name, 'n7')").ids, frame.best("best low(price)", where="name = 'n9'").ids), ([1], [3], [1]))
                    self.assertEqual([row.name for row in frame.rows()], ["n9", "n7", "n5"])

    def test_what_a_handler_raises_behind_a_change_takes_no_text(self):
        """Nor what it is refused itself."""
        def is_refused():
            frame.table.update(99, [0, 0])

        for behind in (raises(prefq.Refused("other")), is_refused):
            with prices(60) as frame, around(frame.table, "insert", behind=behind):
                with self.assertRaises(prefq.Refused):
                    frame.insert({"name": "n9"})
                self.assertEqual(frame.best("best pos(name, 'n9')").ids, [2])

    def test_random_commits(self):
        """As many changes of a dictionary. Queries that were begun before answer over the rows that there were."""
        commits = 0
        for seed in range(COUNT):
            chance, model, last = random.Random(seed), {}, 0
            with prefq.Frame.empty(["x", "y"], {"x": "decimal(1)", "y": "whole"}, clients=3) as frame:
                open_queries = []
                for _ in range(12):
                    changes, after, new = self.changes(chance, model, last)
                    if changes:
                        self.assertEqual(frame.commit(*changes), last + 1 if new else 0)
                        commits += 1
                        model, last = after, last + new
                    self.assertEqual({row.id: (row.x, row.y) for row in frame.rows()}, model)
                    if len(open_queries) < 2:
                        open_queries.append((frame.query("best low(x) * high(y)"), model))
                    elif chance.random() < 0.5:
                        query, before = open_queries.pop(chance.randrange(2))
                        self.assertEqual([(row.id, (row.x, row.y)) for row in query.answer()], best(before))
        print(f"\n{commits} commits", end=" ")

    def changes(self, chance, model, last):
        """Changes, the rows behind them, and how many are new."""
        after, new, left, changes = dict(model), 0, sorted(model), []
        for _ in range(chance.randrange(1, 9)):
            verb = chance.choice(["insert", "insert", "update", "delete"])
            values = (Decimal(chance.randrange(50)) / 10, chance.randrange(5))
            if verb == "insert":
                new += 1
                after[last + new] = values
                changes.append(("insert", {"x": values[0], "y": values[1]}))
            elif left:
                id = left.pop(chance.randrange(len(left)))
                if verb == "delete":
                    del after[id]
                    changes.append(("delete", id))
                else:
                    after[id] = (values[0], model[id][1])
                    changes.append(("update", id, {"x": str(values[0])}))
        return changes, after, new


def best(rows):
    """The rows that no other row dominates: with the smaller x and the larger y."""
    return [(id, (x, y)) for id, (x, y) in sorted(rows.items()) if not any(a <= x and b >= y and (a, b) != (x, y) for a, b in rows.values())]


class Queries(TestCase):
    def test_a_snapshot(self):
        with prices(60, 50, block=1, capacity=5) as frame:
            with frame.query("best low(price)") as query:
                self.assertEqual((query.left, query.scan()), (5, 4))
                frame.delete(2)
                frame.insert({"price": "0.5"})
                answer = query.answer()
            self.assertEqual([(row.id, row.price, row.name) for row in answer], [(2, 50, "n50")])
            self.assertEqual(frame.best("best low(price)").ids, [3])

    def test_what_is_refused(self):
        with prices(60, 50) as frame:
            with self.refuses(prefq.Refused, "did you mean", "price", kind="term", place=9):
                frame.query("best low(prise)")
            query = frame.query("best low(price)")
            query.abandon()
            with self.refuses(prefq.Refused, "this query has ended", number=4):
                query.answer()
            self.assertIn("ended", repr(query))

    def test_unknown_values_are_warned_of(self):
        with prices(60, 50) as frame, self.assertWarns(prefq.UnknownValue):
            frame.query("best pos(name, 'm')").answer()


class Notices(TestCase):
    def test_each_change(self):
        with prices(60, 50) as frame:
            seen = []
            end = frame.subscribe(lambda: seen.append(len(frame)))
            frame.insert({"price": 1})
            frame.insert_many([[2, "a"], [3, "b"]])
            frame.update(1, {"price": "0.5"})
            frame.commit(("delete", 1), ("delete", 2))
            frame.delete(3)
            with self.assertRaises(prefq.Refused):
                frame.delete(3)
            end()
            frame.insert({"price": 1})
            self.assertEqual(seen, [3, 5, 5, 3, 2])

    def test_a_subscription_is_ended_twice(self):
        """The second time does nothing, also where the same function was subscribed by somebody else."""
        with Desk(prices(60, 50)) as desk:
            for rows in (desk, desk._frame):
                seen = []
                call = partial(seen.append, 1)
                end, _ = rows.subscribe(call), rows.subscribe(call)
                end()
                end()
                desk.insert({"price": 1})
                self.assertEqual(seen, [1])

    def test_who_is_told_behind_one_that_raises(self):
        """Of a change of a frame and of a desk, which is made."""
        frame = prices(60, 50)
        with Desk(frame) as desk:
            for rows in (frame, desk):
                with self.subTest(rows=type(rows)):
                    seen = []
                    ends = [rows.subscribe(raises(ValueError("a subscriber"))), rows.subscribe(lambda: seen.append(len(frame)))]
                    with mock.patch("threading.excepthook", lambda why: seen.append(str(why.exc_value))):
                        self.assertEqual(desk.insert({"price": 1}), len(frame))
                    self.assertEqual(seen, ["a subscriber", len(frame)])
                    for end in ends:
                        end()
            self.assertEqual((len(frame), len(desk.picture("best low(price)").rows)), (4, 4))


class Asyncio(TestCase):
    def run_async(self, function):
        return asyncio.run(asyncio.wait_for(function(), SECONDS))

    def test_each_call(self):
        async def main():
            async with await prefq.AsyncFrame.open(prefq.Frame.from_records, [{"x": 1, "y": 2}, {"x": 2, "y": 3}], clients=2) as frame:
                self.assertEqual(repr(frame), "<prefq.AsyncFrame of x, y>")
                self.assertEqual((await frame.insert({"x": "0.5"}), await frame.insert_many([[5, 6], [7, 8]]), len(frame)), (3, range(4, 6), 5))
                await frame.update(1, {"x": 9})
                await frame.delete(5)
                self.assertEqual(await frame.commit(("delete", 4), ("insert", {"y": 1})), 6)
                self.assertEqual(([row.id for row in await frame.rows()], (await frame.get(1)).x, str(frame.columns[0].kind)), ([1, 2, 3, 6], 9, "decimal(1)"))
                self.assertEqual(await frame.room(), 1020)
                answers = await asyncio.gather(*(frame.best(f"best around(x, {x})") for x in (1, 2, 9, 8)))
                self.assertEqual([answer.ids for answer in answers], [[3], [2], [1], [1]])
                self.assertEqual((await frame.why(2, "best low(x)")).ids, [3])
                with self.refuses(prefq.Refused, kind="term"):
                    await frame.best("best low(z)")
            with self.refuses(prefq.Ended, kind="closed"):
                await frame.get(1)
        self.run_async(main)

    def test_cancelled_questions_leave_no_query(self):
        async def main():
            rows = [{"x": number, "y": -number} for number in range(200)]
            async with await prefq.AsyncFrame.open(prefq.Frame.from_records, rows, clients=2, block=8) as frame:
                chance = random.Random(1)
                for _ in range(20):
                    tasks = [asyncio.ensure_future(frame.best("best low(x) * low(y)")) for _ in range(4)]
                    await asyncio.sleep(chance.random() * 0.01)
                    for task in tasks:
                        task.cancel()
                    await asyncio.gather(*tasks, return_exceptions=True)
                del tasks, task
                self.assertEqual([len(answer) for answer in await asyncio.gather(*(frame.best("best low(x)") for _ in range(4)))], [1] * 4)
                self.assertEqual(await frame.room(), 1024 - 200)
        self.run_async(main)

    def test_the_opening_is_refused(self):
        async def main():
            with self.refuses(TypeError, "row 1 is no mapping"):
                await prefq.AsyncFrame.open(prefq.Frame.from_records, [5])
        self.run_async(main)


if __name__ == "__main__":
    unittest.main()
