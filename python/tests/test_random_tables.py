"""Tables under random calls, against a plain table of versions: each reply, each refusal, the room, and answers over the rows that there were at the begin.

PREFQ_TEST_COUNT asks other than 40 tables.
"""
import os
import random
import unittest

import plain
import prefq
from support import TestCase

COUNT = int(os.environ.get("PREFQ_TEST_COUNT", "40"))
STEPS = 60
COLUMNS = ["a", "b", "c"]
LOW_A, LOW_B, HIGH_B = plain.Low("a", "low(a)"), plain.Low("b", "low(b)"), plain.High("b", "high(b)")
NEAR_C = plain.Between("c", "around(c, 3)", 3, 3)
QUESTIONS = [plain.Ask("best low(a) * low(b)", plain.Pareto("", [LOW_A, LOW_B]), levels=1),
             plain.Ask("top_level 2 low(a) & high(b)", plain.Prior("", [LOW_A, HIGH_B]), levels=2),
             plain.Ask("at_least 3 around(c, 3) * low(b) by a", plain.Pareto("", [NEAR_C, LOW_B]), by=["a"], rows=3),
             plain.Ask("top_level 1000 -(low(a) * high(b)) & around(c, 3)", plain.Prior("", [plain.Converse("", plain.Pareto("", [LOW_A, HIGH_B])), NEAR_C]), levels=1000)]


class Full(Exception):
    """So many versions would be needed."""


class Missing(Exception):
    """There is no row with this id."""


class Versions:
    """A plain table: each version of a row has the moments from and to which it counts, and stays while a query of a moment between them is open."""

    def __init__(self, capacity):
        self.capacity, self.now, self.next, self.versions, self.queries = capacity, 0, 1, [], {}

    def rows(self, moment=None):
        moment = self.now if moment is None else moment
        return {id: values for id, values, begin, end in sorted(self.versions) if begin <= moment < end}

    def used(self, versions=None):
        moments = [self.now, *self.queries.values()]
        return sum(any(begin <= moment < end for moment in moments) for _, _, begin, end in (self.versions if versions is None else versions))

    def room(self):
        return self.capacity - self.used()

    def commit(self, changes):
        """Makes changes at one moment, and returns the ids of the new rows."""
        there, versions, new = self.rows(), list(self.versions), []
        for verb, id, values in changes:
            if verb != "insert":
                if id not in there:
                    raise Missing
                versions = [(key, old, begin, self.now + 1 if key == id and end == float("inf") else end) for key, old, begin, end in versions]
            else:
                id = self.next + len(new)
                new.append(id)
            if verb != "delete":
                versions.append((id, values, self.now + 1, float("inf")))
        before, self.now = self.now, self.now + 1
        if self.used(versions) > self.capacity:
            needed, self.now = self.used(versions), before
            raise Full(needed)
        self.versions, self.next = versions, self.next + len(new)
        return new


class Tables(TestCase):
    def test_random_calls(self):
        answers = refused = 0
        for seed in range(COUNT):
            chance = random.Random(seed)
            rows = [self.values(chance) for _ in range(chance.randrange(8))]
            capacity = chance.choice([8, 12, 1024])
            model = Versions(capacity)
            model.versions = [(id, tuple(values), 0, float("inf")) for id, values in enumerate(rows, 1)]
            model.next = len(rows) + 1
            with prefq.Table(COLUMNS, rows, capacity=capacity, clients=4, block=chance.choice([1, 4, 2048])) as table:
                queries = {}
                for _ in range(STEPS):
                    with self.subTest(seed=seed):
                        refused += self.change(chance, table, model)
                        answers += self.ask(chance, table, model, queries)
                        self.assertEqual((table.room(), len(table)), (model.room(), len(model.rows())))
                self.assertEqual(table.rows(), [(id, list(values)) for id, values in model.rows().items()])
        print(f"\n{answers} answers, {refused} refusals", end=" ")

    def values(self, chance):
        return [chance.randrange(4), chance.randrange(-3, 3), chance.choice([chance.randrange(6), 2**63 - 1, -2**63])]

    def change(self, chance, table, model):
        """A change of the table and of the plain one; returns whether both refuse it."""
        ids = chance.sample(range(1, model.next + 1), min(model.next, 3))
        insert, update, delete = (("insert", 0, tuple(self.values(chance))), ("update", ids[0], tuple(self.values(chance))), ("delete", ids[-1], None))
        many = [("insert", 0, tuple(self.values(chance))) for _ in range(chance.randrange(1, 12))]
        changes, call = chance.choice([
            ([insert], lambda: [table.insert(insert[2])]), ([update], lambda: table.update(update[1], update[2])), ([delete], lambda: table.delete(delete[1])),
            (many, lambda: list(table.insert_many([values for _, _, values in many]))),
            ([insert, *[update] * (len(ids) > 1), delete], lambda: [table.commit(("insert", insert[2]), *[("update", *update[1:])] * (len(ids) > 1), ("delete", delete[1]))])])
        try:
            new = model.commit(changes)
        except Missing:
            with self.refuses(prefq.Refused, "no such row", kind="client", number=7):
                call()
            return 1
        except Full as why:
            with self.refuses(prefq.Refused, f"full needed {why.args[0]}:", kind="client", number=8):
                call()
            return 1
        self.assertEqual(call() or [], new)
        return 0

    def ask(self, chance, table, model, queries):
        """Begins, scans, ends or abandons a query, or asks at once; returns how many answers were compared."""
        asked = chance.choice(QUESTIONS)
        if chance.random() < 0.3:
            self.same(table.best(asked.text), asked, model.rows())
            return 1
        client = chance.randrange(1, 4)
        if client not in queries:
            queries[client] = table.query(asked.text, client), asked, model.rows()
            model.queries[client] = model.now
            return 0
        query, asked, rows = queries[client]
        if query.left and chance.random() < 0.5:
            left = query.left
            self.assertEqual(query.scan(), left - 1)
            return 0
        del queries[client], model.queries[client]
        if chance.random() < 0.3:
            query.abandon()
            return 0
        self.same(query.answer(), asked, rows)
        return 1

    def same(self, answer, asked, rows):
        found = asked.answer({id: dict(zip(COLUMNS, values)) for id, values in rows.items()})
        self.assertEqual([(row.level, row.id) for row in answer], found, asked.text)
        self.assertEqual([tuple(row.values()) for row in answer], [rows[id] for _, id in found])


if __name__ == "__main__":
    unittest.main()
