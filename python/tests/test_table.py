"""The table, call by call."""
import copy
import inspect
import pickle
import random

import prefq
from support import HOTELS, QUESTION, SKYLINE, TestCase, hotels


class Calls(TestCase):
    def test_changes(self):
        with hotels() as table:
            self.assertEqual(table.insert([55, 1]), 8)
            table.update(8, (56, 1))
            self.assertEqual(table.get(8), [56, 1])
            table.delete(8)
            with self.refuses(prefq.Refused, "no such row 8", kind="client", number=7):
                table.get(8)
            self.assertEqual(table.room(), 1024 - 7)
            self.assertEqual(len(table), 7)

    def test_commit(self):
        with hotels() as table:
            self.assertEqual(table.commit(("delete", 7), ("insert", [1, 1]), ("update", 1, [2, 2]), ["insert", (3, 3)]), 8)
            self.assertEqual(table.commit(("delete", 8)), 0)
            with self.refuses(prefq.Refused, "twice", kind="commit", number=12, place=2):
                table.commit(("delete", 1), ("update", 1, [5, 5]))
            with self.refuses(prefq.Refused, "no such row 7", kind="client", number=7):
                table.commit(("insert", [9, 9]), ("delete", 7))
            self.assertEqual(table.rows(), [(1, [2, 2]), *enumerate(HOTELS[1:6], 2), (9, [3, 3])])
            self.assertEqual(len(table), 7)

    def test_insert_many_adds_all_or_none(self):
        with hotels(capacity=1000) as table:
            ids = table.insert_many([price, 1] for price in range(900))
            self.assertEqual(ids, range(8, 908))
            self.assertEqual([table.get(id) for id in (8, 500, 907)], [[0, 1], [492, 1], [899, 1]])
            with self.refuses(prefq.Refused, "full needed 1001", kind="client", number=8):
                table.insert_many([[1, 1]] * 94)
            self.assertEqual((len(table), table.room()), (907, 93))
            self.assertEqual(table.insert_many([[1, 1]] * 93), range(908, 1001))
            self.assertEqual(table.insert_many([]), range(0))

    def test_insert_many_beside_an_open_query(self):
        with hotels(capacity=20) as table, table.query(QUESTION) as query:
            table.update(1, [1, 1])
            with self.refuses(prefq.Refused, number=8):
                table.insert_many([[1, 1]] * 13)
            table.insert_many([[2, 2]] * 12)
            self.assertEqual([row.id for row in query.answer()], SKYLINE)
            self.assertEqual(table.room(), 1)

    def test_rows_and_length_and_iteration(self):
        with hotels() as table:
            self.assertEqual(table.rows(), list(enumerate(HOTELS, 1)))
            self.assertEqual(list(table), table.rows())
            self.assertEqual(len(table), 7)
        with prefq.Table(["end"]) as empty:
            self.assertEqual((empty.rows(), len(empty), bool(empty)), ([], 0, True))

    def test_the_least_and_the_largest_numbers(self):
        rows = [[-2**63, 2**63 - 1], [0, -1]]
        with prefq.Table(["a", "b"], rows) as table:
            self.assertEqual(table.rows(), list(enumerate(rows, 1)))

    def test_what_is_shown(self):
        with hotels() as table:
            self.assertEqual(repr(table), "<prefq.Table of price, dist: 7 rows>")
            query = table.query(QUESTION)
            self.assertIn("1 blocks left", repr(query))
            query.abandon()
            self.assertIn("ended", repr(query))
        self.assertIn("closed", repr(table))

    def test_a_table_is_not_copied(self):
        with hotels() as table:
            for copies in (pickle.dumps, copy.copy, copy.deepcopy):
                with self.refuses(TypeError, "rows()"):
                    copies(table)


class Opening(TestCase):
    def test_capacity_fits_the_rows(self):
        for count, capacity in [(0, 1024), (512, 1024), (3000, 6000), (40000, 65536)]:
            with prefq.Table(["x"], [[1]] * count) as table:
                self.assertEqual((table.capacity, table.room(), len(table)), (capacity, capacity - count, count))

    def test_a_capacity_that_is_given_stays(self):
        with self.refuses(prefq.Refused, "full needed 7", kind="opening", number=8):
            hotels(capacity=6)

    def test_more_text_than_one_opening_takes(self):
        rows = [[-2**63 + row + column for column in range(16)] for row in range(52_000)]
        with prefq.Table([f"c{number}" for number in range(16)], rows, capacity=52_000) as table:
            self.assertEqual((len(table), table.room()), (52_000, 0))
            self.assertEqual([table.get(id) for id in (1, 49_000, 52_000)], [rows[id - 1] for id in (1, 49_000, 52_000)])

    def test_generators(self):
        with prefq.Table((name for name in "ab"), ((number for number in row) for row in HOTELS)) as table:
            self.assertEqual(table.rows(), list(enumerate(HOTELS, 1)))


class Questions(TestCase):
    def test_an_answer(self):
        with hotels() as table:
            answer = table.best(QUESTION)
            self.assertEqual([(row.level, row.id, [row.price, row["dist"]]) for row in answer], [(1, id, HOTELS[id - 1]) for id in SKYLINE])
            self.assertEqual(answer, [dict(zip(table.columns, HOTELS[id - 1])) for id in SKYLINE])
            self.assertEqual([(row.level, row.id) for row in table.best("at_least 3 low(price)")], [(1, 1), (2, 2), (3, 4)])

    def test_a_query_sees_its_snapshot(self):
        with hotels(block=2, capacity=16) as table, table.query(QUESTION) as query:
            self.assertEqual((query.left, query.scan()), (8, 7))
            table.insert([1, 1])
            table.delete(1)
            self.assertEqual([row.id for row in query.answer()], SKYLINE)
            self.assertEqual([row.id for row in table.best(QUESTION)], [8])

    def test_an_ended_query(self):
        with hotels() as table:
            with table.query(QUESTION) as query:
                query.answer()
                for call in (query.answer, query.scan):
                    with self.refuses(prefq.Refused, "ended", kind="client", number=4):
                        call()
            query.abandon()
            with table.query(QUESTION) as query:
                query.scan()
                with self.refuses(prefq.Refused, "all scanned", kind="client", number=5):
                    query.scan()

    def test_a_client_of_ones_own(self):
        with hotels(clients=2) as table:
            with table.query(QUESTION, 2) as mine, table.query(QUESTION, client=1):
                self.assertEqual(mine.client, 2)
                with self.refuses(prefq.Refused, "open query", kind="client", number=3):
                    table.query(QUESTION, 2)
            self.assertEqual(table.query(QUESTION, 2).client, 2)

    def test_every_client_has_an_open_query(self):
        with hotels(clients=3) as table:
            queries = [table.query(QUESTION) for _ in range(3)]
            with self.within(5), self.refuses(prefq.Refused, "each of the 3 clients", kind="client", number=3):
                table.query(QUESTION)
            self.assertEqual(table.insert([1, 1]), 8)
            self.assertEqual([len(query.answer()) for query in queries], [4, 4, 4])
            self.assertEqual([row.id for row in table.best(QUESTION)], [8])

    def test_refused_questions(self):
        with hotels() as table:
            for text, number, place in [("best low(prise)", 2, 9), ("low(price)", 1, 0), ("best low(price", 1, 14), ("top_level 1001 low(price)", 6, 10),
                                        ("skyline of price diff", 7, None), ("best low(price) " + " " * 4096, 5, None), ("", 1, 0), (" \t", 1, 0),
                                        ("best low(price)\nas 1 insert 5,5", 1, 15), ("best low(price)\r", 1, 15)]:
                with self.refuses(prefq.Refused, kind="term", number=number, place=place):
                    table.best(text)
            self.assertEqual([row.id for row in table.best(QUESTION)], SKYLINE)
            self.assertEqual(len(table), 7)

    def test_a_caret_stands_below_the_place(self):
        with hotels() as table:
            with self.refuses(prefq.Refused, "no column 'prise'; did you mean price?\n    best low(prise)\n             ^"):
                table.best("best low(prise)")
            with self.refuses(prefq.Refused, '    best low("é")\n             ^'):
                table.best('best low("é")')

    def test_as_a_plain_program(self):
        chance = random.Random(1)
        rows = [[chance.randrange(100), chance.randrange(100)] for _ in range(500)]
        best = [id for id, (a, b) in enumerate(rows, 1) if not any(c <= a and d <= b and (c, d) != (a, b) for c, d in rows)]
        with prefq.Table(["a", "b"], rows) as table:
            self.assertEqual([row.id for row in table.best("best low(a) * low(b)")], best)


class Errors(TestCase):
    def test_one_base_class_and_pickled(self):
        for error in (prefq.Refused("unknown column at 9", "term", 2, 9, "best low(prise)"), prefq.Ended("it was closed", "closed"), prefq.ProgramNotFound("no program")):
            self.assertIsInstance(error, prefq.Error)
            again = pickle.loads(pickle.dumps(error))
            self.assertEqual((type(again), str(again), vars(again)), (type(error), str(error), vars(error)))


class Annotations(TestCase):
    def test_each_public_call_has_its_types(self):
        """An editor shows them, and a checker of types finds a wrong argument."""
        for name in prefq.__all__:
            thing = getattr(prefq, name)
            own = vars(thing).items() if inspect.isclass(thing) else [(name, thing)]
            for call, function in own:
                if inspect.isfunction(function) and function.__module__.startswith("prefq") and (call == "__init__" or not call.startswith("_")):
                    self.annotated(f"{name}.{call}", inspect.signature(function))

    def annotated(self, call, signature):
        self.assertIsNot(signature.return_annotation, inspect.Signature.empty, call)
        for parameter in signature.parameters.values():
            if parameter.name != "self":
                self.assertIsNot(parameter.annotation, inspect.Parameter.empty, f"{call}, {parameter.name}")
