"""Questions over parts with expressions, `true(..)`, `|` and `empty()`: by name, and of random parts as by a plain evaluation and as one frame over all rows has them.

PREFQ_TEST_COUNT is how many questions are asked (of 6 parts at most), and PREFQ_TEST_SEED begins other ones.
"""
import datetime
import random
import sqlite3
import tempfile
import unittest
import warnings
from decimal import Decimal
from pathlib import Path
from unittest import mock

import plain
import plain_expressions
import prefq
import random_frames
import test_expressions
import test_hasse
from prefq import low, parts
from prefq.checks import MOST_ROWS
from prefq.parts import Partition, best, why
from support import TestCase, needs, pairs
from test_ask import run
from test_parts_kinds import QUESTIONS, QUESTIONS_OF_A_FRAME, SEED, Deal

HOTELS = [Partition(["price", "stars", "city"], [[120, 4, "Lyon"], [90, 2, "Bern"]]), Partition(["stars", "city", "price"], [[3, "Lyon", Decimal("74.50")], [None, "Köln", 60]]),
          Partition(["city", "price", "stars"], [["Köln", 149.0, 5.0], [None, None, 0.5]])]
ROWS = [{"price": price, "stars": stars, "city": city} for price, stars, city in [
    (120, 4, "Lyon"), (90, 2, "Bern"), (Decimal("74.50"), 3, "Lyon"), (60, None, "Köln"), (149, 5, "Köln"), (None, Decimal("0.5"), None)]]
EARLY, LATE = datetime.date(2026, 5, 1), datetime.datetime(2026, 5, 1, 10)


class Random(TestCase):
    """As by a plain evaluation on Python's values, and as a frame over all rows."""

    def term(self, chance, deal):
        """A term with an expression, or with `|`; and the expression, if there is one."""
        questions, expressions = random_frames.Questions(chance, deal.columns), plain_expressions.Expressions(chance, deal.columns)
        if chance.random() < 0.2:
            return test_hasse.Random().intersection(chance, questions), None
        part, text, term = next(found for found in iter(lambda: test_expressions.Random().asked(chance, expressions), None) if not found[0].is_column)
        other = questions.term(1)
        sign, product = chance.choice([("*", plain.Pareto), ("&", plain.Prior)])
        return product(f"-{text} {sign} ({other.text})", [plain.Converse("", term), other]), part

    def question(self, chance, deal):
        """A question, the expression in it, and what is asked beside it."""
        term, part = self.term(chance, deal)
        count, by = chance.randrange(1, 5), chance.sample(list(deal.columns), chance.choice([0, 0, 1]))
        mode, levels, rows = chance.choice([("best", 1, None), (f"top_level {count}", count, None), (f"at_least {count}", None, count)])
        groups = " by " + ", ".join(map(random_frames.Questions(chance, deal.columns).quoted, by)) if by else ""
        where = chance.choice([None, None, plain_expressions.Expressions(chance, deal.columns).condition()])
        top = chance.choice([None, None, chance.randrange(1, 8)])
        ties = None if top is None else chance.choice([None, random_frames.Questions(chance, deal.columns).term(1)])
        return plain.Ask(f"{mode} {term.text}{groups}", term, by, levels, rows), part, where, top, ties

    def one(self, chance, deal, frame):
        asked, part, where, top, ties = self.question(chance, deal)
        beside = {"where": where and where.text, "top": top, "ties": ties and ties.text}
        try:
            rows = {id: row for id, row in deal.rows.items() if where is None or where.of(row)}
            valued = {id: row if part is None else {**row, part.text: part.of(row)} for id, row in rows.items()}
        except plain_expressions.Nothing:
            for call in (lambda: frame.best(asked.text, **beside), lambda: best(deal.sources, asked.text, kinds=deal.given, delimiter=",", **beside)):
                with self.assertRaises(prefq.Refused):
                    call()
            return
        wanted = asked.answer(valued) if top is None else plain.first(asked, valued, top, ties)
        self.assertEqual(pairs(best(deal.sources, asked.text, kinds=deal.given, delimiter=",", **beside)), wanted, (asked.text, beside))
        try:
            self.assertEqual(pairs(frame.best(asked.text, **beside)), wanted, (asked.text, beside))
        except prefq.Refused as why_not:        # what each part has in 64 bits, all of them may have not
            self.assertIn("too fine", str(why_not))
        if rows and top is None:
            id = chance.choice(list(rows))
            found = why(deal.sources, id, asked.text, kinds=deal.given, delimiter=",", where=beside["where"])
            self.assertEqual(sorted(found.ids), asked.dominators(valued, id), (asked.text, beside, id))
            levels = asked.levels_of(valued)
            self.assertEqual(found.levels, sorted(levels[id] for id in found.ids), (asked.text, beside, id))

    def test_as_by_a_plain_evaluation_and_as_one_frame(self):
        chance, asked, refused = random.Random(SEED), 0, 0
        while asked < QUESTIONS:
            with tempfile.TemporaryDirectory() as folder, mock.patch.object(parts, "MERGED", 2), warnings.catch_warnings():
                warnings.simplefilter("ignore", prefq.UnknownValue)
                deal = Deal(chance, folder)
                with prefq.Frame.from_records(deal.records, kinds={name: kind.spelling for name, kind in deal.columns.items()}) as frame:
                    for _ in range(QUESTIONS_OF_A_FRAME):
                        asked += 1
                        with self.subTest(question=asked):
                            try:
                                self.one(chance, deal, frame)
                            except prefq.Refused as why_not:
                                self.assertRegex(str(why_not), "that are written are compared|names a column|are words such as n/a|too fine|is a condition")
                                refused += 1
        self.assertLessEqual(5 * refused, asked)


class Together(TestCase):
    """Over a few parts, by name."""

    def test_as_one_frame_has_it(self):
        """The price is whole in one part, a decimal in another, and a float in a third."""
        questions = ["best low(price / stars)", "top_level 3 high(stars - price / 100) by city", "best true(stars >= 3 and city <> 'Bern')", "at_least 3 low(abs(price - 100))",
                     "best around(price / stars, 31) & low(price)", "top_level 2 low(price) | high(stars)", "at_least 4 empty() & low(min(price, 20 * stars))",
                     "best -low(price * stars) * high(price)", "best pos(stars * 2, 10, 1)", "top_level 9 layered(price / stars, {45}, {30})", "at_least 2 low(-price)"]
        with prefq.Frame.from_records(ROWS) as frame:
            for question in questions:
                for beside in ({}, {"where": "price is not missing"}, {"top": 2}, {"top": 3, "ties": "high(stars / price)"}):
                    with self.subTest(question, **beside):
                        self.assertEqual(pairs(best(HOTELS, question, **beside)), pairs(frame.best(question, **beside)))
            self.assertEqual(best(HOTELS, "best low(price / stars)", by="city").ids, frame.best("best low(price / stars)", by="city").ids)
            self.assertEqual(best(HOTELS, low(prefq.expr("price / stars"))).ids, frame.best(low(prefq.expr("price / stars"))).ids)
            for id in range(1, 7):
                found, wanted = why(HOTELS, id, "best low(price / stars) * high(stars)"), frame.why(id, "best low(price / stars) * high(stars)")
                self.assertEqual((found.ids, found.levels), (wanted.ids, wanted.levels))

    def test_numbers_are_exact(self):
        """As floats 0.1 + 0.2 and 0.3 would differ, and so would thirds that are added in another part."""
        some = [Partition(["a", "b"], [[0.1, 0.2]]), Partition(["a", "b"], [[Decimal("0.3"), 0], [1, Decimal("-0.70")]])]
        self.assertEqual(best(some, "best low(a + b)").ids, [1, 2, 3])
        self.assertEqual(best([Partition(["a", "b"], [[1, 3]]), Partition(["a", "b"], [[2, 6], [5, 15.0]])], "best low(a / b)").ids, [1, 2, 3])
        self.assertEqual(best([Partition(["a", "b"], [[2**62, 2**62]]), Partition(["a", "b"], [[2**62, 2**62 - 1]])], "best high(a * b)").ids, [1])

    def test_at_least_goes_on_as_far_as_it_needs(self):
        """Each part is asked for levels, of which all rows together may have more."""
        rows = [[number, 40 - number] for number in range(40)]
        for question in ("at_least 9 low(x + 2 * y)", "at_least 9 empty() & high(x)", "at_least 9 low(x) & high(y) | high(-x)"):
            with prefq.Frame.from_records([{"x": x, "y": y} for x, y in rows]) as frame:
                self.assertEqual(pairs(best([Partition(["x", "y"], rows[:39]), Partition(["y", "x"], [row[::-1] for row in rows[39:]])], question)), pairs(frame.best(question)), question)

    def test_columns_in_another_order(self):
        """`empty()` is about no column, whichever a part has first."""
        some = [Partition(["b", "a"], [["x", 1], ["y", 2]]), Partition(["a", "b"], [[3, "x"]])]
        self.assertEqual(best(some, "best empty()").ids, [1, 2, 3])
        self.assertEqual(best(some, "best empty() & low(a)").ids, [1])

    def test_what_a_condition_leaves_out_is_not_computed(self):
        with self.refuses(prefq.Refused, "partition 3: row 2 has 0 behind the /, by which nothing is divided", kind="term", place=15):
            best([*HOTELS[:2], Partition(["city", "price", "stars"], [["Köln", 149, 5.0], [None, 3, 0.5]])], "best low(price / (stars - 0.5))")
        self.assertEqual(best(HOTELS, "best low(price / (stars - 4))", where="stars > 4 or stars < 4").ids, [3])
        self.assertEqual(best(HOTELS, "best low(10 / (stars - 4))", where="price > 121").ids, [5])

    def test_the_row_is_named_by_its_number_in_its_partition(self):
        some = [Partition(["x", "y"], [[1, 1], [9, 0]]), Partition(["x", "y"], [[0, 1], [0, 5], [3, 0]])]
        with self.refuses(prefq.Refused, "partition 2: row 3 has 0 behind the /"):
            best(some, "best low(x / y)", where="x < 5 and x <> 1 or x = 1")
        with self.refuses(prefq.Refused, "partition 2: column 'x' has the kind text, and numbers are computed with"):
            best([some[0], Partition(["x", "y"], [["a", 1]])], "best low(x + y)", where="y > 0")

    def test_what_is_refused(self):
        for question, says in [("best low(prise / 2)", "did you mean price?"), ("best low(1 + 2)", "an expression names a column"), ("best low(price) | (low(price) * low(stars))", "| stands between terms by which any two rows"),
                               ("best around(price / stars, x)", "unexpected x"), ("best low(city * 2)", "partition 1: column 'city' has the kind text")]:
            with self.subTest(question), self.refuses(prefq.Refused, says, kind="term"):
                best([part for part in HOTELS if part is not HOTELS[2]], question)

    def test_a_part_without_a_value_takes_every_expression(self):
        nothing = Partition(["city", "price", "stars"], [[None, None, None], [None, None, 3]])
        for question, ids in [("best low(price / stars)", [3]), ("best true(city = 'Lyon')", [1, 3]), ("best true(price is missing)", [6, 7, 8]), ("best low(abs(price) - 60)", [4])]:
            with self.subTest(question):
                self.assertEqual(best([*HOTELS, nothing], question).ids, ids)
                self.assertEqual(best([nothing, *HOTELS], question).ids, sorted(id - 6 if id > 6 else id + 2 for id in ids))

    def test_dates_and_times(self):
        days = [Partition(["a", "b"], [[EARLY, EARLY + datetime.timedelta(2)]]), Partition(["a", "b"], [[EARLY, EARLY + datetime.timedelta(1)]])]
        self.assertEqual(best(days, "best low(b - a)").ids, [2])
        self.assertEqual(best(days, "best true(b = '2026-05-03')").ids, [1])
        with self.refuses(prefq.Refused, "is date in partition 1 and time in partition 2, so that a condition or an expression would mean something else in each", kind="table"):
            best([days[0], Partition(["a", "b"], [[LATE, LATE]])], "best low(b - a)")
        zones = [datetime.timezone.utc, datetime.timezone(datetime.timedelta(hours=2))]
        some = [Partition(["a"], [[LATE.replace(tzinfo=zone)]]) for zone in zones]
        with self.refuses(prefq.Refused, "'2026-05-01 09:00' would be another moment in each: write its offset", kind="table"):
            best(some, "best true(a > '2026-05-01 09:00')")
        self.assertEqual(best(some, "best true(a > '2026-05-01 09:00Z')").ids, [1])

    def test_a_value_that_no_part_has(self):
        with self.assertWarnsRegex(prefq.UnknownValue, "no row of 'city' has 'Lion'; did you mean 'Lyon'?"):
            best(HOTELS, "best true(city = 'Lion')")
        for call in (lambda: best(HOTELS, "best low(price) | pos(city, 'Lion')"), lambda: why(HOTELS, 1, "best true(city = 'Lion')"), lambda: why(HOTELS, 1, "best low(price)", where="city <> 'Lion'")):
            with self.assertWarnsRegex(prefq.UnknownValue, "no row of 'city' has 'Lion'") as caught:
                call()
            self.assertEqual(caught.filename, __file__)
        with warnings.catch_warnings():
            warnings.simplefilter("error")
            self.assertEqual(best(HOTELS, "best true(city = 'Bern')").ids, [2])     # which the other parts do not have
            self.assertEqual(best(HOTELS, "best high(stars > 3)", top=1, ties="pos(price * 2, 298)").ids, [5])

    def test_words_that_may_be_missing(self):
        with tempfile.TemporaryDirectory() as folder:
            paths = [f"{folder}/{number}.csv" for number in range(2)]
            for path, text in zip(paths, ["x,n\nNA,1\nn/a,2\n", "x,n\n5,3\n"]):
                with open(path, "w", encoding="utf-8") as file:
                    file.write(text)
            self.assertEqual(best(paths, "best low(x * 2)").ids, [3])
            self.assertEqual(best(paths, "best true(x is missing) & high(n)").ids, [2])
            with open(paths[1], "w", encoding="utf-8") as file:
                file.write("x,n\nDE,3\n")
            self.assertEqual(best(paths, "best true(x = 'NA')").ids, [1])
            self.assertEqual(best(paths, "best true(x is missing) & high(n)").ids, [3])


class Ways(TestCase):
    """All ways to ask more rows than one table holds."""

    QUESTION, IDS = "low(abs(price - 1000.5) / 2) & true(city = 'Bern')", [1001]
    ROWS = [{"price": price, "city": ["Lyon", "Bern"][price % 2]} for price in range(MOST_ROWS + 5)]

    def test_records_and_cursors(self):
        db = sqlite3.connect(":memory:")
        self.addCleanup(db.close)
        db.execute("create table hotels (price integer, city text)")
        db.executemany("insert into hotels values (:price, :city)", self.ROWS)
        for source in (self.ROWS, db.execute("select * from hotels order by price")):
            self.assertEqual([row.price for row in prefq.psel(source, self.QUESTION)], self.IDS)

    def test_a_dataframe_of_dask(self):
        for module in ("pandas", "dask"):
            needs(self, module)
        import pandas
        from dask import dataframe, delayed
        some = pandas.DataFrame(self.ROWS[:2000])
        frame = dataframe.from_pandas(some, npartitions=3)
        self.assertEqual(prefq.psel(frame, self.QUESTION)["price"].tolist(), self.IDS)
        self.assertEqual([row.price for row in best(frame, f"best {self.QUESTION}")], self.IDS)
        self.assertEqual(why(frame, 1001, f"best {self.QUESTION}").ids, [1002])
        mixed = dataframe.from_delayed([delayed(some.iloc[:5]), delayed(some.iloc[5:9].astype({"price": str}))], meta=some, verify_meta=False)
        with self.refuses(prefq.Refused, "column 'price' is whole in partition 1 and text in partition 2", kind="table"):
            best(mixed, "best pos(price, 5)")

    def test_several_files(self):
        with tempfile.TemporaryDirectory() as folder:
            for number, rows in enumerate(["50,2\n60,4\n", "70.5,0\n45,\n"]):
                Path(folder, f"{number}.csv").write_text(f"price,stars\n{rows}")
            done = run("ask", f"{folder}/*.csv", "best low(price / stars)", "--where", "stars > 0", "--csv")
            self.assertEqual((done.returncode, done.stdout), (0, "level,id,price,stars\n1,2,60,4\n"), done.stderr)
            done = run("ask", f"{folder}/*.csv", "best low(price / stars)")
            self.assertEqual((done.returncode, done.stdout), (2, ""))
            self.assertIn("1.csv: row 1 has 0 behind the /, by which nothing is divided: leave such rows out by --where", done.stderr)


if __name__ == "__main__":
    unittest.main()
