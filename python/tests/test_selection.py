"""Exactly so many rows, groups that are given beside the question, queries with these, and what is refused."""
import asyncio
import os
import random
import sqlite3
import tempfile
import unittest
import unittest.mock
import warnings
from contextlib import contextmanager
from functools import partial
from pathlib import Path

import prefq
import random_frames
from plain import first
from prefq import high, low
from prefq.checks import MOST_ROWS
from prefq.selection import Selection, selected
from support import FrameTestCase, TestCase, pairs
from test_ask import run

try:
    import pandas
except ImportError:
    pandas = None

QUESTIONS = int(os.environ.get("PREFQ_TEST_COUNT", 1000)) // 5
SEED = int(os.environ.get("PREFQ_TEST_SEED", 20260501))
HOTELS = [{"city": "Lyon", "price": 50, "dist": 8}, {"city": "Lyon", "price": 60, "dist": 5}, {"city": "Bern", "price": 80, "dist": 2},
          {"city": "Bern", "price": 70, "dist": 6}, {"city": "Bern", "price": 90, "dist": 2}, {"city": "Lyon", "price": 95, "dist": 9}]


@contextmanager
def random_frame(chance):
    """A random frame, its rows by their ids, and random questions about it."""
    columns, records = random_frames.frame(chance)
    given = {name: kind.spelling for name, kind in columns.items() if kind.is_given}
    with prefq.Frame.from_records(records, kinds=given) as frame:
        yield frame, dict(enumerate(records, 1)), random_frames.Questions(chance, columns)


class Top(FrameTestCase):
    records = HOTELS

    def test_exactly_so_many_rows(self):
        question = "best low(price) * low(dist)"
        for top, wanted in [(1, [(1, 1)]), (2, [(1, 1), (1, 2)]), (4, [(1, 1), (1, 2), (1, 3), (2, 4)]), (5, [(1, 1), (1, 2), (1, 3), (2, 4), (2, 5)]), (1000, None)]:
            with self.subTest(top=top):
                answer = self.frame.best(question, top=top)
                self.assertEqual(pairs(answer), wanted or [(1, 1), (1, 2), (1, 3), (2, 4), (2, 5), (3, 6)])

    def test_a_mode_of_levels_or_rows_stays(self):
        self.assertEqual(self.frame.best("top_level 2 low(price) * low(dist)", top=6).ids, [1, 2, 3, 4, 5])
        self.assertEqual(self.frame.best("at_least 2 low(price) * low(dist)", top=6).ids, [1, 2, 3])
        self.assertEqual(self.frame.best("at_least 2 low(price) * low(dist)", top=2).ids, [1, 2])

    def test_ties_by_a_preference(self):
        question = "best low(price) * low(dist)"
        self.assertEqual(self.frame.best(question, top=2, ties="low(dist)").ids, [2, 3])
        self.assertEqual(self.frame.best(question, top=2, ties=-low("price")).ids, [2, 3])
        self.assertEqual(self.frame.best(question, top=4, ties="high(price)").ids, [1, 2, 3, 5])
        self.assertEqual(self.frame.best(question, top=3, ties="high(price)").ids, [1, 2, 3])

    def test_in_each_group(self):
        self.assertEqual(pairs(self.frame.best("best low(price) by city", top=2)), [(1, 1), (1, 4), (2, 2), (2, 3)])
        self.assertEqual(pairs(self.frame.best("best low(price)", top=2, by="city")), [(1, 1), (1, 4), (2, 2), (2, 3)])
        self.assertEqual(pairs(self.frame.best("best low(dist)", top=1, ties="high(price)", by=["city"])), [(1, 2), (1, 5)])

    def test_of_a_clause(self):
        with prefq.Frame.from_records([{"x": 1, "y": 2}, {"x": 1, "y": 2}, {"x": 2, "y": 1}, {"x": 3, "y": 3}]) as frame:
            self.assertEqual(frame.best("skyline of x min, y min", top=4).ids, [1, 2, 3, 4])
            self.assertEqual(frame.best("skyline of distinct x min, y min", top=4).ids, [1, 3])
            self.assertEqual(frame.best("skyline of distinct x min, y min", top=1).ids, [1])

    def test_psel(self):
        for question in ("low(price) * low(dist)", low("price") * low("dist")):
            self.assertEqual(pairs(prefq.psel(HOTELS, question, top=4)), [(1, 1), (1, 2), (1, 3), (2, 4)])
            self.assertEqual(pairs(prefq.psel(self.frame, question, top=1, ties="high(price)")), [(1, 3)])
        for where in ("price > 60", prefq.expr("price > 60")):
            self.assertEqual(prefq.psel(self.frame, "low(price)", where=where).ids, [4])
        self.assertEqual(prefq.psel(HOTELS, "low(price) * low(dist)", top_level=1, top=4).ids, [1, 2, 3])

    def test_how_many_levels_beside_a_question_that_says_it(self):
        """A mode of the question was taken, and the argument left out of account."""
        for question in ("best low(price)", "top_level 2 low(price)", "at_least 2 low(price)", "skyline of price min", "Skyline of price min"):
            for levels in ({"top_level": 2}, {"at_least": 2}):
                with self.subTest(question, **levels), self.refuses(prefq.Refused, "the question says itself how many levels are wanted", kind="arguments"):
                    prefq.psel(self.frame, question, **levels)
        self.assertEqual(pairs(prefq.psel(self.frame, "low(price)", top_level=2)), pairs(prefq.psel(self.frame, "top_level 2 low(price)")))

    def test_what_is_refused(self):
        for top in (0, -1, 1001):
            with self.refuses(ValueError, f"top is {top}: not from 1 to 1000"):
                self.frame.best("best low(price)", top=top)
        class Two:
            def __index__(self):
                return 2

        for ask in (lambda **words: self.frame.best("best low(price)", **words), lambda **words: prefq.psel(HOTELS, "low(price)", **words)):
            self.assertEqual(len(ask(top=Two())), 2)       # as numpy and enumerations have it
        for top in (True, 2.5, "3"):
            with self.refuses(TypeError, "top is", "not a whole number"):
                self.frame.best("best low(price)", top=top)
        with self.refuses(prefq.Refused, "it needs top="):
            self.frame.best("best low(price)", ties="low(dist)")
        with self.refuses(prefq.Refused, "no column 'prise'; did you mean price?", "    low(prise)\n        ^", kind="term", place=4):
            self.frame.best("best low(dist)", top=1, ties="low(prise)")
        for ties, says in [("low(prise)", "did you mean price?"), ("low(city)", "has texts, which have no order"), ("best low(price)", "without best, top_level and so on"),
                           ("at_least 2 low(price)", "without best, top_level and so on"), ("low(price) by city by", "Here could stand")]:
            with self.refuses(prefq.Refused, says, kind="term"):
                self.frame.best("best low(price)", top=1, ties=ties)      # of which there is one alone
        for by in (None, "city"):       # whether rows have to be told apart by it or not
            for ties in ("low(dist) by city", prefq.low("dist").by("city")):
                with self.refuses(prefq.Refused, "is a preference, as low(x), without best, top_level and so on, and without groups", kind="term"):
                    self.frame.best("best low(price)", top=1, ties=ties, by=by)
        for wrong in (5, [], {"low(dist)": 1}):     # of which some cannot be looked up among the answers that are kept
            for ask in (self.frame.best, self.frame.query, partial(self.frame.why, 1)):
                with self.refuses(TypeError, f"a question is a text, not {wrong!r}"):
                    ask(wrong)
                with self.refuses(TypeError, f"a condition is a text, not {wrong!r}"):
                    ask("best low(dist)", where=wrong)
            with self.refuses(TypeError, f"a question is a text, not {wrong!r}"):
                self.frame.best("best low(dist)", top=1, ties=wrong)
        with self.refuses(prefq.Refused, "no column 'citi'; did you mean city?", kind="arguments"):
            self.frame.best("best low(dist)", by="citi")
        with self.refuses(prefq.Refused, "the question has groups itself"):
            self.frame.best("best low(dist) by city", by="city")
        with self.refuses(TypeError, "by is a name of a column or a list of them, not 5"):
            self.frame.best("best low(dist)", by=["city", 5])
        with self.refuses(TypeError, "by is a name of a column or a list of them, not 5"):
            self.frame.best("best low(dist)", by=5)
        with self.refuses(prefq.Refused, "show_level=False leaves the column .level out of a DataFrame"):
            prefq.psel(HOTELS, "low(price)", show_level=False)
        with self.refuses(TypeError, "psel has no option 'topp'; did you mean 'top'?"):
            prefq.psel(HOTELS, "low(price)", topp=3)
        for name, meant in [("limit", "top"), ("filter", "where"), ("group_by", "by")]:
            with self.refuses(TypeError, f"psel has no option '{name}': it is called '{meant}' here"):
                prefq.psel(HOTELS, "low(price)", **{name: 3})

    @unittest.skipIf(pandas is None, "pandas is not installed")
    def test_a_dataframe_without_levels(self):
        frame = pandas.DataFrame(HOTELS, index=list("abcdef"))
        found = prefq.psel(frame, "low(price) * low(dist)", top=4)
        self.assertEqual((list(found.columns), list(found.index), list(found[".level"])), ([".level", "city", "price", "dist"], list("abcd"), [1, 1, 1, 2]))
        found = prefq.psel(frame, "low(price) * low(dist)", top=2, by="city", show_level=False)
        self.assertEqual((list(found.columns), list(found.index)), (["city", "price", "dist"], list("abcd")))

    @unittest.skipIf(pandas is None, "pandas is not installed")
    def test_a_groupby_of_pandas(self):
        frame = pandas.DataFrame([*HOTELS, {"city": None, "price": 1, "dist": 1}], index=list("abcdefg"))
        for groups in (frame.groupby("city"), frame.groupby(["city"])):
            self.assertEqual(list(prefq.psel(groups, low("price"), top=2).index), list("adbc"))
        self.assertEqual(list(prefq.psel(frame.groupby("city", dropna=False), low("price"), top=1).index), list("adg"))
        self.assertEqual(list(prefq.psel(frame.groupby(["city", "dist"]), high("price")).index), list("abdef"))
        for groups in (frame.groupby(frame.price > 60), frame.groupby("city")["price"], frame.groupby(len)):
            with self.refuses(TypeError, "a groupby is one of a DataFrame by names of columns"):
                prefq.psel(groups, low("price"))
        with self.refuses(prefq.Refused, "the DataFrame has groups itself"):
            prefq.psel(frame.groupby("city"), low("price"), by="dist")

    def test_the_command_line(self):
        with tempfile.TemporaryDirectory() as folder:
            path = Path(folder, "hotels.csv")
            path.write_text("city,price,stars\nLyon,50.00,3\nBern,60.00,4\nBern,50.00,3\nKöln,n/a,0\n", encoding="utf-8")
            for words, lines in [(["best low(price)", "--top", "1"], ["1,1,Lyon,50.00,3"]), (["best low(price)", "--top", "1", "--ties", "pos(city, 'Bern')"], ["1,3,Bern,50.00,3"]),
                                 (["best low(price / stars)", "--where", "stars > 3 or city = 'Lyon'"], ["1,2,Bern,60.00,4"]), (["best true(price is missing)"], ["1,4,Köln,n/a,0"])]:
                with self.subTest(words):
                    done = run("ask", path, *words, "--csv")
                    self.assertEqual((done.returncode, done.stdout.splitlines()[1:]), (0, lines))
            for words, says in [(["best low(price)", "--ties", "low(stars)"], "--ties says which rows of the last level are among the first ones: it needs --top"),
                                (["best low(price)", "--top", "0"], "top is 0: not from 1 to 1000"), (["best low(price)", "--where", "stars > "], "    stars > \n            ^"),
                                (["best low(stars / stars)"], "row 4 has 0 behind the /, by which nothing is divided: leave such rows out by --where"),
                                (["best low(price)", "--where", "city = Lyon"], "A text stands in single quotes, 'Lyon'")]:
                with self.subTest(words):
                    done = run("ask", path, *words)
                    self.assertEqual((done.returncode, done.stdout), (2, ""))
                    self.assertIn(says, done.stderr)


class Queries(TestCase):
    """Queries with what is asked beside the question: of the table below, and of a table of what is computed."""

    ASKED = [("best low(price) * low(dist)", {"top": 4, "ties": "high(price)"}), ("best low(price) * low(dist)", {"top": 2}), ("best low(price)", {"top": 2, "by": "city"}),
             ("best low(price / dist)", {}), ("best low(price) | low(dist)", {}), (low("price"), {"where": "city = 'Bern'"}), (low("price"), {"where": "price > 1000"})]

    def test_an_answer_is_that_of_the_begin(self):
        for question, beside in self.ASKED:
            with self.subTest(question, **beside), prefq.Frame.from_records(HOTELS) as frame:
                wanted = frame.best(question, **beside)
                with frame.query(question, **beside) as query:
                    frame.delete(1)
                    frame.commit(("update", 4, {"price": "0.5", "city": "Ulm"}), ("insert", {"city": "Bern", "price": 2000, "dist": 1}))
                    self.assertEqual((query.left, query.scan()), (1, 0))
                    answer = query.answer()
                self.assertEqual((pairs(answer), list(answer), answer.question), (pairs(wanted), list(wanted), wanted.question))
                self.assertNotEqual(pairs(frame.best(question, **beside)), pairs(wanted))

    def test_one_that_has_ended(self):
        with prefq.Frame.from_records(HOTELS) as frame:
            for question, beside in self.ASKED:
                queries = [frame.query(question, **beside) for _ in range(2)]
                queries[0].answer()
                queries[1].abandon()
                for query in queries:
                    with self.subTest(question, **beside), self.refuses(prefq.Refused, "this query has ended", number=4):
                        query.answer()

    def test_what_is_refused_is_refused_at_the_begin(self):
        with prefq.Frame.from_records(HOTELS) as frame:
            for question, beside, says in [("best low(price / 0)", {}, "has 0 behind the /"), ("best low(price)", {"where": "prise > 1"}, "did you mean price?"),
                                           ("best low(price)", {"top": 1, "ties": "low(city)"}, "has texts, which have no order"), ("best low(price)", {"ties": "low(dist)"}, "it needs top=")]:
                with self.subTest(question, **beside), self.refuses(prefq.Refused, says):
                    frame.query(question, **beside)
            self.assertEqual(frame.table._engine.queries, {})

    def test_a_warning_comes_with_the_answer(self):
        with prefq.Frame.from_records(HOTELS) as frame:
            for question, beside in [("best pos(city, 'Lion')", {}), ("best low(price) * true(city = 'Lion')", {}), ("best low(price)", {"where": "city <> 'Lion'"})]:
                query = frame.query(question, **beside)
                with self.subTest(question, **beside), self.assertWarns(prefq.UnknownValue) as caught:
                    query.answer()
                self.assertEqual(caught.filename, __file__)

    def test_a_row_with_a_new_text_may_come_before_the_query(self):
        """The question is then translated once more, where its first query must not have the only client any more."""
        with prefq.Frame.from_records(HOTELS, clients=1) as frame:
            plan = prefq.condition_terms.plan
            plans = []

            def planned(*words):
                plans.append(words)
                if len(plans) == 2:
                    frame.insert({"city": "Ulm", "price": 1, "dist": 1})
                return plan(*words)

            with unittest.mock.patch("prefq.condition_terms.plan", planned):
                self.assertEqual(frame.best("best pos(city, 'Ulm')").ids, [7])
            self.assertEqual(len(plans), 4)

    def test_awaited(self):
        async def main():
            async with await prefq.AsyncFrame.open(prefq.Frame.from_records, HOTELS, clients=1) as frame:
                found = [list(pairs(await frame.best(question, **beside))) for question, beside in self.ASKED]
                with self.refuses(prefq.Refused, "did you mean price?"):
                    await frame.best("best low(dist)", where="prise > 1")
                found.append((await frame.why(6, "best low(price)", where="city = 'Lyon'", by="city")).ids)
                found.append(list(await frame.hasse("low(price)", where="price > 70")))
                return found

        with prefq.Frame.from_records(HOTELS) as frame:
            wanted = [pairs(frame.best(question, **beside)) for question, beside in self.ASKED]
        self.assertEqual(asyncio.run(main()), [*wanted, [1, 2], [(3, 5), (5, 6)]])


class MoreRowsThanOneTableHolds(TestCase):
    """They are asked in parts."""

    def one(self, chance):
        with random_frame(chance) as (frame, rows, ask):
            for _ in range(5):
                asked, ties, top = ask.question(), chance.choice([None, ask.term(2)]), chance.randrange(1, 8)
                opened = frame._opened
                moments = [opened.moment(opened.table.columnar_rows()) for _ in range(2)]
                whole = selected(asked.text, Selection(), moments[0])
                some = selected(asked.text, Selection.of(top=top, ties=ties and ties.text), moments[1])
                self.assertEqual([(row.level, row.id) for row in whole], asked.answer(rows), asked.text)
                self.assertEqual([(row.level, row.id) for row in some], first(asked, rows, top, ties), (asked.text, top, ties and ties.text))

    def test_as_by_a_plain_evaluation(self):
        with warnings.catch_warnings(), unittest.mock.patch("prefq.selection.MOST_ROWS", 4), unittest.mock.patch("prefq.many.ROWS_OF_A_PART", 5):
            warnings.simplefilter("ignore", prefq.UnknownValue)
            for number in range(QUESTIONS // 5):
                with self.subTest(frame=number):
                    self.one(random.Random(SEED + number))

    @unittest.skipIf(pandas is None, "pandas is not there")
    def test_a_dataframe_has_all_that_is_asked_beside_a_question(self):
        count = 70_000
        rows = pandas.DataFrame({"price": range(count), "dist": [-(place // 2) for place in range(count)], "city": ["Lyon", "Bern"] * (count // 2)})
        found = prefq.psel(rows, "low(price) * low(dist)", where="price >= 10 and city = 'Lyon'", top=3, ties="high(price)")
        self.assertEqual(found.index.tolist(), [count - 6, count - 4, count - 2])
        self.assertEqual(prefq.psel(rows, "low(abs(price - 5))", top=2, by="city").index.tolist(), [4, 5, 6, 3])
        self.assertEqual(list(prefq.psel(rows, low("price"), show_level=False)), ["price", "dist", "city"])

    def test_records_and_cursors_have_all_that_is_asked_beside_a_question(self):
        records = [{"price": price, "dist": -(price // 2), "city": ["Lyon", "Bern"][price % 2]} for price in range(MOST_ROWS + 5)]
        db = sqlite3.connect(":memory:")
        self.addCleanup(db.close)
        db.execute("create table hotels (price integer, dist integer, city text)")
        db.executemany("insert into hotels values (:price, :dist, :city)", records)
        for source in (lambda: records, lambda: db.execute("select * from hotels order by price")):
            found = prefq.psel(source(), "low(dist) & low(price)", where="price >= 10 and city = 'Lyon'", top=3, ties="high(price)")
            self.assertEqual([row.price for row in found], [MOST_ROWS + 4, MOST_ROWS + 2, MOST_ROWS])
            self.assertEqual([row.price for row in prefq.psel(source(), "low(price)", top=2, by="city")], [0, 1, 2, 3])

    def test_partitions_take_values(self):
        some = [prefq.parts.Partition(["price", "dist"], [[50, 8], [80, 9]]), prefq.parts.Partition(["price", "dist"], [[60, 5]])]
        self.assertEqual(prefq.parts.best(some, low("price") * low("dist")).ids, [1, 3])
        self.assertEqual(prefq.parts.why(some, 2, low("price") * low("dist")).ids, [1, 3])

    def test_several_files_have_it_too(self):
        with tempfile.TemporaryDirectory() as folder:
            for number, rows in enumerate(["50,Lyon\n60,Bern\n", "70,Bern\n50,Bern\n"]):
                Path(folder, f"{number}.csv").write_text(f"price,city\n{rows}")
            for words, ids in [(["--where", "price > 50"], [2]), (["--top", "1"], [1]), (["--top", "1", "--ties", "pos(city, 'Bern')"], [4]), (["--top", "3"], [1, 4, 2])]:
                done = run("ask", os.path.join(folder, "*.csv"), "best low(price)", *words, "--csv")
                self.assertEqual((done.returncode, [int(line.split(",")[1]) for line in done.stdout.splitlines()[1:]]), (0, ids), done.stderr)
            done = run("ask", os.path.join(folder, "*.csv"), "best low(price)", "--where", "prise > 5")
            self.assertEqual((done.returncode, done.stdout), (2, ""))
            self.assertIn("no column 'prise'; did you mean price?\n    prise > 5\n    ^", done.stderr)
            Path(folder, "2.csv").write_text("price,city\n2026-05-01,Lyon\n")
            done = run("ask", os.path.join(folder, "*.csv"), "best low(price)")
            self.assertEqual((done.returncode, done.stdout), (2, ""))
            self.assertIn("give it by --kind COLUMN=KIND a kind that reads the values of both", done.stderr)


class Random(TestCase):
    def one(self, chance):
        with random_frame(chance) as (frame, rows, ask):
            for _ in range(5):
                asked, ties, top = ask.question(), chance.choice([None, ask.term(2)]), chance.randrange(1, 8)
                query = frame.query(asked.text, top=top, ties=ties and ties.text)
                gone = chance.choice([None, *rows])
                if gone is not None:
                    frame.delete(gone)          # behind the begin, so the answer may still have the row
                self.assertEqual(pairs(query.answer()), first(asked, rows, top, ties), (asked.text, top, ties and ties.text))
                rows.pop(gone, None)

    def test_as_by_a_plain_evaluation(self):
        with warnings.catch_warnings():
            warnings.simplefilter("ignore", prefq.UnknownValue)
            for number in range(QUESTIONS // 5):
                with self.subTest(frame=number):
                    self.one(random.Random(SEED + number))


if __name__ == "__main__":
    unittest.main()
