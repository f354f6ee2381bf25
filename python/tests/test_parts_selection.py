"""What is asked beside a question over parts: exactly so many rows, ties, conditions and groups, of random parts against a plain evaluation on Python's values.

PREFQ_TEST_COUNT is how many questions are asked (of 6 parts at most), and PREFQ_TEST_SEED begins other ones.
"""
import datetime
import importlib.util
import random
import tempfile
import unittest
import warnings
from pathlib import Path
from unittest import mock

import plain_expressions
import prefq
import random_frames
from plain import first
from prefq import parts
from prefq.ask_files import FilesAnswer, files_like
from prefq.carried import FrameRows, frame_of
from prefq.parts import Job, Partition, best, found_in, why
from support import TestCase, pairs
from test_ask import run
from test_parts_kinds import QUESTIONS, QUESTIONS_OF_A_FRAME, SEED, Deal, pandas

HOTELS = [Partition(["city", "price", "dist"], [["Lyon", 50, 8], ["Lyon", 60, 5], ["Bern", 80, 2]]), Partition(["price", "city", "dist"], [[70.5, "Bern", 6], [90.0, "Bern", 2]]),
          Partition(["dist", "price", "city"], [[9, 95, "Lyon"], [1, None, "Lyon"]])]
QUESTION = "best low(price) * low(dist)"
# What is refused of parts alone, by name: a column of which no part has a value, or all cells of a part are words that may be missing.
REFUSED = "that are written are compared|names a column|has texts|which has no order|which has no distances|is larger than|are words such as n/a"


class RandomParts(TestCase):
    def one(self, deal, chance):
        asked, expressions = random_frames.Questions(chance, deal.columns).question(), plain_expressions.Expressions(chance, deal.columns)
        where, top = chance.choice([None, expressions.condition()]), chance.choice([None, chance.randrange(1, 8)])
        ties = None if top is None else chance.choice([None, random_frames.Questions(chance, deal.columns).term(2)])
        beside = {"where": where and where.text, "top": top, "ties": ties and ties.text, "by": None}
        if not asked.by and not asked.equal_in and chance.random() < 0.3:
            beside["by"] = asked.by = [chance.choice(list(deal.columns))]
        try:
            rows = {id: row for id, row in deal.rows.items() if where is None or where.of(row)}
        except plain_expressions.Nothing:
            with self.assertRaises(prefq.Refused):
                best(deal.sources, asked.text, kinds=deal.given, delimiter=",", **beside)
            return
        answer = best(deal.sources, asked.text, kinds=deal.given, delimiter=",", **beside)
        self.assertEqual(pairs(answer), asked.answer(rows) if top is None else first(asked, rows, top, ties), (asked.text, beside))

    def test_as_by_a_plain_evaluation(self):
        """Of rows in memory, files and DataFrames, over a tree of merges of two."""
        chance, asked, refused = random.Random(SEED), 0, 0
        while asked < QUESTIONS:
            with tempfile.TemporaryDirectory() as folder, mock.patch.object(parts, "MERGED", 2), warnings.catch_warnings():
                warnings.simplefilter("ignore", prefq.UnknownValue)
                deal = Deal(chance, folder)
                for _ in range(QUESTIONS_OF_A_FRAME):
                    asked += 1
                    with self.subTest(question=asked):
                        try:
                            self.one(deal, chance)
                        except prefq.Refused as why_not:
                            self.assertRegex(str(why_not), REFUSED)
                            refused += 1
        self.assertLessEqual(5 * refused, asked)


class Together(TestCase):
    """Over a few parts, by name."""

    def files(self, *texts):
        folder = tempfile.TemporaryDirectory()
        self.addCleanup(folder.cleanup)
        paths = [Path(folder.name, f"{number}.csv") for number in range(len(texts))]
        for path, text in zip(paths, texts):
            path.write_text(text)
        return paths

    def test_exactly_so_many_rows(self):
        for top, wanted in [(1, [(1, 1)]), (2, [(1, 1), (1, 2)]), (4, [(1, 1), (1, 2), (1, 3), (1, 7)]), (6, [(1, 1), (1, 2), (1, 3), (1, 7), (2, 4), (2, 5)]), (1000, None)]:
            with self.subTest(top=top):
                self.assertEqual(pairs(best(HOTELS, QUESTION, top=top)), wanted or [(1, 1), (1, 2), (1, 3), (1, 7), (2, 4), (2, 5), (3, 6)])
        self.assertEqual(best(HOTELS, "top_level 1 low(price)", top=5).ids, [1])
        self.assertEqual(pairs(best(HOTELS, "at_least 2 low(price)", top=5)), [(1, 1), (2, 2)])

    def test_ties_and_groups(self):
        self.assertEqual(best(HOTELS, QUESTION, top=2, ties="low(dist)").ids, [3, 7])
        self.assertEqual(best(HOTELS, QUESTION, top=2, ties=-prefq.low("price")).ids, [2, 3])
        self.assertEqual(best(HOTELS, QUESTION, top=2, ties="high(price / dist)").ids, [2, 3])
        self.assertEqual(pairs(best(HOTELS, "best low(price)", top=2, by="city")), [(1, 1), (1, 4), (2, 2), (2, 3)])
        self.assertEqual(pairs(best(HOTELS, "best low(dist)", top=1, ties="low(price)", by=["city"])), [(1, 3), (1, 7)])

    def test_conditions(self):
        """A column of which a part has no value has none for its condition either, whatever it is in other parts."""
        nothing = Partition(["city", "price", "dist"], [[None, None, 1], [None, None, 2]])
        for where, ids in [("price > 55", [2, 3]), ("price > 55 and city <> 'Lyon'", [3, 4]), ("price is missing", [7, 8]), ("city is missing or price = 95", [6, 8]),
                           ("not (price < 90)", [5]), ("price / 2 > dist * 9", [3]), ("price > 1000", [])]:
            with self.subTest(where):
                self.assertEqual(best([*HOTELS, nothing], QUESTION, where=where).ids, ids)
                self.assertEqual(best([nothing, *HOTELS], QUESTION, where=where).ids, sorted(id - 7 if id > 7 else id + 2 for id in ids))
        self.assertEqual(why(HOTELS, 5, QUESTION, where="price > 55").ids, [3])
        self.assertEqual(why(HOTELS, 5, "best low(price)", by="city").ids, [4, 3])
        with self.refuses(prefq.Refused, "row 1 does not meet the condition", kind="arguments"):
            why(HOTELS, 1, QUESTION, where="price > 55")

    def test_what_is_refused(self):
        for beside, says in [({"where": "prise > 5"}, "no column 'prise'; did you mean price?\n    prise > 5\n    ^"), ({"top": 1, "ties": "low(prise)"}, "did you mean price?"),
                             ({"top": 1, "ties": "low(city)"}, "has texts, which have no order"), ({"ties": "low(dist)"}, "it needs top="), ({"by": "citi"}, "did you mean city?"),
                             ({"top": 1, "ties": "best low(dist)"}, "without best, top_level and so on"), ({"where": "city"}, "and a condition is true or false"),
                             ({"where": "dist / (price - 90) > 0"}, "partition 2: row 2 has 0 behind the /")]:
            with self.subTest(**beside), self.refuses(prefq.Refused, says):
                best(HOTELS, QUESTION, **beside)
        with self.refuses(ValueError, "top is 0: not from 1 to 1000"):
            best(HOTELS, QUESTION, top=0)
        with self.refuses(prefq.Refused, "the question has groups itself"):
            best(HOTELS, "best low(price) by city", by="city")
        with self.refuses(prefq.Refused, "0.csv: column 'price' has the kind text", kind="term"):
            best(self.files("price\n1\nx\n"), "best pos(price, '1')", where="price + 1 > 5")

    def test_a_value_that_no_part_has(self):
        with self.assertWarnsRegex(prefq.UnknownValue, "no row of 'city' has 'Lion'; did you mean 'Lyon'?") as caught:
            self.assertEqual(best(HOTELS, QUESTION, where="city = 'Lion'"), [])
        self.assertEqual(caught.filename, __file__)
        with warnings.catch_warnings():
            warnings.simplefilter("error")
            self.assertEqual(best(HOTELS, QUESTION, where="city = 'Bern'").ids, [3, 4])     # which the third part does not have
            self.assertEqual(best(HOTELS, "best low(dist)", where="dist = 2", top=1, ties="pos(city, 'Lyon')").ids, [3])     # which no row has that is left
        with self.assertWarnsRegex(prefq.UnknownValue, "no row of 'city' has 'Lion'"):
            self.assertEqual(best(HOTELS, "best low(dist)", where="dist = 2", top=1, ties="pos(city, 'Lion')").ids, [3])

    def test_words_that_may_be_missing(self):
        files = self.files("code,n\nNA,1\nn/a,2\n", "code,n\nDE,3\n")
        self.assertEqual(best(files, "best low(n)", where="n > 1").ids, [2])
        with self.refuses(prefq.Refused, "0.csv: all cells of code are words such as n/a: say by missing=[..]"):
            best(files, "best low(n)", where="code = 'NA'")
        self.assertEqual(best(files, "best low(n)", where="code = 'NA'", missing=[]).ids, [1])
        self.assertEqual(best(self.files("x,n\nNA,1\n", "x,n\n5,3\n"), "best low(n)", where="x > 4").ids, [2])

    def test_a_question_for_what_words_may_be_missing_from(self):
        """The words beside yes and no are missing, and `true` is a value of the column, though not of this part alone."""
        files = self.files("x,y\nn/a,3\n", "x,y\nyes,2\nno,1\n")
        self.assertEqual((best(files, "best pos(x, true)").ids, why(files, 1, "best pos(x, true)").ids), ([2], [2]))
        self.assertEqual(best(files, "best low(y)", where="x = true").ids, [2])

    def test_a_value_that_is_refused_in_a_column_that_nobody_names(self):
        """It is named by the id of its row, and not by its number among the rows that are left."""
        files = self.files("x,n\n9,k\n9,k\n1,bad\n", "x,n\n5,3\n1,6\n")
        with self.refuses(ValueError, "row 3, column 'n' (whole): 'bad' is no number"):
            best(files, "best low(x)", kinds={"n": "whole"})
        rows = [[9, 7]] * 4 + [[1, 2**53 + 1], [2, 3], [1, 0.5]]
        with self.refuses(ValueError, "row 5, column 'n' (float): 9007199254740993 is no 64-bit float"):
            best([Partition(["x", "n"], rows)], "best low(x)")

    def test_times_of_two_zones_of_one_name(self):
        """pytz knows of no summer behind 2037, and Python's zones do. Row 2 was left out of its part, and each other row was the best."""
        try:
            import pytz
        except ImportError:
            raise unittest.SkipTest("pytz is not installed")
        from zoneinfo import ZoneInfo

        def parts(year):
            hours = [datetime.datetime(year, 7, 1, hour, tzinfo=datetime.timezone.utc) for hour in (9, 10, 11)]
            return [Partition(["at"], [[hours[0].astimezone(pytz.timezone("Europe/Berlin"))]]), Partition(["at"], [[hour.astimezone(ZoneInfo("Europe/Berlin"))] for hour in hours[1:]])]

        for question, where in (("best pos(at, '2050-07-01 12:00', '2026-07-01 12:00')", None), ("best low(at)", "at >= '2050-07-01 12:00'")):
            with self.subTest(question=question), self.refuses(prefq.Refused, "'2050-07-01 12:00' would be another moment in each: write its offset", kind="table"):
                best(parts(2050), question, where=where)
        self.assertEqual(best(parts(2050), "best pos(at, '2050-07-01 12:00+02:00')").ids, [2])
        self.assertEqual(best(parts(2026), "best pos(at, '2026-07-01 12:00')").ids, [2])

    def test_times_of_several_zones(self):
        """A text without a zone would be another moment in each part, so that rows would be left out that are in the answer over all."""
        files = self.files("at,n\n2026-05-01T11:00:00+02:00,1\n2026-05-01T09:00:00+02:00,2\n", "at,n\n2026-05-01T03:00:00+00:00,4\n")
        for question, beside in [("best around(at, '2026-05-01 09:00')", {}), ("best pos(at, '2026-05-01 09:00') & low(n)", {}), ("best low(n)", {"where": "at >= '2026-05-01 09:00'"}),
                                 ("best low(n)", {"where": "'2026-05-01 09:00' = at"})]:
            with self.subTest(question, **beside):
                with self.refuses(prefq.Refused, "0.csv and time(UTC) in", "'2026-05-01 09:00' would be another moment in each: write its offset", kind="table"):
                    best(files, question, **beside)
                self.assertEqual(best(files, question.replace("09:00", "09:00Z"), **{name: text.replace("09:00", "09:00Z") for name, text in beside.items()}).ids, [1])
                self.assertEqual(best(files, question, kinds={"at": "time(UTC)"}, **beside).ids, [1])
        self.assertEqual(best(files, "best low(at)").ids, [3])

    def test_dates_in_one_part_and_times_in_another(self):
        files = self.files("at,left,n\n2026-05-01,2026-05-03,1\n", "at,left,n\n2026-05-01 10:00,2026-05-01 10:05,2\n")
        with self.refuses(prefq.Refused, "is date in ", "time in ", "a condition or an expression would mean something else in each: give the column one kind", kind="table"):
            best(files, "best low(n)", where="left - at > 100")
        self.assertEqual(best(files, "best low(n)", where="left - at > 400", kinds={"at": "time", "left": "time"}).ids, [1])

    def test_many_columns_of_words_take_no_time(self):
        names = [f"c{number}" for number in range(12)]
        texts = [",".join(["p", *names]) + f"\n{row},{','.join(['-' if row % 2 else 'n/a'] * 12)}\n" for row in (1, 2)]
        with self.within(10):
            self.assertEqual(best(self.files(*texts), f"best low(p) by {', '.join(names)}").ids, [1, 2])
            with self.refuses(prefq.Refused, "all cells of c0, c1, ", "are words such as n/a: say by missing=[..]"):
                best(self.files(*texts), "best " + " * ".join(f"pos({name}, 'x')" for name in names))


@unittest.skipIf(pandas is None, "pandas is not installed")
class DataFrames(TestCase):
    """Columns that the question does not name come as they are, whatever pandas would make of their types together."""

    def test_no_value_is_changed(self):
        big = 2**53 + 1
        for others, values in [(pandas.Series([5], dtype="uint64"), [big, 5]), (pandas.Series([float("nan")]), [big, None])]:
            with self.subTest(others.dtype):
                self.assertEqual([row.n for row in best([pandas.DataFrame({"x": [1], "n": [big]}), pandas.DataFrame({"x": [1], "n": others})], "best low(x)")], values)
        for others, says in [(pandas.Series([0.5]), "9007199254740993 is no 64-bit float"), (pandas.Series([True]), "column 'n' is whole in partition 1 and bool in partition 2")]:
            with self.subTest(others.dtype), self.refuses(prefq.Refused, says):
                best([pandas.DataFrame({"x": [1], "n": [big]}), pandas.DataFrame({"x": [1], "n": others})], "best low(x)")
        some = [pandas.DataFrame({"x": [1], "n": [True]}), pandas.DataFrame({"x": [1], "n": [float("nan")]})]
        self.assertEqual([row.n for row in best(some, "best low(x)")], [True, None])

    def test_a_column_without_a_value_has_the_kind_of_its_type(self):
        """As in a frame: it was one of texts, whatever the type, so that its order was refused. Beside values it has their kind."""
        gaps = {"t": pandas.to_datetime([None, None]), "f": [float("nan")] * 2, "b": pandas.array([None, None], dtype="boolean"), "i": pandas.array([None, None], dtype="Int64"),
                "c": pandas.Categorical([None, None], ["S", "M"], ordered=True)}
        frame, none = pandas.DataFrame({**gaps, "o": [None, None]}), pandas.DataFrame({name: [None] for name in [*gaps, "o"]})
        for name in gaps:
            for parts_of_it in ([frame, frame], [none, frame], [frame.iloc[:0], none, frame]):
                with self.subTest(name):
                    self.assertEqual(best(parts_of_it, f"top_level 2 low({name})").ids, list(range(1, sum(map(len, parts_of_it)) + 1)))
            self.assertEqual(pairs(best([frame, pandas.DataFrame({other: [datetime.date(2026, 5, 1)] for other in none})], f"top_level 2 low({name})")), [(1, 3), (2, 1), (2, 2)])
        for question in ("best low(o)", "best low(t + 1)"):
            with self.subTest(question):
                with self.assertRaises(prefq.Refused) as of_a_frame, prefq.Frame.from_dataframe(frame) as opened:
                    opened.best(question)
                with self.refuses(prefq.Refused, str(of_a_frame.exception)):
                    best([frame, frame], question)

    def test_rows_of_several_types_in_one_dataframe(self):
        """As psel of a DataFrame of Dask puts them together."""
        some = [FrameRows(pandas.DataFrame({"x": [1], "n": [2**53 + 1], "f": [0.5]})), FrameRows(pandas.DataFrame({"x": [1], "n": [0.5], "f": [1.5]}))]
        found = frame_of(some)
        self.assertEqual((found["n"].tolist(), found["f"].dtype, found["x"].dtype), ([2**53 + 1, 0.5], "float64", "int64"))

    def test_parquet_by_the_command(self):
        """With what pandas reads, since pyarrow is seldom there."""
        with tempfile.TemporaryDirectory() as folder:
            paths = [str(Path(folder, f"{number}.parquet")) for number in range(2)]
            for path in paths:
                Path(path).write_bytes(b"PAR1")
            with mock.patch("pandas.read_parquet", lambda path: pandas.DataFrame({"x": [int(path[-9])], "name": ["a"]})):
                job = Job("best low(x)")
                found = FilesAnswer(job, found_in(job, paths, map))
                self.assertEqual(found.to_csv(), "level,id,x,name\n1,1,0,a\n")
            self.assertEqual((files_like(f"{folder}/*.parquet"), files_like(paths[0])), (paths, paths[:1]))
            if not importlib.util.find_spec("pyarrow"):
                for pattern in (paths[0], f"{folder}/*.parquet"):
                    done = run("ask", pattern, "best low(x)")
                    self.assertEqual((done.returncode, done.stdout), (2, ""), done.stderr)
                    self.assertIn("a Parquet file is read by pandas and pyarrow", done.stderr)


if __name__ == "__main__":
    unittest.main()
