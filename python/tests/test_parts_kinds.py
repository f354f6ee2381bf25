"""Parts whose columns have kinds of their own: random ones against a plain evaluation on Python's values, and how kinds are brought together.

PREFQ_TEST_COUNT is how many questions are asked (of 6 parts at most, each in tables of its own), and PREFQ_TEST_SEED begins other ones.
"""
import contextlib
import csv
import datetime
import io
import os
import pickle
import random
import sqlite3
import tempfile
import unittest
import warnings
from decimal import Decimal
from pathlib import Path
from unittest import mock

import prefq
import random_frames
from prefq import parts
from prefq.__main__ import main
from prefq.parts import Job, Partition, best
from support import TestCase

try:
    import pandas
except ImportError:
    pandas = None

QUESTIONS = int(os.environ.get("PREFQ_TEST_COUNT", 100))
SEED = int(os.environ.get("PREFQ_TEST_SEED", 20261129))
QUESTIONS_OF_A_FRAME = 5
# A word that no text of the random frames is. In a column that no question names it is a text, where the answer has no other value.
GAP = "n/a"
DAY = datetime.date(2026, 5, 1)
NOON = datetime.datetime(2026, 5, 1, 12)


class Deal:
    """Records that are dealt out to parts: rows in memory, DataFrames and CSV files, each with columns in an order of its own."""

    def __init__(self, chance, folder):
        self.chance, self.folder = chance, folder
        self.columns, self.records = random_frames.frame(chance, (random_frames.Written, random_frames.WrittenDates))
        self.rows = dict(enumerate(self.records, 1))
        self.given = {name: kind.spelling for name, kind in self.columns.items() if kind.is_given or type(kind) is random_frames.Texts}
        ends = sorted(chance.choices(range(len(self.records) + 1), k=chance.randrange(6)))
        makers = [self.in_memory, self.file] + [self.frame] * (pandas is not None)
        self.sources = [chance.choice(makers)(number, self.records[begin:end]) for number, (begin, end) in enumerate(zip([0, *ends], [*ends, len(self.records)]))]

    def narrower(self, records):
        """The records, where in some columns decimals that are whole are whole numbers."""
        names = [name for name in self.columns if self.chance.random() < 0.5 and all(
            isinstance(record[name], Decimal) and record[name] == int(record[name]) for record in records if record[name] is not None)]
        return [{name: int(value) if name in names and value is not None else value for name, value in record.items()} for record in records]

    def names(self):
        return self.chance.sample(list(self.columns), len(self.columns))

    def in_memory(self, number, records):
        names = self.names()
        return Partition(names, [[record[name] for name in names] for record in self.narrower(records)])

    def frame(self, number, records):
        frame = pandas.DataFrame(self.narrower(records), columns=self.names(), dtype="object")
        for name, kind in self.columns.items():
            if isinstance(kind, random_frames.Times) and self.chance.random() < 0.5:
                frame[name] = pandas.to_datetime(frame[name], utc=kind.zone is not None)
        return frame

    def file(self, number, records):
        path, names = Path(self.folder, f"{number}.csv"), self.names()
        with open(path, "w", newline="", encoding="utf-8") as file:
            writer = csv.writer(file)
            writer.writerow(names)
            words = {name: self.chance.choice(["", GAP]) for name, kind in self.columns.items() if not isinstance(kind, random_frames.Texts)}
            writer.writerows([[self.cell(name, record[name], words.get(name, "")) for name in names] for record in self.narrower(records)])
        return path

    def cell(self, name, value, gap):
        if value is None:
            return gap
        return str(value) if type(value) is int else self.columns[name].cell(value)


class RandomParts(TestCase):
    def test_random_parts(self):
        """Answers with whole rows, levels and ids, over a tree of merges of two."""
        chance, asked, refused = random.Random(SEED), 0, 0
        while asked < QUESTIONS:
            with tempfile.TemporaryDirectory() as folder, mock.patch.object(parts, "MERGED", 2), warnings.catch_warnings():
                warnings.simplefilter("ignore", prefq.UnknownValue)
                deal = Deal(chance, folder)
                for _ in range(QUESTIONS_OF_A_FRAME):
                    question = random_frames.Questions(chance, deal.columns).question()
                    asked += 1
                    try:
                        answer = best(deal.sources, question.text, kinds=deal.given, delimiter=",")
                    except prefq.Refused as why:
                        self.assertRegex(str(why), "which has no order|texts, which have no order|which has no distances|is larger than", question.text)
                        self.assertTrue(any(all(row[name] is None for row in deal.records) for name in deal.columns), question.text)
                        refused += 1
                        continue
                    self.assertEqual(list(zip(answer.levels, answer.ids)), question.answer(deal.rows), question.text)
                    self.assertEqual([{name: None if value == GAP else value for name, value in row.items()} for row in answer], [deal.rows[row.id] for row in answer],
                                     question.text)
        self.assertLessEqual(10 * refused, asked)


class Together(TestCase):
    """Kinds that are brought together."""

    def values(self, *parts_of_a_column, question="top_level 1000 high(x)", **options):
        answer = best([Partition(["x"], [[value] for value in values]) for values in parts_of_a_column], question, **options)
        return [row.x for row in answer], str(answer.columns[0].kind)

    def test_numbers(self):
        for columns, values, kind in [
            (([1, 2], [Decimal("1.5")]), [2, Decimal("1.5"), 1], "decimal(1)"), (([Decimal("1.25")], [Decimal("1.5")]), [Decimal("1.50"), Decimal("1.25")], "decimal(2)"),
            (([1, 2], [1.5, 0.5]), [2, 1.5, 1, 0.5], "float"), (([1.5], [Decimal("59.90")], [7]), [59.9, 7, 1.5], "float"),
            (([2**60], [0.5]), [2**60, 0.5], "float"), (([None, None], [3], []), [3, None, None], "whole"),
        ]:
            with self.subTest(columns=columns):
                self.assertEqual(self.values(*columns), (values, kind))

    def test_numbers_that_do_not_fit(self):
        for columns, said in [(([2**62], [Decimal("0.01")]), "4611686018427387904 does not fit"), (([2**53 + 1], [0.5]), "is no 64-bit float"),
                              (([Decimal("0.123456789012345678")], [0.5]), "is no 64-bit float")]:
            with self.subTest(columns=columns), self.refuses(prefq.Refused, "column 'x'", said, kind="table"):
                self.values(*columns)

    def test_times(self):
        utc, other = datetime.timezone.utc, datetime.timezone(datetime.timedelta(hours=2))
        for columns, values, kind in [
            (([DAY], [NOON]), [NOON, datetime.datetime(2026, 5, 1)], "time"),
            (([NOON.replace(tzinfo=utc)], [NOON.replace(tzinfo=other)]), [NOON.replace(tzinfo=utc), NOON.replace(tzinfo=other)], "time(UTC)"),
        ]:
            with self.subTest(columns=columns):
                self.assertEqual(self.values(*columns), (values, kind))
        with self.refuses(prefq.Refused, "column 'x' is time in partition 1 and time(UTC) in partition 2", kind="table"):
            self.values([NOON], [NOON.replace(tzinfo=utc)])

    def test_times_of_pandas(self):
        if pandas is None:
            self.skipTest("pandas is not installed")
        stamps = pandas.DataFrame({"x": pandas.to_datetime(["2026-05-01 12:00:00.000000001", None])})
        answer = best([stamps, Partition(["x"], [[NOON]]), Partition(["x"], [[DAY]])], "top_level 9 low(x)")
        self.assertEqual(answer.ids, [4, 3, 1, 2])
        self.assertEqual([row.x for row in answer][:3], [pandas.Timestamp(DAY), pandas.Timestamp(NOON), stamps["x"][0]])
        with self.refuses(prefq.Refused, "column 'x' is date in partition 2, and time in another part"):
            best([stamps, Partition(["x"], [[datetime.date(1, 1, 1)]])], "best low(x)")

    def test_a_zone_of_pandas_beside_the_same_one_of_python(self):
        """A text that names no zone is a time of theirs in each part, and where these are brought together."""
        if pandas is None:
            self.skipTest("pandas is not installed")
        from zoneinfo import ZoneInfo
        stamps = pandas.DataFrame({"x": pandas.to_datetime(["2026-07-01 10:00", "2026-07-01 11:00"]).tz_localize("Europe/Berlin")})
        noon = datetime.datetime(2026, 7, 1, 12, tzinfo=ZoneInfo("Europe/Berlin"))
        for sources, id in (([stamps, Partition(["x"], [[noon]])], 3), ([Partition(["x"], [[noon]]), stamps], 1)):
            for term in ("pos(x, '2026-07-01 12:00')", "true(x >= '2026-07-01 12:00')", "around(x, '2026-07-01 12:30')"):
                with self.subTest(term=term):
                    answer = best(sources, f"best {term}")
                    self.assertEqual((answer.ids, str(answer.columns[0].kind), str(answer[0].x)), ([id], "time(Europe/Berlin)", str(noon)))

    def test_code_books_of_their_own(self):
        columns = [["Lyon", "Bern", None], ["Köln", "Lyon"], ["Bern"]]
        self.assertEqual(self.values(*columns, question="top_level 3 layered(x, {'Bern'}, {'Köln', 'Lyon'})")[0], ["Bern", "Bern", "Lyon", "Köln", "Lyon", None])
        self.assertEqual(self.values(*columns, question="best pos(x, 'nowhere') by x")[0], ["Lyon", "Bern", None, "Köln", "Lyon", "Bern"])

    def test_kinds_that_do_not_go_together(self):
        for columns, said in [(([1], ["Lyon"]), "whole in partition 1 and text in partition 2"), (([True], [1]), "bool in partition 1 and whole"),
                              (([DAY], [1]), "date in partition 1 and whole"), (([datetime.time(1)], [None], [DAY]), "clock in partition 1 and date in partition 3")]:
            with self.subTest(columns=columns), self.refuses(prefq.Refused, "column 'x' is ", said, "give it by kinds", kind="table"):
                best([Partition(["x", "y"], [[value, 1] for value in values]) for values in columns], "best low(y) by x")

    def test_kinds_of_rows_that_come_by_a_cursor_or_as_records(self):
        """They are called by the part of the rows in which they are."""
        rows = [[number] for number in range(prefq.checks.MOST_ROWS)] + [["x"], [None]]
        db = sqlite3.connect(":memory:")
        self.addCleanup(db.close)
        db.execute("create table some (x)")
        db.executemany("insert into some values (?)", rows)
        for source in (db.execute("select x from some order by rowid"), [{"x": row[0]} for row in rows]):
            with self.refuses(prefq.Refused, "column 'x' is whole in part 1 (rows 1 to 65536) and text in part 2 (rows 65537 to 65538)", kind="table"):
                prefq.psel(source, "pos(x, 5)")
        with self.refuses(ValueError, "part 2 (rows 65537 to 65538): row 1, column 'x' (whole): 'x' is no number"):
            prefq.psel([{"x": row[0]} for row in rows], "low(x)", kinds={"x": "whole"})

    def test_a_cursor_that_gives_fewer_rows_than_it_is_asked_for(self):
        """As drivers do that have a buffer of their own: the parts are called by the rows that came."""
        class Buffered:
            description = (("x",),)
            buffers = [[(1,), (2,)], [(3,)], [("x",)]]

            def fetchmany(self, _):
                return self.buffers.pop(0) if self.buffers else []

        with self.refuses(prefq.Refused, "column 'x' is whole in part 1 (rows 1 to 2) and text in part 3 (rows 4 to 4)", kind="table"):
            prefq.psel(Buffered(), "pos(x, 5)")

    def test_the_partition_whose_rows_are_refused(self):
        good = Partition(["x", "n"], [[1, 2]])
        for other, says in [([[1]], "partition 2: row 1, 1 values: not 2"), ([[1, 2], ["a", 3]], "partition 2: row 2, column 'x' has values of int and str, as 'a':"),
                            ([[1, 2], [2**64, 3]], "partition 2: row 2, column 'x' (whole): 18446744073709551616 does not fit")]:
            with self.subTest(says), self.refuses((ValueError, prefq.Refused), says):
                best([good, Partition(["x", "n"], other)], "best low(x)", kinds={"x": "whole"} if "fit" in says else {})

    def test_two_columns_of_one_name(self):
        """The file or the partition is named, whichever columns the question names."""
        good, twice = Partition(["x", "n"], [[1, 2]]), Partition(["x", "n", "n"], [[1, 2, 3]])
        others = [twice] if pandas is None else [twice, pandas.DataFrame(twice.rows, columns=twice.columns)]
        for other in others:
            for question in ("best low(x)", "best low(n)"):
                with self.refuses(prefq.Refused, "partition 2: two columns are called 'n'", kind="table"):
                    best([good, other], question)
        with tempfile.TemporaryDirectory() as folder:
            for name, text in [("a.csv", "x,n\n1,2\n"), ("b.csv", "n,x,n\n1,2,3\n")]:
                Path(folder, name).write_text(text)
            for question in ("best low(x)", "best low(n)"):
                with self.refuses(prefq.Refused, "b.csv: two columns are called 'n', those at places 1 and 3", kind="table"):
                    best([f"{folder}/a.csv", f"{folder}/b.csv"], question)

    @unittest.skipIf(pandas is None, "pandas is not installed")
    def test_columns_that_pandas_does_not_put_together(self):
        """Categories with half of a character, of which it has no hash: the answer was pandas' own error, though no question names the column."""
        frames = [pandas.DataFrame({"x": [number], "city": pandas.Categorical([city], ["Lyon", "\ud800"])}) for number, city in [(2, "Lyon"), (1, "\ud800")]]
        self.assertEqual([(row.x, row.city) for row in best(frames, "top_level 2 low(x)")], [(1, "\ud800"), (2, "Lyon")])

    def test_a_column_that_no_question_names(self):
        """Each partition has it in a kind of its own, too."""
        some = [Partition(["x", "n"], [[1, value]]) for value in (Decimal("0.5"), 0.25, 3)]
        self.assertEqual([row.n for row in best(some, "best low(x)")], [0.5, 0.25, 3.0])
        with self.refuses(prefq.Refused, "column 'n' is whole in partition 2 and text in partition 4", kind="table"):
            best([Partition(["x", "n"], [[level, value]]) for level, value in [(2, 0), (1, 3), (1, None), (1, "x")]], "best low(x)")

    def test_a_part_without_a_value_takes_every_question(self):
        for values, question in [([True, False], "best pos(x, true)"), ([1, 2], "best around(x, 1.5)"), (["Lyon"], "best pos(x, 'Lyon')"), ([NOON], "best low(x)"),
                                 ([Decimal("1.5")], "best -between(x, 1, 2)")]:
            with self.subTest(question):
                self.assertEqual(self.values([None], values, [], question=question), self.values(values, question=question))

    def test_where_no_part_has_a_value_it_is_as_in_a_frame(self):
        with self.refuses(prefq.Refused, "column 'x' has no value", kind="term"):
            self.values([None], [None], question="best low(x)")
        self.assertEqual(self.values([], [], question="best low(x)")[0], [])

    def test_of_values_that_no_row_has_it_warns(self):
        """A value of rows that are not left is one that rows have; of another one the nearest is said."""
        columns = [Partition(["x", "y"], [["Lyon", 2], ["Bern", 1]]), Partition(["x", "y"], [["Köln", 3]])]
        with warnings.catch_warnings(record=True) as caught:
            warnings.simplefilter("always")
            best(columns, "best low(y) & pos(x, 'Lyon', 'Lion')")
        self.assertEqual([str(warning.message) for warning in caught], ["no row of 'x' has 'Lion'; did you mean 'Lyon'?"])

    def test_code_books_of_what_is_left_alone_are_sent(self):
        part = Job("best low(y) by x").part(Partition(["x", "y"], [["left", 1]]))
        many = Job("best low(y) & pos(x, 'a')").part(Partition(["x", "y"], [["left", 1]] + [[f"text {number}", 2] for number in range(3000)]))
        self.assertLess(len(pickle.dumps(many)), len(pickle.dumps(part)) + 2000)


class Files(TestCase):
    def setUp(self):
        folder = tempfile.TemporaryDirectory()
        self.addCleanup(folder.cleanup)
        self.folder = Path(folder.name)

    def files(self, *texts):
        paths = [self.folder / f"{number}.csv" for number in range(len(texts))]
        for path, text in zip(paths, texts):
            path.write_bytes(text if isinstance(text, bytes) else text.encode())
        return paths

    def test_only_columns_that_are_asked_are_understood(self):
        """Others come as their cells look in the answer, or as the kind that is given says."""
        files = self.files("name,price,code\nRitz,57.40,007\nAnna,80,x\n", "code,name,price\n12,Post,49\n,Park,\n")
        [row] = best(files, "best low(price)")
        self.assertEqual((row.id, dict(row)), (3, {"name": "Post", "price": Decimal(49), "code": 12}))
        self.assertEqual([row.code for row in best(files, "top_level 2 low(price)")], ["12", "007"])
        self.assertEqual([row.code for row in best(files, "best low(price)", kinds={"code": "text"})], ["12"])
        with self.refuses(ValueError, "column 'code' (date): '007' is no date"):
            best(files, "top_level 2 low(price)", kinds={"code": "date"})

    def test_words_for_missing_are_reported_for_all_files(self):
        answer = best(self.files("price\n1\nn/a\n", "price\n2\nn/a\n-\n", "price\n3\n"), "best low(price)")
        self.assertEqual((answer.ids, answer.notes), ([1], ["column 'price': 'n/a' (2 rows), '-' (1 row) taken for missing; missing=[..] says otherwise"]))
        self.assertEqual(best(self.files("price\n1\nx\n"), "best low(price)", missing=["X"]).notes, ["column 'price': 'x' (1 row) taken for missing; missing=[..] says otherwise"])

    def test_a_file_with_nothing_but_words_for_missing(self):
        """They are missing beside numbers, texts beside texts, and where there is nothing else, as in a frame."""
        words, note = "price,n\nn/a,1\n-,2\n,3\n", ["column 'price': 'n/a' (1 row), '-' (1 row) taken for missing; missing=[..] says otherwise"]
        for other, question, ids, notes in [
            ("price,n\n1,4\n", "top_level 2 low(price) & low(n)", [4, 1], note), ("price,n\n1,4\n", "best pos(price, '1')", [4], note),
            ("price,n\nx,4\n", "best pos(price, '-')", [2], []), ("price,n\nx,4\n", "best high(n) by price", [1, 2, 3, 4], []),
            ("price,n\n1,4\n", "best high(n) by price", [3, 4], note), ("price,n\n", "best pos(price, '-')", [2], []),
            ("n,price\n4,none\n", "best pos(price, 'none')", [4], []), ("price,n\ntrue,4\n", "top_level 9 high(price)", [4, 1, 2, 3], note),
        ]:
            for texts in ([words, other], [other, words]):
                with self.subTest(question=question, texts=texts):
                    answer = best(self.files(*texts), question)
                    moved = len(other.splitlines()) - 1 if texts[0] == other else 0
                    rows = [id + moved if id < 4 else 1 if moved else id for id in ids]
                    self.assertEqual((sorted(answer.ids), sorted(answer.notes)), (sorted(rows), sorted(notes)))
        for question in ("best low(price)", "best around(price, 1)"):
            with self.refuses(prefq.Refused, "column 'price' has", kind="term"):
                best(self.files(words, words), question)
        with self.refuses(prefq.Refused, "no order", kind="term"):
            best(self.files(words, "price,n\nx,4\n"), "best low(price)")

    def test_words_in_a_column_that_no_question_names_are_said(self):
        """Of the rows of the answer: they were missing there, and nothing was said. In the command only JSON has them so, others have the cells."""
        files = self.files("x,y,z\n1,5,n/a\n2,n/a,no\n", "x,y,z\n1,n/a,a\n9,-,b\n")
        answer = best(files, "top_level 2 low(x)")
        note = "column 'y': 'n/a' (2 rows) taken for missing; missing=[..] says otherwise"
        self.assertEqual(([row.y for row in answer], answer.notes), ([5, None, None], [note]))
        self.assertEqual(parts.why(files, 4, "best low(x)").notes, [note])
        self.assertEqual(sorted(best(files, "best low(x)", missing=["n/a"], where="x < 9").notes), [f"column '{name}': 'n/a' (1 row) taken for missing; missing=[..] says otherwise" for name in "yz"])
        for form, said in (("--json", "prefq: column 'y': 'n/a' (2 rows) taken for missing; --missing says otherwise\n"), ("--csv", "")):
            with contextlib.redirect_stdout(io.StringIO()), contextlib.redirect_stderr(io.StringIO()) as errors:
                self.assertEqual(main(["ask", str(self.folder / "*.csv"), "top_level 2 low(x)", form]), 0)
            self.assertEqual(errors.getvalue(), said)

    def test_a_file_with_nothing_but_words_in_a_column_of_texts_that_is_given(self):
        """They are texts. A condition of them was refused, and told to give a kind."""
        files = self.files("x,sex\n1,NA\n2,none\n", "x,sex\n3,male\n4,NA\n")
        for where, ids in (("sex = 'NA'", [1]), ("sex in ('none')", [2]), ("sex is missing", []), ("sex is not missing", [1])):
            for some in (files, files[:1]):
                with self.subTest(where=where, files=len(some)):
                    self.assertEqual(best(some, "best low(x)", where=where, kinds={"sex": "text"}).ids, ids)
        self.assertEqual(best(files, "best true(sex = 'NA') & high(x)", kinds={"sex": "text"}).ids, [4])

    def test_words_in_a_column_that_no_question_names_beside_values_from_elsewhere(self):
        """They are missing there, too; texts beside numbers are refused, with where they are."""
        files = self.files("x,opened\n1,n/a\n", "x,opened\n1,soon\n")
        days = Partition(["x", "opened"], [[1, DAY]])
        for sources in ([files[0], days], [days, files[0]]):
            answer = best(sources, "best low(x)")
            self.assertEqual({row.opened for row in answer}, {None, DAY})
        with self.refuses(prefq.Refused, "column 'opened' is text in partition 1 and date in partition 2", kind="table"):
            best([files[1], days], "best low(x)")

    def test_why_beside_a_file_with_nothing_but_words(self):
        files = self.files("price,n\nn/a,1\n-,2\n", "price,n\n1,4\n", "price,n\nn/a,9\n")
        found = parts.why(files, 4, "best low(price) & low(n)")
        self.assertEqual((found.ids, found.levels), ([3, 1, 2], [1, 2, 3]))
        self.assertEqual(parts.why(files[::2], 3, "best pos(price, 'n/a') & low(n)").ids, [1])

    def test_the_file_in_which_a_column_is_one_of_texts(self):
        with self.refuses(prefq.Refused, "1.csv: column 'price' has texts ('x' is no number)", kind="term", place=5):
            best(self.files("price\n1\n", "price\n2\n3\nx\n"), "best low(price)")

    def test_files_that_are_written_in_their_own_way(self):
        answer = best(self.files("name;price\nRitz;1.200,50\n", b"name\tprice\nAn\xe4\t80,5\n"), "best low(price)", decimal=",", thousands=".", encoding="latin-1")
        self.assertEqual([dict(row) for row in answer], [{"name": "Anä", "price": Decimal("80.5")}])

    def test_a_kind_for_a_column_that_is_not_there(self):
        with self.refuses(prefq.Refused, "no column 'prise'", kind="table"):
            best(self.files("price\n1\n"), "best low(price)", kinds={"prise": "whole"})

    def test_files_whose_kinds_do_not_go_together_are_named(self):
        with self.refuses(prefq.Refused, "column 'price' is whole in ", "0.csv and text in ", "1.csv"):
            best(self.files("price\n1\n", "price\nx\n"), "best pos(price, 1)")
        self.assertEqual(best(self.files("price\n1\n", "price\nx\n"), "best pos(price, 1)", kinds={"price": "text"}).ids, [1])

    def test_files_of_a_pattern_by_the_command(self):
        """The cells are as they stand in the files; a name with the signs of a pattern is that of a file, if it is there."""
        self.files("name,price\nRitz,57.40\n", "price,name\n57.400,Anna\n,x\n")
        for words, status, printed in [
            (["?.csv", "best low(price)", "--csv"], 0, "level,id,name,price\n1,1,Ritz,57.40\n1,2,Anna,57.400\n"), (["x*.csv", "best low(price)"], 2, "there is no such file"),
            (["*.csv"], 2, "2 files are asked a question"), (["*.csv", "best low(prise)"], 2, "did you mean price?"), (["?.csv", "best pos(name, 'Rits')"], 0, "did you mean 'Ritz'?"),
            (["[0].csv", "best low(price)", "--csv"], 0, "level,id,price\n1,1,7\n"),
        ]:
            if words[0] == "[0].csv":
                (self.folder / "[0].csv").write_text("price\n7\n")
            with self.subTest(words=words), contextlib.redirect_stdout(io.StringIO()) as output, contextlib.redirect_stderr(io.StringIO()) as errors:
                self.assertEqual(main(["ask", str(self.folder / words[0]), *words[1:]]), status, errors.getvalue())
                self.assertIn(printed, output.getvalue() + errors.getvalue())

    def test_parquet(self):
        if pandas is None:
            self.skipTest("pandas is not installed")
        with mock.patch("pandas.read_parquet", lambda path: pandas.DataFrame({"price": [2.5, 1.5], "name": ["a", "b"]})):
            answer = best([self.folder / "some.parquet", *self.files("name,price\nc,1.50\n")], "best low(price)")
        self.assertEqual([row.name for row in answer], ["b", "c"])
        try:
            import pyarrow      # noqa: F401
        except ImportError:
            self.skipTest("pyarrow is not installed")
        pandas.DataFrame({"price": [2.5, 1.5]}).to_parquet(self.folder / "real.parquet")
        self.assertEqual(best([self.folder / "real.parquet"], "best low(price)").ids, [2])


if __name__ == "__main__":
    unittest.main()
