"""Questions over partitions: the same answers as a plain evaluation, and what is refused."""
import pickle
import random
import tempfile
import unittest
from functools import reduce
from pathlib import Path
from unittest import mock

import prefq
from prefq import parts
from prefq.parts import Job, Partition, RowsLeft, best
from support import needs

COLUMNS = ["price", "dist", "city"]
QUESTIONS = {
    "best low(price) * low(dist)": (None, 1, None),
    "top_level 3 low(price) * low(dist) by city": (2, 3, None),
    "at_least 9 low(price) * low(dist)": (None, None, 9),
    "at_least 20 low(price) * low(dist) by city": (2, None, 20),
}


def plain(rows, group, levels, least):
    """The answer by its definition, as levels and ids: what no row dominates, level by level, in each group."""
    def dominates(a, b):
        return a[0] <= b[0] and a[1] <= b[1] and a[:2] != b[:2]
    found = []
    for key in {row[group] if group else None for row in rows}:
        left = [(id, row) for id, row in enumerate(rows, 1) if not group or row[group] == key]
        level, count = 0, 0
        while left and (level < levels if levels else count < least):
            level += 1
            front = [id for id, row in left if not any(dominates(other, row) for _, other in left)]
            found += [(level, id) for id in front]
            count += len(front)
            left = [(id, row) for id, row in left if id not in front]
    return sorted(found)


def random_rows(chance, count, most=30):
    return [[chance.randint(0, most), chance.randint(0, most), chance.randint(1, 3)] for _ in range(count)]


def cut(rows, places):
    ends = [0, *sorted(places), len(rows)]
    return [Partition(COLUMNS, rows[begin:end]) for begin, end in zip(ends, ends[1:])]


def answered(rows):
    return [(row.level, row.id) for row in rows]


def as_csv(rows):
    return "".join(",".join(map(str, row)) + "\n" for row in [COLUMNS, *rows]).encode()


def write(folder, rows, size):
    """Files of this number of rows."""
    for number, begin in enumerate(range(0, len(rows), size)):
        Path(folder, f"part-{number:02}.csv").write_bytes(as_csv(rows[begin:begin + size]))
    return sorted(Path(folder).glob("*.csv"))


class Exact(unittest.TestCase):
    def test_random_rows_cut_anywhere(self):
        chance = random.Random(44)
        for number in range(4):
            rows = random_rows(chance, chance.randint(40, 120))
            partitions = cut(rows, [chance.randint(0, len(rows)) for _ in range(number * 3)])
            for question, asked in QUESTIONS.items():
                with self.subTest(question=question, partitions=len(partitions)):
                    self.assertEqual(answered(best(partitions, question)), plain(rows, *asked))

    def test_rows_of_one_partition_that_more_than_one_table_holds(self):
        """Tables of 40 rows here, so that a partition is cut, and what it leaves is sometimes more than asked for."""
        chance, refused, right = random.Random(7), 0, 0
        with mock.patch.object(parts, "MOST_ROWS", 40):
            for _ in range(5):
                rows = random_rows(chance, chance.randint(60, 160))
                for question, asked in QUESTIONS.items():
                    try:
                        found = answered(best(cut(rows, [50]), question))
                    except RowsLeft as why:
                        self.assertGreater(why.left, 40)
                        refused += 1
                        continue
                    self.assertEqual(found, plain(rows, *asked), question)
                    right += 1
        self.assertGreater(right, refused)

    def test_levels_are_asked_for_in_turn(self):
        for question, levels in [("at_least 100 low(price) by city", [4, 16, 64, 100]), ("at_least 3 low(price)", [3]), ("best low(price)", [None]),
                                 ("at_least 000000003 low(price)", [3]), (f"at_least {'9' * 5000} low(price)", [None])]:
            self.assertEqual([job.levels for job in Job(question).tries()], levels)

    def test_a_chain_needs_as_many_levels_as_rows(self):
        rows = [[number, number, 1] for number in range(40)]
        self.assertEqual(answered(best(cut(rows, [7, 30]), "at_least 30 low(price) * low(dist)")), [(level, level) for level in range(1, 31)])

    def test_a_group_of_few_rows_needs_no_more_levels(self):
        rows = [[5, 5, 1], [6, 6, 1], *([number, 9 - number, 2] for number in range(10))]
        calls = []

        def counted(function, items):
            calls.append(function.__name__)
            return map(function, items)
        found = best(cut(rows, [1]), "at_least 10 low(price) * low(dist) by city", map=counted)
        self.assertEqual(answered(found), plain(rows, 2, None, 10))
        self.assertEqual(calls, ["part", "answer"])

    def test_of_twins_the_one_of_the_first_partition_stays(self):
        rows = [[20, 1, 1], [10, 5, 1], [10, 7, 1], [10, 5, 2], [10, 5, 1]]
        for places in ([], [1], [2], [1, 2, 3, 4]):
            with self.subTest(places=places):
                self.assertEqual(answered(best(cut(rows, places), "skyline of distinct price min, dist min")), [(1, 1), (1, 2)])
                self.assertEqual(answered(best(cut(rows, places), "skyline of distinct price min, city diff")), [(1, 2), (1, 4)])

    def test_a_tree_of_merges_and_a_given_reduction(self):
        rows = random_rows(random.Random(3), 60)
        partitions = cut(rows, range(3, 60, 3))
        for question in ["best low(price) * low(dist)", "skyline of distinct price min, city diff"]:
            wanted = best([Partition(COLUMNS, rows)], question)
            self.assertEqual(best(partitions, question), wanted)
            self.assertEqual(best(partitions, question, reduce=reduce), wanted)
            self.assertEqual(best(partitions, question, reduce=lambda merge, items: reduce(lambda a, b: merge(b, a), reversed(list(items)))), wanted)

    def test_values_are_whole_numbers_of_64_bits(self):
        rows = [[-2**63 + 1, 2**63 - 1], [2**63 - 1, -2**63 + 1]]
        found = best([Partition(["a", "b"], rows)], "best low(a) * low(b)")
        self.assertEqual([list(row.values()) for row in found], rows)
        with self.assertRaises(ValueError) as caught:
            best([Partition(["a", "b"], [[1, 2], [-2**63, 1]])], "best low(a) * low(b)")
        self.assertIn("row 2, column 'a' (whole): -9223372036854775808 does not fit", str(caught.exception))

    def test_frames_of_pandas(self):
        needs(self, "pandas")
        import pandas
        rows = random_rows(random.Random(5), 60)
        for kind in ("int64", "int32", "Int64"):
            partitions = [pandas.DataFrame(some, columns=COLUMNS).astype(kind) for some in (rows[:25], rows[25:])]
            question = "at_least 9 low(price) * low(dist)"
            self.assertEqual(answered(best(partitions, question)), plain(rows, *QUESTIONS[question]))
        for other in ([1.5, 2.0], [True, False], ["1", "2"], [1, None]):
            [row] = best([pandas.DataFrame({"price": [1, 2], "dist": other})], "best low(price)")
            self.assertEqual((row.price, row.dist), (1, other[0]))

    def test_no_rows(self):
        self.assertEqual(best([Partition(COLUMNS, []), Partition(COLUMNS, [])], "best low(price)"), [])


class Files(unittest.TestCase):
    def setUp(self):
        folder = tempfile.TemporaryDirectory()
        self.addCleanup(folder.cleanup)
        self.folder = Path(folder.name)

    def file(self, data, name="rows.csv"):
        path = self.folder / name
        path.write_bytes(data)
        return path

    def test_spellings_of_a_file(self):
        for name, data in {
            "plain": b"price,dist\n50,8\n80,2\n", "no line end": b"price,dist\n50,8\n80,2", "returns": b"price,dist\r\n50,8\r\n80,2\r\n",
            "mark": b"\xef\xbb\xbfprice,dist\n50,8\n80,2\n", "quotes": b'"price","dist"\n"50",8\n80,"2"\n', "blanks": b"price,dist\n +50, 8\n80,2 \n",
            "empty lines": b"price,dist\n\n50,8\n\n80,2\n\n", "quotes and empty lines": b'price,dist\n\n"50",8\n\n80,2\n',
        }.items():
            with self.subTest(name):
                [row] = best([self.file(data)], "best low(dist)")
                self.assertEqual((row.level, row.id, dict(row)), (1, 2, {"price": 80, "dist": 2}))
                self.assertEqual([row.id for row in best([str(self.file(data))], "top_level 2 low(dist)")], [2, 1])

    def test_a_fault_of_a_file_names_the_file_and_the_row(self):
        for data, exception, said in [
            (b"price,dist\n50,8\nx,5\n", prefq.Refused, "column 'price' has texts"),
            (b"price,dist\n50,8\n50\n", prefq.Refused, "line 3: it has 1 cells"),
            (b"", prefq.Refused, "is empty"),
            (b"price,dist\n50,\xff\n", prefq.Refused, "byte 14"),
            (b"price,price\n50,1\n", prefq.Refused, "two columns are called 'price'"),
        ]:
            with self.subTest(data=data), self.assertRaises(exception) as caught:
                best([self.file(data)], "best low(price)")
            self.assertIn(said, str(caught.exception))
            if caught.exception.kind == "table":
                self.assertIn("rows.csv", str(caught.exception))
        with self.assertRaises(ValueError) as caught:
            best([self.file(b"price,dist\n50,8\n50.5,1\n")], "best low(price)", kinds={"price": "whole"})
        self.assertIn("rows.csv: line 3, column 'price' (whole): 50.5 is no whole number", str(caught.exception))
        with self.assertRaises(FileNotFoundError):
            best([self.folder / "none.csv"], "best low(price)")

    def test_an_engine_that_keeps_results_by_function_and_arguments(self):
        """As Dask does while anybody has a future of a part: a question reads the file as it is now, and a mended one is no more refused."""
        kept = {}

        def keeps(function, items):
            for item in items:
                key = pickle.dumps((function, item))
                if key not in kept:
                    try:
                        kept[key] = function(item)
                    except prefq.Refused as why:
                        kept[key] = why
                if isinstance(kept[key], prefq.Refused):
                    raise kept[key]
                yield kept[key]

        for data, wanted in [(b"price\n5\n", 5), (b"price\n4\n", 4), (b"price\nx\n", None), (b"price\n3\n", 3)]:
            for question in ("best low(price)", "at_least 1 low(price)"):
                path = self.file(data)
                if wanted:
                    self.assertEqual(best([path], question, map=keeps)[0].price, wanted)
                else:
                    with self.assertRaises(prefq.Refused):
                        best([path], question, map=keeps)

    def test_a_file_that_changes_between_the_tries_of_at_least(self):
        """The answer is that of the last reading alone."""
        rows, asked = [[number, number, 1] for number in range(40)], []
        path = self.file(as_csv(rows))

        def changes(function, items):
            asked.append(function.__name__)
            if asked == ["part", "answer", "part"]:
                self.file(as_csv([[1000 + price, dist, city] for price, dist, city in rows]))
            return map(function, items)

        found = best([path], "at_least 9 low(price) * low(dist)", map=changes)
        self.assertEqual([(row.level, row.id, row.price) for row in found], [(level, level, 999 + level) for level in range(1, 10)])

    def test_a_file_that_is_written_to_while_it_is_read(self):
        """While its columns are read, or its rows that are left."""
        from prefq.reading import Cells
        for call in ("chunks", "rows_at"):
            path, before = self.file(as_csv([[1, 2, 3]])), getattr(Cells, call)

            def writes(cells, *words, before=before):
                found = before(cells, *words)
                found = list(found) if not isinstance(found, dict) else found
                with open(path, "ab") as file:
                    file.write(b"4,5,6\n")
                return found

            with self.subTest(call), mock.patch.object(Cells, call, writes), self.assertRaises(prefq.Refused) as caught:
                best([path], "best low(price)")
            self.assertIn("rows.csv was written to while it was read", str(caught.exception))
            self.assertEqual(len(best([path], "best low(price)")), 1)

    def test_rows_of_a_partition_that_is_cut_are_counted_in_it(self):
        rows = [f"{number},1" for number in range(90)]
        rows[77] = "5"
        with mock.patch.object(parts, "MOST_ROWS", 40), self.assertRaises(ValueError) as caught:
            best([Partition(["price", "dist"], rows)], "best low(price)")
        self.assertIn("row 78", str(caught.exception))

    def test_rows_that_can_be_had_once_are_kept_for_the_tries_of_at_least(self):
        rows = [[number, number, 1] for number in range(40)]
        found = best([Partition(COLUMNS, iter(rows))], "at_least 9 low(price) * low(dist)")
        self.assertEqual(answered(found), [(level, level) for level in range(1, 10)])

    def test_one_list_that_has_another_row_each_time(self):
        """All rows were the last one."""
        def rows():
            row = [0, 7, 1]
            for row[0] in range(3):
                yield row

        job = Job("top_level 3 low(price)")
        for found in (best([Partition(COLUMNS, rows())], job.question), job.answer([job.part(Partition(COLUMNS, rows()))]).rows):
            self.assertEqual([row.price for row in found] if isinstance(found, prefq.Answer) else list(found.places), [0, 1, 2])


class Refusals(unittest.TestCase):
    def test_a_line_is_no_command(self):
        for rows in (["end"], ["5", "end", "as 1 room"], ["5\nend\nas 1 begin best low(a)"], [""], ["5;"], [b"end"]):
            with self.subTest(rows=rows), self.assertRaises(TypeError):
                best([Partition(["a"], rows)], "best low(a)")

    def test_a_line_in_any_bytes(self):
        """Those of a bytearray are no numbers."""
        for row in ("8,0", b"8,0", bytearray(b"8,0"), memoryview(b"8,0")):
            self.assertEqual([tuple(found.values()) for found in best([Partition(["a", "b"], [row])], "best low(a)")], [(8, 0)])
        with self.assertRaises(ValueError):
            best([Partition(["a", "b"], [bytearray(b"80")])], "best low(a)")

    def test_rows_that_are_none(self):
        for rows in ([5], [{"a": 1, "b": 2}], [{1, 2}], [None]):
            with self.subTest(rows=rows), self.assertRaises(TypeError):
                best([Partition(["a", "b"], rows)], "best low(a)")
        with self.assertRaises(ValueError):
            best([Partition(["a", "b"], [[1]])], "best low(a)")
        for source in (5, None, b"a.csv"):
            with self.subTest(source=source), self.assertRaises(TypeError) as caught:
                best([source], "best low(a)")
            self.assertIn("a partition is a path, a Partition or a DataFrame", str(caught.exception))
        with self.assertRaises(TypeError) as caught:
            best([Partition(["a"], [[1]])], "best low(a)", sep=";")
        self.assertIn("it is called 'delimiter' here", str(caught.exception))

    def test_a_question_is_refused_at_its_own_place(self):
        for question, place in [("best low(prize)", 9), ("at_least 40 low(prize)", 16), ("at_least 1001 low(price)", 9), (f"at_least {'9' * 900} low(price)", 9), ("at_least40 low(price)", 0),
                                ("at_least 5 low(price) by town", 25), ("skyline of price", 16)]:
            with self.subTest(question=question), self.assertRaises(prefq.Refused) as caught:
                best([Partition(COLUMNS, [[1, 2, 3]])], question)
            self.assertEqual((caught.exception.kind, caught.exception.place), ("term", place))
            self.assertEqual(str(caught.exception).splitlines()[-1].index("^") - 4, place)
        # The longest question; blanks are not sent.
        self.assertEqual(len(best([Partition(COLUMNS, [[1, 2, 3]])], f"at_least 5 low(price{' ' * 5000})")), 1)
        for question in (f"best {' * '.join(['low(price)'] * 700)}", "", "best low(price)\nas 1 room"):
            with self.subTest(question=question), self.assertRaises(prefq.Refused):
                best([Partition(COLUMNS, [[1, 2, 3]])], question)
        with self.assertRaises(TypeError):
            best([Partition(COLUMNS, [])], None)

    def test_no_partition_and_other_columns(self):
        with self.assertRaises(ValueError):
            best([], "best low(price)")
        with self.assertRaises(prefq.Refused) as caught:
            best([Partition(["a", "b"], [[1, 2]]), Partition(["a", "c"], [[1, 2]])], "best low(a)")
        self.assertIn("different columns: a, b in partition 1 and a, c in partition 2", str(caught.exception))

    def test_one_partition_in_place_of_a_list(self):
        class Frame:
            columns = ["price", "dist"]

            def __iter__(self):
                return iter(self.columns)

        class Pandas(Frame):
            def itertuples(self, **_):
                return iter([(50, 8)])

        class Dask(Pandas):
            def to_delayed(self):
                return []

        for partitions, said in [("a.csv", "one path: give a list"), (Path("a.csv"), "one path"), (b"a.csv", "one path"), (Partition(["a"], [[1]]), "one partition"),
                                 (Pandas(), "a DataFrame: give a list of DataFrames, or ask it by prefq.psel"),
                                 ([Pandas(), Dask()], "partition 2 is a DataFrame of Dask: give it alone, in place of the list")]:
            with self.subTest(said), self.assertRaises(TypeError) as caught:
                best(partitions, "best low(price)")
            self.assertIn(said, str(caught.exception))

    def test_an_engine_for_a_dataframe_of_dask(self):
        class Dask:
            def to_delayed(self):
                return []

        for options in ({"map": lambda function, items: map(function, items)}, {"reduce": reduce}):
            with self.assertRaises(TypeError) as caught:
                best(Dask(), "best low(price)", **options)
            self.assertIn("Dask's own scheduler: leave out map= and reduce=", str(caught.exception))

    def test_rows_that_nothing_dominates(self):
        rows = [f"{number},{number % 7}" for number in range(66_000)]
        with self.assertRaises(RowsLeft) as caught:
            best([Partition(["offer", "price"], rows[:30_000]), Partition(["offer", "price"], rows[30_000:])], "best low(price) by offer")
        self.assertEqual((caught.exception.left, caught.exception.count), (66_000, 66_000))
        self.assertIn("66000 rows of 66000 are left", str(caught.exception))

    def test_exceptions_jobs_and_results_can_be_pickled(self):
        left = pickle.loads(pickle.dumps(RowsLeft(70_000, 80_000)))
        self.assertEqual((left.left, left.count, left.kind), (70_000, 80_000, "parts"))
        job = Job("best low(a)")
        part = job.part(Partition(["a"], [[3], [1]]))
        again, left = pickle.loads(pickle.dumps((job, part)))
        self.assertEqual((again, list(left.places), left.rows), (job, [1], part.rows))


if __name__ == "__main__":
    unittest.main()
