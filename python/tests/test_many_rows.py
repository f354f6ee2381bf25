"""examples/hotels.csv a thousand times over in twenty files, each written in its own way, on every engine, against pandas' own answer."""
import contextlib
import csv
import datetime
import gzip
import io
import json
import os
import random
import shutil
import signal
import sqlite3
import subprocess
import sys
import tempfile
import unittest
from collections import namedtuple
from concurrent.futures import ProcessPoolExecutor
from concurrent.futures.process import BrokenProcessPool
from decimal import Decimal
from pathlib import Path
from unittest import mock

import prefq
from prefq.__main__ import main
from prefq.parts import Partition, best, why
from support import OnPools, TestCase, needs, package_path, printed

try:
    import pandas
except ImportError:
    pandas = None

TOP = Path(__file__).resolve().parents[2]
PRICE, DISTANCE, OPENED = "Price (EUR)", "Distance (km)", "Opened"
FILES, COPIES = 20, int(os.environ.get("PREFQ_TEST_COPIES", 1000))
PARETO = f'low("{PRICE}") * low("{DISTANCE}")'


def hotels():
    """Records: the hotels of the example again and again, at prices of their own, with days and gaps."""
    chance = random.Random(67)
    with open(TOP / "examples/hotels.csv", encoding="utf-8") as file:
        some = list(csv.DictReader(file))
    for _ in range(COPIES):
        for hotel in some:
            price = Decimal(hotel[PRICE].replace("n/a", "64.90")) + chance.randrange(0, 40)
            yield {"Hotel": hotel["Hotel"], "City": chance.choice([hotel["City"], None, "Köln"]), PRICE: None if chance.random() < 0.1 else price,
                   DISTANCE: Decimal(hotel[DISTANCE]) + Decimal(chance.randrange(30)) / 10, "Stars": Decimal(hotel["Stars"]),
                   OPENED: None if chance.random() < 0.2 else datetime.date(2000, 1, 1) + datetime.timedelta(chance.randrange(9000))}


def dealt():
    """The records of each file: of some the prices are whole, of some all of them are missing, in some nothing is."""
    records = list(hotels())
    size = len(records) // FILES
    for number in range(FILES):
        rows = records[number * size:(number + 1) * size]
        for row in rows:
            if number % 5 == 0 and row[PRICE] is not None:
                row[PRICE] = Decimal(int(row[PRICE]))
            if number == 7:
                row[PRICE] = None
            if number % 5 == 1:
                row[PRICE], row[OPENED] = row[PRICE] or Decimal("80.125"), row[OPENED] or datetime.date(1999, 12, 31)
        yield rows


def write(folder):
    """Writes the files: with columns in orders of their own, with words for missing values, with semicolons, packed. Returns their paths, and all records."""
    paths, records = [], []
    for number, rows in enumerate(dealt()):
        names, gap, delimiter = list(rows[0]), ["", "n/a"][number % 2], ",;"[number % 3 == 0]
        random.Random(number).shuffle(names)
        text = io.StringIO()
        writer = csv.writer(text, delimiter=delimiter)
        writer.writerow(names)
        writer.writerows([["" if row[name] is None and name == "City" else gap if row[name] is None else row[name] for name in names] for row in rows])
        data = text.getvalue().encode()
        paths.append(Path(folder, f"{number:02}.csv"))
        paths[-1].write_bytes(gzip.compress(data) if number == 11 else data)
        records += rows
    return paths, records


class ByPandas:
    """Levels of products of two criteria by pandas: sorted by the first, a row is in the front where the second is less than that of all before."""

    def __init__(self, records):
        self.frame = pandas.DataFrame(records, index=range(1, len(records) + 1))
        # Tenths of cents are exact as floats; what is missing is the worst.
        far = float("inf")
        self.costs = pandas.DataFrame({
            PRICE: [far if value is None else float(value * 1000) for value in self.frame[PRICE].where(self.frame[PRICE].notna(), None)],
            DISTANCE: [float(value * 10) for value in self.frame[DISTANCE]],
            OPENED: [far if value is None else -float(value.toordinal()) for value in self.frame[OPENED].where(self.frame[OPENED].notna(), None)],
            "City": self.frame["City"].fillna("?").tolist()}, index=self.frame.index)

    def front(self, rows, first, second):
        """The ids of the rows that no row dominates."""
        least = rows.groupby(first)[second].min().sort_index()
        before = least.cummin().shift(fill_value=float("inf"))
        good = least[(least < before) | ((before == float("inf")) & (least.index == least.index[0]))]
        return rows.index[rows[second] == rows[first].map(good)]

    def levels(self, rows, first, second, most=None, least=None):
        found, level = [], 0
        while len(rows) and (level < most if most else len(found) < least):
            level += 1
            front = self.front(rows, first, second)
            found += [(level, id) for id in front]
            rows = rows.drop(front)
        return found

    def answers(self):
        """Each question, with the levels and ids of its answer."""
        costs = self.costs
        cities = [costs[costs["City"] == city] for city in sorted(set(costs["City"]))]
        lyon = costs[costs["City"] == "Lyon"]
        front = self.front(costs, PRICE, DISTANCE)
        twins = costs.loc[front].drop_duplicates([PRICE, DISTANCE])
        return {
            f"best {PARETO}": [(1, id) for id in front],
            f"top_level 3 {PARETO} by City": sorted(pair for rows in cities for pair in self.levels(rows, PRICE, DISTANCE, most=3)),
            f'at_least 40 low("{PRICE}") * high(Opened) by City': sorted(pair for rows in cities for pair in self.levels(rows, PRICE, OPENED, least=40)),
            f"at_least 100 {PARETO}": sorted(self.levels(costs, PRICE, DISTANCE, least=100)),
            f'best pos(City, \'Lyon\') & low("{PRICE}")': [(1, id) for id in lyon.index[lyon[PRICE] == lyon[PRICE].min()]],
            f'skyline of distinct "{PRICE}" min, "{DISTANCE}" min': [(1, id) for id in twins.index],
        }


class Once:
    """A function that ends its process where it is called first: the marker is a file that is not there yet."""

    def __init__(self, function, marker):
        self.function, self.marker = function, marker

    def __call__(self, item):
        with contextlib.suppress(FileExistsError):
            os.close(os.open(self.marker, os.O_CREAT | os.O_EXCL))
            os.kill(os.getpid(), signal.SIGKILL)
        return self.function(item)


class ManyRows(OnPools, TestCase):
    @classmethod
    def setUpClass(cls):
        if pandas is None:
            raise unittest.SkipTest("pandas is not installed")
        cls.room = tempfile.TemporaryDirectory()
        cls.addClassCleanup(cls.room.cleanup)
        cls.files, cls.records = write(cls.room.name)
        cls.wanted = ByPandas(cls.records).answers()

    def same(self, question, answer):
        self.assertEqual(list(zip(answer.levels, answer.ids)), self.wanted[question], question)
        self.assertEqual([dict(row) for row in answer], [self.records[row.id - 1] for row in answer])

    def check(self, map):
        for question in self.wanted:
            self.same(question, best(self.files, question, map=map))

    def test_dask(self):
        """By files, by a DataFrame whose partitions have types of their own, and where a worker is killed."""
        needs(self, "distributed")
        done = self.process("test_many_rows.on_dask", 300)
        self.assertEqual(done.returncode, 0, done.stderr)
        printed = json.loads(done.stdout)
        self.assertEqual({question: [tuple(pair) for pair in found] for question, found in printed["files"].items()}, self.wanted)
        question = f"at_least 100 {PARETO}"
        self.assertEqual([tuple(pair) for pair in printed["killed"]], self.wanted[question])
        self.assertEqual([tuple(pair) for pair in printed["frame"]], self.wanted[question])
        self.assertEqual(printed["hotels"], [self.records[id - 1]["Hotel"] for _, id in self.wanted[question]])

    def test_mpi(self):
        needs(self, "mpi4py")
        if not shutil.which("mpiexec"):
            self.skipTest("mpiexec is not installed")
        question = f"top_level 3 {PARETO} by City"
        environment = {**package_path(), "OMPI_ALLOW_RUN_AS_ROOT": "1", "OMPI_ALLOW_RUN_AS_ROOT_CONFIRM": "1"}
        words = ["mpiexec", "--oversubscribe", "-n", "3", sys.executable, "-m", "mpi4py.futures", str(TOP / "examples/parts/mpi.py"), self.room.name, question]
        done = subprocess.run(words, env=environment, capture_output=True, text=True, timeout=300)
        self.assertEqual(printed(done), self.wanted[question], done.stderr)

    def test_the_command(self):
        question = f"top_level 3 {PARETO} by City"
        output = io.StringIO()
        with contextlib.redirect_stdout(output), contextlib.redirect_stderr(io.StringIO()) as errors:
            self.assertEqual(main(["ask", f"{self.room.name}/*.csv", question, "--csv"]), 0, errors.getvalue())
        rows = list(csv.DictReader(io.StringIO(output.getvalue())))
        self.assertEqual([(int(row["level"]), int(row["id"])) for row in rows], self.wanted[question])
        self.assertEqual([row["Hotel"] for row in rows], [self.records[int(row["id"]) - 1]["Hotel"] for row in rows])
        self.assertIn("'n/a'", errors.getvalue())

    def test_a_worker_of_a_pool_that_is_killed(self):
        """It is an error at once."""
        with ProcessPoolExecutor(2) as pool, self.within(120), self.assertRaises(BrokenProcessPool):
            best(self.files, f"best {PARETO}", map=lambda function, items: pool.map(Once(function, f"{self.room.name}/pool"), items))

    def test_a_cursor(self):
        """Of as many rows as one likes, some at a time."""
        question = f"at_least 100 {PARETO}"
        with contextlib.closing(sqlite3.connect(":memory:")) as base, mock.patch("prefq.cursors.MOST_ROWS", 900):
            base.execute("CREATE TABLE hotels (hotel TEXT, price NUMERIC, distance NUMERIC)")
            base.executemany("INSERT INTO hotels VALUES (?, ?, ?)", [(row["Hotel"], row[PRICE] and float(row[PRICE]), float(row[DISTANCE])) for row in self.records])
            found = prefq.psel(base.execute("SELECT * FROM hotels"), "low(price) * low(distance)", at_least=100)
        self.assertEqual(list(zip(found.levels, found.ids)), self.wanted[question])
        self.assertEqual([row.hotel for row in found], [self.records[row.id - 1]["Hotel"] for row in found])

    def process(self, function, timeout):
        module = function.split(".")[0]
        code = f"import sys, {module}; {function}(*sys.argv[1:])"
        return subprocess.run([sys.executable, "-c", code, self.room.name, *map(str, self.files)], env=package_path(), cwd=Path(__file__).parent, capture_output=True,
                              text=True, timeout=timeout)


def on_dask(folder, *files):
    """Asks the questions on a cluster of two workers, and prints the answers."""
    from dask import dataframe, delayed
    from distributed import Client, LocalCluster
    options = {"dashboard_address": None, "memory_limit": None, "silence_logs": "CRITICAL", "local_directory": folder}
    pairs = {}
    with LocalCluster(n_workers=2, threads_per_worker=1, **options) as cluster, Client(cluster) as client:
        for question in ByPandas(list(hotels())).answers():
            answer = best(files, question, map=client.map)
            pairs[question] = list(zip(answer.levels, answer.ids))
        question = f"at_least 100 {PARETO}"
        killed = best(files, question, map=lambda function, items: client.map(Once(function, f"{folder}/dask"), items))
        frame = dataframe.from_delayed([delayed(pandas_of)(path) for path in files], meta=pandas_of(files[0]), verify_meta=False)
        rows = prefq.psel(frame, PARETO, at_least=100)
        whole = best(frame, question)
        print(json.dumps({"files": pairs, "killed": list(zip(killed.levels, killed.ids)), "frame": list(zip(whole.levels, whole.ids)), "hotels": rows["Hotel"].tolist()}))


def pandas_of(path):
    """A file as pandas reads it: prices are int64, float64 or, where all are missing, objects; days are those of pandas."""
    frame = pandas.read_csv(path, sep=None, engine="python", compression="gzip" if path.endswith("11.csv") else None, parse_dates=[OPENED], na_values=["n/a"])
    return frame[["Hotel", "City", PRICE, DISTANCE, "Stars", OPENED]]


class Limits(TestCase):
    """A frame that is too large is refused at the row that no table holds, and says what serves."""

    def counted(self, read):
        """Records without an end, of which each that is read is counted."""
        while True:
            read.append(1)
            yield {"x": len(read)}

    def test_records_are_refused_at_the_first_that_is_too_many(self):
        for open_frame in (lambda read: prefq.Frame.from_records(self.counted(read)),
                           lambda read: prefq.Frame([prefq.Column("x", "whole")], self.counted(read))):
            read = []
            with self.within(60), self.refuses(prefq.Refused, "more than 65536", "prefq.psel and prefq.parts ask more", kind="table"):
                open_frame(read)
            self.assertEqual(len(read), 65_537)

    def test_rows_of_a_query_are_refused_so_too(self):
        cursor = sqlite3.connect(":memory:").execute("WITH RECURSIVE n(x) AS (SELECT 1 UNION ALL SELECT x + 1 FROM n LIMIT 10000000) SELECT x FROM n")
        with self.within(60), self.refuses(prefq.Refused, "more than 65536 rows of the query", "prefq.psel", kind="table"):
            prefq.Frame.from_sql(cursor)

    def test_a_file_is_refused_before_the_rest_of_it_is_read(self):
        with tempfile.TemporaryDirectory() as folder:
            path = Path(folder, "large.csv")
            path.write_text("price\n" + "5\n" * 66_000 + "no number\n" * 100_000)
            with self.refuses(prefq.Refused, "large.csv has more than 65536 rows", "prefq.psel", "prefq.parts", kind="table"):
                prefq.Frame.from_csv(path, kinds={"price": "whole"})

    def test_records_and_dataframes_of_any_number_are_asked_by_psel(self):
        """Tables of 30 rows here."""
        chance = random.Random(9)
        records = [{"x": chance.choice([1, 2, 2.5, None]), "y": chance.randrange(9), "z": chance.choice("ab")} for _ in range(100)]
        frame = pandas and pandas.DataFrame(records)
        for text, mode in [("low(x) * high(y)", {}), ("low(x) & low(y)", {"top_level": 3}), ("low(y) by z", {"at_least": 20}), ("skyline of distinct x min, y min", {})]:
            with self.subTest(text):
                wanted = prefq.psel(records, text, **mode)
                with mock.patch("prefq.select.MOST_ROWS", 30):
                    found = prefq.psel(records, text, **mode)
                    rows = None if frame is None else prefq.psel(frame, text, **mode)
                self.assertEqual((found, found.ids, found.levels), (wanted, wanted.ids, wanted.levels))
                if rows is not None:
                    self.assertEqual((list(rows.index + 1), list(rows[".level"])), (wanted.ids, wanted.levels))
        with mock.patch("prefq.select.MOST_ROWS", 30), self.refuses(TypeError, "has no option 'capacity'"):
            prefq.psel(records, "low(x)", capacity=5)

    def test_a_cursor_without_rows(self):
        cursor = sqlite3.connect(":memory:").cursor()
        for ask in (prefq.Frame.from_sql, lambda cursor: prefq.psel(cursor, "low(x)")):
            with self.refuses(prefq.Refused, "execute a SELECT first", kind="table"):
                ask(cursor)
        with self.refuses(prefq.Refused, "two columns are called 'x'"):
            prefq.Frame.from_sql(cursor.execute("SELECT 1 AS x, 2 AS x"))

    def test_what_is_neither_records_nor_a_cursor(self):
        """A text was taken for its letters, a mapping for its names, and of others Python itself said something."""
        database = sqlite3.connect(":memory:")
        self.addCleanup(database.close)
        for source in ("hotels.csv", b"x", {"x": [1, 2]}, None, database):
            for ask in (lambda records: prefq.psel(records, "low(x)"), prefq.Frame.from_records):
                with self.subTest(source=source), self.refuses(TypeError, f"records is of type {type(source).__name__}: not a list of records"):
                    ask(source)
            with self.refuses(TypeError, f"cursor is of type {type(source).__name__}: not the cursor of a query"):
                prefq.Frame.from_sql(source)

    def test_a_cursor_whose_rows_are_made_into_other_things(self):
        """The first value of each is a usual one. Lyon was the city L then, and a value too many was left out."""
        database = sqlite3.connect(":memory:")
        for factory, query, error, says in [
                (lambda _, row: row[0], "SELECT 'Lyon' AS city UNION ALL SELECT 'Bern'", TypeError, "row 1 of the query is 'Lyon': not the values of city"),
                (lambda _, row: row[0], "SELECT 'ab' AS x, 5 AS y", TypeError, "row 1 of the query is 'ab': not the values of x, y"),
                (lambda _, row: row[0], "SELECT 5 AS x", TypeError, "row 1 of the query is 5: not the values of x"),
                (lambda _, row: row[:row[0]], "SELECT 2 AS x, 7 AS y UNION ALL SELECT 1, 7", ValueError, "row 2 of the query has 1 values: not 2, those of x, y"),
                (lambda _, row: (*row, 9), "SELECT 5 AS x", ValueError, "row 1 of the query has 2 values: not 1, those of x"),
                (lambda _, row: bytearray(row[0]), "SELECT x'3830' AS x, 5 AS y", TypeError, "row 1 of the query is bytearray(b'80'): not the values of x, y"),
                (lambda _, row: memoryview(row[0]), "SELECT x'3830' AS x, 5 AS y", TypeError, "row 1 of the query is <memory"),
                (lambda _, row: set(row), "SELECT 7 AS x, 5 AS y", TypeError, "not the values of x, y"),
                (lambda _, row: {"X": row[0]}, "SELECT 7 AS x", TypeError, "row 1 of the query is {'X': 7}: not the values of x"),
                (lambda _, row: {"x": row[0], "y": 1}, "SELECT 7 AS x", TypeError, "row 1 of the query is {'x': 7, 'y': 1}: not the values of x")]:
            database.row_factory = factory
            for ask in (prefq.Frame.from_sql, lambda cursor: prefq.psel(cursor, "empty()")):
                with self.subTest(query=query), self.refuses(error, says):
                    ask(database.execute(query))
        database.row_factory = lambda cursor, row: dict(zip([name for name, *_ in cursor.description], row))
        with prefq.Frame.from_sql(database.execute("SELECT 'Lyon' AS city, 5 AS x")) as frame:
            self.assertEqual([dict(row) for row in frame.rows()], [{"city": "Lyon", "x": 5}])
        database.close()

    def test_named_tuples_whose_names_stand_in_another_order(self):
        """A value of one column stood in the other. By the place are those of other names, as drivers write `price eur` as price_eur."""
        database = sqlite3.connect(":memory:")
        turned, renamed = namedtuple("turned", "price city"), namedtuple("renamed", "city price_eur")
        for factory in (lambda _, row: turned(city=row[0], price=row[1]), lambda _, row: renamed(*row)):
            database.row_factory = factory
            for ask in (lambda cursor: prefq.Frame.from_sql(cursor).rows(), lambda cursor: prefq.psel(cursor, "empty()"),
                        lambda cursor: best([Partition(["city", "price"], cursor.fetchall())], "best empty()")):
                self.assertEqual([dict(row) for row in ask(database.execute("SELECT 'Lyon' AS city, 60 AS price"))], [{"city": "Lyon", "price": 60}])
        database.close()


class Why(TestCase):
    def test_the_rows_that_dominate_are_those_of_a_frame(self):
        chance = random.Random(5)
        rows = [[chance.choice(["Lyon", "Bern"]), chance.choice([None, 1, 2, 3, 4]), chance.randrange(5)] for _ in range(60)]
        names = ["city", "price", "dist"]
        parts = [Partition(names, rows[begin:begin + 17]) for begin in range(0, 60, 17)]
        with prefq.Frame.from_records([dict(zip(names, row)) for row in rows]) as frame:
            for question in ["best low(price) * low(dist) by city", "skyline of distinct price min, dist min", "best pos(city, 'Lyon') & low(price)"]:
                for id in (1, 18, 35, 60):
                    with self.subTest(question=question, id=id):
                        mine, wanted = why(parts, id, question), frame.why(id, question)
                        self.assertEqual((mine, mine.ids, mine.levels), (wanted, wanted.ids, wanted.levels))

    def test_a_row_that_is_not_there(self):
        for id in (0, 3):
            with self.refuses(prefq.Refused, f"no such row {id}", kind="client", number=7):
                why([Partition(["x"], [[1]]), Partition(["x"], [[2]])], id, "best low(x)")

    def test_a_file_that_is_another_one_meanwhile(self):
        with tempfile.TemporaryDirectory() as folder:
            path, calls = Path(folder, "x.csv"), []
            path.write_text("x\n1\n2\n")

            def changes(function, items):
                calls.append(function)
                if len(calls) == 4:
                    path.write_text("x\n1\n3\n")
                return map(function, items)

            with self.refuses(prefq.Refused, "another one than it was", kind="table"):
                why([path], 2, "best low(x)", map=changes)


if __name__ == "__main__":
    unittest.main()
