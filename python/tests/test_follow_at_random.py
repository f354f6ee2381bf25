"""Frames that follow a table of SQLite that is changed at random, by four writers, and with more rows than one table holds.

PREFQ_TEST_COUNT is how many questions are asked between random transactions, PREFQ_TEST_SECONDS how long four writers write, and PREFQ_TEST_SEED begins others.
"""
import os
import random
import sqlite3
import sys
import tempfile
import threading
import time
import warnings
from contextlib import closing
from itertools import cycle

import prefq
import random_following
import random_frames
import test_follow
from plain import Ask, Low, Pareto
from plain_expressions import Part
from random_following import KEY, TABLE, Beside, Store, quoted
from support import TestCase
from test_follow import QUESTION, QUESTIONS, SEED

SECONDS = float(os.environ.get("PREFQ_TEST_SECONDS", 3))
QUESTIONS_OF_A_TABLE = 20
ANSWERS = 9
BEST = Ask(QUESTION, Pareto("", [Low("price", ""), Low("dist", "")]), levels=1)
CHEAP = Part("price < 20 and hotel = 'x'", lambda row: row["price"] < 20 and row["hotel"] == "x")
ASKED = [Beside(BEST), Beside(BEST, top=4, ties=Low("dist", "low(dist)")), Beside(BEST, CHEAP),
         Beside(Ask("top_level 2 low(price)", Low("price", ""), ["hotel"], 2), CHEAP, top=3, by=("hotel",))]


class ManyRows(test_follow.OfSqlite):
    SKYLINE = """select id from (select id, price, dist, min(dist) over (partition by price) as here,
        min(dist) over (order by price range between unbounded preceding and 1 preceding) as before from offers)
        where dist = here and (before is null or dist < before) order by id"""

    def test_more_rows_than_one_table_holds(self):
        """As SQL finds them; 100,000 where nothing is said."""
        chance, count = random.Random(SEED), 100 * QUESTIONS
        rows = [(number, None, chance.randrange(10**6), chance.randrange(10**6)) for number in range(count)]
        frame = self.offers(*rows, capacity=min(65_536, count // 5 + 1))
        self.assertGreater(frame.tables, 4)
        took = []
        for _ in range(ANSWERS):
            key, price, dist = chance.randrange(2 * count), chance.randrange(1000), chance.randrange(10**5)
            begin = time.monotonic()
            self.db.execute("replace into offers values (?, null, ?, ?)", (key, price, dist))
            answer = frame.best(QUESTION)
            took.append(time.monotonic() - begin)
            self.assertEqual(answer.ids, [id for id, in self.db.execute(self.SKYLINE)])
        print(f"{count} rows of SQLite in {frame.tables} tables: a change and its answer take {sorted(took)[ANSWERS // 2] * 1000:.0f} ms in the median", file=sys.stderr)


class FourWriters(test_follow.OfSqlite):
    def test_every_answer_is_that_of_the_table_at_its_place(self):
        """Three ask meanwhile."""
        self.db.execute("pragma journal_mode = wal")
        frame = self.offers(*((number, f"{number % 3}", number, number * 7 % 30) for number in range(30)), capacity=16)
        seen = {frame.at: self.db.execute("select * from offers").fetchall()}
        self.stop, self.failures, answers = threading.Event(), [], []

        def write(seed):
            chance = random.Random(seed)
            with closing(sqlite3.connect(self.path, isolation_level=None, timeout=60)) as db:
                while not self.stop.is_set():
                    self.write(db, chance, seen)

        def ask(number):
            for asked in cycle(ASKED):
                if self.stop.is_set():
                    break
                answer = frame.best(asked.asked.text, at_least=frame.now() if number else None, **asked.options())
                answers.append((asked, answer.at, list(zip(answer.levels, answer.ids))))

        calls = [*((write, SEED + number) for number in range(4)), *((ask, number) for number in range(3))]
        threads = [threading.Thread(target=self.reported, args=call) for call in calls]
        for thread in threads:
            thread.start()
        self.stop.wait(SECONDS)
        self.stop.set()
        for thread in threads:
            thread.join()
        self.assertEqual(self.failures, [])
        for asked, at, found in answers:
            rows = {id: {"hotel": hotel, "price": price, "dist": dist} for id, hotel, price, dist in seen[at]}
            self.assertEqual(asked.answer(rows), found, asked)
        print(f"{len(seen)} transactions of four writers, {len(answers)} answers", file=sys.stderr)

    def reported(self, call, argument):
        """A call in a thread; what it raises is what the test reports."""
        try:
            call(argument)
        except Exception as why:
            self.failures.append(why)
            self.stop.set()

    def write(self, db, chance, seen):
        """A transaction, with what the table has at its place."""
        db.execute("begin immediate")
        for _ in range(chance.randrange(1, 8)):
            key, price, dist = chance.randrange(60), chance.randrange(40), chance.randrange(40)
            if chance.random() < 0.7:
                db.execute("insert into offers values (?, 'x', ?, ?) on conflict (id) do update set price = excluded.price, dist = excluded.dist", (key, price, dist))
            else:
                db.execute("delete from offers where id = ?", (key,))
        [place] = db.execute('select max(number) from "prefq_changes:offers:id"').fetchone()
        seen[place or 0] = db.execute("select * from offers").fetchall()
        db.execute("commit")
        time.sleep(chance.uniform(0, 0.02))


class StoreOfSqlite(Store):
    def __init__(self, random, columns, path):
        super().__init__(random, columns)
        self.db = sqlite3.connect(path, isolation_level=None)
        self.db.execute("pragma synchronous = off")
        key = "text" if self.are_texts else "integer"
        self.db.execute(f"create table {quoted(TABLE)} ({quoted(KEY)} {key} primary key, {', '.join(map(quoted, columns))})")

    def statement(self, text, *values):
        self.db.execute(text, values)

    def followed(self, **options):
        return prefq.Frame.follow(self.db, TABLE, key=KEY, **options)


class RandomTransactions(TestCase):
    def test_answers_are_those_of_what_is_committed(self):
        for number in range(max(1, QUESTIONS // QUESTIONS_OF_A_TABLE)):
            chance = random.Random(SEED + number)
            with self.subTest(table=number), tempfile.TemporaryDirectory() as folder, warnings.catch_warnings():
                warnings.simplefilter("ignore", prefq.UnknownValue)
                columns, _ = random_frames.frame(chance)
                store = StoreOfSqlite(chance, columns, os.path.join(folder, "store.db"))
                with closing(store.db):
                    random_following.transactions(self, chance, store, QUESTIONS_OF_A_TABLE)
