"""Followers of a table that four writers change, which are killed at random places and follow it again: each answer is that of SQL's own table at its place.

PREFQ_TEST_SECONDS is how long the writers write, and PREFQ_TEST_SEED begins other transactions and places.
"""
import json
import os
import random
import re
import signal
import sqlite3
import subprocess
import sys
import tempfile
import threading
import time
import unittest
from collections import deque
from contextlib import closing, suppress

import postgres
from plain import Ask, Low, Pareto
from plain_expressions import Part
from prefq.decoding import place_of
from prefq.follow_sqlite import unfollow
from random_following import Beside
from support import TestCase

SECONDS = float(os.environ.get("PREFQ_TEST_SECONDS", 3))
SEED = int(os.environ.get("PREFQ_TEST_SEED", 20260501))
KEYS, NUMBERS = range(30), range(20)
FOLLOWERS = 3
LONGEST = 0.7       # seconds that a follower lives after its begin, or after some answers
PAUSE = 0.02        # seconds at most between two transactions of a writer
OFFERS = "create table offers (id integer primary key, hotel text, price integer, dist integer)"
COLUMNS = ("hotel", "price", "dist")
SKYLINE = Pareto("low(price) * low(dist)", [Low("price", "low(price)"), Low("dist", "low(dist)")])
ASKED = [Beside(Ask(f"best {SKYLINE.text}", SKYLINE, levels=1)), Beside(Ask("top_level 99 high(dist)", Low("dist", "", lambda dist: -dist), levels=99)),
         Beside(Ask(f"best {SKYLINE.text}", SKYLINE, levels=1), top=4, ties=Low("dist", "low(dist)")),
         Beside(Ask("top_level 2 low(price)", Low("price", ""), ["hotel"], 2), Part("price < 12", lambda row: row["price"] < 12), top=2, by=("hotel",))]
FOLLOWS = """
import importlib, json, random, sys, prefq
client, words, asked, seed = sys.argv[1], *map(json.loads, sys.argv[2:])
chance, connect = random.Random(seed), importlib.import_module(client).connect
print("begun", flush=True)
while True:
    db = connect(**words)
    with prefq.Frame.follow(db, "offers", capacity=8) as frame:
        for _ in range(chance.choice([1, 3, 1000])):
            for number, (question, options) in enumerate(asked):
                answer = frame.best(question, **options)
                print(json.dumps([answer.at, number, list(zip(answer.levels, answer.ids))]), flush=True)
    db.close()
"""


def statements(chance):
    """The changes of a transaction, as both databases take them."""
    key, other, price, dist = chance.choice(KEYS), chance.choice(KEYS), chance.choice(NUMBERS), chance.choice(NUMBERS)
    put = f"insert into offers values ({key}, '{chance.choice('xyz')}', {price}, {dist}) on conflict (id) do update set price = excluded.price, dist = excluded.dist"
    some = [put, put, put, f"delete from offers where id = {key}", f"update offers set price = {price} where id = {key}",
            f"update offers set id = {other} where id = {key} and not exists (select 1 from offers where id = {other})",
            f"update offers set dist = dist + 1 where price = {price}", f"update offers set hotel = 'x' where id > {key}"]
    return [*chance.choices(some, k=chance.randrange(1, 6)), *["delete from offers"] * (chance.random() < 0.01)]


class SqliteTable:
    """The table in a file, with its rows behind each place."""

    client = "sqlite3"

    def __init__(self, path, journal):
        self.words = {"database": path, "timeout": 60}
        self.seen, self.begun = {}, 0
        with closing(self.connected()) as db:
            db.execute(f"pragma journal_mode = {journal}")
            db.execute(OFFERS)
        self.follow_anew()

    def connected(self):
        db = sqlite3.connect(**self.words, isolation_level=None, check_same_thread=False)
        db.execute("pragma synchronous = off")      # no test is about a power failure
        return db

    def write(self, db, chance):
        db.execute("begin immediate")
        for statement in statements(chance):
            db.execute(statement)
        if chance.random() < 0.1:
            db.execute("rollback")
            return False
        self.note(db)
        db.execute("commit")
        return True

    def note(self, db):
        """What the table has now, at its place."""
        place = 0
        with suppress(sqlite3.OperationalError):        # where nothing follows the table
            [place] = db.execute('select max(number) from "prefq_changes:offers:id"').fetchone()
        self.seen[place or 0] = {id: dict(zip(COLUMNS, values)) for id, *values in db.execute("select * from offers")}

    def follow_anew(self):
        """Removes what followers have added, before others come. Places count from 1 then."""
        with closing(self.connected()) as db:
            unfollow(db, "offers")
            db.execute("begin immediate")
            self.seen.clear()
            self.begun = 0
            self.note(db)
            db.execute("commit")

    def rows_at(self, place):
        return self.seen[place]

    def forget(self):
        """The rows behind places that were over the last time."""
        for place in [place for place in list(self.seen) if place < self.begun]:
            del self.seen[place]
        self.begun = sorted(self.seen)[-2:][0]      # of the last one the commit is perhaps still to come

    def check(self, test):
        with closing(self.connected()) as db:
            test.assertEqual(db.execute("pragma integrity_check").fetchone(), ("ok",))


class PostgresTable:
    """The table on a server, with a slot of the test's own, whose lines are read in another way than the package does."""

    CELL = re.compile(r"(\w+)\[\w+\]:'?(-?\w+)'?")
    LOG = "select lsn::text, data from pg_logical_slot_get_changes('second', null, null)"

    def __init__(self, server):
        self.server, self.client = server, postgres.clients()[0].__name__
        self.words = {"host": server.folder, "user": "postgres", "dbname": "postgres"}
        self.rows, self.commits, self.open = {}, deque(), []
        self.db = server.connected()
        self.run(OFFERS)
        self.run("select pg_create_logical_replication_slot('second', 'test_decoding')")

    def connected(self):
        return self.server.connected()

    def run(self, statement):
        cursor = self.db.cursor()
        cursor.execute(statement)
        return cursor.fetchall() if cursor.description else None

    def write(self, db, chance):
        end = "rollback" if chance.random() < 0.1 else "commit"
        try:
            db.cursor().execute("; ".join(["begin", *statements(chance), end]))
        except Exception as why:
            db.cursor().execute("rollback")
            if "deadlock" not in str(why) and "duplicate key" not in str(why):
                raise
            return False
        return end == "commit"

    def follow_anew(self):
        """Nothing is left of followers."""

    def rows_at(self, place):
        """At places of which each is behind those before."""
        while self.commits and self.commits[0][0] <= place:
            for line in self.commits.popleft()[1]:
                cells = self.CELL.findall(line)
                self.rows.pop(int(cells[0][1]), None)       # under its old key, if it has another one
                if "DELETE" not in line.split(":")[1]:
                    row = dict(cells)
                    self.rows[int(row["id"])] = {"hotel": row["hotel"], "price": int(row["price"]), "dist": int(row["dist"])}
        return dict(self.rows)

    def read_log(self):
        for place, line in self.run(self.LOG):
            if line.startswith("COMMIT"):
                self.commits.append((place_of(place), self.open))
                self.open = []
            elif line.startswith("table public.offers: "):
                self.open.append(line)

    def forget(self):
        self.read_log()

    def check(self, test):
        self.read_log()
        rows = {id: dict(zip(COLUMNS, values)) for id, *values in self.run("select * from offers")}
        test.assertEqual(self.rows_at(float("inf")), rows)
        self.run("select pg_drop_replication_slot('second')")
        self.db.close()


class Killed(TestCase):
    def are_right(self, table):
        """The answers of followers that are killed while four writers write."""
        chance, end, self.stop, self.failures, self.commits = random.Random(SEED), time.monotonic() + SECONDS, threading.Event(), [], [0] * 4
        writers = [threading.Thread(target=self.writes, args=(table, number)) for number in range(4)]
        for writer in writers:
            writer.start()
        kills = answers = 0
        try:
            while not kills or time.monotonic() < end and not self.failures:
                if chance.random() < 0.3:
                    table.follow_anew()
                found = self.answers(table, chance)
                table.forget()
                self.compare(table, found)
                kills, answers = kills + FOLLOWERS, answers + len(found)
        finally:
            self.stop.set()
            for writer in writers:
                writer.join()
        self.assertEqual(self.failures, [])
        table.check(self)
        print(f"{sum(self.commits)} commits of four writers, {kills} followers killed, {answers} answers", file=sys.stderr)

    def writes(self, table, number):
        chance = random.Random(SEED + number)
        try:
            with closing(table.connected()) as db:
                while not self.stop.is_set():
                    self.commits[number] += table.write(db, chance)
                    time.sleep(chance.uniform(0, PAUSE))
        except Exception as why:        # which the test reports
            self.failures.append(why)

    def answers(self, table, chance):
        """What some followers have answered until they are killed, by places."""
        asked = json.dumps([(beside.asked.text, beside.options()) for beside in ASKED])
        with tempfile.TemporaryDirectory() as folder:
            paths = [os.path.join(folder, str(number)) for number in range(FOLLOWERS)]
            followers = [self.begun([table.client, json.dumps(table.words), asked, str(chance.random())], path) for path in paths]
            for follower, path in zip(followers, paths):
                least = chance.choice([0, 0, 1, 10])
                while len(self.lines(path)) < 1 + least and follower.poll() is None:
                    time.sleep(0.005)
                time.sleep(chance.uniform(0, LONGEST))
                follower.kill()
                _, why = follower.communicate()
                self.assertEqual((follower.returncode, why), (-signal.SIGKILL, b""))
            return sorted(json.loads(line) for path in paths for line in self.lines(path)[1:])

    def begun(self, words, path):
        with open(path, "wb") as out:
            return subprocess.Popen([sys.executable, "-c", FOLLOWS, *words], stdout=out, stderr=subprocess.PIPE)

    def lines(self, path):
        """What a follower has said. Of the last line there may be a part."""
        with open(path) as file:
            return file.read().split("\n")[:-1]

    def compare(self, table, answers):
        wanted = {}
        for at, number, found in answers:
            if (at, number) not in wanted:
                wanted[at, number] = [list(pair) for pair in ASKED[number].answer(table.rows_at(at))]
            self.assertEqual(found, wanted[at, number], (at, ASKED[number]))


class OfSqlite(Killed):
    def test_in_a_file_with_each_journal(self):
        for journal in ("wal", "delete"):
            with self.subTest(journal=journal), tempfile.TemporaryDirectory() as folder:
                self.are_right(SqliteTable(os.path.join(folder, "offers.db"), journal))


@unittest.skipIf(postgres.MISSING, postgres.MISSING)
class OfPostgres(Killed):
    def test_on_a_server(self):
        with postgres.Server(max_replication_slots="40") as server:
            self.are_right(PostgresTable(server))


if __name__ == "__main__":
    unittest.main()
