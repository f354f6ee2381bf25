"""Frames that follow a table of SQLite."""
import asyncio
import os
import pickle
import sqlite3
import tempfile
import threading
import time
import unittest.mock
from contextlib import closing
from datetime import date
from decimal import Decimal
from pathlib import Path

import prefq
from prefq.follow_sqlite import unfollow
from random_following import KEY, TABLE, quoted
from support import TestCase, in_a_fork
from test_faults import Refusing

QUESTIONS = int(os.environ.get("PREFQ_TEST_COUNT", 1000))
SEED = int(os.environ.get("PREFQ_TEST_SEED", 20260501))
OFFERS = "create table offers (id integer primary key, hotel text, price integer, dist integer)"
QUESTION = "best low(price) * low(dist)"


class OfSqlite(TestCase):
    def setUp(self):
        folder = tempfile.TemporaryDirectory()
        self.addCleanup(folder.cleanup)
        self.path = Path(folder.name, "hotels & more?.db")
        self.db = self.connection()

    def connection(self):
        db = sqlite3.connect(self.path, isolation_level=None, timeout=60)
        self.addCleanup(db.close)
        db.execute("pragma synchronous = off")      # no test is about a power failure
        return db

    def followed(self, table="offers", **options):
        frame = prefq.Frame.follow(self.db, table, **options)
        self.addCleanup(frame.close)
        return frame

    def offers(self, *rows, **options):
        """A frame that follows offers with these rows."""
        self.db.execute("begin")
        self.db.execute(OFFERS)
        self.db.executemany("insert into offers values (?, ?, ?, ?)", rows)
        self.db.execute("commit")
        return self.followed(**options)

    def are(self, frame, *rows):
        """The frame has these rows of offers, and so has the table."""
        self.assertEqual([(row.id, row.hotel, row.price, row.dist) for row in frame.rows()], list(rows))
        self.assertEqual(self.db.execute("select * from offers order by id").fetchall(), list(rows))


class Follows(OfSqlite):
    def test_ids_are_keys_and_what_is_committed_is_seen(self):
        frame = self.offers((7, "Quay", 50, 8), (3, "Ritz", 90, 2))
        self.assertEqual(frame.best(QUESTION).ids, [3, 7])
        self.db.execute("insert into offers values (-5, 'Post', 40, 8)")
        self.assertEqual(frame.best(QUESTION).ids, [-5, 3])
        self.db.execute("update offers set dist = 1 where id = 7")
        self.db.execute("delete from offers where id = 3")
        answer = frame.best(QUESTION)
        self.assertEqual(answer.ids, [-5, 7])
        self.assertEqual((answer.at, pickle.loads(pickle.dumps(answer)).at), (frame.at, frame.at))
        self.assertEqual(frame.get(7), {"hotel": "Quay", "price": 50, "dist": 1})
        with self.refuses(prefq.Refused, "no such row 3", kind="client", number=7):
            frame.get(3)
        self.assertEqual(len(frame), 2)

    def test_a_transaction_is_seen_whole_once_it_is_committed(self):
        frame = self.offers((1, "Quay", 50, 8), (2, "Ritz", 90, 2))
        self.db.execute("begin")
        self.db.execute("update offers set price = 91 where id = 1")
        self.assertEqual(frame.get(1).price, 50)
        self.db.execute("update offers set price = 49 where id = 2")
        self.db.execute("commit")
        self.assertEqual(frame.best("best low(price)").ids, [2])
        self.db.execute("begin")
        self.db.execute("delete from offers")
        self.db.execute("rollback")
        self.assertEqual(len(frame), 2)

    def test_all_the_ways_in_which_a_row_changes(self):
        frame = self.offers((1, "a", 1, 1), (2, "b", 2, 2), (3, "c", 3, 3))
        self.db.execute("create unique index by_hotel on offers (hotel)")
        changes = ["insert or ignore into offers values (4, 'd', 4, 4)", "insert or ignore into offers values (4, 'x', 9, 9)",
                   "update or ignore offers set hotel = 'b' where id = 1", "update or ignore offers set price = 7 where id = 1",
                   "replace into offers values (2, 'b', 8, 8)", "replace into offers values (9, 'c', 9, 9)",
                   "update or replace offers set hotel = 'd' where id = 9", "insert into offers values (1, 'z', 5, 5) on conflict (id) do update set price = 6",
                   "update offers set id = 20 where id = 1", "update offers set id = id + 100", "delete from offers where price > 7", "delete from offers"]
        for change in changes:
            with self.subTest(change=change):
                self.db.execute(change)
                self.are(frame, *self.db.execute("select * from offers order by id").fetchall())

    def test_other_triggers_and_foreign_keys(self):
        self.db.execute("pragma foreign_keys = on")
        self.db.execute("create table cities (name text primary key)")
        self.db.execute("insert into cities values ('Lyon'), ('Bern')")
        self.db.execute("create table hotels (id integer primary key, city references cities on delete cascade on update cascade, price int)")
        self.db.execute("create trigger dearer after insert on hotels begin update hotels set price = price + 1 where id = new.id; end")
        frame = self.followed("hotels")
        self.db.execute("insert into hotels values (1, 'Lyon', 5), (2, 'Bern', 6)")
        self.assertEqual([row.price for row in frame], [6, 7])
        self.db.execute("update cities set name = 'Rome' where name = 'Lyon'")
        self.db.execute("delete from cities where name = 'Bern'")
        self.assertEqual(frame.rows(), [{"city": "Rome", "price": 6}])

    def test_texts_are_keys_by_their_letters(self):
        self.db.execute("create table rooms (code text collate nocase primary key, price int)")
        self.db.execute("insert into rooms values ('a', 1), ('B', 2)")
        frame = self.followed("rooms", key="code")
        self.db.execute("update rooms set code = 'A' where code = 'a'")
        self.assertEqual([row.id for row in frame], ["A", "B"])
        self.db.execute("replace into rooms values ('b', 3)")
        self.assertEqual([(row.id, row.price) for row in frame], [("A", 1), ("b", 3)])

    def test_names_of_any_letters(self):
        self.db.execute(f"create table {quoted(TABLE)} ({quoted(KEY)} integer primary key, {quoted('the price; drop')} int)")
        frame = self.followed(TABLE, key=KEY)
        self.db.execute(f"insert into {quoted(TABLE)} values (5, 6)")
        self.assertEqual(frame.best('best low("the price; drop")').ids, [5])

    def test_kinds_are_given_or_those_of_the_values(self):
        self.db.execute("create table hotels (id integer primary key, price real, opened text, stars int, note text, rate numeric)")
        self.db.execute("insert into hotels values (1, 57.4, '2002-04-14', null, null, 5)")
        frame = self.followed("hotels", kinds={"price": "decimal(2)", "opened": "date"})
        self.assertEqual(frame.get(1), {"price": Decimal("57.40"), "opened": date(2002, 4, 14), "stars": None, "note": None, "rate": 5})
        self.assertEqual([str(column.kind) for column in frame.columns], ["decimal(2)", "date", "whole", "text", "whole"])
        self.db.execute("update hotels set stars = 4, note = 'x', rate = 5.5")
        self.assertEqual(frame.get(1)["rate"], 5.5)
        self.assertEqual([str(column.kind) for column in frame.columns], ["decimal(2)", "date", "whole", "text", "float"])

    def test_psel_asks_it(self):
        frame = self.offers((1, "Quay", 50, 8), (2, "Ritz", 90, 2))
        self.assertEqual(prefq.psel(frame, "low(price)").ids, [1])

    def test_a_connection_of_the_callers_own_class_and_rows(self):
        class Connection(sqlite3.Connection):
            pass

        self.db.execute(OFFERS)
        with closing(sqlite3.connect(self.path, factory=Connection)) as db:
            db.row_factory = lambda cursor, row: dict(enumerate(row))
            with prefq.Frame.follow(db, "offers") as frame:
                self.assertEqual(frame.rows(), [])

    def test_columns_are_those_that_are_named(self):
        frame = self.offers((1, "Quay", 50, 8), columns=["dist", "id"])
        self.assertEqual(frame.rows(), [{"dist": 8, "id": 1}])

    def test_what_was_added_to_the_file_serves_the_next_frame_and_goes_with_unfollow(self):
        before = self.db.execute("select name, sql from sqlite_master").fetchall()
        frame = self.offers((1, "Quay", 50, 8))
        frame.close()
        self.db.execute("insert into offers values (2, 'Ritz', 90, 2)")
        self.are(self.followed(), (1, "Quay", 50, 8), (2, "Ritz", 90, 2))
        self.assertEqual(len(self.db.execute("select name from sqlite_master where name like 'prefq%'").fetchall()), 4)
        unfollow(self.db, "offers")
        self.assertEqual(self.db.execute("select name from sqlite_master where name like '%prefq%'").fetchall(), before)

    def test_notes_are_no_more_than_the_keys(self):
        frame = self.offers((1, "Quay", 50, 8))
        for price in range(20):
            self.db.execute("update offers set price = ?", (price,))
        self.assertEqual(frame.get(1).price, 19)
        self.assertEqual(self.db.execute('select count(*) from "prefq_changes:offers:id"').fetchone(), (1,))

    def test_texts_that_no_row_has_any_more_are_forgotten(self):
        frame = self.offers((1, "Quay", 50, 8))
        with unittest.mock.patch("prefq.opened.BYTES_OF_GROWTH", 0), unittest.mock.patch("prefq.opened.BYTES_A_ROW", 0):
            for number in range(20):
                self.db.execute("update offers set hotel = ?", (f"hotel {number}",))
                self.assertEqual(frame.get(1).hotel, f"hotel {number}")
        self.assertLess(len(frame.columns[0].kind.texts), 10)

    def test_in_every_journal_mode(self):
        for mode in ("wal", "delete"):
            with self.subTest(mode=mode):
                self.db.execute(f"pragma journal_mode = {mode}")
                self.db.execute("drop table if exists offers")
                frame = self.offers((1, "Quay", 50, 8))
                self.db.execute("insert into offers values (2, 'Ritz', 90, 2)")
                self.assertEqual(frame.best(QUESTION).ids, [1, 2])
                frame.close()


class Places(OfSqlite):
    def test_at_least_sees_what_was_written_before(self):
        frame = self.offers((1, "Quay", 50, 8))
        self.db.execute("insert into offers values (2, 'Ritz', 40, 2)")
        place = frame.now()
        self.assertLess(frame.at, place)
        answer = frame.best(QUESTION, at_least=place)
        self.assertEqual((answer.ids, answer.at), ([2], place))

    def test_a_place_that_is_there_is_answered_without_a_look_at_the_database(self):
        frame = self.offers((1, "Quay", 50, 8))
        self.db.execute("insert into offers values (2, 'Ritz', 40, 2)")
        self.assertEqual(frame.best(QUESTION, at_least=frame.at).ids, [1])
        self.assertEqual(frame.best(QUESTION).ids, [2])

    def test_a_place_is_waited_for(self):
        frame = self.offers((1, "Quay", 50, 8))

        def write():
            time.sleep(0.2)
            with closing(sqlite3.connect(self.path)) as db, db:
                db.execute("insert into offers values (2, 'Ritz', 40, 2)")

        thread = threading.Thread(target=write)
        thread.start()
        self.assertEqual(frame.best(QUESTION, at_least=frame.at + 1).ids, [2])
        thread.join()
        with self.refuses(prefq.Refused, "offers is at 1, and not at 9 after 0.01 seconds", kind="follow"):
            frame.best(QUESTION, at_least=9, wait=0.01)
        for place, error in (("9", TypeError), (-1, ValueError)):
            with self.refuses(error, "at_least"):
                frame.best(QUESTION, at_least=place)


class Refusals(OfSqlite):
    def test_what_is_no_key_and_no_number_of_seconds(self):
        frame = self.offers((1, "a", 60, 5))
        for id in (True, 1.0, [1], None):
            for call in (lambda: frame.get(id), lambda: frame.why(id, QUESTION)):
                with self.subTest(id=id), self.refuses(TypeError, f"id is {id!r}, of type {type(id).__name__}"):
                    call()
        for wait, error in (("x", TypeError), (None, TypeError), (True, TypeError), (-1, ValueError), (float("nan"), ValueError)):
            for place in (None, 0, 9):
                with self.subTest(wait=wait, place=place), self.refuses(error, "wait is"):
                    frame.best(QUESTION, at_least=place, wait=wait)
        self.assertEqual(frame.get(1).price, 60)

    def refused(self, *words, table="offers", **options):
        before = self.db.execute("select name, sql from sqlite_master").fetchall()
        with self.refuses(prefq.Refused, *words, kind="follow"):
            prefq.Frame.follow(self.db, table, **options)
        self.assertEqual(self.db.execute("select name, sql from sqlite_master").fetchall(), before)

    def test_a_preference_is_asked_by_its_value(self):
        frame = self.offers((1, "a", 60, 5), (2, "b", 50, 8), (3, "c", 70, 9))
        preference = prefq.low("price") * prefq.low("dist")
        self.assertEqual(frame.best(preference).ids, [1, 2])
        self.assertEqual(prefq.psel(frame, preference, top_level=2).ids, [1, 2, 3])
        self.assertEqual(frame.why(3, preference).ids, [1, 2])

    def test_what_cannot_be_followed(self):
        self.db.execute("create table offers (id int, code text unique, price int, primary key (id, price))")
        self.db.execute("create view cheap as select * from offers")
        self.db.execute("create unique index some on offers (price) where price > 5")
        self.refused("there is no table 'offer'; did you mean 'offers'?", table="offer")
        self.refused("'cheap' is a view", table="cheap")
        self.refused("several rows of table 'offers' may have the same 'id'")
        self.refused("several rows of table 'offers' may have the same 'price'", key="price")
        self.refused("no column 'ID'; did you mean id?", key="ID")
        with self.refuses(prefq.Refused, "no column 'prise'; did you mean price?"):
            prefq.Frame.follow(self.db, "offers", key="code", columns=["prise"])
        with closing(sqlite3.connect(":memory:")) as memory:
            memory.execute(OFFERS)
            with self.refuses(prefq.Refused, "a database in memory has no file", kind="follow"):
                prefq.Frame.follow(memory, "offers")
        with self.refuses(TypeError, "connection is of type str"):
            prefq.Frame.follow("hotels.db", "offers")
        with self.refuses(TypeError, "Frame.follow has no option 'kind'; did you mean 'kinds'?"):
            prefq.Frame.follow(self.db, "offers", kind={})

    def test_keys_that_are_none(self):
        self.db.execute("create table offers (id primary key, price int)")
        for key in (1.5, b"x", None):
            with self.subTest(key=key):
                self.db.execute("insert into offers values (?, 5)", (key,))
                with self.refuses(prefq.Refused, f"table 'offers' has a row with the key {key!r}", kind="follow"):
                    prefq.Frame.follow(self.db, "offers")
                self.db.execute("delete from offers")
        frame = self.followed()
        self.db.execute("insert into offers values (2.5, 5)")
        with self.refuses(prefq.Refused, "table 'offers' has a row with the key 2.5", kind="follow"):
            frame.best("best low(price)")
        self.db.execute("delete from offers")
        self.db.execute("insert into offers values (2, 5)")
        self.assertEqual(frame.best("best low(price)").ids, [2])

    def test_a_name_that_somebody_else_has(self):
        self.db.execute(OFFERS)
        self.db.execute('create table "prefq_changes:offers:id" (x)')
        with self.refuses(prefq.Refused, "'prefq_changes:offers:id' is there already", kind="follow"):
            prefq.Frame.follow(self.db, "offers")
        self.assertEqual(self.db.execute("select name from sqlite_master where type = 'trigger'").fetchall(), [])

    def test_a_value_that_a_column_does_not_take_until_it_is_mended(self):
        frame = self.offers((1, "Quay", 50, 8), (2, "Ritz", 90, 2), kinds={"price": "whole"})
        at = frame.at
        self.db.execute("update offers set price = 'dear' where id = 2")
        for _ in range(2):
            with self.refuses(prefq.Refused, "offers: key 2, column 'price' (whole): 'dear' is no number", kind="follow"):
                frame.best(QUESTION)
        self.assertEqual(frame.at, at)
        self.assertEqual(frame.best(QUESTION, at_least=at).ids, [1, 2])
        self.db.execute("update offers set price = 40 where id = 2")
        self.assertEqual(frame.best(QUESTION).ids, [2])

    def test_columns_of_values_of_several_kinds(self):
        self.db.execute("create table offers (id integer primary key, price)")
        self.db.execute("insert into offers values (1, 5)")
        frame = self.followed()
        self.db.execute("insert into offers values (9, null)")
        for value, word in (("x", "has values of int and str"), ("5", "has values of int and str"), (b"x", "has values of bytes")):
            self.db.execute("replace into offers values (20, ?)", (value,))
            with self.refuses(prefq.Refused, "offers: key 20, column 'price'", word, kind="follow"):
                frame.best("best low(price)")
        self.db.execute("delete from offers where id = 9")
        self.db.execute("update offers set price = 0.5")
        self.db.execute("replace into offers values (20, 9007199254740993)")
        with self.refuses(prefq.Refused, "offers: key 20, column 'price'", "9007199254740993", kind="follow"):
            frame.best("best low(price)")
        self.db.execute("update offers set price = 'y'")
        self.assertEqual([row.price for row in frame], ["y", "y"])

    def are_ids(self, frame, *ids):
        self.assertEqual(frame.best(QUESTION).ids, list(ids))

    def test_a_table_that_is_made_anew_is_read_anew(self):
        frame = self.offers((1, "Quay", 50, 8))
        self.db.execute("drop table offers")
        self.db.execute(OFFERS)
        self.db.execute("insert into offers values (5, 'Post', 1, 1)")
        self.are_ids(frame, 5)
        self.db.execute("insert into offers values (6, 'Park', 0, 0)")
        self.are_ids(frame, 6)
        self.db.execute('drop trigger "prefq_delete:offers:id"')
        self.db.execute("delete from offers where id = 6")
        self.are_ids(frame, 5)


class Survives(OfSqlite):
    def test_a_table_that_is_refused_memory_amid_a_change(self):
        frame = self.offers((1, "Quay", 50, 8))
        for dist in (3, 4):
            self.db.execute("update offers set dist = ?", (dist,))
            engine = frame._dealt.tables[0]._engine
            engine._calls = Refusing(engine._calls, "prefq_update_many")
            self.assertEqual([(row.id, row.dist) for row in frame.best(QUESTION)], [(1, dist)])
            self.assertIsNot(frame._dealt.tables[0]._engine, engine)

    def test_a_table_that_has_ended(self):
        frame = self.offers((1, "Quay", 50, 8))
        for _ in range(2):
            frame._dealt.tables[0].close()
            self.assertEqual(frame.best(QUESTION).ids, [1])
        self.db.execute("insert into offers values (2, 'Ritz', 90, 2)")
        self.assertEqual(frame.best(QUESTION).ids, [1, 2])

    def test_a_handler_amid_a_call_makes_none(self):
        frame, said = self.offers((1, "Quay", 50, 8)), []

        def handler(*_):
            with self.refuses(prefq.Refused, "a call is under way in this thread", kind="client"):
                frame.best(QUESTION)
            said.append(True)
            return unittest.mock.DEFAULT

        self.db.execute("update offers set price = 60")
        with unittest.mock.patch("prefq.dealt.Shard.update", side_effect=handler, return_value=[]):
            frame.refresh()
        self.assertEqual(said, [True])

    def test_changes_that_are_interrupted_are_not_seen_by_halves(self):
        frame = self.offers(*((number, "x", number, 9 - number) for number in range(10)), capacity=4)
        self.db.execute("update offers set price = price + 1")
        with unittest.mock.patch("prefq.dealt.Shard.update", side_effect=[[], KeyboardInterrupt]):
            with self.assertRaises(KeyboardInterrupt):
                frame.refresh()
        self.are(frame, *((number, "x", number + 1, 9 - number) for number in range(10)))

    def test_it_is_called_on_threads_and_not_by_an_async_frame(self):
        frame = self.offers((1, "Quay", 50, 8))

        async def asks():
            answers = await asyncio.gather(*(asyncio.to_thread(frame.best, QUESTION) for _ in range(5)))
            with self.refuses(TypeError, "a frame that follows a table is no Frame"):
                await prefq.AsyncFrame.open(follows)
            return [answer.ids for answer in answers]

        def follows():
            with closing(sqlite3.connect(self.path)) as db:
                return prefq.Frame.follow(db, "offers")

        self.assertEqual(asyncio.run(asks()), [[1]] * 5)

    def test_a_fork_has_a_frame_of_its_own(self):
        frame = self.offers((1, "Quay", 50, 8))
        kind, message = in_a_fork(frame.rows)
        self.assertEqual(kind, "process")
        self.assertIn("follow the table again in each process", message)
        self.assertIsNone(in_a_fork(frame.close))
        self.assertEqual(frame.best(QUESTION).ids, [1])

    def test_a_frame_that_is_closed(self):
        frame = self.offers((1, "Quay", 50, 8))
        frame.close()
        frame.close()
        with self.refuses(prefq.Ended, "the frame was closed", kind="closed"):
            frame.best(QUESTION)
