"""What may happen to a table of SQLite that is followed beside the changes of its rows: another schema, another follower, an interruption."""
import gc
import os
import random
import shutil
import signal
import sqlite3
import threading
import time
import unittest
import unittest.mock
from contextlib import closing, suppress

import prefq
from interrupting import Interrupter, Interruption
from prefq.follow_sqlite import unfollow
from test_follow import SEED, OfSqlite

ROOMS = "create table rooms (id integer primary key, price int, dist int)"
QUESTION = "best low(price)"
DROPS_COLUMNS = unittest.skipIf(sqlite3.sqlite_version_info < (3, 35), "this SQLite drops no column")
TIMERS = 150


class OfRooms(OfSqlite):
    def rooms(self, *rows, schema=ROOMS):
        """A frame that follows rooms with these rows."""
        self.db.execute(schema)
        self.insert(*rows)
        return self.followed("rooms")

    def insert(self, *rows):
        self.db.executemany(f"insert into rooms values ({', '.join('?' * len(rows[0]))})", rows)

    def are(self, frame, *rows):
        """The frame has these rows, and so has the table."""
        self.assertEqual([(row.id, *row.values()) for row in frame.rows()], list(rows))
        self.assertEqual(self.db.execute("select * from rooms order by id").fetchall(), list(rows))


class Schemas(OfRooms):
    @DROPS_COLUMNS
    def test_a_column_that_is_dropped_and_added_again(self):
        frame = self.rooms((1, 10, 3), (2, 20, 4))
        self.db.execute("alter table rooms drop column dist")
        self.db.execute("alter table rooms add column dist int default 5")
        place = frame.now()
        self.assertEqual(frame.best("best low(dist)", at_least=place).ids, [1, 2])
        self.are(frame, (1, 10, 5), (2, 20, 5))

    def test_columns_whose_names_are_swapped(self):
        frame = self.rooms((1, 10, 3), (2, 20, 4))
        for old, new in (("price", "other"), ("dist", "price"), ("other", "dist")):
            self.db.execute(f"alter table rooms rename column {old} to {new}")
        self.assertEqual(frame.get(1), {"price": 3, "dist": 10})

    def test_a_table_that_is_made_anew_before_another_follower_comes(self):
        frame = self.rooms((1, 10, 3), (2, 20, 4))
        self.db.execute("drop table rooms")
        self.db.execute(ROOMS)
        self.insert((1, 99, 3), (3, 5, 3))
        other = self.followed("rooms")
        self.assertGreater(other.at, frame.at)
        self.assertEqual(frame.best(QUESTION, at_least=other.at).ids, [3])
        self.are(frame, (1, 99, 3), (3, 5, 3))

    def test_changes_between_unfollow_and_another_follower(self):
        frame = self.rooms((1, 10, 3), (2, 20, 4))
        self.insert((10, 30, 0), (11, 30, 0), (12, 30, 0))
        self.assertEqual(frame.refresh(), 3)
        unfollow(self.db, "rooms")
        self.db.execute("update rooms set price = 1 where id = 2")
        other = self.followed("rooms")
        for number in range(5):
            self.db.execute("update rooms set price = 40 where id = ?", (10 + number % 3,))
        rows = [(1, 10, 3), (2, 1, 4), (10, 40, 0), (11, 40, 0), (12, 40, 0)]
        self.are(other, *rows)
        self.are(frame, *rows)

    def test_another_follower_that_comes_at_the_same_time_notes_nothing(self):
        frame = self.rooms((1, 10, 3), (2, 20, 4))
        self.insert((3, 5, 3))
        with unittest.mock.patch("prefq.follow_sqlite.SqliteSource._is_installed", return_value=False):     # as it was when the other one looked
            other = self.followed("rooms")
        self.assertEqual((other.at, frame.refresh(), frame.version), (1, 1, 2))

    def test_a_file_that_version_0_3_0_has_followed(self):
        """Its triggers looked the key up with the affinity of the table's own column; they are made anew, and what they noted stands."""
        frame = self.rooms((1, 10, 3), (2, 20, 4))
        made = self.db.execute("select name, sql from sqlite_master where name like 'prefq_%' and type = 'trigger'").fetchall()
        for name, sql in made:
            self.db.execute(f'drop trigger "{name}"')
            self.db.execute(sql.replace("= +", "= "))
        self.db.execute("update rooms set price = 30 where id = 1")
        other = self.followed("rooms")
        self.assertEqual(self.db.execute("select name, sql from sqlite_master where name like 'prefq_%' and type = 'trigger'").fetchall(), made)
        self.insert((3, 5, 3))
        self.db.execute("delete from rooms where id = 2")
        for followed in (frame, other):
            self.are(followed, (1, 30, 3), (3, 5, 3))
        self.assertEqual(self.db.execute('select count(*) from "prefq_changes:rooms:id" where key is null').fetchall(), [(0,)])

    def test_now_is_a_place_of_what_the_table_is_now(self):
        for is_followed_again in (False, True):
            with self.subTest(is_followed_again=is_followed_again):
                self.db.execute("drop table if exists rooms")
                frame = self.rooms((1, 10, 3), (2, 20, 4))
                self.insert((3, 30, 0))
                frame.refresh()
                unfollow(self.db, "rooms")
                self.db.execute("update rooms set price = 1 where id = 2")
                if is_followed_again:
                    self.followed("rooms")
                self.assertEqual(frame.best(QUESTION, at_least=frame.now()).ids, [2])
                self.db.execute("drop table rooms")
                self.db.execute(ROOMS)
                self.insert((5, 5, 0))
                self.assertEqual(frame.best(QUESTION, at_least=frame.now()).ids, [5])

    @DROPS_COLUMNS
    def test_another_schema_beside_a_value_that_is_refused(self):
        frame = self.rooms((1, 10, 3), (2, 20, 4))
        self.db.execute("alter table rooms drop column dist")
        self.db.execute("alter table rooms add column dist int default 5")
        self.db.execute("update rooms set price = 'dear' where id = 2")
        with self.refuses(prefq.Refused, "rooms: ", kind="follow"):
            frame.rows()
        self.assertEqual(frame.best(QUESTION, at_least=frame.at).ids, [1])
        self.db.execute("update rooms set price = 2 where id = 2")
        self.assertEqual(frame.best(QUESTION, at_least=frame.now()).ids, [2])
        self.are(frame, (1, 10, 5), (2, 2, 5))

    def test_a_key_that_is_null_beside_a_row_that_is_replaced(self):
        frame = self.rooms(("a", 1, 10), ("b", 2, 20), schema="create table rooms (id text primary key, place int unique, price int)")
        self.db.execute("replace into rooms values (null, 1, 5)")
        with self.refuses(prefq.Refused, "table 'rooms' has a row with the key None", kind="follow"):
            frame.rows()
        self.db.execute("delete from rooms where id is null")
        self.are(frame, ("b", 2, 20))

    def test_a_key_that_becomes_null_beside_a_row_that_is_replaced(self):
        """There are as many rows as before, and of the two others nothing is noted."""
        frame = self.rooms(("a", 1, 10), ("b", 2, 20), ("c", 3, 30), schema="create table rooms (id text primary key, place int unique, price int)")
        self.db.execute("update or replace rooms set id = null, place = 1 where id = 'b'")
        with self.refuses(prefq.Refused, "table 'rooms' has a row with the key None", kind="follow"):
            frame.rows()
        self.db.execute("update rooms set id = 'd' where id is null")
        self.are(frame, ("c", 3, 30), ("d", 1, 20))

    def test_keys_that_are_equal_by_the_tables_comparison_alone(self):
        frame = self.rooms(("a", 1, 10), ("B", 2, 20), schema="create table rooms (id text collate nocase, place int unique, price int, unique (id collate binary))")
        self.db.execute("replace into rooms values ('b', 1, 5)")
        self.are(frame, ("B", 2, 20), ("b", 1, 5))
        for key in ("b", "B"):
            self.db.execute("update rooms set price = price + 1 where id = ? collate binary", (key,))
            frame.refresh()
        self.are(frame, ("B", 2, 21), ("b", 1, 6))

    def test_a_trigger_that_ends_what_notes_a_change(self):
        frame = self.rooms((1, 10, 3), (2, 20, 4))
        for event, change in (("insert", "insert into rooms values (3, 5, 0)"), ("update of price", "update rooms set price = 1 where id = 3"),
                              ("delete", "delete from rooms where id = 3")):
            with self.subTest(event=event):
                self.db.execute(f'create trigger "it""s /*" after {event} on rooms begin select raise /* it */ ( IGNORE ); end')
                self.db.execute(change)
                with self.refuses(prefq.Refused, "table 'rooms' has the trigger 'it\"s /*', which by raise(ignore) ends", kind="follow"):
                    frame.rows()
                with self.refuses(prefq.Refused, "raise(ignore)", kind="follow"):
                    self.followed("rooms")
                self.db.execute('drop trigger "it""s /*"')
                self.assertEqual([(row.id, *row.values()) for row in frame], self.db.execute("select * from rooms order by id").fetchall())

    def test_a_trigger_that_ends_a_change_before_it_is_made(self):
        frame = self.rooms((1, 10, 3), (2, 20, 4))
        self.db.execute("create trigger before before update on rooms when new.price < 0 begin select raise(ignore); end")
        self.db.execute("create trigger notes after update on rooms begin select raise(abort, 'raise(ignore)') where new.price = 0; end")
        self.db.execute("update rooms set price = price - 15")
        self.are(frame, (1, 10, 3), (2, 5, 4))

    def test_a_trigger_that_does_not_say_when_it_runs_runs_before_a_change(self):
        frame = self.rooms((1, 10, 3), (2, 20, 4))
        self.db.execute("create trigger after insert on rooms when new.price < 0 begin select raise(ignore); end")
        self.db.execute("insert into rooms values (3, -5, 0), (4, 5, 0)")
        self.are(frame, (1, 10, 3), (2, 20, 4), (4, 5, 0))

    def test_a_change_that_stays_where_a_trigger_fails_behind_it(self):
        """What notes the change runs first, also where the trigger came later, and where another frame follows the table by another key."""
        self.db.execute("create table log (price unique)")
        frame = self.rooms((1, 10, 3), (2, 20, 4), schema=ROOMS.replace("dist int", "dist int unique"))
        for place, statement in enumerate(("select raise(fail, 'no')", "insert into log values (new.price)")):
            other = self.followed("rooms", key="dist")
            self.db.execute(f"create trigger fails{place} after insert on rooms begin {statement}; end")
            self.db.execute(f"create trigger fails{place}too after update on rooms begin {statement}; end")
            frame.refresh()
            for change in (f"insert or fail into rooms values ({3 + place}, 5, {5 + place})", "update or fail rooms set price = 5 where id = 1", "update or fail rooms set dist = dist + 90 where id = 2"):
                with self.subTest(trigger=statement, change=change):
                    with suppress(sqlite3.IntegrityError):
                        self.db.execute(change)
                    self.are(frame, *self.db.execute("select * from rooms order by id"))
                    self.assertEqual([(row.id, row.price) for row in other], self.db.execute("select dist, price from rooms order by dist").fetchall())
            self.assertEqual(len(Names.added(self)), 8)
            version = self.db.execute("pragma schema_version").fetchall()
            frame.refresh(), other.refresh(), frame.refresh()
            self.assertEqual(self.db.execute("pragma schema_version").fetchall(), version)

    def test_a_key_that_is_unique_no_more(self):
        self.db.execute("create table rooms (id integer, price int)")
        self.db.execute("create unique index by_id on rooms (id)")
        self.insert((1, 10), (2, 20))
        frame = self.followed("rooms")
        self.db.execute("drop index by_id")
        self.insert((1, 5))
        with self.refuses(prefq.Refused, "several rows of table 'rooms' may have the same 'id'", kind="follow"):
            frame.rows()
        self.db.execute("delete from rooms where price = 5")
        self.db.execute("create unique index by_id on rooms (id)")
        self.are(frame, (1, 10), (2, 20))


class Files(OfRooms):
    def test_a_file_that_has_gone_and_another_one_in_its_place(self):
        """The connection would go on with the file from before, where nobody changes the rows any more."""
        frame, moved = self.rooms((1, 10, 3), (2, 20, 4)), f"{self.path} moved"
        for move in (lambda: os.rename(self.path, moved), lambda: shutil.copy(moved, self.path)):
            move()
            for call in (frame.rows, frame.now, lambda: frame.best(QUESTION)):
                with self.refuses(prefq.Refused, "the file of table 'rooms' is not there any more, or is another one: follow the table again", kind="follow"):
                    call()
            self.assertEqual(frame.best(QUESTION, at_least=frame.at).ids, [1])
        with closing(self.connection()) as other:
            other.execute("update rooms set price = 5 where id = 2")
            with prefq.Frame.follow(other, "rooms") as again:
                self.assertEqual(again.best(QUESTION).ids, [2])
        os.rename(moved, self.path)
        self.insert((3, 7, 0))
        self.are(frame, (1, 10, 3), (2, 20, 4), (3, 7, 0))


class Waits(OfRooms):
    def test_a_place_is_waited_for_no_longer_than_asked_while_the_file_is_locked(self):
        frame = self.rooms((1, 10, 3), (2, 20, 4))
        self.db.execute("begin exclusive")
        with self.within(4), self.assertRaises(sqlite3.OperationalError):
            frame.best(QUESTION, at_least=frame.at + 1, wait=0.1)
        self.assertEqual(frame.best(QUESTION, at_least=frame.at, wait=0).ids, [1])
        said = []
        asks = threading.Thread(target=lambda: said.append(frame.best(QUESTION).ids))
        asks.start()
        time.sleep(0.3)
        self.db.execute("rollback")
        asks.join()
        self.assertEqual(said, [[1]])


class Writes(OfRooms):
    CHANGES = ["update rooms set price = price + 1 where id = {}", "update rooms set id = {1} where id = {0}", "delete from rooms where id = {}",
               "insert into rooms values ({}, 5)"]

    def test_a_change_costs_the_same_however_many_rows_were_changed_before(self):
        for declared in ("integer", "text", ""):
            with self.subTest(key=declared):
                self.db.execute("drop table if exists rooms")
                self.rooms(*((number, 10) for number in range(1000, 1500)), schema=f"create table rooms (id {declared} primary key, price int)")
                unfollow(self.db, "rooms")
                self.followed("rooms")
                few = [self.steps(change, 1100, 2100) for change in self.CHANGES]
                self.db.execute("update rooms set price = price + 1")
                many = [self.steps(change, 1200, 2200) for change in self.CHANGES]
                self.assertLess(max(more - less for less, more in zip(few, many)), 200)

    def steps(self, change, *keys):
        """How many instructions of SQLite a change takes."""
        steps = []
        self.db.set_progress_handler(lambda: steps.append(1), 1)
        self.db.execute(change.format(*keys))
        self.db.set_progress_handler(None, 1)
        return len(steps)


class Names(OfRooms):
    def added(self):
        """The names of what was added to the file."""
        return [name for name, in self.db.execute("select name from sqlite_master where name like 'prefq%' and type in ('table', 'trigger')")]

    def test_what_was_added_under_a_name_from_before_goes_with_unfollow(self):
        for name in ("rooms", "beds"):
            with self.subTest(unfollow=name):
                self.db.execute("drop table if exists beds")
                self.rooms((1, 10, 3))
                self.db.execute("alter table rooms rename to beds")
                self.followed("beds")
                self.assertEqual(len(self.added()), 8)
                unfollow(self.db, name)
                unfollow(self.db, "beds")
                self.assertEqual(self.added(), [])

    def test_what_was_added_for_a_table_or_a_key_that_has_gone(self):
        self.rooms((1, 10, 3))
        self.db.execute("alter table rooms rename column id to number")
        unfollow(self.db, "Rooms")
        self.assertEqual(self.added(), [])
        self.db.execute("alter table rooms rename column number to id")
        self.followed("rooms")
        self.db.execute("drop table rooms")
        unfollow(self.db, "rooms")
        self.assertEqual(self.added(), [])
        with self.refuses(prefq.Refused, "there is no table 'rooms'", kind="follow"):
            unfollow(self.db, "rooms")

    def test_unfollow_leaves_what_is_another_thing(self):
        self.rooms((1, 10, 3))
        self.db.execute("create table beds (id integer primary key, price int)")
        self.followed("beds")
        self.db.execute("create trigger \"prefq_insert:rooms:price\" after insert on rooms begin select 1; end")
        unfollow(self.db, "rooms")
        unfollow(self.db, "rooms")
        self.assertEqual(len(self.added()), 4 + 1)
        with self.refuses(prefq.Refused, "no column 'idd'; did you mean id?", kind="follow"):
            unfollow(self.db, "rooms", key="idd")

    def test_names_that_differ_in_capitals_beyond_ascii_are_two(self):
        for name, price in (("\xc9", 10), ("\xe9", 77)):
            self.db.execute(f"create table {name} (id integer primary key, price int)")
            self.db.execute(f"insert into {name} values (1, ?)", (price,))
        self.assertEqual([self.followed(name).get(1).price for name in ("\xc9", "\xe9")], [10, 77])
        with self.refuses(prefq.Refused, "there is no table '\\ud800'", kind="follow"):
            self.followed("\ud800")

    def test_a_name_that_means_a_temporary_table(self):
        self.db.execute(ROOMS)
        self.db.execute("create temp table Rooms (id integer primary key, price int)")
        with self.refuses(prefq.Refused, "'rooms' means a temporary table", kind="follow"):
            self.followed("rooms")
        self.assertEqual(self.added(), [])

    def test_a_hint_is_a_table_of_the_users_own(self):
        self.rooms((1, 10, 3))
        for name, hint in (("sqlite_sequences", ""), ("room", "; did you mean 'rooms'?")):
            with self.assertRaises(prefq.Refused) as caught:
                self.followed(name)
            self.assertEqual(str(caught.exception), f"there is no table {name!r}{hint}")

    def test_a_connection_whose_texts_are_bytes_to_a_path_that_is_not_utf_8(self):
        path = os.fsdecode(os.fsencode(self.path) + b"caf\xe9")
        try:
            open(path, "xb").close()
        except OSError as why:      # as where the file system has other names alone
            self.skipTest(str(why))
        with closing(sqlite3.connect(path, isolation_level=None)) as db:
            db.execute(ROOMS)
            db.execute("insert into rooms values (1, 10, 3)")
            db.text_factory = bytes
            with prefq.Frame.follow(db, "rooms") as frame:
                self.assertEqual(frame.get(1).price, 10)

    def test_a_frame_that_is_refused_leaves_nothing(self):
        self.db.execute("create table rooms (id integer primary key, price)")
        self.db.execute("insert into rooms values (1, x'00')")
        for options in ({}, {"kinds": {"price": "nonsense"}}, {"kinds": {"prize": "text"}}):
            with self.subTest(options=options):
                with self.assertRaises(prefq.Error if not options else (ValueError, prefq.Error)):
                    self.followed("rooms", **options)
                self.assertEqual(self.added(), [])


class Connections(OfRooms):
    @unittest.skipUnless(os.path.isdir("/proc/self/fd"), "no list of open files here")
    def test_a_frame_that_nothing_refers_to_is_closed_at_once(self):
        self.db.execute(ROOMS)
        self.insert((1, 10, 3))
        before = self.open_files()
        for options in ({}, {"kinds": {"prize": "text"}}):
            for _ in range(3):
                try:
                    prefq.Frame.follow(self.db, "rooms", **options).best(QUESTION)
                except prefq.Refused:
                    pass
                self.assertEqual(self.open_files(), before)

    def open_files(self):
        """How many of the file of the rooms."""
        links = [os.path.join("/proc/self/fd", name) for name in os.listdir("/proc/self/fd")]
        return sum(os.path.realpath(link) == os.path.realpath(self.path) for link in links)


class Interruptions(OfRooms):
    def interrupted(self, call, step=1):
        """Interrupts a call at each place, or at some of them, one after the other, until it ends. The interruption is there until the next one."""
        for place in range(1, 10_000, step):
            interrupter = Interrupter(place)
            try:
                interrupter.runs(call)
            except Interruption:
                yield interrupter.where
            else:
                return

    def test_a_call_that_is_interrupted_leaves_no_transaction(self):
        frame, number = self.rooms((1, 10, 3), (2, 20, 4)), 0
        self.insert((3, 5, 3))
        for where in self.interrupted(frame.now):
            number += 1
            with self.subTest(where=where):
                self.assertFalse(frame._source._db.in_transaction)
                self.db.execute("update rooms set price = ? where id = 3", (number,))
                self.assertEqual(frame.get(3).price, number)
        self.assertGreater(number, 5)

    def test_triggers_that_are_interrupted_are_added_or_not(self):
        frame, number = self.rooms((1, 10, 3), (2, 20, 4)), 0
        unfollow(self.db, "rooms")
        for where in self.interrupted(frame.refresh, step=17):
            number += 1
            with self.subTest(where=where):
                self.assertFalse(frame._source._db.in_transaction)
                self.db.execute("update rooms set price = ? where id = 2", (number,))
                self.assertEqual(frame.get(2).price, number)
                unfollow(self.db, "rooms")
        self.assertGreater(number, 5)

    def test_a_question_that_is_interrupted_gives_its_clients_back(self):
        self.db.execute(ROOMS)
        self.insert((1, 10, 3), (2, 20, 4), (3, 5, 3))
        frame, number = self.followed("rooms", clients=2, capacity=2), 0
        for question in (frame.rows, lambda: frame.snapshot(QUESTION)):
            for place in range(1, 10_000, 7):
                number += 1
                interrupter = Interrupter(place)
                with suppress(Interruption):
                    interrupter.runs(question)
                    break
                gc.collect()
                with self.subTest(where=interrupter.where):
                    self.assertEqual([table._engine.settle() or len(table._engine.queries) for table in frame._tables.tables], [0] * frame.tables)
        self.assertGreater(number, 50)
        self.assertEqual(frame._tables._asking, {})


@unittest.skipUnless(hasattr(signal, "setitimer"), "no timers here")
class Signals(OfRooms):
    def setUp(self):
        super().setUp()
        self.addCleanup(signal.signal, signal.SIGALRM, signal.signal(signal.SIGALRM, interrupt))

    def interrupted(self, seconds, call):
        """Whether this call is interrupted after so many seconds."""
        try:
            signal.setitimer(signal.ITIMER_REAL, seconds)
            try:
                call()
            finally:
                signal.setitimer(signal.ITIMER_REAL, 0)
        except Interruption:
            return True
        return False

    def test_amid_a_begin_that_waits_for_another_transaction(self):
        frame = self.rooms((1, 10, 3), (2, 20, 4))
        unfollow(self.db, "rooms")
        with closing(self.connection()) as other:
            other.execute("begin immediate")
            self.assertTrue(self.interrupted(0.3, lambda: self.refused_or_not(frame)))
            other.execute("rollback")
        self.insert((3, 5, 3))
        self.assertEqual(frame.best(QUESTION).ids, [3])

    def refused_or_not(self, frame):
        """An interruption is handled once SQLite no longer waits for the other transaction."""
        try:
            frame.best(QUESTION)
        except sqlite3.OperationalError:
            pass

    def test_at_random_places_no_transaction_stays_open(self):
        chance, frame, count = random.Random(SEED), self.rooms((1, 10, 3), (2, 20, 4)), 0
        self.db.execute("pragma busy_timeout = 100")
        for number in range(TIMERS):
            count += self.interrupted(chance.uniform(1e-5, 2e-3), lambda: frame.best(QUESTION))
            self.db.execute("update rooms set price = ? where id = 1", (number,))
            self.assertEqual(frame.get(1).price, number)
        self.assertGreater(count, 0)


def interrupt(*_):
    raise Interruption
