"""Frames that follow a table of PostgreSQL whose types, keys, schema and rights are of many sorts, or change."""
import itertools
import random
import signal
import sys
import threading
import time
import unittest
from contextlib import closing, contextmanager
from unittest import mock

import postgres
import prefq
import test_follow_postgres
from interrupting import Interrupter, Interruption
from prefq.checks import MOST_COLUMNS
from prefq.follow_desk import FollowedDesk
from prefq.follow_postgres import KINDS, PostgresSource

setUpModule = test_follow_postgres.setUpModule
QUESTION = "best low(price)"
ROWS = "(id integer primary key, price integer)"


def parts(samples):
    """As many of them as a table of prefq has columns."""
    return [dict(list(samples.items())[place:place + MOST_COLUMNS]) for place in range(0, len(samples), MOST_COLUMNS)]


class OfTables(test_follow_postgres.OfPostgres):
    def rows(self, frame):
        return [(row.id, *row.values()) for row in frame.rows()]

    def are_as_in(self, frame, table):
        self.assertEqual(self.rows(frame), self.run_sql(f"select * from {table} order by id"))

    def two(self, table, columns=ROWS):
        """A table with two rows of a price."""
        self.run_sql(f"create table {table} {columns}; insert into {table} (id, price) values (1, 10), (2, 20)")

    def is_refused(self, frame, *words):
        """Not once alone."""
        for _ in range(2):
            with self.refuses(prefq.Refused, *words, kind="follow"):
                frame.rows()


class Keys(OfTables):
    def test_long_keys_that_are_stored_apart(self):
        letters = random.Random(1)
        keys = sorted("".join(letters.choices("abcdefghijklmnopqrstuvwxyz0123456789", k=2_500)) for _ in range(2))
        for identity in ("default", "full"):
            with self.subTest(identity=identity):
                self.run_sql("drop table if exists notes; create table notes (id text primary key, price integer, note text)")
                self.run_sql(f"alter table notes replica identity {identity}; alter table notes alter note set storage external")
                self.run_sql("insert into notes values (%s, 1, 'short'), (%s, 2, 'short')", *keys)
                frame = self.followed("notes")
                for change in ("update notes set price = price + 10", "update notes set note = repeat('x', 9000) where price = 11",
                               "update notes set price = price + 10", "update notes set price = price - 10",
                               "update notes set id = 'a' || id, price = 5 where price = 11",
                               "update notes set id = 'short' where price = 5", "delete from notes where price = 12"):
                    self.run_sql(change)
                    self.are_as_in(frame, "notes")

    def test_a_key_that_is_no_key_any_more(self):
        changes = ["replica identity nothing", "drop constraint offers_pkey"]
        mended = ["replica identity default", "add primary key (id)"]
        for change, mend in zip(changes, mended):
            with self.subTest(change=change):
                self.run_sql("drop table if exists offers")
                self.two("offers")
                frame = self.followed()
                self.run_sql(f"alter table offers {change}")
                self.run_sql("update offers set id = 9 where id = 1")
                self.is_refused(frame, "the log does not say by 'id' which row of public.offers is changed")
                self.run_sql(f"alter table offers {mend}")
                self.are_as_in(frame, "offers")

    def test_a_key_that_was_none_for_a_while(self):
        """Of which nothing is seen but that the catalog has changed."""
        changes = ["alter table offers replica identity nothing; {}; alter table offers replica identity default",
                   "alter table offers drop constraint offers_pkey; {}; alter table offers add primary key (id)"]
        for change in changes:
            with self.subTest(change=change):
                self.run_sql("drop table if exists offers")
                self.two("offers")
                frame = self.followed()
                for line in change.format("update offers set id = 9 where id = 1").split("; "):
                    self.run_sql(line)
                self.are_as_in(frame, "offers")

    def test_a_key_that_is_checked_late(self):
        """By which the log does not say which row it is."""
        self.two("offers", "(id integer primary key deferrable, price integer)")
        with self.refuses(prefq.Refused, "the log does not say by 'id' which row of public.offers is changed", kind="follow"):
            self.followed()


class Types(OfTables):
    SAMPLES = {
        "smallint": "-3", "integer": "7", "bigint": "9007199254740993", "numeric": "57.40", "numeric(8,2)": "57.4", "real": "0.1",
        "double precision": "1e300", "boolean": "true", "date": "2026-05-01", "timestamp": "2026-05-01 17:30:00.25",
        "timestamptz": "2026-05-01 17:30:00.25+02", "time": "17:30", "text": "it''s\\", "varchar(9)": "Lyon  ", "character(6)": "Lyon", "character": "L",
        "bpchar": "Lyon", "uuid": "00000000-0000-0000-0000-00000000000a", "name": "Lyon", "size": "M", "\"odd]:'type\"": "M"}
    OTHERS = {
        "inet": "10.0.0.1", "cidr": "10.0.0.0/8", "bit(3)": "101", "varbit": "10", "truth": "true", "code": "Lyon", "bytea": "\\x00ff", "json": '{"a": 1}',
        "jsonb": '{"a":1}', "interval": "1 day 02:00", "timetz": "17:30+02", "money": "12.30", "point": "(1,2)", "text[]": '{"a b",null}',
        "character(6)[]": "{Lyon}", "boolean[]": "{t,f}", "bit(3)[]": "{101}", "int4range": "[1,5)", "pair": '(1,"a b")', '"char"': "c", "oid": "12",
        "xml": "<a>1</a>", "tsvector": "a b", "macaddr": "08:00:2b:01:02:03", "years": "3"}

    def setUp(self):
        super().setUp()
        for sort in ("type size as enum ('S', 'M')", "domain truth as boolean", "domain code as character(6)", "type pair as (a integer, b text)",
                     "type \"odd]:'type\" as enum ('S', 'M')", "domain years as integer"):
            self.run_sql(f"create {sort}")

    def both_ways(self, samples, kind=None):
        """A row of each sample as the table is read, as the log has it, and as the table is read once more, and rows without values."""
        self.run_sql("drop table if exists offers")
        columns = [f"c{number}" for number in range(len(samples))]
        self.run_sql(f"create table offers (id integer primary key, {', '.join(f'{name} {type}' for name, type in zip(columns, samples))})")
        values = ", ".join(f"'{sample}'" for sample in samples.values())
        self.run_sql(f"insert into offers values (1, {values}); insert into offers values (3)")
        with prefq.Frame.follow(self.db, "offers", kinds=kind and dict.fromkeys(columns, kind)) as frame:
            self.run_sql(f"insert into offers values (2, {values}); insert into offers values (4)")
            for _ in range(2):
                first, second, *empty = (list(frame.get(id).values()) for id in (1, 2, 3, 4))
                self.assertEqual(dict(zip(samples, first)), dict(zip(samples, second)))
                self.assertEqual(empty, [[None] * len(samples)] * 2)
                self.assertNotIn(None, first)
                self.run_sql("vacuum full offers")
            return dict(zip(samples, first)), {plain for plain, _, _ in frame._source._declared.values()}

    def test_types_with_a_kind_are_read_as_the_log_has_them(self):
        seen = set()
        for samples in parts(self.SAMPLES):
            seen |= self.both_ways(samples)[1]
        self.assertLessEqual({*KINDS, "numeric", "timestamp with time zone"}, seen)

    def test_types_of_all_sorts_as_texts_are_read_as_the_log_has_them(self):
        texts = {}
        for samples in parts({**self.SAMPLES, **self.OTHERS}):
            texts.update(self.both_ways(samples, kind="text")[0])
        self.assertEqual([texts[type] for type in ("inet", "bit(3)", "varbit", "truth", "boolean", "character(6)")],
                         ["10.0.0.1", "101", "10", "t", "true", "Lyon"])

    def test_types_without_a_kind_are_refused(self):
        for type in self.OTHERS:
            with self.subTest(type=type):
                self.run_sql(f"drop table if exists offers; create table offers (id integer primary key, c {type})")
                with self.refuses(prefq.Refused, "column 'c' has the type ", "which no kind reads by itself", kind="follow"):
                    self.followed()

    def test_types_whose_texts_are_names_of_other_things_are_refused(self):
        """Which may get other names, and then the log says nothing of these rows."""
        self.run_sql("create domain named as regclass; create type owned as (rights aclitem[])")
        for type in ("regclass", "regrole[]", "aclitem", "named", "owned"):
            with self.subTest(type=type):
                self.run_sql(f"drop table if exists offers; create table offers (id integer primary key, c {type}, price integer)")
                with self.refuses(prefq.Refused, "column 'c' has the type ", "whose texts are names of other things", kind="follow"):
                    self.followed(kinds={"c": "text"})
                self.assertEqual(self.followed(columns=["price"]).rows(), [])

    def test_a_value_of_blanks_at_its_end_is_found_by_its_letters(self):
        self.run_sql("create table offers (id integer primary key, city character(6), price integer)")
        self.run_sql("insert into offers values (1, 'Lyon', 5), (2, 'Lyon', 6)")
        frame = self.followed()
        self.run_sql("update offers set price = 4 where id = 2; insert into offers values (3, 'Lyon', 9)")
        self.assertEqual(frame.best("best pos(city, 'Lyon')").ids, [1, 2, 3])
        self.assertEqual([row.city for row in frame], ["Lyon"] * 3)

    def test_a_domain_of_boolean_with_words_of_its_own(self):
        self.run_sql("create table offers (id integer primary key, open truth); insert into offers values (1, true)")
        frame = self.followed(kinds={"open": "bool(t, f)"})
        self.run_sql("insert into offers values (2, false)")
        self.assertEqual(self.rows(frame), [(1, True), (2, False)])


class Schemas(OfTables):
    def test_a_column_that_is_dropped_and_added_again(self):
        self.two("offers")
        frame = self.followed()
        self.run_sql("alter table offers drop column price; alter table offers add column price integer default 5")
        self.are_as_in(frame, "offers")

    def test_names_that_are_swapped(self):
        self.run_sql("create table offers (id integer primary key, price integer, dist integer); insert into offers values (1, 10, 5)")
        frame = self.followed()
        self.run_sql("alter table offers rename price to x; alter table offers rename dist to price; alter table offers rename x to dist")
        self.run_sql("insert into offers values (2, 20, 6)")
        rows = self.run_sql("select id, price, dist from offers order by id")
        self.assertEqual([(row.id, row.price, row.dist) for row in frame.rows()], rows)

    def test_what_is_changed_while_a_name_is_another_one(self):
        changes = ["alter table offers rename to gone; update gone set price = price + 1; alter table gone rename to offers",
                   "alter table offers set schema app; update app.offers set price = price + 1; alter table app.offers set schema public",
                   "alter schema public rename to gone; update gone.offers set price = price + 1; alter schema gone rename to public"]
        self.run_sql("create schema app")
        self.two("offers")
        frame = self.followed()
        for change in changes:
            with self.subTest(change=change):
                for line in change.split("; "):
                    self.run_sql(line)
                self.are_as_in(frame, "offers")

    def test_a_word_of_an_enum_that_is_another_one(self):
        self.run_sql("create type size as enum ('S', 'M'); create table offers (id integer primary key, size size, sizes size[])")
        self.run_sql("insert into offers values (1, 'S', '{S}')")
        frame = self.followed(kinds={"sizes": "text"})
        self.run_sql("alter type size rename value 'S' to 'XS'")
        self.assertEqual(self.rows(frame), [(1, "XS", "{XS}")])

    def test_a_word_of_an_enum_of_which_another_type_is_made(self):
        self.run_sql("create type size as enum ('S', 'M'); create domain fit as size; create domain fits as size[]; create type pair as (number integer, size fit)")
        self.run_sql("create type sizes as range (subtype = size)")
        for type, value in (("fit", "S"), ("fits", "{S}"), ("fit[]", "{S}"), ("pair", "(1,S)"), ("pair[]", '{"(1,S)"}'), ("sizes", "[S,M]")):
            with self.subTest(type=type):
                self.run_sql(f"drop table if exists offers; create table offers (id integer primary key, size {type}); insert into offers values (1, '{value}')")
                frame = self.followed(kinds={"size": "text"})
                self.run_sql("alter type size rename value 'S' to 'XS'")
                self.assertEqual(self.rows(frame), [(1, value.replace("S", "XS"))])
                self.run_sql("alter type size rename value 'XS' to 'S'")

    def test_a_row_of_another_table_that_gets_other_columns(self):
        self.run_sql("create table places (city text, street text); create table offers (id integer primary key, place places); insert into offers values (1, '(Lyon,\"\")')")
        frame = self.followed(kinds={"place": "text"})
        for change in ("add number integer", "drop street"):
            self.run_sql(f"alter table places {change}")
            self.assertEqual(self.rows(frame), self.run_sql("select id, place::text from offers"))

    def test_what_does_not_change_the_schema_reads_nothing_anew(self):
        self.two("offers")
        frame = self.followed()
        version = frame.version
        for change in ("vacuum freeze analyze offers", "create index on offers (price)", "drop index offers_price_idx", "analyze offers"):
            self.run_sql(change)
            frame.refresh()
        self.assertEqual(frame.version, version)

    def test_a_table_that_is_another_one(self):
        self.two("offers")
        frame = self.followed()
        self.run_sql("drop table offers")
        self.two("offers")
        self.is_refused(frame, "table public.offers is another one now. Follow it again")

    def test_tables_that_inherit(self):
        self.two("offers")
        frame = self.followed()
        self.run_sql("create table cheap () inherits (offers); insert into cheap values (3, 5)")
        self.is_refused(frame, "public.offers has tables that inherit from it, whose rows the log has as theirs")
        with self.refuses(prefq.Refused, "public.offers has tables that inherit from it", kind="follow"):
            self.followed()
        self.run_sql("alter table cheap add primary key (id)")
        heir = self.followed("cheap")
        self.run_sql("insert into cheap values (4, 6)")
        self.assertEqual(self.rows(heir), [(3, 5), (4, 6)])
        self.run_sql("alter table cheap no inherit offers")
        self.are_as_in(frame, "offers")


class Rights(OfTables):
    def setUp(self):
        super().setUp()
        self.run_sql("create role guest login replication")
        self.addCleanup(self.run_sql, "drop owned by guest; drop role guest")
        self.run_sql("grant usage on schema public to guest")
        self.two("offers")
        self.run_sql("grant select on offers to guest")

    def as_guest(self):
        guest = self.server.connected(user="guest")
        self.addCleanup(guest.close)
        frame = prefq.Frame.follow(guest, "offers")
        self.addCleanup(frame.close)
        return frame

    def test_rows_that_the_user_must_not_see(self):
        frame = self.as_guest()
        self.run_sql("create policy cheap on offers using (price < 15); alter table offers enable row level security")
        self.is_refused(frame, "public.offers has row security for this user, and the log has all rows")
        with self.refuses(prefq.Refused, "public.offers has row security for this user", kind="follow"):
            self.as_guest()
        self.are_as_in(self.followed(), "offers")
        self.run_sql("alter role guest bypassrls")
        self.are_as_in(frame, "offers")
        self.run_sql("alter role guest nobypassrls; insert into offers values (3, 30)")
        self.is_refused(frame, "public.offers has row security for this user")

    def test_a_right_to_some_columns(self):
        self.run_sql("revoke select on offers from guest; grant select (id, price) on offers to guest; alter table offers add secret text")
        guest = self.server.connected(user="guest")
        self.addCleanup(guest.close)
        with prefq.Frame.follow(guest, "offers", columns=["price"]) as frame:
            self.run_sql("insert into offers values (3, 30, 'x')")
            self.assertEqual(self.rows(frame), [(1, 10), (2, 20), (3, 30)])

    def test_a_right_that_is_taken_away(self):
        frame = self.as_guest()
        self.run_sql("revoke select on offers from guest; insert into offers values (3, 30)")
        for _ in range(2):
            with self.assertRaises(Exception) as caught:
                frame.rows()
            self.assertIn("permission denied", str(caught.exception))


class Transactions(OfTables):
    def test_a_connection_that_has_written_and_not_committed(self):
        self.two("offers")
        for module in postgres.clients():
            with self.subTest(module=module.__name__), closing(self.server.connected(module, options="-c statement_timeout=20s")) as db:
                db.autocommit = False
                cursor = db.cursor()
                cursor.execute("insert into offers values (77, 1)")
                with self.refuses(prefq.Refused, "the connection has a transaction that has written", "commit first", kind="follow"):
                    prefq.Frame.follow(db, "offers")
                db.rollback()
                cursor.execute("select 1")
                with prefq.Frame.follow(db, "offers") as frame:
                    self.are_as_in(frame, "offers")
                db.rollback()

    @contextmanager
    def stranger(self):
        """While another connection has an open transaction that has written to another table."""
        self.run_sql("create table if not exists others (x integer)")
        with closing(self.server.connected()) as other:
            other.cursor().execute("begin; insert into others values (1)")
            yield
            other.cursor().execute("commit")

    def read_anew(self):
        self.run_sql("truncate offers; insert into offers values (5, 5)")

    def test_other_calls_go_on_while_the_table_is_read_anew(self):
        self.two("offers")
        frame, seen = self.followed(), []
        with self.stranger():
            self.read_anew()
            waiting = threading.Thread(target=lambda: seen.append(frame.best(QUESTION).ids))
            waiting.start()
            self.waits_for_a_slot()
            with self.within(5):
                self.assertEqual(frame.best(QUESTION, at_least=frame.at, wait=1).ids, [1])
                with self.refuses(prefq.Refused, "another call, which reads the table, has not ended meanwhile", kind="follow"):
                    frame.best(QUESTION, at_least=frame.at + 10**6, wait=0.3)
            self.assertTrue(waiting.is_alive())
        waiting.join()
        self.assertEqual(seen, [[5]])

    def test_a_frame_that_is_closed_while_the_table_is_read_anew(self):
        self.two("offers")
        frame, seen = self.followed(), []

        def refreshes():
            try:
                frame.refresh()
            except prefq.Ended as why:
                seen.append(str(why))

        with self.stranger():
            self.read_anew()
            waiting = threading.Thread(target=refreshes)
            waiting.start()
            self.waits_for_a_slot()
            with self.within(5):
                frame.close()
            waiting.join()
        self.assertEqual(seen, ["the frame was closed"])

    def test_a_wait_that_ends_before_the_statement_has_begun(self):
        self.two("offers")
        frame = self.followed()
        ask = frame._source._rows

        def asks_late(sql, *values):
            if "pg_create_logical_replication_slot" in sql:
                time.sleep(0.5)
            return ask(sql, *values)

        with self.stranger(), mock.patch.object(frame._source, "_rows", asks_late):
            self.read_anew()
            with self.within(5), self.refuses(prefq.Refused, "table public.offers has to be read anew", kind="follow"):
                frame.best(QUESTION, at_least=frame.at + 1, wait=0.2)

    def test_a_place_that_is_not_there_in_time(self):
        self.two("offers")
        frame = self.followed()
        with self.stranger():
            self.read_anew()
            for _ in range(2):
                with self.within(5), self.refuses(prefq.Refused, "table public.offers has to be read anew, and transactions that write", kind="follow"):
                    frame.best(QUESTION, at_least=frame.at + 1, wait=0.3)
        self.assertEqual(frame.best(QUESTION).ids, [5])

    def test_a_page_says_what_is_waited_for(self):
        """It showed the rows from before, as live ones, and a question that was not asked before had no reply."""
        self.two("offers")
        with mock.patch("prefq.follow_desk.SECONDS_TO_WAIT", 0.5), FollowedDesk(self.followed()) as desk:
            version = desk.version
            with self.stranger():
                self.read_anew()
                with self.within(10):
                    self.assertGreater(desk.wait(version, 60), version)
                    for question in (QUESTION, "best high(price)"):
                        with self.refuses(prefq.Refused, "meanwhile", kind="follow"):
                            desk.picture(question)
            with self.within(20):
                while [row.id for row in desk.picture(QUESTION).rows] != [5]:
                    time.sleep(0.1)

    def test_a_signal_gets_in_while_a_slot_is_waited_for(self):
        self.two("offers")

        def raises(*_):
            raise KeyboardInterrupt

        self.addCleanup(signal.signal, signal.SIGALRM, signal.signal(signal.SIGALRM, raises))
        for module in postgres.clients():
            with self.subTest(module=module.__name__), self.stranger(), closing(self.server.connected(module)) as db:
                signal.setitimer(signal.ITIMER_REAL, 0.5)
                with self.within(10), self.assertRaises(KeyboardInterrupt):
                    prefq.Frame.follow(db, "offers")

    def test_a_connection_whose_settings_are_refused_or_interrupted_is_closed(self):
        for why in (KeyboardInterrupt, ValueError):
            with self.subTest(why=why):
                source, opened = object.__new__(PostgresSource), mock.Mock()
                opened.cursor().execute.side_effect = why
                source._connect_again, source._settings = lambda: opened, {"timezone": "UTC"}
                self.assertRaises(why, source._connected)
                opened.close.assert_called_once_with()

    @unittest.skipIf(sys.version_info < (3, 11), "where Python calls signal handlers is known of 3.11 and later")
    def test_an_interruption_at_each_place_of_the_begin_of_a_wait(self):
        """Also where the statement runs by then, and who waits for it does not know of it yet."""
        for is_early in (False, True):
            for place in itertools.count(1):
                source, cancelled, interrupter = object.__new__(PostgresSource), threading.Event(), Interrupter(place)
                source._rows = lambda sql: time.sleep(0 if is_early else 0.01) or cancelled.wait(6)
                source._db = mock.Mock(cancel=cancelled.set)
                source.until = time.monotonic() + 0.1
                with self.subTest(place=place), self.within(4):
                    try:
                        interrupter.runs(lambda: source._wait_for("select"))
                    except Interruption:
                        continue
                    except prefq.Refused:
                        break
        self.assertGreater(place, 3)

    def waits_for_a_slot(self):
        """Until a call waits for the end of a transaction."""
        end = time.monotonic() + 60
        while not self.run_sql("select pid from pg_stat_activity where query like 'select pg_create_logical_replication_slot%' and wait_event_type = 'Lock'"):
            self.assertLess(time.monotonic(), end)
            time.sleep(0.01)
