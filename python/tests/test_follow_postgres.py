"""Frames that follow a table of PostgreSQL, on a server of the tests' own.

PREFQ_TEST_COUNT is how many questions are asked between random transactions, and PREFQ_TEST_SEED begins others.
"""
import datetime
import os
import random
import time
import unittest
import warnings
from contextlib import closing
from decimal import Decimal

import postgres
import prefq
import random_following
import random_frames
from plain import Ask, Low, Pareto
from prefq.decoding import Layout, Log, place_of
from prefq.follow_source import UNCHANGED
from random_following import KEY, TABLE, Store, quoted
from support import TestCase

QUESTIONS = int(os.environ.get("PREFQ_TEST_COUNT", 1000))
SEED = int(os.environ.get("PREFQ_TEST_SEED", 20260501))
QUESTIONS_OF_A_TABLE = 20
OFFERS = "create table offers (id integer primary key, hotel text, price integer, dist integer)"
QUESTION = "best low(price) * low(dist)"


def setUpModule():
    """One server for all tests that need one."""
    if not postgres.MISSING:
        OfPostgres.server = postgres.Server()
        unittest.addModuleCleanup(OfPostgres.server.__exit__)


class Lines(TestCase):
    """What the log says, without a server."""

    LAYOUT = Layout("public.offers", "id", ("hotel", "a b"), {"id": "integer", "hotel": "text", "a b": "integer[]"})

    def rows(self, *lines):
        log = Log(self.LAYOUT)
        for line in lines:
            log.add("0/10", f"table public.offers: {line}")
        return log.rows if log.is_clear else None

    def test_values(self):
        row = "INSERT: id[integer]:-5 hotel[text]:'it''s [text]:1 null' \"a b\"[integer[]]:'{1,2}' other[bit]:B'01' more[\"a]:b\"]:null last[boolean]:true"
        self.assertEqual(self.rows(row), {-5: ["it's [text]:1 null", "{1,2}"]})
        self.assertEqual(self.rows("INSERT: id[integer]:1 hotel[text]:'two\nlines' \"a b\"[integer[]]:null"), {1: ["two\nlines", None]})
        self.assertEqual(self.rows("INSERT: id[integer]:1 hotel[text]:'null' \"a b\"[integer[]]:null"), {1: ["null", None]})

    def test_a_key_that_changes_and_rows_that_go(self):
        insert, cells = "INSERT: id[integer]:1 hotel[text]:'x' \"a b\"[integer[]]:null", "hotel[text]:'y' \"a b\"[integer[]]:null"
        self.assertEqual(self.rows(insert, f"UPDATE: old-key: id[integer]:1 new-tuple: id[integer]:2 {cells}"), {1: None, 2: ["y", None]})
        self.assertEqual(self.rows(insert, f"UPDATE: id[integer]:1 {cells}", "DELETE: id[integer]:1"), {1: None})
        self.assertEqual(self.rows(insert, "TRUNCATE: (no-flags)"), {})

    def test_a_value_that_is_unchanged(self):
        insert, cells = "INSERT: id[integer]:1 hotel[text]:'x' \"a b\"[integer[]]:'{1}'", "hotel[text]:'y' \"a b\"[integer[]]:unchanged-toast-datum"
        self.assertEqual(self.rows(f"UPDATE: id[integer]:1 {cells}"), {1: ["y", UNCHANGED]})
        self.assertEqual(self.rows(insert, f"UPDATE: id[integer]:1 {cells}"), {1: ["y", "{1}"]})
        self.assertEqual(self.rows(insert, f"UPDATE: old-key: id[integer]:1 new-tuple: id[integer]:2 {cells}"), {1: None, 2: ["y", "{1}"]})
        self.assertIsNone(self.rows(f"UPDATE: old-key: id[integer]:1 new-tuple: id[integer]:2 {cells}"))
        self.assertEqual(self.rows(f"UPDATE: old-key: id[integer]:1 new-tuple: id[integer]:unchanged-toast-datum {cells}"), {1: ["y", UNCHANGED]})
        for line in ("UPDATE: id[integer]:unchanged-toast-datum", "UPDATE: old-key: id[integer]:unchanged-toast-datum new-tuple: id[integer]:1"):
            self.assertIsNone(self.rows(f"{line} {cells}"))
        self.assertEqual(self.rows("INSERT: id[integer]:1 hotel[text]:'unchanged-toast-datum' \"a b\"[integer[]]:null"), {1: ["unchanged-toast-datum", None]})

    def test_a_value_that_is_unchanged_of_a_row_that_takes_the_key_of_another_one(self):
        cells = "hotel[text]:'y' \"a b\"[integer[]]:unchanged-toast-datum"
        moves = f"UPDATE: old-key: id[integer]:1 new-tuple: id[integer]:2 {cells}"
        self.assertIsNone(self.rows("DELETE: id[integer]:2", f"UPDATE: id[integer]:1 {cells}", moves))
        self.assertIsNone(self.rows("DELETE: id[integer]:2", moves))

    def test_what_is_not_as_it_is_known(self):
        for line in ("INSERT: id[integer]:1 hotel[text]:'x'", "INSERT: id[bigint]:1 hotel[text]:'x' \"a b\"[integer[]]:null", "DELETE: (no-tuple-data)",
                     "INSERT: id[integer]:null hotel[text]:'x' \"a b\"[integer[]]:null", "INSERT: id[integer]:1 hotel[text]:'x", "INSERT: strange"):
            with self.subTest(line=line):
                self.assertIsNone(self.rows(line))

    def test_lines_of_other_tables(self):
        log = Log(self.LAYOUT)
        for line in ("BEGIN 5", "table public.others: INSERT: id[integer]:1", 'table public."offers: x": INSERT: id[integer]:1',
                     "message: transactional: 1 prefix: x, sz: 0 content:", 'table public."table public.offers: INSERT:": INSERT: id[integer]:1', "COMMIT 5"):
            log.add("1/2", line)
        self.assertEqual((log.rows, log.is_clear, log.place), ({}, True, 2**32 + 2))
        log.add("1/2", 'table public."a, b", public.offers: TRUNCATE: (no-flags)')
        self.assertTrue(log.is_cleared)

    def test_places(self):
        self.assertEqual(place_of("16/B374D848"), 0x16B374D848)
        with self.refuses(ValueError, "'16' is no place of the log"):
            place_of("16")


@unittest.skipIf(postgres.MISSING, postgres.MISSING)
class OfPostgres(TestCase):
    def setUp(self):
        self.db = self.server.connected()
        self.addCleanup(self.db.close)
        self.run_sql("drop schema if exists app cascade; drop schema public cascade; create schema public")

    def run_sql(self, text, *values):
        cursor = self.db.cursor()
        cursor.execute(text, values or None)
        return cursor.fetchall() if cursor.description else None

    def followed(self, table="offers", **options):
        frame = prefq.Frame.follow(self.db, table, **options)
        self.addCleanup(frame.close)
        return frame

    def offers(self, *rows, **options):
        """A frame that follows offers with these rows."""
        self.run_sql(OFFERS)
        for row in rows:
            self.run_sql("insert into offers values (%s, %s, %s, %s)", *row)
        return self.followed(**options)

    def are_as_in_the_table(self, frame):
        self.assertEqual([(row.id, row.hotel, row.price, row.dist) for row in frame.rows()], self.run_sql("select * from offers order by id"))


class Follows(OfPostgres):
    def test_with_each_client(self):
        self.run_sql(OFFERS)
        for module in postgres.clients():
            with self.subTest(module=module.__name__), closing(self.server.connected(module)) as db, prefq.Frame.follow(db, "offers") as frame:
                self.run_sql("insert into offers values (7, 'Quay', 50, 8), (3, 'Ritz', 90, 2)")
                self.assertEqual(frame.best(QUESTION).ids, [3, 7])
                self.run_sql("delete from offers")
                self.assertEqual(len(frame), 0)

    def test_a_transaction_is_seen_whole_once_it_is_committed(self):
        frame = self.offers((1, "Quay", 50, 8), (2, "Ritz", 90, 2))
        self.run_sql("begin")
        self.run_sql("update offers set price = 91 where id = 1")
        self.assertEqual(frame.get(1).price, 50)
        self.run_sql("update offers set price = 49 where id = 2")
        self.run_sql("commit")
        self.assertEqual(frame.best("best low(price)").ids, [2])
        self.run_sql("begin; delete from offers; savepoint a; insert into offers values (5, 'x', 1, 1); rollback to a; rollback")
        self.are_as_in_the_table(frame)

    def test_all_the_ways_in_which_a_row_changes(self):
        frame = self.offers((1, "a", 1, 1), (2, "b", 2, 2), (3, "c", 3, 3))
        changes = ["insert into offers values (1, 'z', 5, 5) on conflict (id) do update set price = 6", "update offers set id = 20 where id = 1",
                   "update offers set id = id + 100", "truncate offers", "insert into offers values (1, 'a', 1, 1)",
                   "begin; savepoint a; delete from offers where id = 1; rollback to a; update offers set dist = 9; commit",
                   "begin; insert into offers values (2, 'b', 2, 2); truncate offers; insert into offers values (3, 'c', 3, 3); commit", "delete from offers"]
        for change in changes:
            with self.subTest(change=change):
                self.run_sql(change)
                self.are_as_in_the_table(frame)

    def test_the_kinds_of_types(self):
        self.run_sql("create type size as enum ('S', 'M')")
        self.run_sql("""create table hotels (id bigint primary key, price numeric(8, 2), rate numeric, stars smallint, part real, wide double precision,
            open boolean, day date, since timestamptz, at timestamp, hour time, size size, code uuid, note varchar(20), tags text[])""")
        code = "00000000-0000-0000-0000-000000000001"
        row = f"57.4, 5, 3, 0.1, 'inf', true, '2002-04-14', '2026-05-01 17:30:00.25+02', '2026-05-01 17:30', '17:30', 'M', '{code}', 'it''s', '{{a}}'"
        self.run_sql(f"insert into hotels values (1, {row})")
        frame = self.followed("hotels", kinds={"tags": "text"})
        self.run_sql(f"insert into hotels values (2, {row})")
        self.run_sql("insert into hotels (id, rate, wide) values (3, 5.25, 'NaN')")
        self.assertEqual([str(column.kind) for column in frame.columns],
                         ["decimal(2)", "whole", "whole", "float", "float", "bool", "date", "time(UTC)", "time", "clock", "text", "text", "text", "text"])
        values = [Decimal("57.40"), 5, 3, 0.1, float("inf"), True, datetime.date(2002, 4, 14), datetime.datetime(2026, 5, 1, 15, 30, 0, 250000, datetime.timezone.utc),
                  datetime.datetime(2026, 5, 1, 17, 30), datetime.time(17, 30), "M", code, "it's", "{a}"]
        self.assertEqual([list(frame.get(id).values()) for id in (1, 2)], [values, values])
        self.assertEqual(frame.get(3), {**dict.fromkeys(frame.names), "rate": Decimal("5.25")})
        self.assertEqual(str(frame.columns[1].kind), "decimal(2)")

    def test_long_values_that_stay_as_they_are(self):
        frame = self.offers((1, "x", 5, 5))
        self.run_sql("alter table offers alter hotel set storage external")
        self.run_sql("update offers set hotel = repeat('long ', 5000)")
        self.are_as_in_the_table(frame)
        for change in ("update offers set price = 6", "update offers set id = 2", "begin; update offers set price = 7; update offers set id = 3; commit"):
            with self.subTest(change=change):
                self.run_sql(change)
                self.are_as_in_the_table(frame)
        self.run_sql("insert into offers values (4, repeat('other ', 5000), 1, 1)")
        self.are_as_in_the_table(frame)
        self.run_sql("begin; delete from offers where id = 4; update offers set price = 8; update offers set id = 4; commit")
        self.are_as_in_the_table(frame)

    def test_names_of_any_letters_and_schemas(self):
        self.run_sql('create schema "Other"')
        self.run_sql(f'create table "Other".{quoted(TABLE)} ({quoted(KEY)} integer primary key, "the price; drop" int)'.replace("%", "%%"))
        frame = self.followed(f'"Other".{quoted(TABLE)}', key=KEY)
        self.run_sql(f'insert into "Other".{quoted(TABLE)} values (5, 6)')
        self.assertEqual(frame.best('best low("the price; drop")').ids, [5])

    def test_the_table_is_that_of_the_connection(self):
        self.run_sql("create schema app; create table offers (id int primary key); create table app.offers (id int primary key); insert into app.offers values (7)")
        with closing(self.server.connected()) as db:
            db.autocommit = False
            cursor = db.cursor()
            cursor.execute("set search_path to app")
            db.commit()
            with prefq.Frame.follow(db, "offers", columns=["id"]) as frame:
                self.assertEqual([row.id for row in frame], [7])
            self.assertEqual(int(db.info.transaction_status), 0)

    def test_a_name_by_which_the_connection_means_another_table(self):
        self.offers((1, "Quay", 50, 8))
        for sort in ("table offers (id integer primary key)", "view offers as select 7 as id"):
            with self.subTest(sort=sort):
                self.run_sql(f"create temp {sort}")
                with self.refuses(prefq.Refused, "'offers' means another table for this connection than public.offers", kind="follow"):
                    self.followed()
                self.assertEqual([row.id for row in self.followed("public.offers")], [1])
                self.run_sql(f"drop {sort.split()[0]} pg_temp.offers")
        self.assertEqual([row.id for row in self.followed()], [1])

    def test_rows_in_many_tables(self):
        frame = self.offers(*((number, "x", number * 7 % 40, number * 11 % 41) for number in range(40)), capacity=16)
        self.assertEqual(frame.tables, 3)
        self.run_sql("update offers set price = 60 - price")
        rows = {id: {"price": price, "dist": dist} for id, _, price, dist in self.run_sql("select * from offers")}
        term = Pareto("low(price) * low(dist)", [Low("price", ""), Low("dist", "")])
        for asked in (Ask(f"best {term.text}", term, levels=1), Ask(f"at_least 7 {term.text}", term, rows=7)):
            answer = frame.best(asked.text)
            self.assertEqual(list(zip(answer.levels, answer.ids)), asked.answer(rows))

    def test_no_slot_is_left(self):
        frame = self.offers((1, "Quay", 50, 8))
        self.assertIn(frame._source._slot, self.slots())
        frame.close()
        end = time.monotonic() + 60
        while frame._source._slot in self.slots():      # which the server drops once it sees that the connection has ended
            self.assertLess(time.monotonic(), end)
            time.sleep(0.05)

    def slots(self):
        return [name for name, in self.run_sql("select slot_name from pg_replication_slots")]


class Places(OfPostgres):
    def test_at_least_sees_what_was_written_before(self):
        frame = self.offers((1, "Quay", 50, 8))
        for durability in ("on", "off"):
            self.run_sql(f"set synchronous_commit = {durability}")
            self.run_sql("update offers set price = price - 1")
            place = frame.now() if durability == "off" else self.run_sql("select pg_current_wal_lsn()::text")[0][0]
            answer = frame.best(QUESTION, at_least=place)
            self.assertEqual(answer[0].price, self.run_sql("select price from offers")[0][0])
            self.assertGreaterEqual(answer.at, place if isinstance(place, int) else place_of(place))
        with self.refuses(prefq.Refused, "public.offers is at ", kind="follow"):
            frame.best(QUESTION, at_least="FF/0", wait=0.01)
        with self.refuses(ValueError, "'9' is no place of the log"):
            frame.best(QUESTION, at_least="9")


class Refusals(OfPostgres):
    def refused(self, *words, table="offers", **options):
        with self.refuses(prefq.Refused, *words, kind="follow"):
            prefq.Frame.follow(self.db, table, **options)

    def test_what_cannot_be_followed(self):
        self.run_sql("create table offers (id int, code text unique, price int, primary key (id, price))")
        self.run_sql("create view cheap as select * from offers")
        self.run_sql("create unlogged table loose (id int primary key)")
        self.run_sql("create table parts (id int primary key) partition by range (id)")
        self.run_sql("create table days (id date primary key)")
        self.refused("there is no table 'offer'", table="offer")
        self.refused("public.cheap is a view", table="cheap")
        self.refused("public.loose is an unlogged table", table="loose")
        self.refused("public.parts is a partitioned table", table="parts")
        self.refused("column 'id' has the type date: a key is a whole number or a text", table="days")
        self.refused("the log does not say by 'id' which row of public.offers is changed")
        self.refused("the log does not say by 'code' which row of public.offers is changed", key="code")
        self.refused("no column 'ID'; did you mean id?", key="ID")
        self.run_sql("alter table offers replica identity full; alter table offers alter code set not null")
        self.assertEqual(self.followed(key="code").rows(), [])
        self.refused("the log does not say by 'id'")

    def test_a_type_without_a_kind(self):
        self.run_sql("create table offers (id int primary key, place point)")
        with self.refuses(prefq.Refused, "column 'place' has the type point, which no kind reads by itself", kind="follow"):
            self.followed()
        self.assertEqual(self.followed(kinds={"place": "text"}).rows(), [])

    def test_a_value_that_a_column_does_not_take_until_it_is_mended(self):
        self.run_sql("create table offers (id int primary key, day date, price int)")
        self.run_sql("insert into offers values (1, '2026-05-01', 50), (2, '2026-05-02', 90)")
        frame = self.followed()
        self.run_sql("update offers set day = 'infinity' where id = 2")
        for _ in range(2):
            with self.refuses(prefq.Refused, "public.offers: key 2, column 'day' (date): 'infinity' is no date", kind="follow"):
                frame.best("best low(price)")
        self.run_sql("update offers set day = '2026-05-03', price = 1 where id = 2")
        self.assertEqual(frame.best("best low(price)").ids, [2])

    def test_a_number_that_no_float_has_among_floats(self):
        """Numbers of any number of decimals are floats where each of them is one, and texts else: whether the row came before the frame or later."""
        self.run_sql("create table offers (id int primary key, price numeric, dist numeric)")
        self.run_sql("insert into offers values (1, 0.1, 0.1), (2, 1e-24, 1e-24)")
        frame = self.followed(kinds={"dist": "float"})
        self.assertEqual([str(column.kind) for column in frame.columns], ["float", "float"])
        self.run_sql("update offers set price = 1e24 where id = 1")
        self.assertEqual([row.price for row in frame], [1e24, 1e-24])
        self.run_sql("insert into offers values (3, 12345678901234567890, 12345678901234567890)")
        self.run_sql("update offers set price = null where id = 2")
        self.assertEqual(frame.get(3), {"price": "12345678901234567890", "dist": 1.2345678901234567e19})
        self.run_sql("delete from offers where id = 3")
        self.assertEqual([row.id for row in frame], [1, 2])

    def test_a_schema_that_is_changed(self):
        frame = self.offers((1, "Quay", 50, 8), (2, "Ritz", 90, 2))
        self.run_sql("alter table offers add column stars int default 5; alter table offers alter stars type bigint")
        self.run_sql("alter table offers alter price type int using 100 - price")       # which the log has no line of
        self.assertEqual(frame.best("best low(price)").ids, [2])
        self.run_sql("vacuum full offers")
        self.are_ids(frame, 2)

    def are_ids(self, frame, *ids):
        self.assertEqual(frame.best("best low(price)").ids, list(ids))


class Servers(OfPostgres):
    def test_one_that_is_started_again(self):
        frame = self.offers((1, "Quay", 50, 8))
        self.db.close()
        self.server.stop()
        with self.assertRaises(Exception) as caught:
            frame.refresh()
        self.assertNotIsInstance(caught.exception, prefq.Error)      # but the client's own
        self.server.start()
        with closing(self.server.connected()) as db:
            db.cursor().execute("insert into offers values (2, 'Ritz', 1, 1)")
        self.assertEqual(frame.best(QUESTION).ids, [2])

    def test_one_that_keeps_too_little_of_a_log(self):
        self.run_sql(OFFERS)
        self.db.close()
        for level in ("replica", "logical"):
            self.server.stop()
            self.server.settings["wal_level"] = level
            self.server.start()
            if level == "replica":
                with closing(self.server.connected()) as db, self.refuses(prefq.Refused, "the server has wal_level = replica", kind="follow"):
                    prefq.Frame.follow(db, "offers")


class Survives(OfPostgres):
    def test_a_table_that_has_ended(self):
        frame = self.offers((1, "Quay", 50, 8))
        frame._dealt.tables[0].close()
        self.run_sql("insert into offers values (2, 'Ritz', 90, 2)")
        self.assertEqual(frame.best(QUESTION).ids, [1, 2])


class StoreOfPostgres(Store):
    mark = "%s"
    clear = f"truncate {quoted(TABLE)}"

    def __init__(self, random, columns, db):
        super().__init__(random, columns)
        self.db = db
        key = "text" if self.are_texts else "integer"
        self.statement(f"create table {quoted(TABLE)} ({quoted(KEY)} {key} primary key, {', '.join(f'{quoted(name)} text' for name in columns)})")

    def statement(self, text, *values):
        self.db.cursor().execute(text, values or None)

    def followed(self, **options):
        return prefq.Frame.follow(self.db, TABLE, key=KEY, **options)


class RandomTransactions(OfPostgres):
    def test_answers_are_those_of_what_is_committed(self):
        for number in range(max(1, QUESTIONS // (2 * QUESTIONS_OF_A_TABLE))):
            chance = random.Random(SEED + number)
            with self.subTest(table=number), warnings.catch_warnings():
                warnings.simplefilter("ignore", prefq.UnknownValue)
                columns, _ = random_frames.frame(chance)
                self.run_sql(f"drop table if exists {quoted(TABLE)}")
                random_following.transactions(self, chance, StoreOfPostgres(chance, columns, self.db), QUESTIONS_OF_A_TABLE)
