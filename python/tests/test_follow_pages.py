"""Pages and programs that show a table of SQLite while others change it."""
import json
import re
import sqlite3
import subprocess
import sys
import threading
import time
import unittest.mock
import urllib.error
import urllib.request
import weakref
from contextlib import closing
from pathlib import Path

import prefq.server
import test_follow
from prefq.follow_desk import FollowedDesk
from support import raises

EXAMPLES = Path(__file__).resolve().parent.parent.parent / "examples/booking"


class Pages(test_follow.OfSqlite):
    def desk(self, *rows, **options):
        desk = FollowedDesk(self.offers(*rows, **options))
        self.addCleanup(desk.close)
        return desk

    def test_rows_and_answer_are_of_one_version(self):
        desk = self.desk(*((number, "x", number, 40 - number) for number in range(40)), capacity=16)
        seen = desk.picture("top_level 2 low(price)")
        self.assertEqual(([row.id for row in seen.rows], seen.version), (list(range(40)), desk.version))
        self.assertEqual([(row.level, row.id) for row in seen.best], [(1, 0), (2, 1)])
        self.assertEqual(desk.record(seen.best[0].numbers), {"hotel": "x", "price": 0, "dist": 40})
        self.db.execute("delete from offers where id = 0")
        again = desk.picture("top_level 2 low(price)")
        self.assertEqual((len(again.rows), again.best[0].id, again.version), (39, 1, seen.version + 1))

    def test_who_watches_is_woken_by_a_change_in_the_file(self):
        desk, woken = self.desk((1, "x", 1, 1)), threading.Event()
        desk.subscribe(woken.set)
        self.db.execute("update offers set price = 5")
        self.assertTrue(woken.wait(60))
        self.assertEqual(desk.wait(1, 60), 2)

    def test_nothing_is_changed_here(self):
        desk = self.desk((1, "x", 1, 1))
        for change in (lambda: desk.insert({"price": 1}), lambda: desk.update(1, {"price": 2}), lambda: desk.delete(1)):
            with self.refuses(prefq.Refused, "they are changed there", kind="follow"):
                change()
        with self.refuses(prefq.Refused, "no column 'prise'", kind="term", place=9):
            desk.picture("best low(prise)")
        self.db.execute("create table rooms (code text primary key, price int)")
        self.db.execute("insert into rooms values ('a', 1)")
        with FollowedDesk(self.followed("rooms", key="code")) as rooms, self.refuses(prefq.Refused, "there is a row with the key 'a'", kind="follow"):
            rooms.picture("best low(price)")

    def test_who_watches_is_woken_where_the_table_cannot_be_read_and_where_it_can_again(self):
        desk = self.desk((1, "x", 1, 1))
        seen = desk.picture("best low(price)").version
        self.db.execute("insert into offers values (2, 'y', 'dear', 1)")
        broken = desk.wait(seen, 60)
        self.assertGreater(broken, seen)
        with self.refuses(prefq.Refused, "offers: key 2", kind="follow"):
            desk.picture("best low(price)")
        self.db.execute("delete from offers where id = 2")
        self.assertGreater(desk.wait(broken, 60), broken)
        self.assertEqual([row.id for row in desk.picture("best low(price)").rows], [1])

    def test_a_file_that_is_locked_is_said_to_browsers(self):
        desk = self.desk((1, "x", 1, 1))
        with prefq.server.Server(desk, editable=False) as server, unittest.mock.patch("prefq.follow_sqlite.SECONDS_TO_WAIT", 0.1):
            threading.Thread(target=server.serve_forever, daemon=True).start()
            self.db.execute("begin exclusive")
            said = "offers cannot be read: its database raises OperationalError"
            with urllib.request.urlopen(f"{server.url}events?question=best%20low(price)", timeout=60) as stream:
                self.assertIn(f'event: failed\ndata: {{"error": "{said}"', stream.read().decode())
            with self.assertRaises(urllib.error.HTTPError) as refused:
                urllib.request.urlopen(f"{server.url}picture?question=best%20low(price)", timeout=60)
            with refused.exception as reply:
                self.assertEqual((reply.code, json.load(reply)["error"]), (409, said))
            self.db.execute("rollback")
            with urllib.request.urlopen(f"{server.url}picture?question=best%20low(price)", timeout=60) as reply:
                self.assertEqual(json.load(reply)["count"], 1)
            server.shutdown()

    def test_a_table_that_is_refused_is_read_once_a_second(self):
        desk = self.desk((1, "x", 1, 1))
        everything, count = desk._frame._source.everything, []
        with unittest.mock.patch.object(desk._frame._source, "everything", lambda: count.append(1) or everything()):
            self.db.execute("insert into offers values (2, 'y', 'dear', 1)")
            desk.wait(desk.version, 60)
            time.sleep(2)
            self.assertLess(len(count), 5)
            self.db.execute("delete from offers where id = 2")
            desk.wait(desk.version, 60)
        self.assertEqual([row.id for row in desk.picture("best low(price)").rows], [1])

    def test_a_frame_that_is_closed_closes_its_page(self):
        desk = self.desk((1, "x", 1, 1))
        desk._frame.close()
        with self.refuses(prefq.Ended, "the desk was closed", kind="closed"):
            desk.wait(desk.version, 60)
        self.assertTrue(desk.is_closed)

    def test_a_desk_that_nobody_has_any_more_looks_no_further(self):
        before = threading.active_count()
        desk = FollowedDesk(self.offers((1, "x", 1, 1)))
        gone = weakref.ref(desk)
        del desk
        end = time.monotonic() + 30
        while (gone() is not None or threading.active_count() > before) and time.monotonic() < end:
            time.sleep(0.05)
        self.assertIsNone(gone())
        self.assertEqual(threading.active_count(), before)

    def test_who_subscribed_and_raises_keeps_nobody_from_hearing_of_changes(self):
        desk, told, woken = self.desk((1, "x", 1, 1)), [], threading.Event()
        with unittest.mock.patch("threading.excepthook", lambda why: told.append(str(why.exc_value))):
            end = desk.subscribe(raises(ValueError("a subscriber")))
            desk.subscribe(woken.set)
            for price in (2, 3):
                woken.clear()
                self.db.execute("update offers set price = ?", (price,))
                self.assertTrue(woken.wait(30))
                self.assertEqual(desk.picture("best low(price)").best[0].numbers[1], price)
            desk.close()
            end()
        self.assertTrue(desk._frame._is_closed)
        self.assertEqual(told, ["a subscriber"] * 3)

    def test_a_frame_of_one_client_is_no_page(self):
        with self.refuses(prefq.Refused, "a picture asks 2 questions at once: follow the table with clients=2 or more", kind="arguments"):
            FollowedDesk(self.offers((1, "x", 1, 1), clients=1))
        with FollowedDesk(self.followed(clients=2)) as desk:
            self.assertEqual([row.id for row in desk.picture("best low(price)").best], [1])

    def test_a_page_that_is_closed(self):
        desk = self.desk((1, "x", 1, 1))
        desk.close()
        with self.refuses(prefq.Ended, kind="closed"):
            desk.wait(desk.version, 60)
        with self.refuses(prefq.Ended, kind="closed"):
            desk.picture("best low(price)")


class Examples(test_follow.OfSqlite):
    def setUp(self):
        super().setUp()
        self.offers_path = self.path.with_name("offers.db")

    def running(self, *words, **pipes):
        """An example, which is killed at the end of the test."""
        example = subprocess.Popen([sys.executable, *words], text=True, **pipes)
        self.addCleanup(lambda: (example.kill(), example.communicate()))
        return example

    def change(self, statement):
        with closing(sqlite3.connect(self.offers_path)) as db, db:
            db.execute(statement)

    def test_the_booking_file(self):
        words = [str(EXAMPLES / "follow.py"), str(self.offers_path), "--question", 'best low("Price (EUR)") & low("Distance (m)") & high(Rating)']
        first = subprocess.run([sys.executable, *words, "--once"], capture_output=True, text=True, check=True).stdout
        self.assertIn("at 0\nlevel  id  Hotel", first)
        self.change("insert into offers values (99, 'Cellar', 9.5, 10, 1)")
        following = self.running(*words, stdout=subprocess.PIPE)
        self.assertIn("at 1", self.shown(following))
        self.change("delete from offers where id = 99")
        self.assertEqual(self.shown(following), first.replace("at 0", "at 2"))

    def shown(self, following):
        """The next answer, of one row."""
        return "".join(following.stdout.readline() for _ in range(4))

    def test_the_page_of_the_booking_file(self):
        page = self.running(str(EXAMPLES / "booking.py"), "--file", str(self.offers_path), "--still", "--port", "0", stderr=subprocess.PIPE)
        url = re.search(r"http://\S+/", page.stderr.readline())[0]
        first = self.get(f"{url}picture")
        self.assertEqual((first["count"], self.get(f"{url}about")["editable"]), (60, False))
        self.change("insert into offers values (99, 'Cellar', 9.5, 10, 5)")
        end = time.monotonic() + 60
        while (second := self.get(f"{url}picture"))["version"] == first["version"]:     # which it sees within a tenth of a second, or so
            self.assertLess(time.monotonic(), end)
        self.assertEqual([row["id"] for row in second["best"] if row["level"] == 1], [99])

    def get(self, url):
        with urllib.request.urlopen(url, timeout=60) as reply:
            return json.load(reply)
