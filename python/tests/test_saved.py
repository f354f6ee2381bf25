"""A frame in a file: what comes back, and what is refused.

PREFQ_TEST_COUNT is how many questions random frames are asked, and PREFQ_TEST_SEED begins other ones.
"""
import asyncio
import contextlib
import enum
import os
import random
import signal
import sqlite3
import stat
import subprocess
import sys
import tempfile
import time
import unittest
import unittest.mock
import warnings
from datetime import timedelta, tzinfo
from pathlib import Path

import prefq
import random_frames
import test_random_frames
from support import TestCase

QUESTIONS = int(os.environ.get("PREFQ_TEST_COUNT", 1000))
SEED = int(os.environ.get("PREFQ_TEST_SEED", 20260501))
QUESTIONS_OF_A_FRAME = 10
KILLS = max(2, QUESTIONS // 50)
SAVES = """
import sys, prefq
with prefq.Frame.from_records([{"x": 1}]) as old, prefq.Frame.from_records([{"x": 2, "y": "two"}] * 2000) as new:
    old.save(sys.argv[1])
    print("begun", flush=True)
    while True:
        new.save(sys.argv[1])
        old.save(sys.argv[1])
"""


class InAFolder(TestCase):
    def setUp(self):
        folder = tempfile.TemporaryDirectory()
        self.addCleanup(folder.cleanup)
        self.folder = Path(folder.name)
        self.path = self.folder / "hotels.prefq"

    def saved(self, *records, **options):
        """A frame of these records, saved, with its path."""
        with prefq.Frame.from_records(records, **options) as frame:
            frame.save(self.path)


class Saved(InAFolder):
    def test_rows_columns_and_notes_come_back(self):
        (self.folder / "hotels.csv").write_text("Hotel,Price (EUR),Opened\nQuay,57.40,2002-04-14\nRitz,n/a,1931-05-01\n")
        with prefq.Frame.from_csv(self.folder / "hotels.csv") as frame:
            frame.save(self.path)
            with prefq.Frame.open(self.path) as opened:
                self.assertEqual(opened.rows(), frame.rows())
                self.assertEqual(repr(opened.columns), repr(frame.columns))
                self.assertEqual(opened.notes, frame.notes)
                self.assertEqual(len(opened.notes), 1)

    def test_ids_come_back_and_the_next_is_as_it_would_have_been(self):
        with prefq.Frame.from_records([{"x": 1}, {"x": 2}, {"x": 3}]) as frame:
            frame.insert({"x": 4})
            frame.delete(4)
            frame.delete(2)
            frame.save(self.path)
            with prefq.Frame.open(self.path) as opened:
                self.assertEqual([row.id for row in opened], [1, 3])
                self.assertEqual((frame.insert({"x": 5}), opened.insert({"x": 5})), (5, 5))
                with self.refuses(prefq.Refused, "no such row 2", kind="client", number=7):
                    opened.get(2)

    def test_a_frame_without_rows(self):
        with prefq.Frame.empty(["hotel", "price"], {"hotel": "text", "price": "decimal(2)"}) as frame:
            frame.insert({"hotel": "Ritz"})
            frame.delete(1)
            frame.save(self.path)
        with prefq.Frame.open(self.path) as opened:
            self.assertEqual(opened.rows(), [])
            self.assertEqual(opened.insert({"hotel": "Quay", "price": "9.99"}), 2)

    def test_a_column_that_grows_still_does_and_one_that_was_given_a_kind_does_not(self):
        self.saved({"x": 1, "y": 1}, kinds={"y": "whole"})
        with prefq.Frame.open(self.path) as opened:
            opened.update(1, {"x": "1.5"})
            self.assertEqual(str(opened.columns[0].kind), "decimal(1)")
            with self.refuses(ValueError, "no whole number"):
                opened.update(1, {"y": "1.5"})

    def test_a_text_of_no_row_is_known_as_before(self):
        with prefq.Frame.from_records([{"city": "Bern"}, {"city": "Lyon"}]) as frame:
            frame.delete(1)
            frame.save(self.path)
        with prefq.Frame.open(self.path) as opened, warnings.catch_warnings():
            warnings.simplefilter("error")
            self.assertEqual(opened.best("best pos(city, 'Bern')").ids, [2])

    def test_texts_and_names_of_any_letters(self):
        texts = ["", " ", "Köln", "a\0b", "\0", "\ud800", "a\udfffb", "\U0001f600", "'\"`;--", "x\r\ny"]
        self.saved(*({"na\0me \ud800": text} for text in texts))
        with prefq.Frame.open(self.path) as opened:
            self.assertEqual([row["na\0me \ud800"] for row in opened], texts)

    def test_names_of_an_enumeration(self):
        """The file was taken for a damaged one: the digest had them as their type shows them."""
        class Name(str, enum.Enum):
            CITY = "city"
            PRICE = "price"

        class Word(str):
            def __hash__(self):
                return hash(self.lower())

        self.saved({Name.CITY: "Lyon", Name.PRICE: 5})
        with prefq.Frame.open(self.path) as opened:
            opened.insert({Word("city"): "Bern", Name.PRICE: 7})
            self.assertEqual([dict(row) for row in opened], [{"city": "Lyon", "price": 5}, {"city": "Bern", "price": 7}])
            self.assertEqual({type(name) for name in opened.names}, {str})
        self.saved({Word("City"): "Lyon"}, {"City": "Bern"})
        with prefq.Frame.open(self.path) as opened:
            opened.insert({Word("City"): "Ulm"})
            self.assertEqual([row["City"] for row in opened], ["Lyon", "Bern", "Ulm"])

    def test_a_save_is_no_change(self):
        told = []
        with prefq.Frame.from_records([{"x": 1}]) as frame:
            frame.subscribe(lambda: told.append(True))
            frame.save(self.path)
        self.assertEqual(told, [])

    def test_a_frame_of_asyncio(self):
        async def saves():
            async with await prefq.AsyncFrame.open(prefq.Frame.from_records, [{"x": 1}]) as frame:
                await frame.save(self.path)
            async with await prefq.AsyncFrame.open(prefq.Frame.open, self.path) as opened:
                return await opened.rows()
        self.assertEqual(asyncio.run(saves()), [{"x": 1}])

    def test_options_are_those_of_a_frame(self):
        self.saved({"x": 1})
        with prefq.Frame.open(self.path, capacity=1, clients=1) as opened:
            self.assertEqual(opened.room(), 0)
        with self.refuses(TypeError, "Frame.open has no option 'capcity'; did you mean 'capacity'?"):
            prefq.Frame.open(self.path, capcity=5)

    def test_the_file_is_one_of_sqlite(self):
        self.saved({"x": 7, "city": "Bern"})
        with contextlib.closing(sqlite3.connect(self.path)) as file:
            self.assertEqual(file.execute("select rows.id, c0, text from rows join texts on place = 1 and code = c1").fetchall(), [(1, 7, "Bern")])

    def test_a_link_stays_one_and_a_file_keeps_who_may_read_it(self):
        self.saved({"x": 1})
        self.path.chmod(0o600)
        link = self.folder / "link"
        link.symlink_to("hotels.prefq")
        with prefq.Frame.from_records([{"x": 2}]) as frame:
            frame.save(link)
        self.assertTrue(link.is_symlink())
        self.assertEqual(stat.S_IMODE(self.path.stat().st_mode), 0o600)
        with prefq.Frame.open(self.path) as opened:
            self.assertEqual(opened.get(1), {"x": 2})

    def test_a_path_that_is_not_utf_8(self):
        path = os.fsdecode(os.fsencode(self.folder) + b"/caf\xe9.prefq")
        with prefq.Frame.from_records([{"x": 1}]) as frame:
            frame.save(os.fsencode(self.path))
            try:
                frame.save(path)
            except OSError as why:      # as where the file system has other names alone
                self.skipTest(str(why))
        for some in (path, self.path):
            with prefq.Frame.open(some) as opened:
                self.assertEqual(opened.get(1), {"x": 1})

    def test_the_longest_names(self):
        """The file that is written beside one has a name of its own, which may not be longer than the system takes."""
        with tempfile.TemporaryDirectory() as folder, prefq.Frame.from_records([{"x": 1}]) as frame:
            for name in ("a" * 218, "a" * 219, "ab" + 126 * "é", 255 * "a"):
                frame.save(os.path.join(folder, name))
                self.assertIn(name, os.listdir(folder))
                with prefq.Frame.open(os.path.join(folder, name)) as opened:
                    self.assertEqual(opened.rows(), [{"x": 1}])
            self.assertEqual(len(os.listdir(folder)), 4)
            with self.refuses(OSError, 256 * "a"):
                frame.save(os.path.join(folder, 256 * "a"))
            self.assertEqual(len(os.listdir(folder)), 4)

    def test_a_folder_in_which_no_file_can_be_made_is_said_by_the_system(self):
        self.path.write_bytes(b"")
        with prefq.Frame.from_records([{"x": 1}]) as frame:
            for error, path in ((FileNotFoundError, self.folder / "hotels" / "all.prefq"), (NotADirectoryError, self.path / "all.prefq")):
                with self.refuses(error, f"{str(path)!r}"):
                    frame.save(path)
        self.assertEqual([path.name for path in self.folder.iterdir()], ["hotels.prefq"])

    def test_a_save_that_fails_leaves_what_is_there_and_nothing_else(self):
        self.saved({"x": 1})
        with prefq.Frame.from_records([{"x": 2}]) as frame, unittest.mock.patch("prefq.saved._to_disk", side_effect=OSError("the disk is full")):
            with self.refuses(OSError, "the disk is full"):
                frame.save(self.path)
        self.assertEqual([path.name for path in self.folder.iterdir()], ["hotels.prefq"])
        with prefq.Frame.open(self.path) as opened:
            self.assertEqual(opened.get(1), {"x": 1})

    def test_a_column_with_a_zone_without_a_name_is_refused(self):
        class Zone(tzinfo):
            def utcoffset(self, when):
                return None if when is None else timedelta(hours=2)

            def dst(self, when):
                return timedelta()

        class Winter(tzinfo):
            """Without a time it has the offset of winter, as classes of Python's documentation have."""

            def utcoffset(self, when):
                return timedelta(hours=1) + self.dst(when)

            def dst(self, when):
                return timedelta(hours=when is not None and 3 < when.month < 11)

        from datetime import datetime
        for zone in (Zone(), Winter()):
            with self.subTest(zone=zone), prefq.Frame.from_records([{"since": datetime(2026, 5, 1, tzinfo=zone)}]) as frame:
                with self.refuses(prefq.Refused, "column 'since' cannot be saved", kind="saved"):
                    frame.save(self.path)
        self.assertEqual(list(self.folder.iterdir()), [])


class Refusals(InAFolder):
    def refused(self, *words):
        with self.refuses(prefq.Refused, str(self.path), *words, kind="saved"):
            prefq.Frame.open(self.path)

    def test_a_path_of_nothing_is_said_by_the_system(self):
        with self.refuses(FileNotFoundError, str(self.path)):
            prefq.Frame.open(self.path)
        with self.refuses(IsADirectoryError):
            prefq.Frame.open(self.folder)

    def test_files_that_are_no_frames(self):
        for content in (b"", b"x,y\n1,2\n", b"SQLite format 3"):
            with self.subTest(content=content):
                self.path.write_bytes(content)
                self.refused("is no saved frame")

    def test_another_file_of_sqlite(self):
        with contextlib.closing(sqlite3.connect(self.path)) as file:
            file.execute("create table frame (x)")
        self.refused("is no saved frame, but another file of SQLite")

    def test_another_version(self):
        self.saved({"x": 1})
        with contextlib.closing(sqlite3.connect(self.path)) as file:
            file.execute("pragma user_version = 2")
        self.refused("is a frame of version 2, and this package reads version 1")

    def test_a_file_without_its_end(self):
        self.saved(*({"x": number} for number in range(2000)))
        content = self.path.read_bytes()
        for length in (20, 99, 100, 4096, len(content) // 2, len(content) - 1):
            with self.subTest(length=length):
                self.path.write_bytes(content[:length])
                self.refused()

    def test_what_somebody_else_has_changed(self):
        changes = ["update rows set c0 = 6", "delete from rows", "insert into rows values (9, 9, 9)", "update texts set text = 'Bonn'", "update columns set kind = 'float' where place = 0",
                   "update columns set kind = 'flat'", "update columns set has_gaps = 1", "update frame set last = 1", "delete from frame", "drop table rows",
                   "drop table texts", "update columns set form = '[]'", "update rows set c0 = 'abc'", "update frame set notes = '{'"]
        for change in changes:
            with self.subTest(change=change):
                self.saved({"x": 5, "city": "Bern"}, {"x": 7, "city": "Lyon"})
                with contextlib.closing(sqlite3.connect(self.path, isolation_level=None)) as file:
                    file.execute(change)
                self.refused("is damaged")

    def test_a_bit_that_is_another(self):
        """What is not refused is what was saved: SQLite's pages have places that mean nothing."""
        chance = random.Random(SEED)
        self.saved(*({"x": number, "city": f"city {number % 7}"} for number in range(300)))
        content = self.path.read_bytes()
        with prefq.Frame.open(self.path) as frame:
            rows = frame.rows()
        for _ in range(max(5, QUESTIONS // 16)):
            place = chance.randrange(len(content))
            self.path.write_bytes(content[:place] + bytes([content[place] ^ 1 << chance.randrange(8)]) + content[place + 1:])
            with self.subTest(place=place), contextlib.suppress(prefq.Refused):
                with prefq.Frame.open(self.path) as frame:
                    self.assertEqual(frame.rows(), rows)


class Kills(InAFolder):
    def test_a_kill_at_any_moment_leaves_the_old_file_or_the_new_one(self):
        chance, seen = random.Random(SEED), set()
        for _ in range(KILLS):
            with subprocess.Popen([sys.executable, "-c", SAVES, str(self.path)], stdout=subprocess.PIPE, start_new_session=True) as saving:
                saving.stdout.readline()
                time.sleep(chance.uniform(0, 0.1))
                os.killpg(saving.pid, signal.SIGKILL)
            with prefq.Frame.open(self.path) as frame:
                rows = [dict(row) for row in frame]
            self.assertIn(rows, [[{"x": 1}], [{"x": 2, "y": "two"}] * 2000])
            seen.add(len(rows))
        if KILLS >= 20:
            self.assertEqual(seen, {1, 2000})


class RandomSaved(test_random_frames.RandomFrames):
    """Random frames that are saved and opened amid their changes."""

    test_as_by_a_plain_evaluation = None

    def opened_again(self, frame, path, rows, questions):
        """The frame that is opened from a file, after it was found to be the same."""
        frame.save(path)
        opened = prefq.Frame.open(path)
        self.assertEqual([(row.id, dict(row)) for row in opened], [(row.id, dict(row)) for row in frame])
        self.assertEqual([(repr(column), column.grows, column.has_gaps, column.form) for column in opened.columns],
                         [(repr(column), column.grows, column.has_gaps, column.form) for column in frame.columns])
        for asked in questions:
            self.same(opened, rows, asked)
            self.assertEqual(opened.best(asked.text).to_csv(), frame.best(asked.text).to_csv())
        return opened

    def one(self, random_, kind_of_door, path):
        columns, records = random_frames.frame(random_, kind_of_door.further)
        door = kind_of_door(random_, columns, records)
        rows = dict(enumerate(records, 1))
        ask = random_frames.Questions(random_, columns)
        with contextlib.ExitStack() as stack:
            frame = stack.enter_context(door.opened())
            for _ in range(2):
                if 1 in rows:       # which these changes are of
                    self.changed(door, frame, rows)
                if len(rows) > 1 and max(rows) in rows and random_.random() < 0.5:
                    frame.delete(max(rows))
                    del rows[max(rows)]
                again = stack.enter_context(self.opened_again(frame, path, rows, [ask.question() for _ in range(QUESTIONS_OF_A_FRAME // 2)]))
                given = [some.insert({}) for some in (frame, again)]
                self.assertEqual(given[0], given[1])
                rows[given[0]] = dict.fromkeys(columns)
                frame = again

    def test_a_frame_comes_back(self):
        with tempfile.TemporaryDirectory() as folder, warnings.catch_warnings():
            warnings.simplefilter("ignore", prefq.UnknownValue)
            for number in range(QUESTIONS // QUESTIONS_OF_A_FRAME):
                door = test_random_frames.DOORS[number % len(test_random_frames.DOORS)]
                with self.subTest(frame=number, door=door.__name__):
                    self.one(random.Random(SEED + number), door, os.path.join(folder, "frame"))
