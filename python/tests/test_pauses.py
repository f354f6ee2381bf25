"""While many rows go in or out, the event loop goes on."""
import asyncio
import sys
import threading
import time
import unittest
from collections import namedtuple
from types import SimpleNamespace
from unittest import mock

import prefq
from prefq import library
from support import TestCase

COUNT = 60_000
FOUR, SIXTEEN = list("abcd"), [f"c{number}" for number in range(16)]
LONGEST_GAP = 0.005
LONGEST_PIECE = 0.004
Named = namedtuple("Named", FOUR)


def rows_of_four():
    return [[number, -number, number % 7, number % 11] for number in range(COUNT)]


async def longest_gap(call):
    """What a call returns, and the longest time for which a task that sleeps a millisecond at a time has not run meanwhile."""
    longest, last = 0.0, time.perf_counter()
    task = asyncio.ensure_future(call)
    while not task.done():
        await asyncio.sleep(0.001)
        now = time.perf_counter()
        longest, last = max(longest, now - last), now
    return await task, longest


class Library:
    """The calls of the library, in which other threads run: each of them is a pause."""

    def __init__(self):
        self._calls = library.calls()
        self.pieces = []

    def __getattr__(self, name):
        call = getattr(self._calls, name)
        return lambda *words: self.pause(lambda: call(*words))

    def pause(self, call):
        """What the call returns, whose time is not counted."""
        self.pieces.append(time.thread_time())
        try:
            return call()
        finally:
            self.pieces.append(time.thread_time())


CALLS = Library()


def longest_piece(call):
    """What a call on a thread of its own returns, and the most processor time that it takes from one pause to the next."""
    returned = []
    CALLS.pieces = pieces = []

    def runs():
        CALLS.pause(lambda: None)
        returned.append(call())
        CALLS.pause(lambda: None)

    pauses = SimpleNamespace(sleep=lambda seconds: CALLS.pause(lambda: time.sleep(seconds)), thread_time=time.thread_time)
    with mock.patch("prefq.pauses.time", pauses), mock.patch("prefq.engine.calls", lambda: CALLS):
        thread = threading.Thread(target=runs)
        thread.start()
        thread.join()
    return returned[0], max(after - before for before, after in zip(pieces[1::2], pieces[2::2]))


class Loop(TestCase):
    """A busy machine makes gaps of its own, also in a loop that has nothing to do, so one good try is enough; `Pieces` does not depend on the machine."""

    TRIES = 20

    def goes_on(self, name, trial):
        """In a try of some, the longest gap is short, or hardly longer than that of a loop that has nothing to do for as long."""
        for _ in range(self.TRIES):
            begun = time.perf_counter()
            gap = asyncio.run(trial())
            _, idle = asyncio.run(longest_gap(asyncio.sleep(time.perf_counter() - begun)))
            if gap < max(LONGEST_GAP, LONGEST_GAP - 0.001 + idle):
                print(f"\nthe longest gap of the loop: {gap * 1000:.1f} ms by {name}, {idle * 1000:.1f} ms by nothing", file=sys.stderr)
                return
        self.fail(f"{gap * 1000:.1f} ms by {name}, {idle * 1000:.1f} ms by nothing")

    def test_opening(self):
        rows = rows_of_four()

        async def trial():
            table, gap = await longest_gap(prefq.AsyncTable.open(FOUR, rows))
            await table.close()
            return gap

        self.goes_on("opening with 60,000 rows", trial)

    def test_insert_many(self):
        rows = rows_of_four()

        async def trial():
            async with await prefq.AsyncTable.open(FOUR, capacity=COUNT) as table:
                ids, gap = await longest_gap(table.insert_many(rows))
                self.assertEqual(ids, range(1, COUNT + 1))
                return gap

        self.goes_on("insert_many of 60,000 rows", trial)

    def test_questions(self):
        rows = rows_of_four()

        def trial(call, count):
            async def runs():
                async with await prefq.AsyncTable.open(FOUR, rows, capacity=COUNT) as table:
                    found, gap = await longest_gap(call(table))
                    self.assertEqual(len(found), count)
                    return gap
            return runs

        self.goes_on("a question with 1,000 levels over 60,000 rows", trial(lambda table: table.best("top_level 1000 low(a)"), 1000))
        self.goes_on("an answer of 60,000 rows", trial(lambda table: table.best(table._table.all_rows), COUNT))
        self.goes_on("60,000 rows read", trial(lambda table: table.rows(), COUNT))


class Pieces(TestCase):
    """Between two pauses little is computed, whatever else the machine does."""

    TRIES = 5

    def short(self, call):
        """What the call returns. A pass of the garbage collector over all that these tests have may come in between, but not each time."""
        for _ in range(self.TRIES):
            returned, longest = longest_piece(call)
            if longest < LONGEST_PIECE:
                return returned
        self.fail(f"{longest * 1000:.1f} ms are computed between two pauses")

    def goes_in_and_out(self, columns, rows):
        """Rows that are made by a function, by opening a table and by insert_many."""
        with self.short(lambda: prefq.Table(columns, rows(), block=65_536)) as table:
            count = len(table)
            self.assertEqual(len(self.short(table.rows)), count)
            self.assertEqual(len(self.short(lambda: table.best(table.all_rows))), count)

        def inserts():
            with prefq.Table(columns, capacity=COUNT) as table:
                return table.insert_many(rows())

        self.assertEqual(self.short(inserts), range(1, count + 1))

    def test_lists(self):
        rows = rows_of_four()
        self.goes_in_and_out(FOUR, lambda: rows)

    def test_one_by_one(self):
        self.goes_in_and_out(FOUR, lambda: ([number, -number, number % 7, number % 11] for number in range(COUNT)))

    def test_sixteen_columns(self):
        rows = [[number + place for place in range(16)] for number in range(COUNT // 4)]
        self.goes_in_and_out(SIXTEEN, lambda: rows)

    def test_rows_that_are_tested_one_by_one(self):
        rows = [Named(*row) for row in rows_of_four()]
        self.goes_in_and_out(FOUR, lambda: rows)

    def test_arrays(self):
        try:
            import numpy
        except ImportError:
            self.skipTest("numpy is not installed")
        rows = numpy.array(rows_of_four())
        self.goes_in_and_out(FOUR, lambda: rows)


if __name__ == "__main__":
    unittest.main()
