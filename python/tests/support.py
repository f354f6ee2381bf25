"""What several tests use."""
import importlib.util
import multiprocessing
import os
import signal
import time
import unittest
from concurrent.futures import ProcessPoolExecutor, ThreadPoolExecutor
from contextlib import contextmanager
from pathlib import Path

import prefq

HOTELS = [[50, 8], [60, 5], [80, 2], [70, 6], [90, 2], [100, 1], [110, 9]]
SKYLINE = [1, 2, 3, 6]
QUESTION = "best low(price) * low(dist)"


def hotels(**options):
    """A table of seven hotels."""
    return prefq.Table(["price", "dist"], HOTELS, **options)


def numbers(count, **options):
    """A table of one column, whose row k has the value k * 11."""
    return prefq.Table(["x"], [[11 * id] for id in range(1, count + 1)], **options)


@contextmanager
def raised_after(seconds, exception):
    """An exception comes from a signal after so many seconds, as that of Ctrl-C does."""
    def raises(*_):
        raise exception
    before = signal.signal(signal.SIGALRM, raises)
    signal.setitimer(signal.ITIMER_REAL, seconds)
    try:
        yield
    finally:
        signal.setitimer(signal.ITIMER_REAL, 0)
        signal.signal(signal.SIGALRM, before)


@contextmanager
def around(table, name, *, before=lambda: None, behind=lambda: None):
    """These functions run in the block before and behind each call `name` of the library that the table makes, where an interruption or a finalizer may come."""
    calls = table._engine._calls

    class Calls:
        def __getattr__(self, other):
            call = getattr(calls, other)
            if other != f"prefq_{name}":
                return call

            def made(*words):
                before()
                result = call(*words)
                behind()
                return result
            return made

    table._engine._calls = Calls()
    try:
        yield
    finally:
        table._engine._calls = calls


def raises(exception):
    """A function that raises this."""
    def function():
        raise exception
    return function


def in_a_fork(function):
    """What the function returns in a fork of this process, or the kind and the text of the `Ended` that it raises."""
    receiver, sender = multiprocessing.Pipe(False)
    pid = os.fork()
    if pid == 0:
        signal.alarm(30)
        try:
            sender.send(function())
        except prefq.Ended as why:
            sender.send((why.kind, str(why)))
        finally:
            sender.close()
            os._exit(0)
    sender.close()
    try:
        return receiver.recv()
    finally:
        os.waitpid(pid, 0)


def printed(done):
    """The levels and ids of an answer that a process printed as CSV."""
    return [tuple(map(int, line.split(",")[:2])) for line in done.stdout.splitlines()[1:]]


def pairs(answer):
    """The level and the id of each row of an answer."""
    return list(zip(answer.levels, answer.ids))


def needs(test, module):
    if not importlib.util.find_spec(module):
        test.skipTest(f"{module} is not installed")


def package_path():
    """The environment in which Python finds this package."""
    return {**os.environ, "PYTHONPATH": str(Path(prefq.__file__).parents[1])}


class TestCase(unittest.TestCase):
    """Tests that also look at what an exception says, and how long a call takes."""

    @contextmanager
    def refuses(self, exception, *words, kind=None, number=None, place=None):
        """The block raises this exception, whose message has these words."""
        with self.assertRaises(exception) as caught:
            yield
        for word in words:
            self.assertIn(word, str(caught.exception))
        for name, wanted in [("kind", kind), ("number", number), ("place", place)]:
            if wanted is not None:
                self.assertEqual(getattr(caught.exception, name), wanted)

    @contextmanager
    def within(self, seconds):
        begun = time.monotonic()
        yield
        self.assertLess(time.monotonic() - begun, seconds)


class FrameTestCase(TestCase):
    """Tests that ask one frame of these records, and do not change it."""

    records = ()

    @classmethod
    def setUpClass(cls):
        cls.frame = prefq.Frame.from_records(cls.records)

    @classmethod
    def tearDownClass(cls):
        cls.frame.close()


class OnPools:
    """What a test case can `check` on a map, on those of Python's pools."""

    def test_threads(self):
        with ThreadPoolExecutor(2) as pool:
            self.check(pool.map)

    def test_processes(self):
        with ProcessPoolExecutor(2) as pool:
            self.check(pool.map)
