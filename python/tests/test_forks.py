"""Tables in forks and at the end of Python.

PREFQ_TIMES=100 makes the tests that fork often fork a hundred times as often.
"""
import subprocess
import sys
import textwrap
import threading
import unittest

from interrupting import NEVER, TIMES
from support import QUESTION, TestCase, hotels, in_a_fork


class Forks(TestCase):
    CALLS = {"best": lambda table: table.best(QUESTION), "query": lambda table: table.query(QUESTION, 1), "len": len, "rows": lambda table: table.rows(),
             "insert_many": lambda table: table.insert_many([[1, 2]] * 20), "get": lambda table: table.get(1)}

    def test_each_call_raises_ended_at_once(self):
        """Whatever the other threads are in the middle of."""
        with hotels(clients=4) as table:
            query, stop = table.query(QUESTION), threading.Event()

            def asks():
                while not stop.is_set():
                    table.best(QUESTION)

            threads = [threading.Thread(target=asks, daemon=True) for _ in range(10)]
            for thread in threads:
                thread.start()
            try:
                calls = {**self.CALLS, "scan": lambda _: query.scan(), "answer": lambda _: query.answer(), "abandon": lambda _: query.abandon()}
                for _ in range(TIMES):
                    for name, call in calls.items():
                        with self.subTest(name), self.within(5):
                            self.assertEqual(in_a_fork(lambda: call(table))[0], "process")
                    with self.within(5):
                        self.assertIsNone(in_a_fork(table.close))
            finally:
                stop.set()
                for thread in threads:
                    thread.join(NEVER)
            self.assertEqual(len(query.answer()), 4)

    def test_while_a_thread_has_each_lock(self):
        with hotels() as table:
            query = table.query(QUESTION)
            locked, release = threading.Event(), threading.Event()

            def holds():
                with table._engine.lock:
                    locked.set()
                    release.wait(NEVER)

            thread = threading.Thread(target=holds)
            thread.start()
            locked.wait(NEVER)
            try:
                for name, call in {**self.CALLS, "answer": lambda _: query.answer(), "abandon": lambda _: query.abandon()}.items():
                    with self.subTest(name), self.within(5):
                        self.assertEqual(in_a_fork(lambda: call(table))[0], "process")
            finally:
                release.set()
                thread.join(NEVER)
            self.assertEqual(len(query.answer()), 4)


class EndOfPython(TestCase):
    def run_to_its_end(self, script):
        return subprocess.run([sys.executable, "-c", textwrap.dedent(script)], capture_output=True, text=True, timeout=NEVER)

    def test_daemon_threads_that_call(self):
        child = self.run_to_its_end("""
            import threading, time, prefq
            table = prefq.Table(["x"], [[number] for number in range(300)], block=16)

            def calls():
                while True:
                    table.best("top_level 1000 low(x)")
                    table.update(1, [0])

            for _ in range(3):
                threading.Thread(target=calls, daemon=True).start()
            time.sleep(0.2)
            """)
        self.assertEqual((child.returncode, child.stdout, child.stderr), (0, "", ""))

    def test_a_query_in_a_generator_beside_a_daemon_thread(self):
        """Its block ends at the end of Python, where the thread may have stopped within a call."""
        child = self.run_to_its_end("""
            import threading, time, prefq
            table = prefq.Table(["x"], [[number] for number in range(300)], block=16)

            def asks():
                with table.query("best low(x)"):
                    yield

            def calls():
                while True:
                    table.best("top_level 1000 low(x)")

            asking = asks()
            next(asking)
            threading.Thread(target=calls, daemon=True).start()
            time.sleep(0.2)
            """)
        self.assertEqual((child.returncode, child.stdout, child.stderr), (0, "", ""))

    def test_no_resource_is_left(self):
        child = self.run_to_its_end("""
            import warnings
            warnings.simplefilter("always")
            import prefq
            table = prefq.Table(["x"], [[11]])
            other = prefq.Table(["x"], [[11]])
            other.close()
            prefq.Table(["x"], [[11]]).query("best low(x)")
            """)
        self.assertEqual((child.returncode, child.stderr), (0, ""))


if __name__ == "__main__":
    unittest.main()
