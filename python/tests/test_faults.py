"""What ends a table, and what goes wrong in the middle: no answer is ever that of another call, nothing waits for ever, and what is refused changes nothing."""
import ctypes
import gc
import multiprocessing
import os
import re
import signal
import subprocess
import sys
import tempfile
import threading
import unittest
from pathlib import Path
from unittest import mock

import prefq
from prefq import engine, library
from support import QUESTION, SKYLINE, TestCase, around, hotels, in_a_fork, numbers

NEVER = 60
HEADER = Path(__file__).resolve().parents[2] / "library/include/prefq.h"


class Closed(TestCase):
    CALLS = {"get": lambda table: table.get(1), "len": len, "room": lambda table: table.room(), "best": lambda table: table.best(QUESTION), "rows": lambda table: table.rows(),
             "insert": lambda table: table.insert([1, 2]), "insert_many": lambda table: table.insert_many([[1, 2]]), "of none": lambda table: table.insert_many([]),
             "update": lambda table: table.update(1, [1, 2]), "delete": lambda table: table.delete(1), "commit": lambda table: table.commit(("delete", 1)),
             "check": lambda table: table.check(), "query": lambda table: table.query(QUESTION, 2)}

    def test_each_call_after_close(self):
        table = hotels()
        query = table.query(QUESTION)
        table.close()
        table.close()
        calls = {**self.CALLS, "scan": lambda _: query.scan(), "answer": lambda _: query.answer(), "abandon": lambda _: query.abandon()}
        for name, call in calls.items():
            with self.subTest(name), self.refuses(prefq.Ended, "the table was closed", kind="closed"):
                call(table)
        self.assertIn("the table was closed", repr(table))

    def test_closed_by_another_thread(self):
        """Calls that are under way, or that wait, end."""
        table, said = numbers(3), []

        def asks():
            try:
                while True:
                    table.best("best low(x)")
            except prefq.Ended as why:
                said.append(why.kind)

        threads = [threading.Thread(target=asks) for _ in range(4)]
        for thread in threads:
            thread.start()
        with self.within(NEVER):
            table.close()
            for thread in threads:
                thread.join(NEVER)
        self.assertEqual(said, ["closed"] * 4)

    def test_closed_within_a_block(self):
        with hotels() as table:
            table.close()
        with self.assertRaises(ZeroDivisionError), hotels() as table:
            table.close()
            raise ZeroDivisionError

    def test_closed_in_the_middle_of_a_call_of_the_same_thread(self):
        """As by a signal handler. What was done is done, and the call returns it."""
        table = numbers(3)
        with around(table, "get", behind=table.close):
            self.assertEqual(table.get(2), [22])
        table = numbers(3)
        with around(table, "ask", behind=table.close):
            self.assertEqual([row.id for row in table.best("best low(x)")], [1])
        table = numbers(3, block=512)
        with around(table, "scan", behind=table.close), self.refuses(prefq.Ended, kind="closed"):
            table.best("best low(x)")

    def test_a_table_that_is_dropped_gives_back_its_memory(self):
        closed, close = [], library.calls().prefq_close
        with mock.patch.object(library.calls(), "prefq_close", lambda pointer: closed.append(pointer.value)):
            table = numbers(3)
            query = table.query("best low(x)")
            del table
            gc.collect()
            self.assertEqual(closed, [])
            self.assertEqual(len(query.answer()), 1)
            pointer = query._engine._pointer.value
            del query
            gc.collect()
        self.assertEqual(closed, [pointer])
        close(pointer)


class OutOfMemory(TestCase):
    def test_the_table_ends(self):
        """What such a call has done is not known."""
        for call, name, block in [(lambda: table.insert([1]), "insert", 1024), (lambda: table.get(1), "get", 1024), (lambda: table.best("best low(x)"), "ask", 1024),
                                  (lambda: table.best("best low(x)"), "finish", 512)]:
            table = numbers(3, block=block)
            table._engine._calls = Refusing(table._engine._calls, f"prefq_{name}")
            for _ in range(2):
                with self.refuses(prefq.Ended, "was refused memory", kind="memory"):
                    call()
            with self.refuses(prefq.Ended, kind="memory"):
                len(table)
            table.close()


class Refusing:
    """The calls of the library, one of which is refused memory."""

    def __init__(self, calls, name):
        self._calls, self._name = calls, name

    def __getattr__(self, name):
        return (lambda *_: engine.OUT_OF_MEMORY) if name == self._name else getattr(self._calls, name)


class SmallStack(TestCase):
    def test_a_thread_with_a_small_stack_is_refused(self):
        said = []

        def asks():
            try:
                table.get(1)
            except prefq.Error as why:
                said.append((why.kind, str(why)))

        with numbers(3) as table:
            before = threading.stack_size(131_072)
            try:
                thread = threading.Thread(target=asks)
                thread.start()
                thread.join(NEVER)
            finally:
                threading.stack_size(before)
            needed = re.search(r"^#define PREFQ_STACK (\d+)$", HEADER.read_text(), re.MULTILINE)[1]
            self.assertEqual(said, [("arguments", f"the thread has less than {needed} bytes of stack left")])
            self.assertEqual(table.get(1), [11])


class Forked(TestCase):
    def test_a_fork_cannot_use_it_nor_disturb_it(self):
        table = hotels()
        query = table.query(QUESTION)
        calls = {**Closed.CALLS, "scan": lambda _: query.scan(), "answer": lambda _: query.answer(), "abandon": lambda _: query.abandon()}
        for name, call in calls.items():
            with self.subTest(name):
                kind, why = in_a_fork(lambda: call(table))
                self.assertEqual(kind, "process")
                self.assertIn(f"belongs to process {os.getpid()}", why)
        self.assertEqual([row.id for row in query.answer()], SKYLINE)
        self.assertEqual(len(table), 7)
        table.close()

    def test_a_fork_that_lets_it_go(self):
        table = numbers(3)
        query = table.query("best high(x)")

        def lets_go():
            nonlocal table, query
            table.close()
            del table, query
            gc.collect()
            return "gone"

        self.assertEqual(in_a_fork(lets_go), "gone")
        self.assertEqual((table.get(1), [row.id for row in query.answer()]), ([11], [3]))
        table.close()

    def test_a_table_of_its_own_in_a_fork(self):
        with numbers(3):
            def opens():
                with numbers(2) as own:
                    return own.rows()
            self.assertEqual(in_a_fork(opens), [(1, [11]), (2, [22])])

    def test_workers_of_a_pool(self):
        global shared
        with numbers(50) as shared:
            with multiprocessing.get_context("fork").Pool(4) as pool:
                said = pool.map(worker, range(1, 41))
            self.assertEqual(set(said), {"process"})
            self.assertEqual(shared.get(50), [550])


def worker(id):
    try:
        return shared.get(id)
    except prefq.Ended as why:
        return why.kind


class Dropped(TestCase):
    def test_a_query(self):
        with hotels(clients=2) as table:
            for _ in range(10):
                table.query(QUESTION)
                gc.collect()
            table.query(QUESTION, 1)
            gc.collect()
            self.assertEqual([row.id for row in table.query(QUESTION, 1).answer()], SKYLINE)
            table.update(1, [50, 7])
            self.assertEqual(table.room(), 1017)

    def test_the_room_of_a_dropped_query_is_there_at_the_next_call(self):
        with hotels(capacity=8) as table:
            query = table.query(QUESTION)
            table.update(1, [50, 7])
            with self.refuses(prefq.Refused, "full", number=8):
                table.update(2, [60, 4])
            del query
            gc.collect()
            table.update(2, [60, 4])
            self.assertEqual(table.room(), 1)

    def test_a_query_that_is_refused_leaves_its_client(self):
        with hotels(clients=1) as table:
            with self.refuses(prefq.Refused, kind="term"):
                table.query("best low(prise)")
            self.assertEqual(len(table.best(QUESTION)), 4)

    def test_a_query_whose_block_fails(self):
        with hotels(clients=1) as table:
            with self.assertRaises(ZeroDivisionError), table.query(QUESTION) as query:
                query.scan()
                raise ZeroDivisionError
            self.assertEqual(len(table.best(QUESTION)), 4)


class ControlC(TestCase):
    def test_the_table_goes_on(self):
        script = """
            import time, prefq
            table = prefq.Table(["x"], [[11], [22]])
            for _ in range(3):
                try:
                    print("ready", flush=True)
                    time.sleep(30)
                except KeyboardInterrupt:
                    print(table.get(2), flush=True)
            """
        child = subprocess.Popen([sys.executable, "-c", "\n".join(line[12:] for line in script.splitlines())], stdout=subprocess.PIPE, text=True, start_new_session=True)
        with child:
            for _ in range(3):
                self.assertEqual(child.stdout.readline(), "ready\n")
                os.kill(child.pid, signal.SIGINT)
                self.assertEqual(child.stdout.readline(), "[22]\n")
        self.assertEqual(child.returncode, 0)


class Library(TestCase):
    def test_not_found(self):
        for path, why in [("/no/such/libprefq.so", "is not there"), ("/", "is a folder")]:
            with self.refuses(prefq.LibraryNotFound, path, why, "library/build.sh", "PREFQ_LIBRARY"):
                prefq.find_library(path)

    def opened_with(self, path):
        with mock.patch.dict(os.environ, {"PREFQ_LIBRARY": str(path)}):
            library.calls.cache_clear()
            try:
                return prefq.Table(["x"], [[1]])
            finally:
                library.calls.cache_clear()

    def test_another_file(self):
        with tempfile.TemporaryDirectory() as folder:
            path = Path(folder, "libprefq.so")
            path.write_text("no library")
            with self.refuses(prefq.LibraryNotFound, str(path), "cannot be used", kind="library"):
                self.opened_with(path)

    def test_another_library(self):
        name = next((line.split()[-1] for line in Path("/proc/self/maps").read_text().splitlines() if "/libc.so" in line or "/libc-" in line), None)
        if name is None:
            self.skipTest("there is no libc.so")
        with self.refuses(prefq.LibraryNotFound, "cannot be used", "prefq_version", kind="library"):
            self.opened_with(name)

    def test_another_version(self):
        with mock.patch.object(library, "VERSION", "9.9.9"), self.refuses(prefq.LibraryNotFound, "is of version", "needs 9.9.9"):
            self.opened_with(prefq.find_library())

    def test_the_environment(self):
        code = "import sys; sys.path.insert(0, {!r}); import prefq; print(prefq.find_library())"
        source = os.path.dirname(os.path.dirname(prefq.__file__))
        child = subprocess.run([sys.executable, "-c", code.format(source)], env={"PREFQ_LIBRARY": __file__}, capture_output=True, text=True, timeout=NEVER)
        self.assertEqual(child.stdout.strip(), __file__, child.stderr)

    def test_its_structures_are_those_of_the_header(self):
        """Their sizes on machines of 64 bits, the only ones that it is built for."""
        self.assertEqual([ctypes.sizeof(structure) for structure in (library.Refusal, library.Setup, library.Change)], [40, 16, 24])


class Program(TestCase):
    def test_the_command_of_python_is_not_the_program(self):
        with tempfile.TemporaryDirectory() as folder:
            command, found = Path(folder, "command/prefq"), Path(folder, "program/prefq")
            for place in (command, found):
                place.parent.mkdir()
                place.write_text("#!/bin/sh\nexit 0\n")
                place.chmod(0o755)
            command.write_text("#!/a/python\nimport sys\nfrom prefq.__main__ import command\nsys.exit(command())\n")
            with mock.patch("prefq.program.BUNDLED", Path("/nowhere")), mock.patch("prefq.program.BUILT", Path("/nowhere")), mock.patch.dict(os.environ):
                os.environ.pop("PREFQ_PROGRAM", None)
                os.environ["PATH"] = f"{command.parent}:{found.parent}"
                self.assertEqual(prefq.find_program(), str(found))
                os.environ["PATH"] = str(command.parent)
                with self.refuses(prefq.ProgramNotFound, "not on the PATH"):
                    prefq.find_program()
            with self.refuses(prefq.ProgramNotFound, f"{command} is the command of the Python package, and not the program"):
                prefq.find_program(command)


if __name__ == "__main__":
    unittest.main()
