"""Interruptions whose exception is kept, as `sys.last_traceback` keeps that of Ctrl-C: no lock stays locked as long as its traceback is there. Further what signal
handlers do in the middle of a change, and forks that come while another thread has a lock."""
import contextlib
import copy
import os
import sqlite3
import sys
import tempfile
import threading
import unittest
from pathlib import Path

import prefq
from interrupting import NEVER, PACKAGE, Handler, Interrupter, Interruption, places_of
from prefq.desk import Desk
from prefq.follow_desk import FollowedDesk
from prefq.pictures import Asked, Shown, answer
from support import TestCase, in_a_fork

SOON = 10
QUESTION = "best low(x)"
OF_PYTHON = {contextlib.__file__, threading.__file__}
SINCE_3_11 = unittest.skipIf(sys.version_info < (3, 11), "where Python calls signal handlers is known of 3.11 and later")


class InterrupterOfPython(Interrupter):
    """Raises at the n-th place of what Python itself has of locks and of context managers, where the package calls it."""

    def __call__(self, frame, event, _):
        file = frame.f_code.co_filename
        if os.path.dirname(file) != PACKAGE and file not in OF_PYTHON:
            return None
        frame.f_trace_opcodes = file in OF_PYTHON
        if event == "opcode" and frame.f_lasti in places_of(frame.f_code):
            self.left -= 1
            if self.left == 0:
                self.where = f"{os.path.basename(file)}, line {frame.f_lineno}"
                self.interrupts()
        return self


def frame():
    return prefq.Frame.from_records([{"x": 1, "y": 1}, {"x": 2, "y": 2}])


class GoesOn(TestCase):
    """Wherever a call is interrupted, another thread goes on, while the exception is kept."""

    def goes_on(self, make, call, other):
        counted = InterrupterOfPython(-1)
        counted.runs(lambda: call(make()))
        for place in range(1, -counted.left):
            thing, interrupter, kept = make(), InterrupterOfPython(place), []
            try:
                interrupter.runs(lambda: call(thing))
            except Interruption as why:
                kept.append(why)
            thread = threading.Thread(target=other, args=[thing], daemon=True)
            thread.start()
            thread.join(SOON)
            with self.subTest(interrupter.where):
                self.assertFalse(thread.is_alive(), "a lock is lost")
            if thread.is_alive():
                return
            thing.close()


@SINCE_3_11
class Kept(GoesOn):
    def test_a_picture_of_a_desk(self):
        self.goes_on(lambda: Desk(frame()), lambda desk: desk.picture(QUESTION), lambda desk: desk.insert({"x": 0}))

    def test_a_desk_that_is_closed(self):
        self.goes_on(lambda: Desk(frame()), Desk.close, Desk.close)

    def test_a_version_of_a_desk_that_is_waited_for(self):
        self.goes_on(lambda: Desk(frame()), lambda desk: desk.wait(1, 0.01), lambda desk: desk.insert({"x": 0}))


class OfTables(TestCase):
    def setUp(self):
        folder = tempfile.TemporaryDirectory()
        self.addCleanup(folder.cleanup)
        self.db = sqlite3.connect(Path(folder.name, "rows.db"), isolation_level=None)
        self.addCleanup(self.db.close)
        self.db.execute("create table t (id integer primary key, x int)")
        self.db.execute("insert into t values (1, 1), (2, 2)")

    def followed(self):
        return prefq.Frame.follow(self.db, "t")


@SINCE_3_11
class KeptOfTables(GoesOn, OfTables):
    def test_a_question(self):
        self.goes_on(self.followed, lambda followed: followed.best(QUESTION), lambda followed: followed.best("best high(x)"))

    def test_a_page_that_is_closed(self):
        self.goes_on(lambda: FollowedDesk(self.followed()), FollowedDesk.close, FollowedDesk.close)


@SINCE_3_11
class Nested(TestCase):
    """A signal handler in the middle of a change makes one before it or behind it, or is refused."""

    def at_each_place(self, change, other, check):
        counted = Interrupter(-1)
        counted.runs(lambda: change(frame()))
        outcomes = set()
        for place in range(1, -counted.left):
            with frame() as rows:
                made = []
                handler = Handler(place, lambda: made.append(self.is_made(lambda: other(rows))))
                handler.runs(lambda: change(rows))
                with self.subTest(handler.where):
                    check(rows, made == [True])
                    self.assertEqual(len(rows), len(rows.rows()))
                outcomes.update(made)
        self.assertEqual(outcomes, {True, False})

    def is_made(self, change):
        """Whether a change is made, and not refused."""
        before = sys.gettrace()
        sys.settrace(None)
        try:
            change()
        except prefq.Refused as why:
            self.assertIn("a change is under way in this thread", str(why))
            return False
        finally:
            sys.settrace(before)
        return True

    def test_a_column_becomes_wider_amid_an_insert(self):
        def check(rows, is_made):
            self.assertEqual(sorted(map(float, [row.x for row in rows])), [0.5, 1, 2, 7] if is_made else [1, 2, 7])

        self.at_each_place(lambda rows: rows.insert({"x": 7}), lambda rows: rows.insert({"x": "0.5"}), check)

    def test_another_column_of_a_row_that_is_updated(self):
        def check(rows, is_made):
            self.assertEqual(rows.get(1), {"x": 7, "y": 9 if is_made else 1})

        for change in (lambda rows: rows.update(1, {"x": 7}), lambda rows: rows.commit(("update", 1, {"x": 7}))):
            self.at_each_place(change, lambda rows: rows.update(1, {"y": 9}), check)

    def test_who_is_told_of_a_change_makes_another_one(self):
        with frame() as rows:
            ends = [rows.subscribe(lambda: ends.pop()() or rows.insert({"x": "0.5"}))]
            rows.insert({"x": 7})
            self.assertEqual([float(row.x) for row in rows], [1, 2, 7, 0.5])
        with Desk(frame()) as desk:
            ends.append(desk.subscribe(lambda: ends.pop()() or desk.insert({"x": "0.5"})))
            desk.insert({"x": 7})
            self.assertEqual([float(desk.record(row.numbers)["x"]) for row in desk.picture(QUESTION).rows], [1, 2, 7, 0.5])


class Raising(Interrupter):
    """A signal handler that raises what a refused call raises."""

    def interrupts(self):
        raise prefq.Refused("by a handler", "client")


@SINCE_3_11
class RefusedByAHandler(TestCase):
    def test_the_number_of_rows_is_right(self):
        for change in (lambda table: table.insert([3]), lambda table: table.delete(2), lambda table: table.insert_many([[3], [4]]),
                       lambda table: table.commit(("insert", [3]), ("delete", 1))):
            counted = Raising(-1)
            counted.runs(lambda: change(prefq.Table(["x"], [[1], [2]])))
            for place in range(1, -counted.left):
                interrupter = Raising(place)
                with self.subTest(interrupter.where), prefq.Table(["x"], [[1], [2]]) as table:
                    with contextlib.suppress(prefq.Refused):
                        interrupter.runs(lambda: change(table))
                    self.assertEqual(len(table), len(table.rows()))

    def test_the_rows_of_a_desk_are_those_of_its_frame(self):
        counted = Raising(-1)
        counted.runs(lambda: Desk(frame()).insert({"x": 9}))
        for place in range(1, -counted.left):
            interrupter = Raising(place)
            with Desk(frame()) as desk:
                with contextlib.suppress(prefq.Refused):
                    interrupter.runs(lambda: desk.insert({"x": 9}))
                with self.subTest(interrupter.where):
                    self.assertEqual([row.id for row in desk.picture(QUESTION).rows], [id for id, _ in desk.table.rows()])

    def test_other_rows_of_a_desk_are_of_another_version(self):
        for raises, change in ((Raising, lambda desk: desk.insert({"x": 9})), (Interrupter, lambda desk: desk.insert({"x": "0.5"})),
                               (Interrupter, lambda desk: desk.update(1, {"x": 9})), (Interrupter, lambda desk: desk.delete(1))):
            counted = raises(-1)
            counted.runs(lambda: change(Desk(frame())))
            for place in range(1, -counted.left, 2):
                interrupter = raises(place)
                with Desk(frame()) as desk:
                    before = desk.picture(QUESTION)
                    with contextlib.suppress(prefq.Refused, Interruption):
                        interrupter.runs(lambda: change(desk))
                    now = desk.picture(QUESTION)
                    with self.subTest(where=interrupter.where):
                        self.assertTrue(now.version > before.version or now.rows == before.rows)


class Copies(TestCase):
    def test_what_is_live_is_not_copied(self):
        with Desk(frame()) as desk:
            for thing in (desk, desk._frame, desk.table):
                for copies in (copy.copy, copy.deepcopy):
                    with self.refuses(TypeError, "cannot be copied"):
                        copies(thing)


@contextlib.contextmanager
def held(lock):
    """Another thread has this lock."""
    has_it, ends = threading.Event(), threading.Event()

    def holds():
        with lock:
            has_it.set()
            ends.wait(NEVER)

    thread = threading.Thread(target=holds)
    thread.start()
    has_it.wait(NEVER)
    try:
        yield
    finally:
        ends.set()
        thread.join()


class Forks(OfTables):
    """A fork that comes while another thread has a lock gets a copy of it that stays locked."""

    def test_a_frame(self):
        with frame() as rows, tempfile.TemporaryDirectory() as folder, held(rows._changing):
            for call in (lambda: rows.insert({"x": 3}), lambda: rows.update(1, {"x": 3}), lambda: rows.delete(1), lambda: rows.insert_many([[3, 3]]),
                         lambda: rows.commit(("delete", 1)), lambda: rows.save(Path(folder, "rows.prefq")), lambda: rows.best(QUESTION)):
                self.assertEqual(in_a_fork(call)[0], "process")
            self.assertIsNone(in_a_fork(rows.close))

    def test_a_desk(self):
        with Desk(frame()) as desk:
            shown, asked = Shown(desk), Asked(QUESTION)
            with held(desk._lock), shown._making, shown._making:
                for call in (lambda: desk.insert({"x": 3}), lambda: desk.picture(QUESTION), lambda: desk.wait(desk.version, NEVER), lambda: shown.get(asked, [None, None]),
                             lambda: shown.made(answer, asked)):
                    self.assertEqual(in_a_fork(call)[0], "process")
                self.assertIsNone(in_a_fork(desk.close))
            self.assertEqual(desk.insert({"x": 3}), 3)

    def test_a_desk_of_a_followed_table(self):
        with FollowedDesk(self.followed()) as desk:
            with held(desk._lock):
                for call in (lambda: desk.picture(QUESTION), lambda: desk.wait(desk.version, NEVER)):
                    self.assertEqual(in_a_fork(call)[0], "process")
                self.assertIsNone(in_a_fork(desk.close))
            self.assertEqual([row.id for row in desk.picture(QUESTION).best], [1])


if __name__ == "__main__":
    unittest.main()
