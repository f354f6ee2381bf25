"""Texts that get their codes while a signal handler, a finalizer or a fork comes in between."""
import contextlib
import enum
import os
import tempfile
import threading
import unittest
from pathlib import Path

import prefq
from interrupting import Handler, Interruption, places_of
from prefq.kinds import texts
from support import TestCase, in_a_fork, raises
from test_interrupted_locks import SINCE_3_11, held


def frame(*more):
    return prefq.Frame.from_records([{"t": text} for text in ("a", "b", *more)])


class HandlerOfTexts(Handler):
    """Calls a signal handler at the n-th place at which texts get their codes."""

    def __call__(self, frame, event, _):
        if not frame.f_code.co_filename.startswith(os.path.dirname(prefq.__file__)):
            return None
        frame.f_trace_opcodes = frame.f_code.co_filename == texts.__file__
        if event == "opcode" and frame.f_lasti in places_of(frame.f_code):
            self.left -= 1
            if self.left == 0:
                self.where = f"texts.py, line {frame.f_lineno}"
                self.interrupts()
        return self


@SINCE_3_11
class Texts(TestCase):
    def at_each_place(self, handler):
        """Frames into which a text is inserted, while this handler is called at one place after the other."""
        counted = HandlerOfTexts(-1, lambda: None)
        with frame() as rows:
            counted.runs(lambda: rows.insert({"t": "x"}))
        for place in range(1, -counted.left):
            with frame() as rows:
                handled = HandlerOfTexts(place, lambda: handler(rows))
                with contextlib.suppress(Interruption):
                    handled.runs(lambda: rows.insert({"t": "x"}))
                with self.subTest(handled.where):
                    yield rows

    def test_a_handler_that_adds_texts_elsewhere(self):
        with frame() as other:
            for number, rows in enumerate(self.at_each_place(lambda _: other.insert({"t": f"text {len(other)}"})), 3):
                self.assertEqual([row.t for row in rows], ["a", "b", "x"])
                self.assertEqual([row.t for row in other][2:], [f"text {place}" for place in range(2, number)])

    def test_a_handler_that_adds_texts_to_the_same_code_book(self):
        for rows in self.at_each_place(lambda rows: rows.columns[0].kind.read_all(["y", "x", "z"])):
            self.assertEqual(sorted(rows.columns[0].kind.texts), ["a", "b", "x", "y", "z"])
            for text in "zyx":
                self.assertEqual(rows.get(rows.insert({"t": text})).t, text)
            self.assertEqual(rows.best("best pos(t, 'x')").ids, [3, 6])

    def test_an_interruption_leaves_a_frame_that_is_saved_as_it_is(self):
        with tempfile.TemporaryDirectory() as folder:
            path = Path(folder, "rows.prefq")
            for rows in self.at_each_place(lambda _: raises(Interruption)()):
                rows.insert_many([["y"], ["x"], ["z"]])
                rows.save(path)
                with prefq.Frame.open(path) as opened:
                    self.assertEqual(opened.rows(), rows.rows())


class Others(TestCase):
    def test_a_fork_while_another_thread_adds_texts(self):
        with held(texts.ADDING):
            self.assertEqual(in_a_fork(lambda: [row.t for row in frame("c")]), ["a", "b", "c"])

    def test_a_text_that_is_a_word_of_an_enum(self):
        colour = enum.Enum("Colour", {"RED": "red"}, type=str)
        with frame(colour.RED) as rows:
            self.assertEqual(rows.best("best pos(t, 'red')").ids, [3])
            self.assertEqual(rows.get(rows.insert({"t": colour.RED})), {"t": "red"})

    def test_threads_that_add_the_same_texts(self):
        codes, kind = [], texts.Texts()
        threads = [threading.Thread(target=lambda: codes.append([kind.read(f"text {number % 700}") for number in range(2000)])) for _ in range(4)]
        for thread in threads:
            thread.start()
        for thread in threads:
            thread.join()
        self.assertEqual(codes, [codes[0]] * 4)
        self.assertEqual([kind.decode(number) for number in codes[0]], [f"text {number % 700}" for number in range(2000)])
        self.assertEqual(len(kind.texts), 700)


if __name__ == "__main__":
    unittest.main()
