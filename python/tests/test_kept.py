"""Answers that are kept while the rows stay as they are, and shared by those who ask meanwhile."""
import os
import random
import sqlite3
import threading
import time
import unittest
import unittest.mock

import prefq
import test_follow
from plain import Ask, Low, Pareto
from prefq import dealt_questions
from prefq.kept import MOST_KEPT, Kept
from support import TestCase
from test_follow import QUESTION, SEED

SECONDS = float(os.environ.get("PREFQ_TEST_SECONDS", 3))
ASKERS = 8


def together(calls):
    """What these calls return on threads; what one raises is raised."""
    found, failures = [], []

    def run(call):
        try:
            found.append(call())
        except Exception as why:
            failures.append(why)

    threads = [threading.Thread(target=run, args=[call]) for call in calls]
    for thread in threads:
        thread.start()
    for thread in threads:
        thread.join()
    if failures:
        raise failures[0]
    return found


class OfNumbers(TestCase):
    def setUp(self):
        self.kept, self.made = Kept(lambda value: value if value < 100 else None), []

    def make(self, version, value, seconds=0.0):
        def make():
            self.made.append(value)
            time.sleep(seconds)
            return version, value
        return make

    def test_those_who_ask_meanwhile_share_it(self):
        found = together([lambda: self.kept.get("a", 1, self.make(1, 5, seconds=0.3))] * ASKERS)
        self.assertEqual((found, self.made), ([(1, 5)] * ASKERS, [5]))

    def test_what_is_too_large_is_shared_and_not_kept(self):
        found = together([lambda: self.kept.get("a", 1, self.make(1, 500, seconds=0.3))] * ASKERS)
        self.assertEqual(found, [(1, 500)] * ASKERS)
        self.kept.get("a", 1, self.make(1, 600))
        self.assertEqual(self.made[-1], 600)

    def test_another_version_is_made_anew(self):
        self.assertEqual(self.kept.get("a", 1, self.make(2, 5)), (2, 5))
        self.assertEqual(self.kept.get("a", 2, self.make(2, 6)), (2, 5))
        self.assertEqual(self.kept.get("a", 3, self.make(3, 7)), (3, 7))

    def test_those_of_earlier_versions_are_dropped(self):
        for key in "abc":
            self.kept.get(key, 1, self.make(1, 5))
        self.kept.get("d", 2, self.make(2, 6))
        self.assertEqual(list(self.kept._made), ["d"])
        self.assertEqual(self.kept.get("a", 1, self.make(2, 7)), (2, 7))        # who asked before that

    def test_who_fails_leaves_it_to_those_who_wait(self):
        def fail():
            self.made.append("failed")
            time.sleep(0.2)
            raise ValueError("this one")

        failing = threading.Thread(target=lambda: self.assertRaises(ValueError, self.kept.get, "a", 1, fail))
        failing.start()
        while not self.made:
            time.sleep(0.001)
        self.assertEqual(self.kept.get("a", 1, self.make(1, 5)), (1, 5))
        failing.join()

    def test_those_who_wait_for_one_that_fails_do_not_wait_for_one_another(self):
        def fail():
            self.made.append("failed")
            time.sleep(0.5)
            raise ValueError("this one")

        begun = time.monotonic()
        together([lambda: self.assertRaises(ValueError, self.kept.get, "a", 1, fail)] * ASKERS)
        self.assertEqual(len(self.made), ASKERS)
        self.assertLess(time.monotonic() - begun, 0.5 * (ASKERS - 2))
        self.assertEqual([self.kept.get("a", 1, self.make(1, value)) for value in (5, 6)], [(1, 5)] * 2)

    def test_a_handler_asks_what_its_thread_is_about_to_make(self):
        def make():
            self.assertEqual(self.kept.get("a", 1, self.make(2, 6)), (2, 6))        # as a signal handler may
            return 1, 5

        self.assertEqual(self.kept.get("a", 1, make), (1, 5))
        self.assertEqual(self.kept.get("a", 1, self.make(1, 7)), (1, 5))

    def test_what_is_made_may_be_of_what_is_kept_elsewhere(self):
        other = Kept(lambda _: 1)
        for key in ("a", "b"):
            self.assertEqual(self.kept.get(key, 1, lambda: (1, other.find("c", 1) or other.keep("c", 1, self.make(1, 50)()[1]))), (1, 50))
        self.assertEqual(self.made, [50])

    def test_two_threads_whose_handlers_ask_what_the_other_one_makes(self):
        both = threading.Barrier(2)

        def asks(mine, other):
            def make():
                both.wait(60)
                return 1, self.kept.get(other, 1, self.make(1, mine))[1]

            return self.kept.get(str(mine), 1, make)

        with self.within(30):
            self.assertEqual(sorted(together([lambda: asks(1, "2"), lambda: asks(2, "1")])), [(1, 1), (1, 2)])

    def test_two_threads_whose_finalizers_look_into_what_the_other_one_has_locked(self):
        class Key:
            """Whose hash is asked for in the middle of a look, where a finalizer may come."""

            def __init__(self, other):
                self.other = other

            def __hash__(self):
                both.wait(30)
                self.other.find("a", 1)
                self.other.keep("b", 1, 5)
                return 0

        both, other = threading.Barrier(2), Kept(lambda _: 1)
        threads = [threading.Thread(target=mine.find, args=[Key(theirs), 1], daemon=True) for mine, theirs in ((self.kept, other), (other, self.kept))]
        for thread in threads:
            thread.start()
        for thread in threads:
            thread.join(30)
            self.assertFalse(thread.is_alive())

    def test_so_many_bytes_are_kept(self):
        with unittest.mock.patch("prefq.kept.MOST_BYTES_KEPT", 100):
            for value in (10, 50, 40, 30):
                self.kept.keep(value, 1, value)
            self.assertEqual(list(self.kept._made), [40, 30])
            self.kept.find(40, 1)
            self.kept.get(50, 1, self.make(1, 50))
            self.assertEqual(list(self.kept._made), [40, 50])

    def test_a_look_and_what_is_too_large_push_nothing_out(self):
        self.kept.keep("a", 1, 5)
        for key in range(2 * MOST_KEPT):
            self.assertIsNone(self.kept.find(key, 1))
            self.kept.keep(key, 1, 500)
        self.assertEqual(self.kept.find("a", 1), 5)
        for key in range(2 * MOST_KEPT):
            self.kept.get(key, 1, self.make(1, 500))
        self.assertEqual((self.kept.find("a", 1), list(self.kept._made)), (5, ["a"]))

    def test_what_has_failed_takes_no_place(self):
        self.kept.keep("a", 1, 5)
        for key in range(2 * MOST_KEPT):
            self.assertRaises(ZeroDivisionError, self.kept.get, key, 1, lambda: (1, 1 // 0))
        self.assertEqual(list(self.kept._made), ["a"])

    def test_the_last_ones_that_were_asked_for_are_kept(self):
        for key in (*range(MOST_KEPT), 0, MOST_KEPT):
            self.kept.get(key, 1, self.make(1, key))
        count = len(self.made)
        for key, more in ((0, 0), (MOST_KEPT, 0), (1, 1)):
            self.kept.get(key, 1, self.make(1, key))
            self.assertEqual(len(self.made), count + more, key)


class OfAFollowedTable(test_follow.OfSqlite):
    def setUp(self):
        super().setUp()
        self.frame = self.offers((1, "Quay", 50, 8), (2, "Ritz", 90, 2), (3, "Post", 95, 9))
        patch = unittest.mock.patch("prefq.follow.asked_of", side_effect=dealt_questions.asked_of)
        self.asked = patch.start()
        self.addCleanup(patch.stop)

    def count(self, wanted, **beside):
        """So many questions have begun once this one is answered."""
        answer = self.frame.best(QUESTION, **beside)
        self.assertEqual(self.asked.call_count, wanted)
        return answer

    def test_it_is_asked_once_until_a_row_changes(self):
        first = self.count(1)
        self.assertEqual(self.count(1), first)
        self.db.execute("update offers set price = 96 where id = 3")
        self.count(2)
        self.count(2, at_least=self.frame.at)
        self.count(3, top=2)
        self.count(4, where="price > 50")
        self.count(4, top=2)
        for _ in range(2):
            self.count(5, top=1, ties="high(dist)")
        self.db.execute("update offers set dist = 9 where id = 3")      # as it was: the place is another one
        self.assertEqual(self.count(6).at, self.frame.now())

    def test_an_answer_is_the_askers_own(self):
        answer = self.count(1)
        answer[0]["price"] = 0
        del answer[1]
        self.assertEqual([(row.id, row.price) for row in self.count(1)], [(1, 50), (2, 90)])

    def test_a_value_that_no_row_has_is_warned_of_each_time(self):
        for question, beside in (("best pos(hotel, 'Lion')", {}), ("best pos(dist, 2)", {"top": 2, "ties": "pos(hotel, 'Lion')"})):
            for _ in range(2):
                with self.subTest(question), self.assertWarns(prefq.UnknownValue):
                    self.frame.best(question, **beside)

    def test_a_closed_frame_answers_nothing(self):
        self.count(1)
        self.frame.close()
        with self.refuses(prefq.Ended, kind="closed"):
            self.frame.best(QUESTION)

    def test_answers_of_many_rows_are_not_kept(self):
        with unittest.mock.patch("prefq.kept.MOST_ROWS_KEPT", 1):
            self.count(1)
            self.count(2)

    def test_eight_ask_while_one_changes(self):
        """Each answer is that of the place that it says."""
        self.db.execute("pragma journal_mode = wal")
        seen, end = {self.frame.at: self.rows()}, time.monotonic() + SECONDS

        def change():
            chance = random.Random(SEED)
            while time.monotonic() < end:
                self.db.execute("begin immediate")
                self.db.execute("replace into offers values (?, 'x', ?, ?)", (chance.randrange(20), chance.randrange(30), chance.randrange(30)))
                [place] = self.db.execute('select max(number) from "prefq_changes:offers:id"').fetchone()
                seen[place] = self.rows()
                self.db.execute("commit")
                time.sleep(chance.choice([0, 0.02]))

        def ask():
            answers = []
            while time.monotonic() < end:
                place = self.frame.now()
                answer = self.frame.best(QUESTION, at_least=place)
                self.assertGreaterEqual(answer.at, place)
                answers.append((answer.at, answer.ids))
            return answers

        self.db = sqlite3.connect(self.path, isolation_level=None, check_same_thread=False, timeout=60)
        self.addCleanup(self.db.close)
        changing = threading.Thread(target=change)
        changing.start()
        answers = [answer for some in together([ask] * ASKERS) for answer in some]
        changing.join()
        term = Pareto("", [Low("price", ""), Low("dist", "")])
        for at, ids in answers:
            self.assertEqual([id for _, id in Ask("", term, levels=1).answer(seen[at])], ids, at)
        self.assertLess(self.asked.call_count, len(answers))

    def rows(self):
        return {id: {"price": price, "dist": dist} for id, price, dist in self.db.execute("select id, price, dist from offers")}


if __name__ == "__main__":
    unittest.main()
