"""Kept answers of frames: shared, interrupted, and beside random changes."""
import asyncio
import contextlib
import json
import os
import random
import sys
import threading
import time
import unittest
import unittest.mock
import warnings

import prefq
import random_frames
import test_random_frames
from interrupting import TIMES, Handler, Interrupter, Interruption
from plain import Ask, Low, Pareto
from prefq import pictures
from prefq.desk import Desk
from support import TestCase, around, in_a_fork
from test_follow import QUESTION, SEED
from test_kept import ASKERS, together

SECONDS = float(os.environ.get("PREFQ_TEST_SECONDS", 3))
COUNT = int(os.environ.get("PREFQ_TEST_COUNT", 1000))
QUESTIONS_OF_A_FRAME = 40


class OfAFrame(TestCase):
    def setUp(self):
        self.frame = prefq.Frame.from_records([{"hotel": "Quay", "price": 50, "dist": 8}, {"hotel": "Ritz", "price": 90, "dist": 2}, {"hotel": "Post", "price": 95, "dist": 9}])
        self.addCleanup(self.frame.close)
        self.asked = self.counted(self.frame)

    def counted(self, frame):
        patch = unittest.mock.patch.object(frame, "_query", side_effect=frame._query)
        self.addCleanup(patch.stop)
        return patch.start()

    def count(self, wanted, question=QUESTION, **beside):
        """So many questions have begun once this one is answered."""
        answer = self.frame.best(question, **beside)
        self.assertEqual(self.asked.call_count, wanted)
        return answer

    def test_it_is_asked_once_until_a_row_changes(self):
        self.assertEqual(self.count(1).ids, [1, 2])
        self.assertEqual(self.count(1).ids, [1, 2])
        changes = [lambda: self.frame.update(3, {"price": 40}), lambda: self.frame.insert({"price": 30, "dist": 9}), lambda: self.frame.delete(1),
                   lambda: self.frame.insert_many([{"price": 20, "dist": 9}, {"price": 10, "dist": 9}]),
                   lambda: self.frame.commit(("update", 2, {"price": 91}), ("insert", {"price": 1, "dist": 1})), lambda: self.frame.update(2, {"price": "0.5"})]
        for number, change in enumerate(changes, 2):
            change()
            answer = self.count(number)
            rows = {row.id: dict(row) for row in self.frame.rows()}
            self.assertEqual(answer.ids, [id for _, id in Ask("", Pareto("", [Low("price", ""), Low("dist", "")]), levels=1).answer(rows)])
            self.assertEqual(self.count(number), answer)

    def test_what_is_asked_beside_the_question_counts(self):
        for _ in range(2):
            self.frame.best(QUESTION, where="price > 50")
            self.frame.best(QUESTION, top=2)
            self.frame.best(prefq.low("price") * prefq.low("dist"))
            self.assertEqual(prefq.psel(self.frame, "low(price + dist)").ids, [1])
            self.frame.best("best low(price) * low(dist)", by="hotel")
            self.assertEqual(self.frame.best(QUESTION, top=1, ties="low(dist)").ids, [2])
        self.assertEqual(self.asked.call_count, 6)

    def test_a_change_below_the_frame_is_seen_at_once(self):
        self.assertEqual(self.count(1, "best low(price)").ids, [1])
        self.frame.table.update(2, [0, 40, 0])
        self.assertEqual(self.count(2, "best low(price)").ids, [2])

    def test_an_answer_is_the_askers_own(self):
        answer = self.count(1)
        answer[0]["price"] = 0
        del answer[1]
        self.assertEqual([(row.level, row.id, row.price) for row in self.count(1)], [(1, 1, 50), (1, 2, 90)])

    def test_a_value_that_no_row_has_is_warned_of_each_time(self):
        for question, beside in (("best pos(hotel, 'Lion')", {}), ("best pos(dist, 2)", {"top": 2, "ties": "pos(hotel, 'Lion')"})):
            for _ in range(2):
                with self.subTest(question), self.assertWarns(prefq.UnknownValue):
                    self.frame.best(question, **beside)

    def test_what_is_refused_is_refused_each_time(self):
        for _ in range(2):
            with self.refuses(prefq.Refused, "no column 'prize'"):
                self.frame.best("best low(prize)")

    def test_what_is_watched_is_asked_anew(self):
        seen = []
        for wanted in (1, 2):
            self.count(wanted, progress=lambda *words: seen.append(words))
        self.assertEqual(seen, [("scanning", 1, 1)] * 2)

    def test_many_rows_are_not_kept(self):
        with unittest.mock.patch("prefq.kept.MOST_ROWS_KEPT", 1):
            self.count(1)
            self.count(2)

    def test_a_closed_frame_and_a_fork_get_none(self):
        self.count(1)
        self.assertEqual(in_a_fork(lambda: self.frame.best(QUESTION).ids)[0], "process")
        with self.frame._opened.table._engine.lock:         # which the fork has locked for ever
            self.assertEqual(in_a_fork(lambda: together([lambda: self.frame.best(QUESTION)]))[0], "process")
        self.frame.close()
        with self.refuses(prefq.Ended, kind="closed"):
            self.frame.best(QUESTION)

    def test_those_who_ask_meanwhile_share_it(self):
        begun, release = threading.Event(), threading.Event()

        def stands():
            begun.set()
            release.wait(60)

        with around(self.frame.table, "begin", before=stands):
            threads = [threading.Thread(target=self.frame.best, args=[QUESTION]) for _ in range(ASKERS)]
            for thread in threads:
                thread.start()
            begun.wait(60)
            release.set()
            for thread in threads:
                thread.join()
        self.assertEqual(self.asked.call_count, 1)

    def test_those_who_ask_between_changes_share_the_one_that_is_begun_behind_them(self):
        """Each of them had to wait for those of all versions before its own."""
        begun, release, waiting, query = threading.Event(), threading.Event(), [], self.asked.side_effect

        def stands(*words):
            begun.set()
            release.wait(60)
            return query(*words)

        self.asked.side_effect = stands
        for price in range(ASKERS):
            waiting.append(threading.Thread(target=self.frame.best, args=[QUESTION]))
            waiting[-1].start()
            begun.wait(60)
            time.sleep(0.05)
            self.frame.update(3, {"price": 100 + price})
        release.set()
        for thread in waiting:
            thread.join()
        self.assertLessEqual(self.asked.call_count, 2)

    def test_a_thread_that_has_an_open_query_waits_for_no_other_one(self):
        """Which may wait for the only client."""
        frame = prefq.Frame.from_records([{"x": 1}, {"x": 2}], clients=1)
        self.addCleanup(frame.close)
        with frame.query("best low(x)") as query:
            waiting = threading.Thread(target=frame.best, args=["best high(x)"])
            waiting.start()
            while not frame._opened.kept._made:
                time.sleep(0.001)
            with self.within(30), self.refuses(prefq.Refused, "has an open query"):
                frame.best("best high(x)")
            self.assertEqual(query.answer().ids, [1])
        waiting.join()

    def test_a_page_asks_for_its_pictures_of_a_version_once(self):
        with Desk(self.frame) as desk:
            shows = pictures.Shown(desk)
            for wanted in (1, 2):
                shown = [shows.get(pictures.Asked(QUESTION), axes) for axes in ((None, None), ("dist", "price"), ("price", None))]
                self.assertEqual([[row["id"] for row in json.loads(picture)["best"]] for _, picture in shown], [[1, 2]] * 3)
                self.assertEqual(self.asked.call_count, wanted)
                desk.update(3, {"price": 96})

    def test_tasks_get_what_is_kept(self):
        async def ask(frame):
            first = await frame.best(QUESTION)
            more = await asyncio.gather(*(frame.best(QUESTION) for _ in range(20)))
            self.assertEqual([answer.ids for answer in (first, *more)], [[1, 2]] * 21)
            self.assertEqual(self.asked.call_count, 1)
            change, answer = frame.update(3, {"price": 1}), frame.best(QUESTION)
            self.assertEqual((await asyncio.gather(change, answer))[1].ids, [1, 2, 3])
            with self.assertWarns(prefq.UnknownValue):
                await frame.best("best pos(hotel, 'Lion')")
            with self.assertWarns(prefq.UnknownValue):
                await frame.best("best pos(hotel, 'Lion')")
            self.assertEqual(self.asked.call_count, 3)

        async def main():
            async with await prefq.AsyncFrame.open(lambda: self.frame) as frame:
                await ask(frame)

        asyncio.run(main())

    def test_eight_ask_while_one_changes(self):
        """Each answer is that of the rows behind the changes that had ended when it was asked for, or behind some that had begun before it came."""
        rows = {row.id: dict(row) for row in self.frame.rows()}
        seen, ended, end = [dict(rows)], [0], time.monotonic() + SECONDS

        def change():
            chance = random.Random(SEED)
            while time.monotonic() < end:
                id, values = chance.choice([1, 2, 3]), {"price": chance.randrange(30), "dist": chance.randrange(30)}
                rows[id] = {**rows[id], **values}
                seen.append(dict(rows))
                if chance.random() < 0.5:
                    self.frame.update(id, values)
                else:
                    self.frame.table.commit(("update", id, [self.frame._opened.by_name["hotel"].encode(rows[id]["hotel"]), *values.values()]))
                ended[0] += 1
                time.sleep(chance.choice([0, 0, 0.005]))

        def ask():
            answers = []
            while time.monotonic() < end:
                first = ended[0]
                got = self.frame.get(1)
                answer = self.frame.best(QUESTION)
                answers.append((first, len(seen), answer.ids, dict(got)))
            return answers

        changing = threading.Thread(target=change)
        changing.start()
        answers = [answer for some in together([ask] * ASKERS) for answer in some]
        changing.join()
        term = Pareto("", [Low("price", ""), Low("dist", "")])
        for first, last, ids, got in answers:
            possible = [[id for _, id in Ask("", term, levels=1).answer(seen[at])] for at in range(first, last)]
            self.assertIn(ids, possible)
            # What was got before is not taken back.
            self.assertIn(ids, [found for found, at in zip(possible, range(first, last)) if any(seen[before][1] == got for before in range(first, at + 1))])
        self.assertLess(self.asked.call_count, len(answers))


@unittest.skipIf(sys.version_info < (3, 11), "where Python calls signal handlers is known of 3.11 and later")
class Interrupted(TestCase):
    """An interruption or a handler at any place of a question or a change leaves no answer that is not that of the rows, and no thread waits for ever."""

    CALLS = {"best": lambda frame: frame.best("best low(x)"), "update": lambda frame: frame.update(1, {"x": 5}), "below": lambda frame: frame.table.update(1, [5]),
             "insert": lambda frame: frame.insert({"x": 0}), "wider": lambda frame: frame.update(1, {"x": "0.5"}), "commit": lambda frame: frame.commit(("delete", 1), ("insert", [7]))}

    def at_each_place(self, name, interrupter_at):
        """Makes a call that is interrupted at each of its places, and looks at what is answered behind it."""
        call = self.CALLS[name]
        with self.frame() as frame:
            counted = Interrupter(-1)
            counted.runs(lambda: call(frame))
        for place in range(1, -counted.left, max(1, 5 // TIMES)):
            with self.frame() as frame:
                frame.best("best low(x)")
                interrupter = interrupter_at(place, frame)
                with contextlib.suppress(Interruption):
                    interrupter.runs(lambda: call(frame))
                with self.subTest(f"{name} at {interrupter.where}"):
                    least = min(row.x for row in frame.rows())
                    found = []
                    thread = threading.Thread(target=lambda: found.append(frame.best("best low(x)")), daemon=True)
                    thread.start()
                    thread.join(60)
                    for answer in (found[0], frame.best("best low(x)")):
                        self.assertEqual([row.x for row in answer], [least])

    def frame(self):
        return prefq.Frame.from_records([{"x": 1}, {"x": 2}, {"x": 3}])

    def test_by_an_exception(self):
        for name in self.CALLS:
            self.at_each_place(name, lambda place, frame: Interrupter(place))

    def test_by_a_handler_that_asks(self):
        for name in self.CALLS:
            self.at_each_place(name, lambda place, frame: Handler(place, lambda: self.asks(frame)))

    def test_by_a_handler_that_changes(self):
        for name in ("best", "below"):
            for number in (0, 4):
                self.at_each_place(name, lambda place, frame: Handler(place, lambda: (frame.table.update(2, [number]), self.asks(frame))))

    def asks(self, frame):
        """Asks, and sees no row that it could not have seen before."""
        before = {row.x for row in frame.rows()}
        self.assertIn(frame.best("best low(x)")[0].x, before)


class AtRandom(TestCase):
    def test_random_changes_and_questions_by_a_plain_evaluation(self):
        """The same questions are asked again and again, between changes and where there was none."""
        helper, kept = test_random_frames.RandomFrames("same"), 0
        for number in range(max(1, COUNT // QUESTIONS_OF_A_FRAME)):
            door_of = test_random_frames.DOORS[number % len(test_random_frames.DOORS)]
            chance = random.Random(SEED + number)
            columns, records = random_frames.frame(chance, door_of.further)
            door, rows = door_of(chance, columns, records), dict(enumerate(records, 1))
            questions = [random_frames.Questions(chance, columns).question() for _ in range(4)]
            with self.subTest(frame=number, door=door_of.__name__), warnings.catch_warnings(), door.opened() as frame:
                warnings.simplefilter("ignore", prefq.UnknownValue)
                asked = unittest.mock.patch.object(frame, "_query", side_effect=frame._query)
                with asked as begun:
                    for count in range(QUESTIONS_OF_A_FRAME):
                        if chance.random() < 0.3:
                            self.change(helper, door, frame, rows)
                        helper.same(frame, rows, chance.choice(questions))
                    kept += QUESTIONS_OF_A_FRAME - begun.call_count
        print(f"\n{kept} of {COUNT} answers were kept ones")
        self.assertGreater(kept, 0)

    def test_random_pictures_of_a_desk_by_a_plain_evaluation(self):
        for number in range(max(1, COUNT // QUESTIONS_OF_A_FRAME)):
            door_of = test_random_frames.DOORS[number % len(test_random_frames.DOORS)]
            chance = random.Random(SEED + 1000 + number)
            columns, records = random_frames.frame(chance, door_of.further)
            door, rows = door_of(chance, columns, records), dict(enumerate(records, 1))
            questions = [random_frames.Questions(chance, columns).question() for _ in range(4)]
            with self.subTest(frame=number, door=door_of.__name__), Desk(door.opened()) as desk:
                for _ in range(QUESTIONS_OF_A_FRAME):
                    if chance.random() < 0.3:
                        self.change_on(desk, door, rows)
                    asked = chance.choice(questions)
                    seen = desk.picture(asked.text)
                    values = {row.id: {column.name: column.decode(number) for column, number in zip(seen.columns, row.numbers)} for row in seen.rows}
                    self.assertEqual(values, rows)
                    self.assertEqual([(row.level, row.id) for row in seen.best], asked.answer(rows), asked.text)

    def change_on(self, desk, door, rows):
        """One change of a desk, which is refused where the frame does not take it."""
        columns, chance = door.columns, door.random
        record, id = random_frames.record(chance, columns, dict.fromkeys(columns, 0.2)), chance.choice(list(rows))
        if len(rows) > 1 and chance.random() < 0.2:
            self.assertEqual(desk.delete(id), rows.pop(id))
            return
        numbers = [name for name, kind in columns.items() if isinstance(kind, random_frames.Numbers)]
        if numbers and chance.random() < 0.3:
            name = chance.choice(numbers)
            record[name] = columns[name].draw_finer(chance)
        is_new, before = chance.random() < 0.5, desk.version
        if not test_random_frames.takes(desk, door, rows, record):
            with self.assertRaises(ValueError):
                desk.insert(door.record(record)) if is_new else desk.update(id, door.record(record))
            self.assertEqual(desk.version, before)
        elif is_new:
            rows[desk.insert(door.record(record))] = record
        else:
            desk.update(id, door.record(record))
            rows[id] = record

    def change(self, helper, door, frame, rows):
        """One change, in the frame or below it."""
        columns, chance = door.columns, door.random
        record = random_frames.record(chance, columns, dict.fromkeys(columns, 0.2))
        id = chance.choice(list(rows))
        if id != 1 and chance.random() < 0.2:
            frame.delete(id)
            del rows[id]
        elif chance.random() < 0.3:
            # Rows that change places below the frame.
            opened, other = frame._opened, chance.choice(list(rows))
            first, second = (opened.table.get(opened.ids.inside(one)) for one in (id, other))
            if id != other:
                opened.table.commit(("update", opened.ids.inside(id), second), ("update", opened.ids.inside(other), first))
                rows[id], rows[other] = rows[other], rows[id]
        else:
            chance.choice([helper.inserted, helper.updated])(door, frame, rows, record)


if __name__ == "__main__":
    unittest.main()
