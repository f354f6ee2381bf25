"""Pictures of random rows that change, against a plain evaluation of the question on Python's values: the answer, its groups and its file, and why a row is where it is.

PREFQ_TEST_COUNT is how many questions are asked, and PREFQ_TEST_SEED begins other ones.
"""
import datetime
import json
import os
import random
import sqlite3
import tempfile
import unittest
from contextlib import closing, contextmanager

import prefq
import random_frames
from plain import first
from prefq import pictures
from prefq.desk import Desk
from prefq.follow_desk import FollowedDesk
from prefq.server import Server
from support import TestCase

QUESTIONS = int(os.environ.get("PREFQ_TEST_COUNT", 200))
SEED = int(os.environ.get("PREFQ_TEST_SEED", 20261129))
QUESTIONS_OF_A_DESK = 8


class Pictures(TestCase):
    def test_random_pictures(self):
        for number in range(QUESTIONS // QUESTIONS_OF_A_DESK):
            with self.subTest(number=number, seed=SEED):
                self.check(random.Random(f"{SEED} {number}"))

    def check(self, rng):
        columns, records = random_frames.frame(rng)
        kinds = {name: kind.spelling for name, kind in columns.items() if kind.is_given}
        with Desk(prefq.Frame.from_records(records, kinds=kinds)) as desk:
            rows = dict(enumerate(records, 1))
            questions = random_frames.Questions(rng, columns)
            for _ in range(QUESTIONS_OF_A_DESK):
                self.change(rng, desk, columns, rows)
                ask, name = questions.question(), rng.choice([None, *columns])
                where = name and f"{questions.quoted(name)} is not missing"
                top = rng.choice([None, None, 1, 2, 5])
                kept = {id: row for id, row in rows.items() if name is None or row[name] is not None}
                asked = pictures.Asked(ask.text, where, top and str(top))
                self.same(desk, asked, ask, rows, first(ask, kept, top) if top else ask.answer(kept))
                self.reasons(rng, desk, asked, ask, kept)

    def change(self, rng, desk, columns, rows):
        """A row comes, and perhaps another one goes."""
        record = {name: rng.choice(list(rows.values()))[name] for name in columns}
        rows[desk.insert(record)] = record
        if rng.random() < 0.5:
            id = rng.choice(list(rows))
            desk.delete(id)
            del rows[id]

    def same(self, desk, asked, ask, rows, answer):
        """The picture as the page receives it, and the file."""
        shown = json.loads(json.dumps(pictures.picture(desk, asked)))
        best, others = shown["best"], shown["others"]
        self.assertEqual([(row["level"], row["id"]) for row in best], answer, asked)
        self.assertEqual(sorted([row["id"] for row in best] + [point[0] for point in others]), sorted(rows))
        groups = {row["id"]: row["group"] for row in best} | {point[0]: point[4] for point in others}
        self.assertEqual({(groups[a] == groups[b]) for a in rows for b in rows if all(rows[a][name] == rows[b][name] for name in ask.by)}, {True})
        self.assertEqual(len({tuple(rows[row["id"]][name] for name in ask.by) for row in best}) if ask.by else 0, len(shown["groups"]))
        found = pictures.answer(desk, asked)
        self.assertEqual([(row.level, row.id, dict(row)) for row in found], [(row["level"], row["id"], rows[row["id"]]) for row in best])

    def reasons(self, rng, desk, asked, ask, rows):
        levels = ask.levels_of(rows)
        for id in rng.sample(sorted(rows), min(3, len(rows))):
            found = pictures.why(desk, asked, id)
            self.assertEqual(sorted(row["id"] for row in found["rows"]), sorted(ask.dominators(rows, id)), asked)
            self.assertEqual([(row["level"], row["id"]) for row in found["rows"]], sorted((levels[row["id"]], row["id"]) for row in found["rows"]), asked)
            self.assertEqual((found["row"]["id"], found["count"]), (id, len(found["rows"])))

    def test_ids_that_a_browser_has_no_number_for_are_texts(self):
        keys = [-2**62 - 1, 2**53 - 1, 2**53 + 1, 2**63 - 1]
        with self.offers((key, price) for price, key in enumerate(keys, 1)) as desk:
            shown = pictures.picture(desk, pictures.Asked("top_level 2 low(price)"))
            self.assertEqual([row["id"] for row in shown["best"]] + [point[0] for point in shown["others"]], [str(keys[0]), keys[1], str(keys[2]), str(keys[3])])
            found = pictures.why(desk, pictures.Asked("best low(price)"), keys[3])
            self.assertEqual((found["row"]["id"], [row["id"] for row in found["rows"]]), (str(keys[3]), [str(keys[0]), keys[1], str(keys[2])]))

    @contextmanager
    def offers(self, rows):
        """The desk of a table of a database with these keys and prices."""
        with tempfile.TemporaryDirectory() as folder, closing(sqlite3.connect(f"{folder}/offers.db", isolation_level=None)) as db:
            db.execute("create table offers (id integer primary key, price int)")
            db.executemany("insert into offers values (?, ?)", rows)
            with FollowedDesk(prefq.Frame.follow(db, "offers")) as desk:
                yield desk

    def test_rows_of_a_database_are_asked_as_a_frame_is(self):
        with self.offers([(7, 60), (8, 90), (9, 60)]) as desk:
            for asked, ids in ((pictures.Asked("best low(price)"), [7, 9]), (pictures.Asked("best low(price)", where="price > 60"), [8]), (pictures.Asked("best low(price)", top="1"), [7]),
                               (pictures.Asked("best high(price / 2)"), [8])):
                found = pictures.picture(desk, asked)
                self.assertEqual(([row["id"] for row in found["best"]], found["count"], found["asked"]), (ids, 3, ["price"]))
            with self.refuses(prefq.Refused, "no column 'prise'"):
                pictures.picture(desk, pictures.Asked("best low(price)", where="prise > 1"))


if __name__ == "__main__":
    unittest.main()


class FirstQuestions(TestCase):
    def test_times_of_day_alone(self):
        """They are no axis, and have an order."""
        with Desk(prefq.Frame.from_records([{"at": datetime.time(17, 30), "x": "a"}, {"at": datetime.time(8), "x": "b"}])) as desk, Server(desk) as server:
            self.assertEqual(server.site.about["questions"], ["best low(at)"])
            self.assertEqual([row["cells"] for row in pictures.picture(desk, pictures.Asked(server.site.about["questions"][0]))["best"]], [["08:00:00", "b"]])
