"""Random questions in which expressions, conditions, `|` and `empty()` stand anywhere in a term, with conditions, groups, so many rows and ties beside them: by each door
the answer is that of a plain evaluation on Python's values.

PREFQ_TEST_COUNT is how many questions are asked, and PREFQ_TEST_SEED begins other ones.
"""
import os
import random
import re
import sqlite3
import tempfile
import unittest
import unittest.mock
import warnings

import plain
import plain_expressions
import prefq
import random_frames
from prefq.desk import Desk
from prefq.parts import Partition
from prefq.selection import Selection
from random_nested import Nested
from support import TestCase, pairs

try:
    import pandas
except ImportError:
    pandas = None

QUESTIONS = int(os.environ.get("PREFQ_TEST_COUNT", 200))
SEED = int(os.environ.get("PREFQ_TEST_SEED", 20261130))
QUESTIONS_OF_A_FRAME = 5
# What a table does not have, and what is no comparison.
REFUSED = re.compile("names a column|that are written are compared|too fine|columns and expressions are asked|too long|more than 24 nestings")
# Of a row: where a question or a condition has no value in one.
WITHOUT_A_VALUE = re.compile("has 0 behind the /|with which nothing is computed")


class Door:
    """Records, and the ways in which a question is asked of them; each returns pairs of a level and an id."""

    def __init__(self, chance, columns, records):
        self.chance, self.columns, self.records = chance, columns, records
        self.given = {name: kind.spelling for name, kind in columns.items() if kind.is_given}
        self.frame = prefq.Frame.from_records(records, kinds=self.given)

    def ways(self):
        """A frame, and some others."""
        others = [self.query, self.psel, self.parts, self.parts_of_a_table, self.desk, self.follow] + [self.typed, self.typed_parts] * (pandas is not None)
        return [self.best, *self.chance.sample(others, 2)]

    def best(self, text, beside):
        return pairs(self.frame.best(text, **beside))

    def query(self, text, beside):
        with self.frame.query(text, **beside) as query:
            return pairs(query.answer())

    def psel(self, text, beside):
        return pairs(prefq.psel(self.records, text, kinds=self.given, **beside))

    def parts_of_a_table(self, text, beside):
        """As rows of which one table does not hold all."""
        with unittest.mock.patch("prefq.selection.MOST_ROWS", 4), unittest.mock.patch("prefq.many.ROWS_OF_A_PART", 5):
            moment = self.frame._opened.moment(self.frame.table.columnar_rows())
            return [(row.level, row.id) for row in prefq.selection.selected(text, Selection.of(**beside), moment)]

    def dealt(self):
        """Where parts begin and end."""
        ends = sorted(self.chance.choices(range(len(self.records) + 1), k=self.chance.randrange(4)))
        return zip([0, *ends], [*ends, len(self.records)])

    def parts(self, text, beside):
        names = list(self.columns)
        some = [Partition(names, [[record[name] for name in names] for record in self.records[begin:end]]) for begin, end in self.dealt()]
        given = {name: kind.spelling for name, kind in self.columns.items() if kind.is_given or type(kind) is random_frames.Texts}
        with unittest.mock.patch("prefq.parts.MERGED", 2):
            return pairs(prefq.parts.best(some, text, kinds=given, **beside))

    def dataframe(self):
        """The records with a type of pandas for some columns, and the kinds of those that have to be given one."""
        found, given = pandas.DataFrame(self.records, columns=list(self.columns), dtype="object"), {}
        for name, kind in self.columns.items():
            values = [record[name] for record in self.records]
            if type(kind) in TYPED and self.chance.random() < 0.6:
                found[name] = TYPED[type(kind)](kind, values)
            elif kind.is_given:
                given[name] = kind.spelling
        return found, given

    def typed(self, text, beside):
        frame, given = self.dataframe()
        found = prefq.psel(frame, text, kinds=given, **beside)
        return list(zip(found[".level"], found.index + 1))

    def typed_parts(self, text, beside):
        frame, given = self.dataframe()
        return pairs(prefq.parts.best([frame.iloc[begin:end] for begin, end in self.dealt()], text, kinds=given, **beside))

    def desk(self, text, beside):
        with Desk(prefq.Frame.from_records(self.records, kinds=self.given)) as desk:
            return [(row.level, row.id) for row in desk.picture(text, Selection.of(**beside)).best]

    def follow(self, text, beside):
        """As the rows of a table of SQLite, dealt to several tables, whose keys are the ids."""
        with tempfile.TemporaryDirectory() as folder:
            db = sqlite3.connect(os.path.join(folder, "rows.db"), isolation_level=None)
            columns = [random_frames.in_quotes(name)[0] for name in self.columns]
            db.execute(f"create table some (\"the key\" integer primary key, {', '.join(columns)})")
            rows = [[id, *(None if record[name] is None else kind.cell(record[name]) for name, kind in self.columns.items())] for id, record in enumerate(self.records, 1)]
            db.executemany(f"insert into some values ({', '.join('?' * (len(columns) + 1))})", rows)
            kinds = {name: kind.spelling for name, kind in self.columns.items()}
            with prefq.Frame.follow(db, "some", key="the key", kinds=kinds, capacity=4) as frame:
                found = pairs(frame.best(text, **beside))
            db.close()
            return found


# By the class of a random column the values as a type of pandas.
TYPED = {random_frames.Whole: lambda kind, values: pandas.array(values, dtype="Int64"),
         random_frames.Floats: lambda kind, values: pandas.array([float("nan") if value is None else value for value in values], dtype="float64"),
         random_frames.Booleans: lambda kind, values: pandas.array(values, dtype="boolean"),
         random_frames.Texts: lambda kind, values: pandas.Categorical(values) if len(values) % 2 else pandas.array(values, dtype="string"),
         random_frames.Choice: lambda kind, values: pandas.Categorical(values, kind.some, ordered=True),
         random_frames.Times: lambda kind, values: pandas.to_datetime(pandas.Series(values, dtype="object"), utc=kind.zone is not None)}


class Random(TestCase):
    def wanted(self, asked, where, top, ties, questions, rows):
        """The answer; None where a row has no value that is asked for."""
        try:
            rows = questions.valued({id: row for id, row in rows.items() if where is None or where.of(row)}, asked.text + (ties.text if ties else ""))
        except plain_expressions.Nothing:
            return None
        return asked.answer(rows) if top is None else plain.first(asked, rows, top, ties)

    def one(self, chance):
        columns, records = random_frames.frame(chance)
        door, rows = Door(chance, columns, records), dict(enumerate(records, 1))
        for _ in range(QUESTIONS_OF_A_FRAME):
            questions = Nested(chance, columns)
            asked, where, top = questions.question(), chance.choice([None, questions.conditions.condition(2)]), chance.choice([None, chance.randrange(1, 8)])
            ties = None if top is None else chance.choice([None, questions.term(2)])
            by = [chance.choice(list(columns))] if not asked.by and not asked.equal_in and chance.random() < 0.3 else None
            asked.by = asked.by or by or ()
            wanted = self.wanted(asked, where, top, ties, questions, rows)
            beside = {"where": where and where.text, "top": top, "ties": ties and ties.text, "by": by}
            for way in door.ways():
                with self.subTest(way=way.__name__, question=asked.text, **beside):
                    self.same(way, asked.text, beside, wanted)
        door.frame.close()

    def same(self, way, text, beside, wanted):
        try:
            found = way(text, beside)
        except prefq.Refused as why:
            if not REFUSED.search(str(why)) and (wanted is not None or not WITHOUT_A_VALUE.search(str(why))):
                raise
            return
        # Ties are computed of rows that are equally good alone, so that a row without a value may be none of them.
        if wanted is not None:
            self.assertEqual(found, wanted)
        else:
            self.assertIsNotNone(beside["ties"])

    def test_as_by_a_plain_evaluation_by_each_door(self):
        with warnings.catch_warnings():
            warnings.simplefilter("ignore", prefq.UnknownValue)
            for number in range(QUESTIONS // QUESTIONS_OF_A_FRAME):
                self.one(random.Random(SEED + number))


if __name__ == "__main__":
    unittest.main()
