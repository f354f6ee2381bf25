"""Random frames of all kinds of columns, gaps among them, against a plain evaluation of the question on Python's values.

PREFQ_TEST_COUNT is how many questions are asked, and PREFQ_TEST_SEED begins other ones.
"""
import csv
import io
import os
import random
import tempfile
import unittest
import unittest.mock
import warnings
from decimal import Decimal

import prefq
import random_frames
from plain import BETTER
from support import TestCase

try:
    import pandas
except ImportError:
    pandas = None

QUESTIONS = int(os.environ.get("PREFQ_TEST_COUNT", 1000))
SEED = int(os.environ.get("PREFQ_TEST_SEED", 20260501))
QUESTIONS_OF_A_FRAME = 6
# Types of pandas for the values of kinds.
TYPES = {random_frames.Whole: ["Int64"], random_frames.Booleans: ["boolean"], random_frames.Floats: ["float64", "Float64"], random_frames.Texts: ["string", "category"]}
MOST = 2**63 - 1


class Door:
    """A way in which records become a frame; its columns have no kind of their own unless they are `given`."""

    further = (random_frames.Written, random_frames.WrittenDates)

    def __init__(self, random_, columns, records):
        self.random, self.columns, self.records = random_, columns, records
        self.given = {name: kind.spelling for name, kind in columns.items() if self.is_given(kind)}

    def is_given(self, kind):
        return kind.is_given

    def value(self, name, value):
        """A value as it is inserted: that, or a text of the file that spells it."""
        is_text = value is not None and name in self.given and self.random.random() < 0.5
        return self.columns[name].cell(value) if is_text else value

    def record(self, record):
        return {name: self.value(name, value) for name, value in record.items()}


class Records(Door):
    def is_given(self, kind):
        return type(kind) in (random_frames.Choice, random_frames.Written) or self.random.random() < 0.2

    def opened(self):
        return prefq.Frame.from_records(list(map(self.record, self.records)), kinds=self.given)


class Texts(Records):
    """All values are texts, as those of csv.DictReader."""

    def is_given(self, kind):
        return True

    def opened(self):
        rows = [{name: None if value is None else self.columns[name].cell(value) for name, value in record.items()} for record in self.records]
        return prefq.Frame.from_records(rows, kinds=self.given)


class Empty(Records):
    def is_given(self, kind):
        return True

    def opened(self):
        frame = prefq.Frame.empty(list(self.columns), self.given)
        half = len(self.records) // 2
        for record in self.records[:half]:
            frame.insert(self.record(record))
        frame.insert_many(map(self.record, self.records[half:]))
        return frame


class Query(Records):
    """Rows of a cursor, which gives some at a time."""

    def opened(self):
        self.description = [(name, None) for name in self.columns]
        rows = [list(self.record(record).values()) for record in self.records]
        self.left = [self.random.choice([list, tuple, lambda row: dict(zip(self.columns, row))])(row) for row in rows]
        return prefq.Frame.from_sql(self, kinds=self.given)

    def fetchmany(self, _):
        count = self.random.randrange(1, 4)
        some, self.left = self.left[:count], self.left[count:]
        return some


class Lists(Texts):
    """Rows without names, of columns that are given."""

    def opened(self):
        rows = [self.random.choice([list, tuple])(self.record(record).values()) for record in self.records]
        return prefq.Frame([prefq.Column(name, kind.spelling) for name, kind in self.columns.items()], rows)


class Saved(Records):
    """A frame that was saved and opened again."""

    def opened(self):
        with tempfile.TemporaryDirectory() as folder, super().opened() as frame:
            path = os.path.join(folder, "rows.prefq")
            frame.save(path)
            return prefq.Frame.open(path)


class File(Door):
    def opened(self):
        text = io.StringIO()
        writer = csv.writer(text)
        writer.writerow(self.columns)
        writer.writerows([["" if record[name] is None else kind.cell(record[name]) for name, kind in self.columns.items()] for record in self.records])
        return prefq.Frame.from_csv(io.StringIO(text.getvalue()), delimiter=",", kinds=self.given)


class Chunks(File):
    """A file that is read some rows at a time."""

    def opened(self):
        with unittest.mock.patch("prefq.reading.CHUNK", 150):
            return super().opened()


class DataFrame(Records):
    further = (random_frames.Categories,)

    def is_given(self, kind):
        return type(kind) is random_frames.Choice

    def dataframe(self):
        frame = pandas.DataFrame(self.records, columns=list(self.columns), dtype="object")
        for name, kind in self.columns.items():
            if isinstance(kind, random_frames.Categories):
                # By the values pandas would take great numbers for one another, where some are missing.
                codes = [-1 if record[name] is None else kind.some.index(record[name]) for record in self.records]
                frame[name] = pandas.Categorical.from_codes(codes, kind.some, ordered=True)
            elif isinstance(kind, random_frames.Times) and self.random.random() < 0.5:
                frame[name] = pandas.to_datetime(frame[name], utc=kind.zone is not None)
            elif self.random.random() < 0.5:
                frame[name] = frame[name].astype(self.random.choice(TYPES.get(type(kind), ["object"])))
        return frame

    def opened(self):
        self.frame = self.dataframe()
        return prefq.Frame.from_dataframe(self.frame, kinds=self.given)


DOORS = [Records, File, Texts, Chunks, Empty, Query, Lists, Saved] + [DataFrame] * (pandas is not None)


class RandomFrames(TestCase):
    def same(self, frame, rows, asked):
        answer = frame.best(asked.text)
        self.assertEqual(list(zip(answer.levels, answer.ids)), asked.answer(rows), asked.text)
        self.assertEqual([dict(record) for record in answer], [rows[record.id] for record in answer], asked.text)

    def changed(self, door, frame, rows):
        """Makes some changes, also missing values in columns that had none."""
        columns = door.columns
        for _ in range(3):
            self.inserted(door, frame, rows, random_frames.record(door.random, columns, dict.fromkeys(columns, 0.2)))
        self.finer(door, frame, rows)
        record = random_frames.record(door.random, columns, dict.fromkeys(columns, 0.2))
        name = door.random.choice(list(columns))
        if takes(frame, door, rows, {name: record[name]}):
            frame.update(1, {name: door.value(name, record[name])})
            rows[1] = {**rows[1], name: record[name]}
        gone = door.random.choice(list(rows))
        frame.delete(gone)
        del rows[gone]

    def finer(self, door, frame, rows):
        """A record comes whose numbers are finer than the column."""
        numbers = [name for name, kind in door.columns.items() if isinstance(kind, random_frames.Numbers)]
        if numbers:
            name = door.random.choice(numbers)
            value = door.columns[name].draw_finer(door.random)
            record = {**random_frames.record(door.random, door.columns, dict.fromkeys(door.columns, 0.2)), name: value}
            if door.random.choice([self.inserted, self.updated])(door, frame, rows, record):
                door.columns[name].finer.append(value)

    def inserted(self, door, frame, rows, record):
        """Inserts a record, or two, if the frame takes it; else sees that it is refused and nothing is changed."""
        if door.random.random() < 0.5:
            insert = frame.insert_many
            records = [record, *[rows[1]] * (len(rows) % 2)]
        else:
            insert, records = lambda some: [frame.insert(some[0])], [record]
        if takes(frame, door, rows, record):
            rows.update(zip(insert(list(map(door.record, records))), records))
            return True
        with self.assertRaises(ValueError):
            insert(list(map(door.record, records)))
        return False

    def updated(self, door, frame, rows, record):
        """Gives a row the values of a record, if the frame takes them."""
        id = door.random.choice(list(rows))
        if takes(frame, door, rows, record):
            frame.update(id, door.record(record))
            rows[id] = record
            return True
        with self.assertRaises(ValueError):
            frame.update(id, door.record(record))
        return False

    def explained(self, random_, frame, rows, asked):
        """Why some row is not in the answer."""
        id = random_.choice(list(rows))
        why = frame.why(id, asked.text)
        self.assertEqual(sorted(why.ids), asked.dominators(rows, id), asked.text)
        levels = asked.levels_of(rows)
        self.assertEqual(list(zip(why.levels, why.ids)), sorted((levels[other], other) for other in why.ids), asked.text)

    def selected(self, door, rows, asked):
        """The same by psel, which has the labels of the DataFrame."""
        found = prefq.psel(door.frame, asked.text, kinds=door.given)
        self.assertEqual(list(zip(found[".level"], found.index + 1)), asked.answer(rows), asked.text)

    def one(self, random_, kind_of_door):
        """A frame by a door, with its questions."""
        columns, records = random_frames.frame(random_, kind_of_door.further)
        door = kind_of_door(random_, columns, records)
        rows = dict(enumerate(records, 1))
        ask = random_frames.Questions(random_, columns)
        with door.opened() as frame:
            for _ in range(3):
                self.same(frame, rows, ask.question())
            if isinstance(door, DataFrame):
                self.selected(door, rows, ask.question())
            self.changed(door, frame, rows)
            for _ in range(2):
                self.same(frame, rows, ask.question())
            self.explained(random_, frame, rows, ask.question())
            self.assertEqual({row.id: dict(row) for row in frame.rows()}, rows)

    def test_as_by_a_plain_evaluation(self):
        for number in range(QUESTIONS // QUESTIONS_OF_A_FRAME):
            door = DOORS[number % len(DOORS)]
            with self.subTest(frame=number, door=door.__name__), warnings.catch_warnings():
                warnings.simplefilter("ignore", prefq.UnknownValue)
                self.one(random.Random(SEED + number), door)


def takes(frame, door, rows, record):
    """Whether the frame has room for the numbers of a record: those that grow fit 64 bits with the decimals of all."""
    for name, kind in door.columns.items():
        value = record.get(name)
        if value is None or not isinstance(kind, random_frames.Numbers):
            continue
        has = frame.columns[list(door.columns).index(name)].kind.decimals
        needs = max(has, decimals(value))
        some = [value] + [row[name] for row in rows.values() if row[name] is not None] * (needs > has)
        if needs > has and name in door.given or any(abs(Decimal(number).scaleb(needs)) > MOST for number in some):
            return False
    return True


def decimals(value):
    """How many decimals a number needs."""
    return max(0, -Decimal(value).normalize().as_tuple().exponent)


class TheConverse(unittest.TestCase):
    def test_swaps_the_rows_where_nothing_is_missing(self):
        seed = random.Random(7)
        for _ in range(200):
            columns, records = random_frames.frame(seed)
            term = random_frames.Questions(seed, columns).term(3)
            for a in records[:6]:
                for b in records[:6]:
                    if None not in [*a.values(), *b.values()]:
                        self.assertEqual(term.compare(a, b, turned=True) == BETTER, term.compare(b, a) == BETTER)
