"""Random transactions on a table that a frame follows, against a plain evaluation of the questions on what is committed."""
from dataclasses import dataclass
from typing import Any

import plain_expressions
import prefq
import random_frames
from plain import Ask, first

KEY = 'the "key"'
TABLE = "it`s a 'table'; -- \"of\" rows"


def quoted(name):
    return '"' + name.replace('"', '""') + '"'


class Store:
    """A table of a database, in which each value stands as a text; `mark` is how a statement has a value."""

    mark = "?"
    clear = f"delete from {quoted(TABLE)}"

    def __init__(self, random, columns):
        self.random, self.columns = random, columns
        self.are_texts = random.random() < 0.5
        self.rows = {}

    def statement(self, text, *values):
        """Runs a statement."""
        raise NotImplementedError

    def followed(self, **options):
        raise NotImplementedError

    def key(self):
        number = self.random.randrange(-20, 60)
        return f"key {number}" if self.are_texts else number

    def cells(self, record):
        return [None if value is None else self.columns[name].cell(value) for name, value in record.items()]

    def record(self):
        return random_frames.record(self.random, self.columns, dict.fromkeys(self.columns, 0.2))

    def transaction(self, changes):
        """Some changes, which are committed or not."""
        rows = dict(self.rows)
        self.statement("begin")
        for _ in range(changes):
            self.random.choice([self.put, self.put, self.put, self.update, self.update, self.delete, self.move])(rows)
        if self.random.random() < 0.05:
            self.statement(self.clear)
            rows = {}
        if self.random.random() < 0.8:
            self.statement("commit")
            self.rows = rows
        else:
            self.statement("rollback")

    def put(self, rows):
        """Adds a row, or gives the one with its key all values."""
        key, record = self.key(), self.record()
        if key in rows and self.random.random() < 0.5:
            self.statement(f"delete from {quoted(TABLE)} where {quoted(KEY)} = {self.mark}", key)
        marks = ", ".join([self.mark] * (1 + len(record)))
        values = ", ".join(f"{quoted(name)} = excluded.{quoted(name)}" for name in record)
        self.statement(f"insert into {quoted(TABLE)} values ({marks}) on conflict ({quoted(KEY)}) do update set {values}", key, *self.cells(record))
        rows[key] = record

    def update(self, rows):
        key, record = self.key(), self.record()
        some = {name: record[name] for name in self.random.sample(list(record), self.random.randrange(1, len(record) + 1))}
        values = ", ".join(f"{quoted(name)} = {self.mark}" for name in some)
        self.statement(f"update {quoted(TABLE)} set {values} where {quoted(KEY)} = {self.mark}", *self.cells(some), key)
        if key in rows:
            rows[key] = {**rows[key], **some}

    def delete(self, rows):
        key = self.key()
        self.statement(f"delete from {quoted(TABLE)} where {quoted(KEY)} = {self.mark}", key)
        rows.pop(key, None)

    def move(self, rows):
        """A row gets another key."""
        old, new = self.key(), self.key()
        if new not in rows:
            self.statement(f"update {quoted(TABLE)} set {quoted(KEY)} = {self.mark} where {quoted(KEY)} = {self.mark}", new, old)
            if old in rows:
                rows[new] = rows.pop(old)


@dataclass
class Beside:
    """A question, with what is asked beside it: a condition, how many rows, a term that decides between those of the last level, and names of groups."""

    asked: Any
    where: Any = None
    top: Any = None
    ties: Any = None
    by: tuple = ()

    def options(self):
        """As arguments of a call."""
        found = {"where": self.where and self.where.text, "top": self.top, "ties": self.ties and self.ties.text, "by": self.by}
        return {name: value for name, value in found.items() if value}

    def met(self, rows):
        """The rows that meet the condition. `Nothing` is raised where one of them has no value."""
        return {key: row for key, row in rows.items() if self.where is None or self.where.of(row)}

    def answer(self, rows):
        """Pairs of a level and a key, in order."""
        return self.asked.answer(self.met(rows)) if self.top is None else first(self.asked, self.met(rows), self.top, self.ties)


class Questions:
    """Random questions, with what is asked beside them."""

    def __init__(self, random, columns):
        self.random = random
        self.plain, self.expressions = random_frames.Questions(random, columns), plain_expressions.Expressions(random, columns)

    def question(self):
        asked, by = self.plain.question(), ()
        if not asked.by and not asked.text.startswith("skyline") and self.random.random() < 0.3:
            by = (self.random.choice(list(self.plain.columns)),)
            asked = Ask(asked.text, asked.term, by, asked.levels, asked.rows)
        where = self.expressions.condition() if self.random.random() < 0.3 else None
        top = self.random.randrange(1, 8) if self.random.random() < 0.4 else None
        ties = self.plain.term(2) if top is not None and self.random.random() < 0.5 else None
        return Beside(asked, where, top, ties, by)


def transactions(test, random, store, count):
    """Random transactions, of each of which the frame has all or nothing."""
    ask = Questions(random, store.columns)
    store.transaction(20)
    kinds = {name: kind.spelling for name, kind in store.columns.items()}
    with store.followed(kinds=kinds, capacity=random.choice([8, 1024])) as frame:
        for _ in range(count):
            store.transaction(random.randrange(1, 12))
            answers(test, frame, store, ask.question())
        test.assertEqual([(row.id, dict(row)) for row in frame.rows()], sorted(store.rows.items()))
        test.assertEqual(len(frame), len(store.rows))
        if store.rows:
            id, asked = random.choice(list(store.rows)), ask.plain.question()
            test.assertEqual(sorted(frame.why(id, asked.text).ids), sorted(asked.dominators(store.rows, id)))


def answers(test, frame, store, beside):
    """The frame answers a question as a plain evaluation does."""
    text, options = beside.asked.text, beside.options()
    try:
        wanted = beside.answer(store.rows)
    except plain_expressions.Nothing:
        with test.assertRaises(prefq.Refused):
            frame.best(text, **options)
        return
    try:
        answer = frame.best(text, **options)
    except prefq.Refused as why:
        # What a condition compares may be written so that nothing is computed with it.
        test.assertTrue(beside.where and ("names a column" in str(why) or "that are written are compared" in str(why)), (text, options, str(why)))
        return
    test.assertEqual(list(zip(answer.levels, answer.ids)), wanted, (text, options))
    test.assertEqual([dict(record) for record in answer], [store.rows[record.id] for record in answer])
