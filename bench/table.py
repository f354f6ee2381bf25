#!/usr/bin/env python3
"""Measures the Python package's table beside sqlite3 of the standard library, in memory, in one run: processor microseconds of a call, and their ratio.

    PYTHONPATH=python/src python3 bench/table.py [ROUNDS]

Needs the built library. The rounds alternate, and each figure is the least of them, which others' work makes longer least of all.
"""
import random
import sqlite3
import sys
import time

import prefq

COUNT = 60_000
SINGLE = 5_000
COLUMNS = ["a", "b", "c", "d"]
INSERT = "insert into t(a, b, c, d) values(?, ?, ?, ?)"
QUESTION = "best low(a) * low(b)"


def microseconds(calls, call):
    """Of this process, for each of so many calls."""
    begun = time.process_time()
    call()
    return (time.process_time() - begun) * 1e6 / calls


def each(call):
    """Calls it for each id."""
    def calls():
        for id in range(1, SINGLE + 1):
            call(id)
    return calls


def database(rows=()):
    connection = sqlite3.connect(":memory:")
    connection.execute("create table t(id integer primary key, a, b, c, d)")
    connection.executemany(INSERT, rows)
    return connection


def single_calls(rows):
    """What one call takes, by the table and by sqlite3, over a thousand rows."""
    execute = database(rows[:1000]).cursor().execute
    with prefq.Table(COLUMNS, rows[:1000], capacity=65_536) as table:
        yield "get", SINGLE, each(lambda id: table.get(id % 1000 + 1)), each(lambda id: execute("select a, b, c, d from t where id = ?", (id % 1000 + 1,)).fetchone())
        yield ("update", SINGLE, each(lambda id: table.update(id % 1000 + 1, rows[id])),
               each(lambda id: execute("update t set a = ?, b = ?, c = ?, d = ? where id = ?", (*rows[id], id % 1000 + 1))))
        yield "insert", SINGLE, each(lambda id: table.insert(rows[id])), each(lambda id: execute(INSERT, rows[id]))


def many_rows(rows):
    """What a row takes, of many."""
    filled, other = database(rows), database()
    yield "opening", COUNT, lambda: prefq.Table(COLUMNS, rows).close(), lambda: database(rows)
    with prefq.Table(COLUMNS, capacity=65_536) as table:
        yield "insert_many", COUNT, lambda: table.insert_many(rows), lambda: other.executemany(INSERT, rows)
        yield "rows", COUNT, table.rows, lambda: filled.execute("select id, a, b, c, d from t order by id").fetchall()


def question(capacity):
    """Microseconds of a question over a thousand rows, ten of which are in the answer."""
    rows = [[number, 10 - number] if number < 10 else [number, 1000] for number in range(1000)]
    with prefq.Table(["a", "b"], rows, capacity=capacity) as table:
        table.best(QUESTION)
        return microseconds(200, lambda: [table.best(QUESTION) for _ in range(200)])


def main(rounds=5):
    chance = random.Random(1)
    rows = [[chance.randrange(10**6) for _ in COLUMNS] for _ in range(COUNT)]
    found, questions = {}, []
    for _ in range(int(rounds)):
        for calls in (single_calls, many_rows):
            for name, count, ours, theirs in calls(rows):
                found.setdefault(name, []).append((microseconds(count, ours), microseconds(count, theirs)))
        questions.append((question(1024), question(65_536)))
    for name, pairs in found.items():
        mine, other = map(min, zip(*pairs))
        print(f"{name}: {mine:.2f} microseconds, sqlite3 {other:.2f}, ratio {mine / other:.2f}")
    small, large = map(min, zip(*questions))
    print(f"best 10 of 1,000 rows: {small:.1f} microseconds at a capacity of 1,024, {large:.1f} at 65,536")


main(*sys.argv[1:])
