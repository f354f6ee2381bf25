#!/usr/bin/env python3
"""Measures a frame that follows a table: how long its rows take to be read, to be asked and to be changed, and when an answer has what was committed.

    PYTHONPATH=python/src python3 bench/follow.py [ROWS] [--postgres]

Needs the built library; the table is one of SQLite, or of a server of PostgreSQL that is started for it (python/tests/postgres.py). Times are processor times of this
process, those of the tables' calls on all threads among them, and medians of wall time, which say something only beside the load that is printed.
"""
import argparse
import os
import random
import resource
import sqlite3
import statistics
import sys
import tempfile
import time
from contextlib import closing, contextmanager
from pathlib import Path

import prefq

QUESTIONS = ["best low(price) * low(dist)", "best low(price) * low(dist) * low(noise)", "top_level 5 low(price) * low(dist)"]
BESIDE = {"top": 10, "ties": "low(noise)"}
# The tables are asked the first two with the question; the others are computed over all rows.
CONDITIONS = ["price > 500000", "price > 500000 and not noise in (1, 2, 3)", "price > 500000 or noise < 500000", "price + dist < 1000000"]
TABLE = "create table offers (id integer primary key, price integer, dist integer, noise integer)"
CHANGES = 20_000
ROUNDS = 15
ROUNDS_WITH_CONDITIONS = 3
MEDIANS = 10
MOST = 10**6


def show(what, call, rounds=ROUNDS, each=1):
    """Prints how long a call takes, or each of its so many parts."""
    processor, walls = time.process_time(), []
    for _ in range(rounds):
        begun = time.perf_counter()
        call()
        walls.append(time.perf_counter() - begun)
    processor = (time.process_time() - processor) / rounds / each * 1e6
    print(f"{what}: {processor:,.1f} us of a processor, wall {statistics.median(walls) / each * 1e6:,.0f} us at a load of {os.getloadavg()[0]:.0f}", flush=True)


def show_least(what, prepare, call, each):
    """Prints the least processor time that each of so many parts of a call takes in some runs, each with what is prepared for it."""
    times = []
    for _ in range(ROUNDS):
        given = prepare()
        begun = time.process_time()
        call(given)
        times.append((time.process_time() - begun) / each * 1e6)
    print(f"{what}: {min(times):.1f} us of a processor at the least, up to {max(times):.1f} us, at a load of {os.getloadavg()[0]:.0f}", flush=True)


def show_delay(change, ask):
    """Prints the wall time from a commit to an answer that has it: the smallest of some medians, of which others' work makes each longer, and the largest."""
    medians = []
    for _ in range(MEDIANS):
        walls = []
        for _ in range(ROUNDS):
            change()
            begun = time.perf_counter()
            ask()
            walls.append(time.perf_counter() - begun)
        medians.append(statistics.median(walls) * 1e3)
    print(f"from a commit to an answer that has it: {min(medians):.0f} ms, medians up to {max(medians):.0f} ms at a load of {os.getloadavg()[0]:.0f}", flush=True)


@contextmanager
def of_sqlite(rows):
    """A file with a table of these rows, by a connection; and how a statement has a value."""
    with tempfile.TemporaryDirectory() as folder, closing(sqlite3.connect(os.path.join(folder, "offers.db"), isolation_level=None)) as db:
        db.execute("pragma journal_mode = wal")
        db.execute("pragma synchronous = normal")
        db.execute(TABLE)
        db.execute("begin")
        db.executemany("insert into offers values (?, ?, ?, ?)", rows)
        db.execute("commit")
        yield db, "?"


@contextmanager
def of_postgres(rows):
    """The same of PostgreSQL."""
    sys.path.append(str(Path(__file__).resolve().parent.parent / "python/tests"))
    import postgres
    with postgres.Server() as server, closing(server.connected()) as db:
        db.cursor().execute(TABLE)
        numbers = [list(some) for some in zip(*rows)]
        db.cursor().execute("insert into offers select * from unnest(%s, %s, %s, %s)", numbers)
        yield db, "%s"


def changed_rows(frame, chance):
    """Other numbers for some of the rows, as they stand in the tables."""
    keys = chance.sample(range(len(frame)), CHANGES)
    return {key: chance.choices(range(MOST), k=3) for key in keys}


def measure(db, mark, count, chance):
    cursor = db.cursor()
    processor, begun = time.process_time(), time.perf_counter()
    with prefq.Frame.follow(db, "offers") as frame:
        print(f"{count} rows in {frame.tables} tables are followed after {time.process_time() - processor:.1f} s of a processor, wall {time.perf_counter() - begun:.1f} s, "
              f"with a peak of {resource.getrusage(resource.RUSAGE_SELF).ru_maxrss / 1024:.0f} MB", flush=True)

        def change():
            cursor.execute(f"update offers set price = {mark} where id = {mark}", (chance.randrange(MOST), chance.randrange(count)))

        def change_and_ask():
            change()
            frame.best(QUESTIONS[0])

        def ask_anew(question, **beside):
            frame._kept._made.clear()
            return frame.best(question, at_least=frame.at, **beside)

        for question in QUESTIONS:
            show(f"{question}, {len(frame.best(question))} rows", lambda: ask_anew(question))
        show("the same as before, which is kept", lambda: frame.best(QUESTIONS[-1], at_least=frame.at))
        show(f"{QUESTIONS[0]}, {BESIDE}", lambda: ask_anew(QUESTIONS[0], **BESIDE))
        for where in CONDITIONS:
            show(f"{QUESTIONS[0]} where {where}", lambda: ask_anew(QUESTIONS[0], where=where), ROUNDS_WITH_CONDITIONS)
        show("the last one again, which is kept", lambda: frame.best(QUESTIONS[0], where=CONDITIONS[-1], at_least=frame.at))
        show("a change and an answer that has it", change_and_ask)
        show_delay(change, lambda: frame.best(QUESTIONS[0]))
        cursor.execute("begin")
        for _ in range(CHANGES):
            change()
        cursor.execute("commit")
        show(f"each of {CHANGES} changes of a transaction taken in", frame.refresh, 1, CHANGES)
        # The last one: the database has other rows.
        show_least(f"each of {CHANGES} changes in the tables alone", lambda: changed_rows(frame, chance), frame._dealt.change, CHANGES)


def main():
    parser = argparse.ArgumentParser(description="Measures a frame that follows a table.")
    parser.add_argument("rows", type=int, nargs="?", default=300_000)
    parser.add_argument("--postgres", action="store_true")
    given = parser.parse_args()
    chance = random.Random(1)
    rows = ((number, *chance.choices(range(MOST), k=3)) for number in range(given.rows))
    with (of_postgres if given.postgres else of_sqlite)(rows) as (db, mark):
        measure(db, mark, given.rows, chance)


if __name__ == "__main__":
    main()
