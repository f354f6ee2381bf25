#!/usr/bin/env python3
"""Processor time of the calls of libprefq.so from Python, by ctypes, in ratio to those of sqlite3 in memory, in one run.

    library.py LIBRARY [--rounds N]

Each figure is the least of some rounds. sqlite3 has a table of the same rows with an integer key and no other index."""
import argparse
import random
import sqlite3
import struct
import sys
import time
from ctypes import byref, c_int64, c_size_t, c_uint64, string_at
from pathlib import Path

sys.path.insert(0, str(Path(__file__).resolve().parent.parent / "library/tests"))
import binding  # noqa: E402

WIDTH = 4
QUESTION = b"best low(a) * low(b)"
WITH_LEVELS, WITHOUT_LEVELS = struct.Struct(f"{2 + WIDTH}q"), struct.Struct(f"8x{1 + WIDTH}q")


class Fast:
    """The calls as a package would make them: each argument is made once."""

    def __init__(self, library, rows, capacity):
        text = "a,b,c,d\n" + "".join(",".join(map(str, row)) + "\n" for row in rows)
        self.table = binding.Table(library, text.encode(), WIDTH, capacity=capacity)
        self._handle, self._library = self.table._table, library
        self._row, self._id, self._numbers, self._count = (c_int64 * WIDTH)(), c_uint64(), binding.ROWS(), c_size_t()
        self._make_row = c_int64 * WIDTH
        self._to_id, self._to_numbers, self._to_count = byref(self._id), byref(self._numbers), byref(self._count)

    def get(self, id):
        if self._library.prefq_get(self._handle, id, self._row, WIDTH):
            raise ValueError(id)
        return self._row[:]

    def update(self, id, values):
        if self._library.prefq_update(self._handle, id, self._make_row(*values), WIDTH):
            raise ValueError(id)

    def insert(self, values):
        if self._library.prefq_insert(self._handle, self._make_row(*values), WIDTH, self._to_id):
            raise ValueError(values)
        return self._id.value

    def best(self):
        if self._library.prefq_ask(self._handle, 1, QUESTION, len(QUESTION), self._to_numbers, self._to_count):
            raise ValueError(QUESTION)
        return self._rows(WITH_LEVELS)

    def rows(self):
        self._library.prefq_rows(self._handle, 1, self._to_numbers, self._to_count)
        return self._rows(WITHOUT_LEVELS)

    def _rows(self, form):
        """The rows of an answer as tuples."""
        return list(form.iter_unpack(string_at(self._numbers, self._count.value * form.size)))


def least(rounds, calls, work):
    """Microseconds of processor time of one call: the least of some rounds of so many."""
    found = []
    for _ in range(rounds):
        begun = time.process_time()
        for call in range(calls):
            work(call)
        found.append((time.process_time() - begun) / calls * 1e6)
    return min(found)


def main():
    parser = argparse.ArgumentParser(description=__doc__, formatter_class=argparse.RawDescriptionHelpFormatter)
    parser.add_argument("library")
    parser.add_argument("--rounds", type=int, default=7)
    given = parser.parse_args()
    library, r = binding.load(given.library), random.Random(1)
    rows = [[r.randrange(1_000_000) for _ in range(WIDTH)] for _ in range(1000)]
    # Ten rows are best: they are below all others in a and b.
    rows[:10] = [[-1 - at, -10 + at, 0, 0] for at in range(10)]
    table, wide = Fast(library, rows, 65_536), Fast(library, rows, 65_536)
    narrow = Fast(library, rows, 1024)
    base = sqlite3.connect(":memory:", isolation_level=None)
    base.execute("create table t (id integer primary key, a, b, c, d)")
    base.executemany("insert into t (a, b, c, d) values (?, ?, ?, ?)", rows)
    new = [700_000, 700_000, 1, 2]

    def report(name, ours, theirs=None):
        print(f"{name:34} {ours:9.2f} us" + (f"   sqlite3 {theirs:9.2f} us   ratio {ours / theirs:5.2f}" if theirs else ""))

    assert table.get(7) == list(base.execute("select a, b, c, d from t where id = 7").fetchone())
    assert len(narrow.best()) == 10 and len(table.rows()) == 1000
    report("get", least(given.rounds, 20_000, lambda call: table.get(1 + call % 1000)),
           least(given.rounds, 20_000, lambda call: base.execute("select a, b, c, d from t where id = ?", (1 + call % 1000,)).fetchone()))
    report("update", least(given.rounds, 20_000, lambda call: table.update(20 + call % 900, new)),
           least(given.rounds, 20_000, lambda call: base.execute("update t set a = ?, b = ?, c = ?, d = ? where id = ?", (*new, 20 + call % 900))))
    report("insert", least(given.rounds, 2000, lambda call: table.insert(new)),
           least(given.rounds, 2000, lambda call: base.execute("insert into t (a, b, c, d) values (?, ?, ?, ?)", new)))
    base.execute("delete from t where id > 1000")
    report("best of 10 rows of 1,000", least(given.rounds, 500, lambda call: narrow.best()))
    report("rows() of 1,000", least(given.rounds, 100, lambda call: wide.rows()),
           least(given.rounds, 100, lambda call: base.execute("select id, a, b, c, d from t").fetchall()))
    tables = iter([binding.Table(library, b"a,b,c,d\n", WIDTH, capacity=1024) for _ in range(20 * given.rounds)])
    report("insert_many of 1,000", least(given.rounds, 20, lambda call: next(tables).insert_many(rows)),
           least(given.rounds, 20, lambda call: base.executemany("insert into t (a, b, c, d) values (?, ?, ?, ?)", rows)))
    both = [least(given.rounds, 200, lambda call: each.best()) for each in (wide, narrow)]
    print(f"best over a capacity of 65,536: {both[0] / both[1]:.2f} times that over 1,024 ({both[0]:.1f} and {both[1]:.1f} us)")


main()
