#!/usr/bin/env python3
"""Questions over millions of rows by `prefq.parts` on a pool of processes and on Dask workers, compared with numpy.

    python3 bench/parts.py [--rows 5000000] [--rounds 3] [--pool 4] [--dask 1 2 4] [--folder FOLDER]

Writes files of 250,000 rows, once, computes the answers with numpy, and then times each engine; an answer that is another one is named, and the status is 1.
Needs numpy, pandas and, for --dask, distributed: on Debian python3-pandas and python3-distributed, so run it by /usr/bin/python3. Takes the library that
PREFQ_LIBRARY names, else library/out/libprefq.so.
"""
import argparse
import os
import statistics
import sys
import time
from concurrent.futures import ProcessPoolExecutor
from pathlib import Path

import numpy
import pandas

TOP = Path(__file__).resolve().parent.parent
sys.path.insert(0, str(TOP / "python/src"))
os.environ["PYTHONPATH"] = str(TOP / "python/src")
os.environ.setdefault("PREFQ_LIBRARY", str(TOP / "library/out/libprefq.so"))
from prefq.parts import best

FILE = 250_000
PRICE, DIST, CITY, OFFER = range(4)
NO_END = 10**9


def write(folder, count):
    """The files, of which each is always the same."""
    folder.mkdir(parents=True, exist_ok=True)
    files = [folder / f"part-{number:04}.csv" for number in range(-(-count // FILE))]
    for number, path in enumerate(files):
        if not path.is_file():
            chance, size = numpy.random.default_rng(number), min(FILE, count - number * FILE)
            columns = [chance.integers(0, 1_000_000, size), chance.integers(0, 1_000_000, size), chance.integers(1, 6, size), numpy.arange(size) + number * FILE + 1]
            numpy.savetxt(path, numpy.stack(columns, axis=1), fmt="%d", delimiter=",", header="price,dist,city,offer", comments="")
    return files


def front(rows):
    """The places of the rows that none dominates by price and distance."""
    order = numpy.lexsort((rows[:, DIST], rows[:, PRICE]))
    price, dist = rows[order, PRICE], rows[order, DIST]
    first = numpy.searchsorted(price, price, side="left")
    nearest = numpy.minimum.accumulate(dist)
    nearer = numpy.where(first > 0, nearest[numpy.maximum(first - 1, 0)], numpy.iinfo(numpy.int64).max)
    return order[(dist < nearer) & (dist == dist[first])]


def levels(rows, most, least=NO_END):
    """Level and offer of the rows in whole levels: at most `most` levels, until there are `least` rows."""
    found, level = [], 0
    while len(rows) and level < most and len(found) < least:
        level += 1
        at = front(rows)
        found += [(level, int(offer)) for offer in rows[at, OFFER]]
        rows = numpy.delete(rows, at, axis=0)
    return found


QUESTIONS = {
    "best low(price) * low(dist)": lambda rows: levels(rows, 1),
    "top_level 3 low(price) * low(dist)": lambda rows: levels(rows, 3),
    "best low(price) * low(dist) by city": lambda rows: [pair for city in range(1, 6) for pair in levels(rows[rows[:, CITY] == city], 1)],
    "at_least 40 low(price) * low(dist)": lambda rows: levels(rows, NO_END, 40),
}


def measure(name, files, map, wanted, rounds):
    """Times each question, and says whether each answer is the one that is wanted."""
    same = True
    for question, answer in wanted.items():
        times = []
        for _ in range(rounds):
            begun = time.monotonic()
            rows = best(files, question, map=map)
            times.append(time.monotonic() - begun)
            right = [(row.level, row.id) for row in rows] == answer and all(row.offer == row.id for row in rows)
            same &= right
        print(f"{name} | {question} | {statistics.median(times):.2f} s | {len(rows)} rows, {'the same as by numpy' if right else 'OTHER THAN by numpy'} | load {os.getloadavg()[0]:.1f}", flush=True)
    return same


def main():
    parser = argparse.ArgumentParser(description=__doc__.split("\n")[0])
    parser.add_argument("--rows", type=int, default=5_000_000)
    parser.add_argument("--rounds", type=int, default=3)
    parser.add_argument("--pool", type=int, nargs="*", default=[4])
    parser.add_argument("--dask", type=int, nargs="*", default=[1, 2, 4])
    parser.add_argument("--folder", type=Path, default=TOP / "bench" / "work" / "parts")
    given = parser.parse_args()
    files = write(given.folder / str(given.rows), given.rows)
    begun = time.monotonic()
    rows = numpy.concatenate([pandas.read_csv(path).to_numpy() for path in files])
    print(f"numpy | {len(rows)} rows of {len(files)} files are read | {time.monotonic() - begun:.2f} s", flush=True)
    wanted = {}
    for question, answer in QUESTIONS.items():
        begun = time.monotonic()
        wanted[question] = sorted(answer(rows))
        print(f"numpy | {question} | {time.monotonic() - begun:.2f} s | {len(wanted[question])} rows", flush=True)
    del rows
    same = True
    for count in given.pool:
        with ProcessPoolExecutor(count) as pool:
            same &= measure(f"pool of {count}", files, pool.map, wanted, given.rounds)
    for count in given.dask:
        from distributed import Client, LocalCluster
        options = {"dashboard_address": None, "memory_limit": None, "local_directory": str(given.folder)}
        with LocalCluster(n_workers=count, threads_per_worker=1, **options) as cluster, Client(cluster) as client:
            same &= measure(f"{count} Dask workers", files, client.map, wanted, given.rounds)
    sys.exit(0 if same else 1)


if __name__ == "__main__":
    main()
