#!/usr/bin/env python3
"""Measures frames of the Python package: how long 60,000 rows of a file or a DataFrame take to open, to ask, to read and to open anew with a wider column, and
what missing values cost. (bench/files.py measures how files are read.)

    PYTHONPATH=python/src /usr/bin/python3 bench/frames.py [ROUNDS]

Needs the built library, and pandas for the DataFrame. Each figure is a median of wall time, with Python's processor time behind it.
"""
import csv
import datetime
import io
import random
import statistics
import sys
import time

import prefq
from prefq.questions import read_question
from prefq.translate import plan

COUNT = 60_000
NAMES = ["name", "city", "price", "stars", "dist", "opened", "breakfast", "rooms"]
QUESTION = "best low(price) * high(stars) * low(dist)"


def file(chance, gaps):
    """A file of hotels; so many of the prices, stars and distances are missing."""
    text = io.StringIO()
    writer = csv.writer(text)
    writer.writerow(NAMES)
    for row in range(COUNT):
        price, stars, dist = ("" if chance.random() < gaps else value for value in (f"{chance.uniform(30, 400):.2f}", chance.choice(["3", "3.5", "4", "4.5"]),
                                                                                   f"{chance.expovariate(0.4):.1f}"))
        opened = datetime.date(1950, 1, 1) + datetime.timedelta(days=chance.randrange(27_000))
        writer.writerow([f"Hotel {row}", chance.choice(["Lyon", "Köln", "Bern"]), price, stars, dist, opened, chance.choice(["yes", "no"]), chance.randrange(500)])
    return text.getvalue()


def measured(call):
    """What a call returns, its wall time, and Python's processor time."""
    begun, spent = time.perf_counter(), time.process_time()
    found = call()
    return found, time.perf_counter() - begun, time.process_time() - spent


def of_a_frame(text):
    frame, *opened = measured(lambda: prefq.Frame.from_csv(io.StringIO(text)))
    with frame:
        yield "from_csv, eight columns", *opened
        opened_below = frame._opened
        below = plan(QUESTION, read_question(QUESTION, opened_below.by_name.get, frame.names), opened_below.below).text
        yield "best", *measured(lambda: frame.best(QUESTION))[1:]
        yield "best again, which is kept", *measured(lambda: frame.best(QUESTION))[1:]
        yield "best of the table below", *measured(lambda: frame.table.best(below))[1:]
        yield "rows", *measured(frame.rows)[1:]
        yield "why", *measured(lambda: frame.why(COUNT, QUESTION))[1:]
        yield "insert of a price with one more decimal", *measured(lambda: frame.insert({"price": "59.995"}))[1:]


def of_a_dataframe(text):
    import pandas
    dataframe = pandas.read_csv(io.StringIO(text))
    frame, *opened = measured(lambda: prefq.Frame.from_dataframe(dataframe))
    frame.close()
    yield "from_dataframe, eight columns", *opened
    yield "psel, three columns", *measured(lambda: prefq.psel(dataframe, QUESTION[len("best "):]))[1:]


def main():
    rounds = int(sys.argv[1]) if len(sys.argv) > 1 else 5
    found = {}
    for what, gaps in [("no gaps", 0), ("gaps in 5 %", 0.05)]:
        text = file(random.Random(1), gaps)
        for _ in range(rounds):
            for part in (of_a_frame, of_a_dataframe):
                for name, wall, spent in part(text):
                    found.setdefault((what, name), []).append((wall, spent))
    for (what, name), times in found.items():
        wall, spent = (statistics.median(some) for some in zip(*times))
        print(f"{what}: {name}: {1000 * wall:.1f} ms, {1000 * spent:.1f} of Python's processor time")


if __name__ == "__main__":
    main()
