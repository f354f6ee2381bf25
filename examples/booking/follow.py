#!/usr/bin/env python3
"""The best offers of a file of SQLite, shown anew whenever any program changes them.

    python3 examples/booking/follow.py offers.db [--question QUESTION] [--once]

Where the file is not there, it is made with some offers. Needs the package `prefq`: `pip install dist/prefq-*.whl`, or PYTHONPATH=python/src with
the library built.
"""
import argparse
import sqlite3
import time
from contextlib import closing
from pathlib import Path

import prefq
from booking import KINDS, QUESTIONS, make

SECONDS = 0.2


def show(frame, question):
    """Shows the answer, and returns the place as of which it is."""
    answer = frame.best(question)
    print(f"\n{question}, at {answer.at}\n{answer}", flush=True)
    return answer.at


def main():
    parser = argparse.ArgumentParser(description="The best offers of a file of SQLite.")
    parser.add_argument("file", type=Path)
    parser.add_argument("--question", default=QUESTIONS[1])
    parser.add_argument("--once", action="store_true", help="end after the first answer")
    given = parser.parse_args()
    make(given.file)
    with closing(sqlite3.connect(given.file)) as db, prefq.Frame.follow(db, "offers", kinds=KINDS) as frame:
        seen = show(frame, given.question)
        while not given.once:
            time.sleep(SECONDS)
            if frame.refresh() != seen:
                seen = show(frame, given.question)


if __name__ == "__main__":
    try:
        main()
    except KeyboardInterrupt:
        pass
