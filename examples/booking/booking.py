#!/usr/bin/env python3
"""A booking desk: offers come, go and change their prices, and every browser that watches sees the best ones.

    python3 examples/booking/booking.py [--port 8765] [--still] [--offers 60] [--file OFFERS.db]

Open the address that it prints, in two windows. With `--still` nothing moves but by you; otherwise an offer is repriced each second. With `--file` the offers are
those of a file of SQLite, which any program may change, and which is made where it is not there; the page then shows them, and changes none.
Needs the package `prefq`: `pip install dist/prefq-*.whl`, or PYTHONPATH=python/src with the library built.
"""
import argparse
import random
import sqlite3
import sys
import threading
import time
from contextlib import closing
from pathlib import Path

import prefq
from prefq.desk import Desk
from prefq.follow_desk import FollowedDesk
from prefq.server import Server, run

KINDS = {"Hotel": "text", "Price (EUR)": "decimal(2)", "Distance (m)": "whole", "Rating": "decimal(1)"}
QUESTIONS = [
    'top_level 2 low("Price (EUR)") * low("Distance (m)")',
    'best low("Price (EUR)") * low("Distance (m)") * high(Rating)',
    'best around("Price (EUR)", 90) & high(Rating)',
    'best between("Distance (m)", 0, 1000) & low("Price (EUR)") * high(Rating)',
    'at_least 5 high(Rating) & low("Price (EUR)")',
]
TABLE = """create table offers (id integer primary key, "Hotel" text not null, "Price (EUR)" numeric, "Distance (m)" integer, "Rating" numeric)"""
FIRST = ["Port", "Alpine", "Old Town", "Garden", "Station", "River", "Grand", "Little"]
SECOND = ["Inn", "House", "Hotel", "Lodge", "Rooms", "Palace"]


def offers(count, chance):
    """Some offers: the farther from the centre, the cheaper, more or less."""
    for number in range(1, count + 1):
        distance = round(chance.uniform(100, 6000), -1)
        price = max(35, chance.gauss(160 - distance * 0.012, 35))
        yield {"Hotel": f"{chance.choice(FIRST)} {chance.choice(SECOND)} {number}", "Price (EUR)": round(price, 2), "Distance (m)": int(distance),
               "Rating": chance.randint(20, 50) / 10}


def reprice(desk, count, chance):
    """Changes the price of some offer, each second."""
    while True:
        time.sleep(1)
        try:
            desk.update(chance.randint(1, count), {"Price (EUR)": round(chance.uniform(45, 220), 2)})
        except prefq.Refused:       # that offer is gone
            pass
        except prefq.Ended:         # the desk is closed
            return


def make(path, count=60):
    """Makes a file of SQLite with some offers, where it is not there."""
    if not path.exists():
        with closing(sqlite3.connect(path)) as db, db:
            db.execute(TABLE)
            db.executemany("insert into offers values (null, ?, ?, ?, ?)", (tuple(offer.values()) for offer in offers(count, random.Random(11))))


def followed(path):
    """The desk of the offers in a file."""
    with closing(sqlite3.connect(path)) as db:
        return FollowedDesk(prefq.Frame.follow(db, "offers", kinds=KINDS))


def reprice_in(path, chance):
    """Changes the price of some offer in the file, each second."""
    with closing(sqlite3.connect(path, isolation_level=None)) as db:
        while True:
            time.sleep(1)
            db.execute('update offers set "Price (EUR)" = ? where id = (select id from offers order by random() limit 1)', (round(chance.uniform(45, 220), 2),))


def main():
    parser = argparse.ArgumentParser(description="A booking desk in the browser.")
    parser.add_argument("--port", type=int, default=8765)
    parser.add_argument("--offers", type=int, default=60)
    parser.add_argument("--still", action="store_true", help="no price moves by itself")
    parser.add_argument("--file", type=Path, help="a file of SQLite with a table of offers, which is made where it is not there")
    given = parser.parse_args()
    chance = random.Random(11)
    if given.file:
        make(given.file, given.offers)
    desk = followed(given.file) if given.file else Desk(prefq.Frame.from_records(offers(given.offers, chance), kinds=KINDS))
    try:
        server = Server(desk, port=given.port, title="Hotels worth a look", questions=QUESTIONS, editable=not given.file)
    except OSError as why:
        sys.exit(f"port {given.port}: {why}")
    if not given.still:
        moving = (reprice_in, [given.file, chance]) if given.file else (reprice, [desk, given.offers, chance])
        threading.Thread(target=moving[0], args=moving[1], daemon=True).start()
    run(server)


if __name__ == "__main__":
    main()
