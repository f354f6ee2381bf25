#!/usr/bin/env python3
"""A wall of tickets: three producers change the table while the skyline of severity and age is asked, and each picture is written.

    python3 examples/live/dashboard.py [FOLDER]       # FOLDER gets picture-1.svg and so on; the pictures as text are printed

It needs the package in python/.
"""
import random
import sys
from pathlib import Path

import prefq

WIDTH, HEIGHT = 320, 200
QUESTION = "best high(severity) * high(minutes)"


def producer(table, name, chance):
    """One change after the other: mostly a new ticket, else one that is worse by now or done."""
    mine = []
    while True:
        values = [chance.randint(1, 9), chance.randint(0, 60)]
        try:
            if mine and chance.random() < 0.4:
                if chance.random() < 0.5:
                    table.update(chance.choice(mine), values)
                else:
                    table.delete(mine.pop(chance.randrange(len(mine))))
            else:
                mine.append(table.insert(values))
        except prefq.Refused as full:
            print(f"producer {name} is refused: {full}")
        yield


def picture(rows, others):
    """The skyline as red dots with a line through them, other tickets as grey ones."""
    def place(row):
        return f"{row.severity * WIDTH // 10},{HEIGHT - row.minutes * HEIGHT // 66}"
    line = " ".join(place(row) for row in sorted(rows, key=lambda row: (row.severity, row.minutes)))
    dots = [("#aaa", row) for row in others] + [("#c00", row) for row in rows]
    circles = "".join('<circle cx="{}" cy="{}" r="4" fill="{}"/>'.format(*place(row).split(","), colour) for colour, row in dots)
    return f'<svg xmlns="http://www.w3.org/2000/svg" width="{WIDTH}" height="{HEIGHT}"><polyline points="{line}" fill="none" stroke="#c00"/>{circles}</svg>\n'


def main(folder=None):
    with prefq.Table(["severity", "minutes"], [[3, 20], [5, 5], [1, 55]], capacity=64, block=16) as table:
        producers = [producer(table, name, random.Random(name)) for name in (2, 3, 4)]
        for number in range(1, 6):
            with table.query(QUESTION) as query:
                while query.scan():
                    for change in producers:
                        next(change)
                skyline = query.answer()
            with table.query(QUESTION.replace("best", "top_level 1000")) as query:
                others = [row for row in query.answer() if row.level > 1]
            print(f"picture {number}:", *(f"ticket {row.id} has severity {row.severity} for {row.minutes} minutes;" for row in skyline))
            if folder:
                Path(folder, f"picture-{number}.svg").write_text(picture(skyline, others))


main(*sys.argv[1:])
