#!/usr/bin/env python3
"""Measures how long CSV files take to read, beside pandas: `Frame.from_csv` of 65,536 rows of ten columns, and `python -m prefq ask` of a million rows.

    PYTHONPATH=python/src /usr/bin/python3 bench/files.py [ROUNDS]

Needs the built library, and pandas. Each figure is a median of the processor time of Python and of the program that it starts; a ratio is the median of those to
the time that pandas.read_csv takes for the same file right before. Of `ask` the peak memory is printed too, beside that of a Python that has only imported prefq.
"""
import datetime
import os
import random
import resource
import statistics
import subprocess
import sys
import tempfile
from pathlib import Path
from unittest.mock import patch

ROWS, MILLION = 65_536, 1_000_000
# What is done for many cells at once, and the functions that find it out.
STANDING, CUT, COLUMNS, KNOWN = "prefq.standing.lines_of", "prefq.reading.plain_chunk", "prefq.loading.plain_column", "prefq.loading.Known.part"
WITHOUT = {"rows as they stand": [STANDING], "lines that are cut at their delimiters, and so none of these": [CUT], "plain columns together, and none of the first": [STANDING, COLUMNS],
           "texts that are known": [KNOWN], "all of these": [STANDING, CUT, COLUMNS, KNOWN]}
TOWNS = ["Lyon", "Köln", "Bern", "New York", "Paris"]


def numbers(chance):
    return [str(chance.randrange(10**6)) for _ in range(10)]


def numbers_with_gaps(chance):
    return ["" if chance.random() < 0.05 else cell for cell in numbers(chance)]


def decimals(chance):
    return [f"{chance.uniform(0, 1000):.2f}" for _ in range(10)]


def mixed(chance):
    cells = [f"Hotel {chance.randrange(10**6)}", chance.choice(TOWNS), f"{chance.uniform(30, 400):.2f}", chance.choice(["3", "3.5", "4", "4.5"]), f"{chance.expovariate(0.4):.1f}",
             str(datetime.date(1950, 1, 1) + datetime.timedelta(days=chance.randrange(27_000))), chance.choice(["yes", "no"]), str(chance.randrange(500)),
             str(chance.randrange(-1000, 100_000)), str(chance.randrange(1950, 2026))]
    return ["" if place in (2, 3, 4, 9) and chance.random() < 0.05 else cell for place, cell in enumerate(cells)]


def hotels(chance):
    return [f"Hotel number {chance.randrange(10**7)}", chance.choice(TOWNS[:3]), f"{chance.uniform(30, 400):.2f}", chance.choice(["3", "3.5", "4", "4.5"]), f"{chance.expovariate(0.4):.1f}",
            str(chance.randrange(500))]


def write(path, row, rows):
    """Writes a file of so many rows."""
    chance = random.Random(5)
    width = len(row(chance))
    with open(path, "w", encoding="utf-8") as file:
        file.write(",".join(f"c{place}" for place in range(width)) + "\n")
        file.writelines(",".join(row(chance)) + "\n" for _ in range(rows))


def spent():
    """The processor time of this process and of those that it has waited for."""
    used = [resource.getrusage(who) for who in (resource.RUSAGE_SELF, resource.RUSAGE_CHILDREN)]
    return sum(each.ru_utime + each.ru_stime for each in used)


def taken(call):
    begun = spent()
    call()
    return spent() - begun


def beside_pandas(path, rounds, *without):
    """Prints the times of pandas and of from_csv in each round, while these functions of the package find nothing; in a process of its own, since what a process
    has imported counts to the peak of its children."""
    import pandas
    import prefq
    for name in without:
        patch(name, lambda *_: None).start()
    for _ in range(int(rounds)):
        print(taken(lambda: pandas.read_csv(path)), taken(lambda: prefq.Frame.from_csv(path).close()))


def of_pandas(path):
    import pandas
    print(taken(lambda: pandas.read_csv(path)))


def run(*words):
    """What this script prints with these words."""
    done = subprocess.run([sys.executable, __file__, *map(str, words)], stdout=subprocess.PIPE, check=True, encoding="utf-8")
    return [list(map(float, line.split())) for line in done.stdout.splitlines()]


def child(*words):
    """The processor time and the peak memory of a Python with these words, and of what it starts."""
    popen = subprocess.Popen([sys.executable, *words], stdout=subprocess.DEVNULL)
    _, status, used = os.wait4(popen.pid, 0)
    popen.returncode = 0
    assert status == 0
    return used.ru_utime + used.ru_stime, used.ru_maxrss * 1024


def shown(what, pairs):
    ratio = statistics.median(ours / theirs for theirs, ours in pairs)
    theirs, ours = (statistics.median(some) for some in zip(*pairs))
    print(f"{what}: {ours:.3f} s, pandas.read_csv {theirs:.3f} s, ratio {ratio:.2f}", flush=True)


def main():
    rounds = int(sys.argv[1]) if len(sys.argv) > 1 else 9
    with tempfile.TemporaryDirectory() as folder:
        path = Path(folder, "file.csv")
        for what, row in [("whole numbers", numbers), ("whole numbers, 5 % missing", numbers_with_gaps), ("decimals", decimals), ("mixed", mixed)]:
            write(path, row, ROWS)
            shown(f"from_csv, {ROWS} rows of ten columns, {what}", run("beside-pandas", path, rounds))
            for left_out, functions in WITHOUT.items() if what in ("whole numbers", "mixed") else ():
                shown(f"  without {left_out}", run("beside-pandas", path, rounds, *functions))
        own = statistics.median(child("-c", "import prefq")[1] for _ in range(3))
        for what, row, question in [("ten columns of whole numbers", numbers, "best low(c1) * low(c2)"), ("six columns of hotels", hotels, "best low(c2) * high(c3) * low(c4)")]:
            write(path, row, MILLION)
            pairs, peaks = [], []
            for _ in range(rounds // 2 + 1):
                [[theirs]] = run("of-pandas", path)
                ours, peak = child("-m", "prefq", "ask", str(path), question, "--csv")
                pairs.append((theirs, ours))
                peaks.append(peak - own)
            size = path.stat().st_size
            shown(f"ask, a million rows, {what}, {size / 1e6:.0f} MB", pairs)
            print(f"  peak memory beside Python's own: {statistics.median(peaks) / 1e6:.0f} MB, {statistics.median(peaks) / size:.2f} of the file")


if __name__ == "__main__":
    if sys.argv[1:2] == ["beside-pandas"]:
        beside_pandas(*sys.argv[2:])
    elif sys.argv[1:2] == ["of-pandas"]:
        of_pandas(sys.argv[2])
    else:
        main()
