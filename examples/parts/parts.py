#!/usr/bin/env python3
"""Asks a question of a CSV file that has more rows than one table holds: `prefq.parts` cuts it into parts, and asks them. Ids are the file's row numbers, from
1 on.

    python3 examples/parts/parts.py FILE.csv 'best low(price) * low(dist)'
    python3 examples/parts/parts.py --check [ROWS]      # over this number of random rows (200,000): compares with a plain program
"""
import random
import sys
from concurrent.futures import ThreadPoolExecutor
from pathlib import Path

sys.path.insert(0, str(Path(__file__).resolve().parent.parent.parent / "python/src"))
import prefq
from prefq.parts import Partition, best

PART = 50_000


def answer(columns, rows, question):
    """The answer over all rows, part by part, on all processors: each part is asked on a thread."""
    parts = [Partition(columns, rows[begin:begin + PART]) for begin in range(0, len(rows), PART)]
    with ThreadPoolExecutor() as pool:
        return best(parts, question, map=pool.map)


def plain(rows, over, group, levels, least):
    """The same by a plain program: what is not over by any row, again and again, in each group."""
    found = []
    for key in sorted({group(row) for row in rows}):
        left = sorted((row, id) for id, row in enumerate(rows, 1) if group(row) == key)
        level = count = 0
        while left and level < levels and count < least:
            level += 1
            front, rest = [], []
            for row, id in left:
                (rest if any(over(other, row) for other, _ in front) else front).append((row, id))
            found += [(level, id) for _, id in front]
            count += len(front)
            left = rest
    return sorted(found)


def check(count):
    """Compares with the plain program: a skyline, levels, groups and a count."""
    chance = random.Random(1)
    rows = [(chance.randint(0, 100_000), chance.randint(0, 100_000), chance.randint(1, 5)) for _ in range(count)]
    pareto = lambda a, b: a[0] <= b[0] and a[1] <= b[1] and a[:2] != b[:2]
    everyone, city, no_end = lambda row: 0, lambda row: row[2], float("inf")
    wrong = 0
    for question, wanted in [
        ("best low(price) * low(dist)", (pareto, everyone, 1, no_end)),
        ("top_level 3 low(price) * low(dist)", (pareto, everyone, 3, no_end)),
        ("best low(price) * low(dist) by city", (pareto, city, 1, no_end)),
        ("at_least 40 low(price) * low(dist)", (pareto, everyone, no_end, 40)),
    ]:
        found = answer(["price", "dist", "city"], rows, question)
        same = [(row.level, row.id) for row in found] == plain(rows, *wanted)
        wrong += not same
        print(f"{question}: {len(found)} rows of {count}, {'the same as' if same else 'OTHER THAN'} by the plain program")
    return wrong == 0


def main(file, *rest):
    if file == "--check":
        sys.exit(0 if check(int(rest[0]) if rest else 200_000) else 1)
    try:
        print(best([file], rest[0]).to_csv(), end="")
    except (prefq.Error, OSError, ValueError) as why:
        sys.exit(str(why))


if __name__ == "__main__":
    if len(sys.argv) < 3 and sys.argv[1:] != ["--check"]:
        sys.exit(__doc__)
    main(*sys.argv[1:])
