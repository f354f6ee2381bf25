#!/usr/bin/env python3
"""Compares a program with prefq_rs, prefq_rs --sharp and prefq_rs --known on random scripts; without a program these three ways.

    random_scripts.py [PREFQ_BINARY] [--count N] [--seed N]

Small tables, also sorted, reversed, with few values and with all rows best; random terms, products of three to six keys, groups and
levels; blocks and windows of many sizes; updates beside the scans, and the same question again after them. Stops at the first script
whose outputs differ, and writes it to differs.txt."""
import argparse
import random
import subprocess
import sys

import runs

COLUMNS = "abcdef"


def base(r):
    column = r.choice(COLUMNS)
    around, members = r.randrange(8), f"{r.randrange(4)}, {r.randrange(4)}"
    return r.choice([f"low({column})", f"high({column})", f"around({column}, {around})", f"pos({column}, {members})"])


def term(r, depth):
    if depth == 0 or r.random() < .25:
        return base(r)
    if r.random() < .1:
        return f"-({term(r, depth - 1)})"
    return f"({term(r, depth - 1)} {r.choice('*&')} {term(r, depth - 1)})"


def product(r):
    """Three to six keys, which are of different columns at times."""
    count = r.randrange(3, 7)
    if r.random() < .5:
        return " * ".join(base(r) for _ in range(count))
    return " * ".join(f"{r.choice(['low', 'low', 'high'])}({column})" for column in r.sample(COLUMNS, count))


def rows(r, count, values):
    found = [[r.randrange(values) for _ in COLUMNS] for _ in range(count)]
    arrival = r.choice(["sorted", "reversed", "front", "random", "random"])
    if arrival == "front":
        return [[a, values - a, *others] for a, _, *others in found]
    return found if arrival == "random" else sorted(found, reverse=arrival == "reversed")


def script(r):
    """A script, and the options of `play`."""
    count, values = r.choice([5, 20, 60, 200, 600]), r.choice([2, 4, 10, 1000])
    cap = count + r.randrange(3)
    block, window = r.choice([1, 3, 16, 100, cap, 2000]), r.choice([1, 2, 7, 64, 1000])
    mode = r.choice(["best", "best", "top_level 2", "top_level 5", "top_level 1000", "at_least 7", "at_least 100"])
    asked = product(r) if r.random() < .4 else term(r, r.choice([0, 1, 1, 2, 2, 3]))
    begin = f"as 1 begin {mode} {asked}{r.choice([' by d', ' by c, d', '', ''])}"
    lines = ["table", ",".join(COLUMNS), *(",".join(map(str, row)) for row in rows(r, count, values)), "end", begin]
    blocks = -(-cap // block)
    for _ in range(blocks):
        lines.append("as 1 scan")
        if r.random() < .3:
            lines.append(f"as 2 update {r.randrange(count) + 1} {','.join(str(r.randrange(values)) for _ in COLUMNS)}")
    lines += ["as 1 finish", begin, *["as 1 scan"] * blocks, "as 1 finish"]
    return "\n".join(lines) + "\n", ["--cap", str(cap), "--block", str(block), "--window", str(window)]


def main():
    parser = argparse.ArgumentParser(description=__doc__, formatter_class=argparse.RawDescriptionHelpFormatter)
    parser.add_argument("binary", nargs="?")
    parser.add_argument("--count", type=int, default=1000)
    parser.add_argument("--seed", type=int, default=1)
    args = parser.parse_args()
    runs.build()
    ways = [[runs.PREFQ_RS, *way] for way in ([], ["--sharp"], ["--known"])]
    if args.binary:
        ways.append([runs.program(args.binary)])
    r = random.Random(args.seed)
    for _ in range(args.count):
        text, play = script(r)
        outputs = {subprocess.run([*way, "play", *play], input=text.encode(), capture_output=True, timeout=120).stdout for way in ways}
        if len(outputs) > 1:
            with open("differs.txt", "w") as file:
                file.write(text)
            sys.exit(f"DIFFERS: differs.txt with {' '.join(play)}")
    print(f"{args.count} scripts: the same")


if __name__ == "__main__":
    main()
