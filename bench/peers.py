#!/usr/bin/env python3
"""Compares a `prefq` with other programs that find all levels: deap (Python) and emoa (R), where they are installed.

    peers.py PREFQ_BINARY [--rows N] [--rounds N]

Prints a table in Markdown, a line for each data set: the number of levels; the processor time of the whole process for prefq,
prefq_rs and prefq_rs --sharp, from the text of the table to that of the answer; and what `sortLogNondominated` of deap and
`nds_rank` of emoa take for rows that are there already. Medians of the rounds. All must find as many levels."""
import argparse
import os
import statistics
import subprocess
import time

import runs
import workloads

MOST = 600
SETS = [("ind", 2), ("anti", 2), ("ind", 4), ("anti", 4)]
KINDS = {"ind": "independent", "anti": "anticorrelated"}
EMOA = """
suppressPackageStartupMessages(library(emoa))
rows <- t(as.matrix(read.csv(file("stdin"), header = FALSE)))
storage.mode(rows) <- "double"
taken <- system.time(ranks <- nds_rank(rows))
cat(max(ranks), taken[["user.self"]] + taken[["sys.self"]], "\\n")
"""


def levels_printed(binary, words, script):
    """How many levels an answer has: the greatest level of its lines."""
    with open(script, "rb") as source:
        printed = subprocess.run([binary, *words], stdin=source, capture_output=True, timeout=MOST, check=True).stdout.decode()
    return max(int(line.split()[1]) for line in printed.splitlines() if line.startswith("level "))


def by_program(command, script, rounds):
    taken = [runs.run(command, script, MOST) for _ in range(rounds)]
    if any(run.stopped or run.fault for run in taken):
        return None
    return statistics.median(run.processor for run in taken)


def by_deap(rows, rounds):
    """The levels, and the seconds; None where deap is not installed."""
    try:
        from deap import base, tools
    except ImportError:
        return None

    class Least(base.Fitness):
        weights = (-1.0,) * len(rows[0])

    class Point:
        def __init__(self, row):
            self.fitness = Least(row)

    points = [Point(row) for row in rows]
    taken = []
    for _ in range(rounds):
        start = time.process_time()
        fronts = tools.sortLogNondominated(points, len(points))
        taken.append(time.process_time() - start)
    return len(fronts), statistics.median(taken)


def by_emoa(rows, rounds):
    """The same by emoa."""
    text = "\n".join(",".join(map(str, row)) for row in rows) + "\n"
    printed = []
    for _ in range(rounds):
        try:
            run = subprocess.run(["Rscript", "-e", EMOA], input=text, capture_output=True, text=True, timeout=MOST)
        except (FileNotFoundError, subprocess.TimeoutExpired):
            return None
        if run.returncode:
            return None
        printed.append(run.stdout.split())
    return int(printed[0][0]), statistics.median(float(words[1]) for words in printed)


def milliseconds(seconds):
    return "" if seconds is None else f"{seconds * 1e3:,.0f} ms"


def main():
    parser = argparse.ArgumentParser(description=__doc__, formatter_class=argparse.RawDescriptionHelpFormatter)
    parser.add_argument("binary")
    parser.add_argument("--rows", type=int, default=10_000)
    parser.add_argument("--rounds", type=int, default=5)
    args = parser.parse_args()
    binary = runs.program(args.binary)
    runs.build()
    os.makedirs(runs.WORK, exist_ok=True)
    print("| data | levels | prefq | prefq_rs | --sharp | deap | emoa |\n|---|---|---|---|---|---|---|", flush=True)
    for kind, d in SETS:
        lines, play = workloads.levels("top_level 1000", kind, d, args.rows, 1)
        script = os.path.join(runs.WORK, f"peers-{kind}-{d}.txt")
        with open(script, "w") as file:
            file.write("\n".join(lines) + "\n")
        rows = workloads.points(kind, args.rows, d)
        levels = levels_printed(binary, ["play", *play], script)
        cells = [f"{KINDS[kind]}, {d} columns", str(levels)]
        for way in ([binary], [runs.PREFQ_RS], [runs.PREFQ_RS, "--sharp"]):
            cells.append(milliseconds(by_program([*way, "play", *play], script, args.rounds)))
        for peer in (by_deap, by_emoa):
            found = peer(rows, args.rounds)
            if found and found[0] != levels:
                raise SystemExit(f"{peer.__name__}: {found[0]} levels, not {levels}")
            cells.append(milliseconds(found and found[1]))
        print("| " + " | ".join(cells) + " |", flush=True)


if __name__ == "__main__":
    main()
