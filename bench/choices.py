#!/usr/bin/env python3
"""Shows what the choice of --block and --window costs, as tables in Markdown.

    choices.py PREFQ_BINARY [--rounds N] [--only WORD]

Each line is a question over a table: processor time and peak memory of the whole process (the medians of 3 rounds, or N), first by
the size of a block with a window of 64, then by the window in blocks of 1,024. As many scans as a query has blocks are put into the script."""
import argparse
import os
import statistics

import runs
import workloads

MOST = 120
SAID = {
    "two": "65,536 rows, a product of 2 unrelated columns",
    "six": "65,536 rows, a product of 6 unrelated columns",
    "opposed": "16,384 rows, 2 columns, the smaller one the larger the other",
    "alike": "65,536 rows that are all the same to the question",
    "factors": "4,096 such rows, a product of 242 factors of which the last two decide",
}


def with_scans(name, block):
    """The script of a choice with a scan for each block; gives its path."""
    slots, _ = workloads.CHOICES[name]
    path, _ = workloads.write(runs.WORK, f"choice-{name}")
    written = os.path.join(runs.WORK, f"choice-{name}-b{block}.txt")
    if not os.path.exists(written):
        with open(path) as file:
            lines = [line for line in file.read().splitlines() if line != "as 1 scan"]
        lines[-1:-1] = ["as 1 scan"] * -(-slots // block)
        with open(written, "w") as file:
            file.write("\n".join(lines) + "\n")
    return written


def measured(binary, name, block, window, rounds):
    """Processor seconds and megabytes, or None where a run takes too long or fails."""
    slots, _ = workloads.CHOICES[name]
    script = with_scans(name, block)
    command = [binary, "play", *workloads.options(slots, block, window)]
    found = [runs.run(command, script, MOST) for _ in range(rounds)]
    if any(run.stopped or run.fault for run in found):
        return None
    return statistics.median(run.processor for run in found), statistics.median(run.megabytes for run in found)


def cell(found):
    return "-" if found is None else f"{found[0]:.2f} s, {found[1]:.0f} MB"


def print_table(head, names, choices, cost):
    print(f"| {head} | " + " | ".join(choices) + " |\n|" + "---|" * (len(choices) + 1), flush=True)
    for name in names:
        slots, _ = workloads.CHOICES[name]
        print(f"| {SAID[name]} | " + " | ".join(cell(cost(name, slots if choice == "all" else int(choice))) for choice in choices) + " |", flush=True)
    print()


def main():
    parser = argparse.ArgumentParser(description=__doc__, formatter_class=argparse.RawDescriptionHelpFormatter)
    parser.add_argument("binary")
    parser.add_argument("--rounds", type=int, default=3)
    parser.add_argument("--only", default="")
    args = parser.parse_args()
    binary = runs.program(args.binary)
    runs.build()
    names = [name for name in workloads.CHOICES if args.only in name]
    print_table("slots of a block", names, ["all", "1024", "64", "1"], lambda name, block: measured(binary, name, block, 64, args.rounds))
    print_table("rows of the window", names, ["1", "64", "1024", "all"], lambda name, window: measured(binary, name, 1024, window, args.rounds))


if __name__ == "__main__":
    main()
