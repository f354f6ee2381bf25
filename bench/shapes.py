#!/usr/bin/env python3
"""Shows which shapes of data are slow: fronts, one score, ties, few values, groups, in order and shuffled, by PREFQ and by plain Rust.

    shapes.py PREFQ_BINARY [--rows N] [--most SECONDS] [--only WORD] [--blocks] [--windows] [--against WAY]

Prints for each shape and arrival the user time of PREFQ and of prefq_rs --sharp, in ratio to what the load of the same table takes
(the same script without the question), and whether both wrote the same. A short run is made several times, and its time is the mean.
`--against known` (or fast, rescan, plain) puts that way of prefq_rs in the place of --sharp.
`--rows` are at most 65,536, which is the default. A run is stopped after `--most` seconds of processor time (20 where not said), and
its time and ratio are bounds (`>`). `--only` takes the shapes that have the word in their name or their arrival. `--blocks` takes
blocks of 1, 16, 1,024 and all rows in place of 1,024, and `--windows` windows of 1, 64 and all in place of 64."""
import argparse
import os
import tempfile
from statistics import mean

import data_shapes
import runs
import workloads

ENOUGH, ROUNDS = 0.3, 15  # seconds that the runs of a script take together, and how many they are at most
HEADS = ["shape", "arrival", "block", "window", "load ms", "prefq ms", "prefq/load", "{0} ms", "{0}/load", "prefq/{0}", "output"]


def short(number):
    return f"{number:,.{0 if number >= 10 else 1}f}"


class Taken:
    """What a script took: the mean user time, as a lower bound where a run was stopped."""

    def __init__(self, found):
        self.ms = mean(run.user for run in found) * 1e3
        self.bound = any(run.stopped for run in found)
        self.fault = next((run.fault for run in found if run.fault), None)
        self.digest = found[0].digest

    def __str__(self):
        return ("> " if self.bound else "") + short(self.ms)

    def over(self, other):
        """The ratio as text, with the sign of a bound."""
        if self.fault or other.fault or self.bound and other.bound:
            return "-"
        sign = "> " if self.bound else "< " if other.bound else ""
        return sign + short(self.ms / max(other.ms, 0.1))


def taken(command, lines, play, most):
    with tempfile.NamedTemporaryFile("w", dir=runs.WORK, suffix=".txt") as script:
        script.write("\n".join(lines) + "\n")
        script.flush()
        found = []
        while len(found) < ROUNDS and sum(run.processor for run in found) < ENOUGH:
            found.append(runs.run([*command, "play", *play], script.name, runs.SLACK * most, most))
            if found[-1].stopped or found[-1].fault:
                break
    return Taken(found)


def verdict(prefq, other):
    if prefq.fault or other.fault:
        return prefq.fault or other.fault
    if prefq.bound or other.bound:
        return "stopped"
    return "same" if prefq.digest == other.digest else "DIFFERS"


def size(number):
    return "all" if number == workloads.ALL_ROWS else f"{number:,}"


class Measured:
    """What both programs take; each table's load is measured once."""

    def __init__(self, args):
        self.args = args
        self.commands = [runs.program(args.binary)], [runs.PREFQ_RS, "--" + args.against]
        self.loads = {}

    def both(self, lines, play):
        return [taken(command, lines, play, self.args.most) for command in self.commands]

    def load(self, name, arrival):
        rows, _ = data_shapes.SHAPES[name]
        if (rows, arrival) not in self.loads:
            self.loads[rows, arrival] = self.both(workloads.table_of_shape(name, arrival, self.args.rows), workloads.options(self.args.rows))
        return self.loads[rows, arrival]

    def row(self, name, arrival, block, window):
        """A line of the table in Markdown."""
        load, load_of_other = self.load(name, arrival)
        prefq, other = self.both(*workloads.shape(name, arrival, self.args.rows, block, window))
        times = [str(load), str(prefq), prefq.over(load), str(other), other.over(load_of_other), prefq.over(other)]
        return "| " + " | ".join([name, arrival, size(block), size(window), *times, verdict(prefq, other)]) + " |"


def main():
    parser = argparse.ArgumentParser(description=__doc__, formatter_class=argparse.RawDescriptionHelpFormatter)
    parser.add_argument("binary")
    parser.add_argument("--rows", type=int, default=workloads.ALL_ROWS)
    parser.add_argument("--most", type=int, default=20)
    parser.add_argument("--only", default="")
    parser.add_argument("--blocks", action="store_true")
    parser.add_argument("--windows", action="store_true")
    parser.add_argument("--against", choices=runs.WAYS, default="sharp")
    args = parser.parse_args()
    runs.build()
    os.makedirs(runs.WORK, exist_ok=True)
    measured = Measured(args)
    choices = workloads.blocks_and_windows(workloads.BLOCKS if args.blocks else [1024], workloads.WINDOWS if args.windows else [64])
    heads = [head.format("--" + args.against) for head in HEADS]
    print("| " + " | ".join(heads) + " |\n|" + "---|" * len(heads), flush=True)
    for name in data_shapes.SHAPES:
        for arrival in data_shapes.ARRIVALS:
            if args.only in f"{name} {arrival}":
                for block, window in choices:
                    print(measured.row(name, arrival, block, window), flush=True)


if __name__ == "__main__":
    main()
