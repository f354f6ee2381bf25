#!/usr/bin/env python3
"""Measures reads beside a writer: the proved program `readers_speed` and plain Rust (`readers_rs`), alternately.

    readers.py READERS_SPEED_BINARY [--rounds N] [--milliseconds N] [--first]

Both have 40,000 rows in 65,536 slots, get rows of random ids and look at all numbers of each. Clients of `readers_speed`
take no lock for it. Threads of `readers_rs` take a `RwLock` round the table; under `index` one thread reads it with no
lock, by its hash index. Prints for each load the median rates in millions a second, and the median, the least and the most of
the ratios of runs that follow one another. The last lines are of a writer alone, and beside a client that scans all the time.
`--first` runs each program by `chrt --rr 1`, so that no other process takes its processors; only root may.
readers_rs is built by cargo where it isn't there yet."""
import argparse
import os
import re
import statistics
import subprocess

HERE = os.path.join(os.path.dirname(os.path.abspath(__file__)), "readers")
READERS_RS = os.path.join(HERE, "target", "release", "readers_rs")

# the words of readers_speed, and those of readers_rs
LOADS = {"4 readers beside a writer": ("4 1 0", "4 1"),
         "3 readers beside a writer": ("3 1 0", "3 1"),
         "4 readers": ("4 0 0", "4 0"),
         "1 reader": ("1 0 0", "1 0"),
         "1 reader, hash index": ("1 0 0", "index")}
SCANS = {"a writer": "0 1 0", "a writer beside a scanner": "0 1 1"}


class Runs:
    def __init__(self, args):
        self.ours, self.rounds, self.milliseconds = os.path.abspath(args.binary), args.rounds, str(args.milliseconds)
        self.first = ["chrt", "--rr", "1"] if args.first else []

    def rates(self, binary, words):
        """How often in a second each thing was done."""
        command = [*self.first, binary, *words.split(), self.milliseconds]
        out = subprocess.run(command, check=True, capture_output=True, text=True).stdout
        return {name: int(rate) for name, rate in re.findall(r"(\w+) a second: (\d+)", out)}

    def pairs(self, words, words_rs):
        """The rates of both programs in each round; which one goes first changes."""
        for turn in range(self.rounds):
            if turn % 2:
                ours = self.rates(self.ours, words)
                yield ours, self.rates(READERS_RS, words_rs)
            else:
                theirs = self.rates(READERS_RS, words_rs)
                yield self.rates(self.ours, words), theirs


def middle(rates, name):
    return statistics.median(rate[name] for rate in rates)


def print_loads(runs):
    print(f"{'':28} {'gets':>8} {'rs':>8} {'ratio':>7} {'least':>7} {'most':>7} {'updates':>9} {'rs':>8}")
    for load, (words, words_rs) in LOADS.items():
        ours, theirs = zip(*runs.pairs(words, words_rs))
        ratios = [mine["Gets"] / rs["Gets"] for mine, rs in zip(ours, theirs)]
        gets = [middle(rates, "Gets") / 1e6 for rates in (ours, theirs)]
        updates = [middle(rates, "Updates") / 1e6 for rates in (ours, theirs)]
        print(f"{load:28} {gets[0]:8.2f} {gets[1]:8.2f} {statistics.median(ratios):7.2f} {min(ratios):7.2f} {max(ratios):7.2f}"
              f" {updates[0]:9.4f} {updates[1]:8.4f}", flush=True)


def print_scans(runs):
    print(f"{'':28} {'updates':>9} {'scans':>8}   a second")
    for load, words in SCANS.items():
        rates = [runs.rates(runs.ours, words) for _ in range(runs.rounds)]
        print(f"{load:28} {middle(rates, 'Updates'):9.0f} {middle(rates, 'Scans'):8.0f}", flush=True)


def main():
    parser = argparse.ArgumentParser(description=__doc__, formatter_class=argparse.RawDescriptionHelpFormatter)
    parser.add_argument("binary")
    parser.add_argument("--rounds", type=int, default=9)
    parser.add_argument("--milliseconds", type=int, default=500)
    parser.add_argument("--first", action="store_true")
    args = parser.parse_args()
    if not os.path.exists(READERS_RS):
        subprocess.run(["cargo", "build", "--release", "--offline"], cwd=HERE, check=True)
    runs = Runs(args)
    print(f"load average {os.getloadavg()[0]:.1f} on {os.cpu_count()} processors")
    print_loads(runs)
    print_scans(runs)
    print(f"load average {os.getloadavg()[0]:.1f}")


if __name__ == "__main__":
    main()
