#!/usr/bin/env python3
"""Shows what a change and a get cost, at any age of a table whose rows come and go, in one thread and on a board.

    ages.py PREFQ_BINARY [--instructions] [--rounds N]

Prints
- the cost of a change after so many changes (random deletes and inserts in 30,000 slots, 7/8 of them in use): of 100,000 more
  changes, less what the script without these takes; by `play`, by `threads`, and the ratio threads/play;
- the cost of a get of a row at its home, of one that had to move, of a deleted id and of one that was never given, in ratio to the first.
Costs are microseconds of processor time, the medians of the rounds (5 where not said), and with `--instructions` numbers of
instructions, by callgrind: no noise, a few minutes."""
import argparse
import statistics

import runs
import workloads

MOST = 600
KINDS = {"home": "a row at its home", "moved": "a row that had to move", "deleted": "a deleted id", "never": "an id that was never given"}


class Costs:
    """The costs of whole scripts, by workload and word: `play` or `threads`."""

    def __init__(self, args, names):
        self.binary, self.rounds = runs.program(args.binary), args.rounds
        self.jobs = {}
        for name in names:
            script, play = workloads.write(runs.WORK, name)
            for word in ("play", "threads"):
                self.jobs[name, word] = [self.binary, word, *play], script
        self.costs = runs.count_all(self.jobs, MOST) if args.instructions else self.times()

    def times(self):
        """Microseconds; the rounds go over all scripts in turn."""
        taken = {job: [] for job in self.jobs}
        for _ in range(self.rounds):
            for job, (command, script) in self.jobs.items():
                run = runs.run(command, script, MOST)
                taken[job].append(None if run.stopped or run.fault else run.processor * 1e6)
        return {job: None if None in each else statistics.median(each) for job, each in taken.items()}

    def each(self, name, without, word, times):
        """What each of so many commands costs that one script has beside another."""
        whole, part = self.costs[name, word], self.costs[without, word]
        return None if whole is None or part is None else (whole - part) / times


def number(value):
    return "-" if value is None else f"{value:,.0f}" if value >= 100 else f"{value:.2f}"


def ratio(over, under):
    return number(over / under) if over and under and under > 0 else "-"


def print_changes(costs, unit):
    print(f"| {unit} a change, after | play | threads | threads/play |\n|---|---|---|---|")
    for age in workloads.AGES:
        names = f"churn-after-{age + workloads.SAMPLE}", f"churn-after-{age}"
        play, threads = (costs.each(*names, word, workloads.SAMPLE) for word in ("play", "threads"))
        print(f"| {age:,} changes | {number(play)} | {number(threads)} | {ratio(threads, play)} |")


def print_gets(costs, unit):
    print(f"\n| {unit} a get of | play | to the first | threads | to the first |\n|---|---|---|---|---|")
    found = {kind: [costs.each(f"gets-{kind}", "gets-none", word, workloads.GETS) for word in ("play", "threads")] for kind in KINDS}
    for kind, (play, threads) in found.items():
        print(f"| {KINDS[kind]} | {number(play)} | {ratio(play, found['home'][0])} | {number(threads)} | {ratio(threads, found['home'][1])} |")


def main():
    parser = argparse.ArgumentParser(description=__doc__, formatter_class=argparse.RawDescriptionHelpFormatter)
    parser.add_argument("binary")
    parser.add_argument("--instructions", action="store_true")
    parser.add_argument("--rounds", type=int, default=5)
    args = parser.parse_args()
    runs.build()
    changes = {f"churn-after-{changes}" for age in workloads.AGES for changes in (age, age + workloads.SAMPLE)}
    costs = Costs(args, sorted(changes) + ["gets-none", *(f"gets-{kind}" for kind in KINDS)])
    unit = "instructions" if args.instructions else "microseconds"
    print_changes(costs, unit)
    print_gets(costs, unit)


if __name__ == "__main__":
    main()
