#!/usr/bin/env python3
"""Shows how the time of a `prefq` grows from 1,024 to 65,536 rows, beside the plain Rust program.

    growth.py PREFQ_BINARY [--svg FILE] [--instructions] [--only WORD] [--most SECONDS] [--rounds N] [--sqlite] [--against WAY]

Runs each growing workload at each size, and prints a table in Markdown: the processor time of the whole process (the median of
the rounds) at each size, then by what power of the number of rows it grows over the last three doublings, and then prefq_rs and
prefq_rs --sharp at the largest size that each reached. `--svg` writes the same as a plot, one small one for each workload.
`--instructions` counts instructions by callgrind in place of time: no noise, but slow, so give it `--only` or an evening.
A workload is not run at a larger size once a run took more than `--most` seconds of processor time (20 where not said).
`--against known` (or fast, rescan, plain) puts that way of prefq_rs in the place of --sharp.
`--sqlite` adds what sqlite in memory takes for a skyline by `NOT EXISTS`: the query alone, the table is there already."""
import argparse
import math
import sqlite3
import statistics
import threading
import time

import plot
import runs
import workloads

LAST = 3  # doublings


class Measured:
    """What each way took at each size that it reached."""

    def __init__(self, args):
        self.args = args
        self.binary = runs.program(args.binary)
        self.ways = {"prefq": [self.binary], "prefq_rs": [runs.PREFQ_RS], f"prefq_rs --{args.against}": [runs.PREFQ_RS, "--" + args.against]}

    def cost(self, command, script, play):
        """Seconds, or millions of instructions; None where it takes too long or fails."""
        words = [*command, "play", *play]
        if self.args.instructions:
            count = runs.count_all({"": (words, script)}, self.args.most)[""]
            return count and count / 1e6
        taken = []
        for _ in range(self.args.rounds):
            run = runs.run(words, script, runs.SLACK * self.args.most, self.args.most)
            if run.stopped or run.fault:
                return None
            taken.append(run.processor)
        return statistics.median(taken)

    def of(self, name):
        """Each way with its costs by size, from the smallest size up to the last that it reached."""
        found = {way: {} for way in self.ways}
        going = set(self.ways)
        for size in workloads.SIZES:
            script, play = workloads.write(runs.WORK, f"{name}-{size}")
            for way in self.ways:
                cost = self.cost(self.ways[way], script, play) if way in going else None
                if cost is None:
                    going.discard(way)
                else:
                    found[way][size] = cost
        if self.args.sqlite and name.startswith("sky-"):
            found["sqlite"] = sqlite_costs(name, self.args.most)
        return {way: costs for way, costs in found.items() if costs}


def sqlite_cost(kind, d, size, most):
    """Seconds of a skyline by NOT EXISTS over a table in memory, or None where it takes too long."""
    columns = workloads.names(d)
    base = sqlite3.connect(":memory:", check_same_thread=False)
    base.execute(f"create table t ({', '.join(f'{c} integer' for c in columns)})")
    base.executemany(f"insert into t values ({', '.join('?' * d)})", workloads.points(kind, size, d))
    no_worse = " and ".join(f"o.{c} <= t.{c}" for c in columns)
    better = " or ".join(f"o.{c} < t.{c}" for c in columns)
    stop = threading.Timer(most, base.interrupt)
    stop.start()
    start = time.process_time()
    try:
        base.execute(f"select count(*) from t where not exists (select 1 from t o where {no_worse} and ({better}))").fetchone()
        return time.process_time() - start
    except sqlite3.OperationalError:
        return None
    finally:
        stop.cancel()
        base.close()


def sqlite_costs(name, most):
    _, kind, d = name.split("-")
    costs = {}
    for size in workloads.SIZES:
        cost = sqlite_cost(kind, int(d[1:]), size, most)
        if cost is None:
            break
        costs[size] = cost
    return costs


def power(costs):
    """By what power of the number of rows the cost grows over the last doublings."""
    sizes = sorted(costs)[-LAST - 1:]
    if len(sizes) < 2:
        return None
    return math.log(costs[sizes[-1]] / costs[sizes[0]]) / math.log(sizes[-1] / sizes[0])


def text_of(cost, args):
    if cost is None:
        return ""
    if args.instructions:
        return f"{cost:,.0f}" if cost >= 10 else f"{cost:.1f}"
    return f"{cost:.1f} s" if cost >= 9.95 else f"{cost:.2f} s" if cost >= 0.995 else f"{cost * 1e3:.0f} ms" if cost >= 0.01 else f"{cost * 1e3:.1f} ms"


def row_of(name, found, args):
    ours = found.get("prefq", {})
    grows = power(ours)
    cells = [name, *(text_of(ours.get(size), args) for size in workloads.SIZES), f"{grows:.1f}" if grows is not None else ""]
    for way in ("prefq_rs", f"prefq_rs --{args.against}", *(["sqlite"] if args.sqlite else [])):
        costs = found.get(way, {})
        largest = max(costs, default=None)
        note = "" if largest in (None, workloads.SIZES[-1]) else f" ({largest:,} rows)"
        cells.append(text_of(costs.get(largest), args) + note)
    return "| " + " | ".join(cells) + " |"


def main():
    parser = argparse.ArgumentParser(description=__doc__, formatter_class=argparse.RawDescriptionHelpFormatter)
    parser.add_argument("binary")
    parser.add_argument("--svg")
    parser.add_argument("--instructions", action="store_true")
    parser.add_argument("--only", default="")
    parser.add_argument("--most", type=int, default=20)
    parser.add_argument("--rounds", type=int, default=3)
    parser.add_argument("--sqlite", action="store_true")
    parser.add_argument("--against", choices=runs.WAYS, default="sharp")
    args = parser.parse_args()
    runs.build()
    measured = Measured(args)
    ways = ["prefq_rs", "--" + args.against, *(["sqlite"] if args.sqlite else [])]
    heads = ["workload", *(f"{size:,}" for size in workloads.SIZES), "power", *ways]
    print("| " + " | ".join(heads) + " |\n|" + "---|" * len(heads), flush=True)
    panels = {}
    for name in workloads.GROWING:
        if args.only in name:
            panels[name] = measured.of(name)
            print(row_of(name, panels[name], args), flush=True)
    if args.svg:
        with open(args.svg, "w") as file:
            file.write(plot.svg(panels, workloads.SIZES, "Mi" if args.instructions else "s"))


if __name__ == "__main__":
    main()
