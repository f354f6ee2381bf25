#!/usr/bin/env python3
"""Measures questions of examples/hotels.csv a thousand times over, in 20 files whose columns have several kinds, as they stand: gaps, texts, prices with and without cents.

    PYTHONPATH=python/src python3 bench/hotels.py [PROCESSES]

Needs the built library. Times are processor times of this process and its workers, and wall time, which says something only beside the load that is printed.
"""
import os
import resource
import sys
import tempfile
import time
from concurrent.futures import ProcessPoolExecutor, ThreadPoolExecutor
from contextlib import nullcontext
from pathlib import Path

from prefq.parts import best

FOLDER = Path(__file__).resolve().parent.parent / "examples"
sys.path.append(str(FOLDER / "cluster"))
import cluster

FILES = 20
COPIES = 1000
QUESTIONS = ['best low("Price (EUR)") * low("Distance (km)")', 'top_level 2 low("Price (EUR)") * high(Stars) by City', 'at_least 40 high(Stars) & low("Price (EUR)")']


def processor():
    """Seconds of a processor of this process and of its workers that have ended."""
    return sum(sum(resource.getrusage(who)[:2]) for who in (resource.RUSAGE_SELF, resource.RUSAGE_CHILDREN))


def main(processes=4):
    cluster.COPIES = COPIES // FILES
    with tempfile.TemporaryDirectory() as folder:
        cluster.make(folder, FILES)
        files = sorted(Path(folder).glob("*.csv"))
        for engine, made in (("one after the other", nullcontext), ("threads", ThreadPoolExecutor), ("processes", lambda: ProcessPoolExecutor(processes))):
            for question in QUESTIONS:
                before, begun = processor(), time.perf_counter()
                with made() as pool:
                    answer = best(files, question, map=pool.map if pool else map)
                print(f"{question}, {len(answer)} rows, {engine}: {processor() - before:.2f} s of a processor, wall {time.perf_counter() - begun:.2f} s "
                      f"at a load of {os.getloadavg()[0]:.0f}", flush=True)


if __name__ == "__main__":
    main(*map(int, sys.argv[1:]))
