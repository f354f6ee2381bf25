#!/usr/bin/env python3
"""Asks a question of all CSV files of a folder, on the processors of this machine.

    python3 examples/parts/pool.py FOLDER 'best low(price) * low(dist)' [PROCESSES]

Needs the package `prefq` (`pip install dist/prefq-*.whl`). The files have the same columns; ids are row numbers over all files, in order of name.
"""
import sys
from concurrent.futures import ProcessPoolExecutor
from pathlib import Path

import prefq
from prefq.parts import best


def main(folder, question, processes=None):
    files = sorted(Path(folder).glob("*.csv"))
    with ProcessPoolExecutor(processes and int(processes)) as pool:
        try:
            print(best(files, question, map=pool.map).to_csv(), end="")
        except prefq.Error as why:
            sys.exit(str(why))


if __name__ == "__main__":
    main(*sys.argv[1:])
