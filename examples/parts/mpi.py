#!/usr/bin/env python3
"""Asks a question of all CSV files of a folder on the processes of MPI.

    mpiexec -n 5 python3 -m mpi4py.futures examples/parts/mpi.py FOLDER 'best low(price) * low(dist)'      # one process leads, four work

Needs mpi4py (Debian: python3-mpi4py) and the package `prefq` on each machine.
"""
import sys
from pathlib import Path

from mpi4py.futures import MPIPoolExecutor

import prefq
from prefq.parts import best


def main(folder, question):
    files = sorted(Path(folder).glob("*.csv"))
    with MPIPoolExecutor() as pool:
        try:
            print(best(files, question, map=pool.map).to_csv(), end="")
        except prefq.Error as why:
            sys.exit(str(why))


if __name__ == "__main__":
    main(*sys.argv[1:])
