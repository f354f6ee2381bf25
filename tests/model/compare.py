#!/usr/bin/env python3
"""Compares the built program with an independent model of the whole product on random scripts, byte for byte, status and all.

    (cd crates/prefq && rt run prefq < stdin)         # builds crates/prefq/out/prefq
    python3 tests/model/compare.py [PROGRAM] [--scripts N] [--first SEED]

The model (table.py, questions.py) is a sequential table in plain Python: it copies the table at each begin, and takes level after level
away from it. Each script is a seed, so a difference can be run again alone: `--first SEED --scripts 1`. Needs Python 3.9.
"""
import argparse
import random
import subprocess
import sys
from pathlib import Path

import table
from scripts import Scripts

PROGRAM = Path(__file__).resolve().parent.parent.parent / "crates/prefq/out/prefq"


def ran(program, words, script):
    done = subprocess.run([program, *map(str, words)], input=script, stdout=subprocess.PIPE, stderr=subprocess.STDOUT, timeout=60)
    return done.stdout.decode(errors="replace"), done.returncode


def difference(program, seed):
    """Where the program and the model differ on the script of this seed, if they do. Each tenth script is run by `live`."""
    scripts = Scripts(random.Random(seed))
    script = scripts.script()
    mode = "live" if seed % 10 == 0 else "play"
    found = ran(program, [mode, *scripts.options()], script)
    wanted = table.play(scripts.clients, scripts.capacity, scripts.block, script)
    if found == wanted:
        return None
    lines = next((pair for pair in zip(found[0].splitlines(), wanted[0].splitlines()) if pair[0] != pair[1]), (found[0][-80:], wanted[0][-80:]))
    return f"seed {seed}: {mode} {' '.join(map(str, scripts.options()))}\n{script.decode()}\nprogram: {lines[0]}\nmodel:   {lines[1]}\nstatus {found[1]} and {wanted[1]}"


def main():
    parser = argparse.ArgumentParser(description=__doc__.splitlines()[0])
    parser.add_argument("program", nargs="?", type=Path, default=PROGRAM)
    parser.add_argument("--scripts", type=int, default=2000)
    parser.add_argument("--first", type=int, default=1)
    given = parser.parse_args()
    if not given.program.is_file():
        sys.exit(f"{given.program} is not there: build it first")
    seeds = range(given.first, given.first + given.scripts)
    differences = [text for text in (difference(given.program.resolve(), seed) for seed in seeds) if text]
    for text in differences[:3]:
        print(text)
    print(f"{len(seeds)} scripts, {len(differences)} differ")
    sys.exit(1 if differences else 0)


main()
