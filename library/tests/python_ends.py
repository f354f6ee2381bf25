#!/usr/bin/env python3
"""Ends Python while daemon threads are in the middle of calls of libprefq.so, many times: it ends with status 0, at once, and says nothing.

    python_ends.py LIBRARY"""
import subprocess
import sys
from pathlib import Path

TIMES = 30
PROGRAM = """
import sys, threading, time
sys.path.insert(0, sys.argv[2])
import binding
library = binding.load(sys.argv[1])
text = b"a,b\\n" + b"".join(b"%d,%d\\n" % (i * 7919 % 5000, i * 104729 % 5000) for i in range(5000))
tables = [binding.Table(library, text, 2, capacity=10000) for _ in range(3)]
def work(number):
    while True:
        tables[number % 3].ask(b"top_level 20 low(a) * low(b)", number + 1)
        tables[number % 3].update(1 + number, [number, number])
for number in range(8):
    threading.Thread(target=work, args=[number], daemon=True).start()
time.sleep(float(sys.argv[3]))
if sys.argv[4] == "end":
    for table in tables:
        library.prefq_end(table._table)
"""


def main():
    for time in range(TIMES):
        words = [sys.executable, "-c", PROGRAM, sys.argv[1], str(Path(__file__).parent), str(time / 200), ("leave", "end")[time % 2]]
        done = subprocess.run(words, stdout=subprocess.PIPE, stderr=subprocess.PIPE, timeout=60, check=False)
        # A thread whose table was ended may say so.
        said = done.stdout + (done.stderr if time % 2 == 0 else b"")
        if done.returncode or said:
            sys.exit(f"Python ended with status {done.returncode}: {(done.stdout + done.stderr).decode()}")
    print(f"Python ended well {TIMES} times beside 8 daemon threads in calls")


main()
