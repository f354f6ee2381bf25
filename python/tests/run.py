"""Runs the tests of this folder, or those of the modules that are named, and says why what is skipped is skipped.

    python3 python/tests/run.py [MODULE..]

A run that stands still ends after half an hour, and later where PREFQ_TEST_SECONDS makes single tests longer.
"""
import faulthandler
import gc
import os
import sys
import unittest
from collections import Counter
from pathlib import Path

HERE = Path(__file__).resolve().parent
LONGEST = 1_800 + 4 * float(os.environ.get("PREFQ_TEST_SECONDS", 0))     # seconds


def main(names):
    sys.path.insert(0, str(HERE))
    faulthandler.dump_traceback_later(LONGEST, exit=True)
    loader = unittest.TestLoader()
    tests = loader.loadTestsFromNames(names) if names else loader.discover(str(HERE))
    # What is loaded stays, so that collections look at what the tests make alone: some tests collect at each of a hundred places.
    gc.freeze()
    result = unittest.TextTestRunner(verbosity=1).run(tests)
    for reason, count in sorted(Counter(why for _, why in result.skipped).items()):
        print(f"skipped: {reason} ({count} tests)")
    sys.exit(0 if result.wasSuccessful() and result.testsRun else 1)


if __name__ == "__main__":
    main(sys.argv[1:])
