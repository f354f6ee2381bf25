#!/usr/bin/env bash
# All tests, before a merge: see tests/run.py.
exec python3 "$(dirname "$0")/run.py" all "$@"
