#!/usr/bin/env bash
# The quick checks, for every change: see tests/run.py.
exec python3 "$(dirname "$0")/run.py" quick "$@"
