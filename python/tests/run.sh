#!/usr/bin/env bash
# Runs the tests of the Python package on the built library, or on the one that PREFQ_LIBRARY names.
#
#     python/tests/run.sh [MODULE..]
#
# Takes the system's Python where it has pandas, since other packages of the system are seen by that one alone, else the first python3 of the PATH.
set -euo pipefail
cd "$(dirname "$0")/../.."
export PREFQ_LIBRARY=${PREFQ_LIBRARY:-$PWD/library/out/libprefq.so}
[ -f "$PREFQ_LIBRARY" ] || { echo "$PREFQ_LIBRARY is not there: build it first" >&2; exit 1; }
export PYTHONPATH=$PWD/python/src${PYTHONPATH:+:$PYTHONPATH}
export PYTHONDONTWRITEBYTECODE=1
python=python3
if /usr/bin/python3 -c 'import pandas' 2>/dev/null; then python=/usr/bin/python3; fi
exec "$python" -W error::ResourceWarning python/tests/run.py "$@"
