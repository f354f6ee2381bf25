#!/usr/bin/env bash
# Builds libprefq.so and tests it: from C, as an ordinary program and under sanitizers; from Python; against the program `prefq`; and by the examples.
#
#     library/tests/run.sh [COUNT]
#
# COUNT is how many random scripts are compared with `prefq play`, 400 if it is not given. Needs the Rattle kit, the built program (or another in
# PREFQ_PROGRAM), a C compiler and Python 3.9, on Linux; the example in Rust is tried where rustc is installed.
set -euo pipefail
cd "$(dirname "$0")/../.."
export PYTHONDONTWRITEBYTECODE=1
program=${PREFQ_PROGRAM:-crates/prefq/out/prefq}
library/build.sh
library/out/calls
library/out/calls_watched
library/out/calls_raced --threads
library/out/calls --stack
library/out/hotels | diff library/examples/hotels.txt -
if command -v rustc >/dev/null; then
    rustc --edition 2021 -L library/out -l prefq -C 'link-args=-Wl,-rpath,$ORIGIN' -o library/out/hotels_rs library/examples/hotels.rs
    library/out/hotels_rs | diff <(printf '%s\n' 'hotel 4 is new' 'hotel 1 at 50, 8 minutes away' 'hotel 4 at 55, 1 minutes away' 'unknown column at 9') -
else
    echo "skipped: the example in Rust, since rustc is not installed"
fi
python3 library/tests/python_ends.py library/out/libprefq.so
python3 library/tests/campaign.py library/out/libprefq.so "$program" --count "${1:-400}"
