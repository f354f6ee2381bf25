#!/usr/bin/env bash
# Shows that a begin makes no more requests for memory than an abandon: counts those of each call over the rounds of share_tests'
# test `rounds_of_begin_and_abandon`, whose table has rows, and compares the least of a begin with the least of an abandon.
#
#     tests/count_begin_and_abandon.sh
#
# Needs the Rattle kit and a C compiler, on Linux.
set -euo pipefail
cd "$(dirname "$0")/.."
room=$(mktemp -d)
trap 'rm -rf "$room"' EXIT
cc -O2 -Wall -shared -fPIC -o "$room/watch.so" tests/watch_allocations.c
. tests/built_tests.sh
build_tests share_tests rounds
COUNT=1 LD_PRELOAD="$room/watch.so" crates/share_tests/out/share_tests_tests rounds::rounds_of_begin_and_abandon >"$room/counts"

# The numbers of requests that stand before this word, the least first.
counts() { # word
    sed -n "s/^\([0-9]*\) $1\$/\1/p" "$room/counts" | sort -n
}

# The least of the 20.
least() { # word
    [ "$(counts "$1" | wc -l)" = 20 ] || { echo "$1 is not counted 20 times" >&2; exit 1; }
    counts "$1" | sed -n 1p
}

[ "$(counts opened)" -gt 0 ] || { echo 'the requests of an opening are not counted' >&2; exit 1; }
begin=$(least begun)
abandon=$(least abandoned)
echo "the least number of requests for memory: $begin of a begin, $abandon of an abandon"
[ "$begin" -le "$abandon" ]
