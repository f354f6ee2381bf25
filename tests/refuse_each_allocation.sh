#!/usr/bin/env bash
# Runs each test of the modules `refusals` once for each request for memory that it makes, refuses that request, and goes on
# until a run makes no such request. A test then has to end well, having made the refused call again; or its own preparation
# was refused, and it ends with that error. A promise that is broken is a failed assertion.
#
#     tests/refuse_each_allocation.sh [CRATE..]
#
# Needs the Rattle kit and a C compiler, on Linux.
set -euo pipefail
cd "$(dirname "$0")/.."
room=$(mktemp -d)
trap 'rm -rf "$room"' EXIT
cc -O2 -Wall -shared -fPIC -o "$room/watch.so" tests/watch_allocations.c
ulimit -c 0

failed_assertion() { # crate, test, number
    echo "$1 $2: broken where request $3 is refused" >&2
    cat "$room/out" "$room/err" >&2
    exit 1
}

# Refuses the requests of one test in turn.
refuse_in_turn() { # crate, test
    local number=0 prepared=0 status
    while true; do
        number=$((number + 1))
        status=0
        REFUSE=$number LD_PRELOAD="$room/watch.so" "crates/$1/out/$1_tests" "$2" >"$room/out" 2>"$room/err" || status=$?
        if ! grep -q 'a request for memory was refused' "$room/err"; then
            [ "$status" = 0 ] || failed_assertion "$1" "$2" none
            break
        fi
        case $status in
            0) ;;
            101) prepared=$((prepared + 1)) ;;
            *) failed_assertion "$1" "$2" "$number" ;;
        esac
    done
    echo "$1 $2: $((number - 1)) requests refused in turn, $prepared of them of the test's own preparation"
    [ "$prepared" -lt $((number - 1)) ] || { echo "$1 $2: no call of it was refused memory, so it shows nothing" >&2; exit 1; }
}

crates=("$@")
[ $# -gt 0 ] || crates=(table_tests term_tests sky_tests core_tests share_tests script_tests)
. tests/built_tests.sh
for crate in "${crates[@]}"; do
    build_tests "$crate" refusals
    for name in $("crates/$crate/out/${crate}_tests" --list | sed -n 's/\(.*refusals::.*\): test$/\1/p'); do
        refuse_in_turn "$crate" "$name"
    done
done
