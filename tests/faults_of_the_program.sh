#!/usr/bin/env bash
# Shows what the program says and how it ends where its input or output fails, or has too many bytes or rows, and that `threads` gives each
# client's lines.
#
#     (cd crates/prefq && rt run prefq < stdin) && tests/faults_of_the_program.sh [PROGRAM]
#
# Needs Linux, for /dev/full.
set -euo pipefail
cd "$(dirname "$0")/.."
prefq=${1:-crates/prefq/out/prefq}
room=$(mktemp -d)
trap 'rm -rf "$room"' EXIT

# Runs the program on an input, and compares its output and its status.
expect() { # status output input words..
    local status=0 said
    said=$("$prefq" "${@:4}" <"$3") || status=$?
    [ "$status $said" = "$1 $2" ] || { echo "${*:4} < $3: status $status, output: $said" >&2; exit 1; }
}

printf 'table\nx\n3\nend\nas 2 get 1\nas 1 get 1\nas 2 room\n' >"$room/script"
head -c 16777217 /dev/zero | tr '\0' '\n' >"$room/large"
printf 'as 1 room\n' >"$room/headless"
{ printf 'table\nx\n'; seq 65537; printf 'end\n'; } >"$room/rows"
{ printf 'table\nx\nend\n'; head -c 16777204 /dev/zero | tr '\0' ' '; } >"$room/largest"
{ cat "$room/largest"; printf ' '; } >"$room/one_more"

for mode in play threads; do
    expect 1 'fault: too large' "$room/large" $mode
    expect 0 '' "$room/largest" $mode
    expect 1 'fault: too large' "$room/one_more" $mode
done
for mode in play live threads; do
    expect 1 'fault: read' "$room" $mode
    expect 2 'table refused 8: too many rows' "$room/rows" $mode
    expect 2 'script refused: no table' "$room/headless" $mode
    status=0
    "$prefq" $mode <"$room/script" >/dev/full || status=$?
    [ "$status" = 1 ] || { echo "$mode: a full disk ends with status $status" >&2; exit 1; }
done
expect 2 'script refused: no table' "$room/large" live
expect 0 $'2 row 1: 3\n1 row 1: 3\n2 room 1023' "$room/script" live
expect 0 $'2 row 1: 3\n1 row 1: 3\n2 room 1023' "$room/script" play
expect 0 $'1 row 1: 3\n2 row 1: 3\n2 room 1023' "$room/script" threads
expect 2 'arguments refused' "$room/script" jump 2>"$room/errors"
grep -q "'jump'" "$room/errors" || { echo "standard error does not name the word jump: $(cat "$room/errors")" >&2; exit 1; }
echo 'the program ends as it should'
