#!/usr/bin/env bash
# Tries the wrong edits that the test command leaves out, tests/must-fail/CRATE/NAME.edit: the prover must refuse each. For a release, and for
# the crates whose code or definitions a change touches: each crate is proved from nothing, and an edit takes half a minute.
#
#     tests/wrong_edits.sh [CRATE..]
#
# It works on a copy, so nothing of the repository changes; what earlier checks kept in out/ spares the proofs of the crates below.
set -euo pipefail
cd "$(dirname "$0")/.."
[ $# -gt 0 ] || set -- $(ls tests/must-fail)
room=$(mktemp -d)
trap 'rm -rf "$room"' EXIT
cp -a --reflink=auto crates crates.txt HANDLES "$room"
for crate in "$@"; do
    rm -rf "$room/crates/$crate/must-fail"
    cp -a "tests/must-fail/$crate" "$room/crates/$crate/must-fail"
done
cd "$room"
rt must-fail "$@"
