#!/usr/bin/env bash
# Builds library/out/libprefq.so, its tests in C (library/out/calls; calls_watched has AddressSanitizer and UndefinedBehaviorSanitizer, calls_raced has
# ThreadSanitizer), and the example.
#
#     library/build.sh
#
# Needs the Rattle kit and a C compiler, on Linux. The crate prefq_c is proved first, over what is kept of an earlier proof.
set -euo pipefail
cd "$(dirname "$0")/.."
kit=$(dirname "$(dirname "$(readlink -f "$(command -v rt)")")")
(cd crates/prefq_c && rt lib) >&2
proved=(crates/prefq_c/out/libprefq_c.a "$kit/c/liblibc_c.a")
strict=(-std=c11 -Wall -Wextra -Wshadow -Wconversion -pedantic -Werror -pthread)
wrapped=-Wl,--wrap=malloc,--wrap=realloc # by library/c/memory.c
mkdir -p library/out
"${CC:-cc}" "${strict[@]}" -O2 -fPIC -shared -Wl,--version-script=library/prefq.map -Wl,-z,defs "$wrapped" -o library/out/libprefq.so library/c/*.c "${proved[@]}"
tests() { # name, flags
    "${CC:-cc}" "${strict[@]}" "${@:2}" "$wrapped",--wrap=calloc -o "library/out/$1" library/tests/*.c library/c/*.c "${proved[@]}"
}
tests calls -O2
tests calls_watched -O1 -g -DWATCHED -fsanitize=address,undefined -fno-sanitize-recover=undefined
tests calls_raced -O1 -g -DWATCHED -fsanitize=thread
"${CC:-cc}" "${strict[@]}" -O2 -Ilibrary/include -o library/out/hotels library/examples/hotels.c -Llibrary/out -lprefq '-Wl,-rpath,$ORIGIN'
