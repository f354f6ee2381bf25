# For the scripts beside this file, which run the tests of a crate as a program of their own.

# Builds crates/CRATE/out/CRATE_tests, unless it stands there, as `rt ci` leaves it, and no source of a crate is newer.
build_tests() { # crate, words that the names of the tests have
    local built=crates/$1/out/$1_tests
    if [ ! -x "$built" ] || [ -n "$(find crates.txt crates/*/src crates/*/specs crates/*/proofs -type f -newer "$built" -print -quit)" ]; then
        (cd "crates/$1" && rt test -- "${@:2}")
    fi
}
