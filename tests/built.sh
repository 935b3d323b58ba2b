#!/bin/sh
# Over the archive of the C interface and the program, which are built: the comparison over the one and the test of the
# other, both run from the repository's root; then the test of the filter around tidy. A seed and numbers of calls may
# be given to the comparison.
set -eu

mkdir -p target/tests
rustc -O -C overflow-checks=on --edition 2021 -o target/tests/program tests/program.rs &
program=$!
rustc -O -C overflow-checks=on --edition 2021 -o target/tests/compare tests/compare.rs \
    -L native=crates/cells_c/out -l static=cells_c
wait "$program"
target/tests/compare "$@"
target/tests/program crates/pairing/out/pairing
sh tests/filter.sh
