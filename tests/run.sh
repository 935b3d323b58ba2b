#!/bin/sh
# Proves and builds the archive of the C interface and the program, and runs the tests over them (tests/built.sh), from
# the repository's root. A seed and numbers of calls may be given to the comparison.
set -eu

(cd crates/cells_c && rt lib)
(cd crates/pairing && rt run < stdin | cmp - stdout)
sh tests/built.sh "$@"
