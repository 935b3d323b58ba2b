#!/bin/sh
# The test of the filter around tidy, over the archive of the C interface and the program, which are built: from the
# text of the sample rig to its raw list, its store list and the text that samples/README.md has for it; and raw lists
# that are refused. Ends with status 1 at the first difference.
set -eu
out=target/tests/filter
mkdir -p "$out"
gcc -std=c11 -O2 -Wall -Wextra -Werror -Iinclude tools/tidy.c crates/cells_c/out/libcells_c.a -o "$out/tidy"

# Ends the test with a message.
fail() {
    echo "filter: $1"
    echo FAIL
    exit 1
}

# Two files that must be the same.
same() {
    cmp "$1" "$2" || fail "$3"
}

# A raw list that must be refused with 13: status 1, nothing written, one line on standard error.
refused() {
    status=0
    "$out/tidy" < "$1" > "$out/written" 2> "$out/said" || status=$?
    [ "$status" -eq 1 ] || fail "$2: status $status"
    [ ! -s "$out/written" ] || fail "$2: something was written"
    [ "$(cat "$out/said")" = "refused 13" ] || fail "$2: said '$(cat "$out/said")'"
}

python3 tools/cells.py raw < samples/rig.txt > "$out/rig.raw"
same "$out/rig.raw" samples/rig.raw "the raw list of the sample's text"
"$out/tidy" < "$out/rig.raw" > "$out/rig.bin"
same "$out/rig.bin" samples/rig.bin "the store list of the sample"
crates/pairing/out/pairing < "$out/rig.bin" > "$out/printed"
sed -n '/For `rig.bin` the program prints:/,/total/s/^      //p' samples/README.md | sed '/^$/d' > "$out/expected"
same "$out/printed" "$out/expected" "the text that samples/README.md has"

: > "$out/empty"
refused "$out/empty" "no input"
refused samples/rig.bin "a store list"
head -c 58 samples/rig.raw > "$out/cut"
refused "$out/cut" "a raw list that breaks off"
{ cat samples/rig.raw; head -c 30000 /dev/zero; } > "$out/long"
refused "$out/long" "an input that is too long"
echo "filter: the sample rig and 4 refusals"
echo PASS
