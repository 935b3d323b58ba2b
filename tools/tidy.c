/* A filter: reads a raw list (kind 6) from standard input and writes the store list that cells_tidy makes of it.
 *
 *     mkdir -p target
 *     gcc -Iinclude tools/tidy.c crates/cells_c/out/libcells_c.a -o target/tidy
 *     target/tidy < rig.raw > rig.bin
 *
 * A refusal is written to standard error as 'refused' with its number, and the exit status is 1. It is 2 where
 * reading or writing fails.
 */
#include <inttypes.h>
#include <stdio.h>

#include "cells.h"

/* The header and 4,096 entries of 5 bytes; no raw list and no store list is longer. */
#define LONGEST (4 + 5 * 4096)
#define WORK_WORDS 8192

/* One byte more is read, so that a longer input is refused and not cut short. */
static uint8_t raw[LONGEST + 1], store[LONGEST];
static uint64_t work_a[WORK_WORDS], work_b[WORK_WORDS];

int main(void) {
    uint64_t store_len = 0;
    const size_t raw_len = fread(raw, 1, sizeof raw, stdin);
    if (ferror(stdin)) {
        perror("tidy: reading");
        return 2;
    }
    const uint32_t refusal =
        cells_tidy(raw, raw_len, work_a, WORK_WORDS, work_b, WORK_WORDS, store, sizeof store, &store_len);
    if (refusal != 0) {
        fprintf(stderr, "refused %" PRIu32 "\n", refusal);
        return 1;
    }
    if (fwrite(store, 1, store_len, stdout) != store_len || fflush(stdout) != 0) {
        perror("tidy: writing");
        return 2;
    }
    return 0;
}
