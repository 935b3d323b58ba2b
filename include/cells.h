/* Load-cell pairing: the calls for C.
 *
 * Conventions of every call: the inputs come first, then the work buffers, then the outputs, each as a pointer
 * and a length; the numbers answered go to the uint64_t pointers at the end. A call returns 0, or the number of
 * the first refusal that holds; on refusal no output and no number is changed. Work buffers are of 64-bit words;
 * whatever their lengths, all their words are zero after every call. Buffers must not overlap. cells_entry alone
 * returns 1 with its numbers, and 0 where there are none.
 */
#ifndef CELLS_H
#define CELLS_H

#include <stddef.h>
#include <stdint.h>

#ifdef __cplusplus
extern "C" {
#endif

/* Weighs a pairing (kind 4) of a store list (kind 1): *points is the sum of its pairs' points in the list.
 * Refusals: 1 (a work buffer of fewer than 8,192 words), 2 to 6 (the list), 9 (the pairing's form),
 * 10 (a cell twice, or a pair that is no entry of the list). */
uint32_t cells_weigh(const uint8_t *list, size_t list_len,
                     const uint8_t *pairing, size_t pairing_len,
                     uint64_t *work_a, size_t work_a_len,
                     uint64_t *work_b, size_t work_b_len,
                     uint64_t *points);

/* Replays a slip (kind 3) on a store list and writes the short list (kind 2) that it leaves: *short_len is
 * the length of the short list. Refusals: 1, 2 to 6 (the list), 7 (the slip's form), 8 (a step that is not
 * allowed where it stands), 12 (the output is shorter than the short list). */
uint32_t cells_replay(const uint8_t *list, size_t list_len,
                      const uint8_t *slip, size_t slip_len,
                      uint64_t *work_a, size_t work_a_len,
                      uint64_t *work_b, size_t work_b_len,
                      uint8_t *short_list, size_t short_room,
                      uint64_t *short_len);

/* Reduces a store list and writes the slip of its steps and the short list: *slip_len and *short_len are their
 * lengths. Refusals: 1, 2 to 6 (the list), 12 (an output is shorter than its file: neither is written). */
uint32_t cells_reduce(const uint8_t *list, size_t list_len,
                      uint64_t *work_a, size_t work_a_len,
                      uint64_t *work_b, size_t work_b_len,
                      uint8_t *slip, size_t slip_room,
                      uint8_t *short_list, size_t short_room,
                      uint64_t *slip_len,
                      uint64_t *short_len);

/* Solves what a slip (kind 3) leaves of a store list: writes a heaviest pairing (kind 4) of the pairs left, of
 * *pairing_len bytes; of equals, at the lowest cell whose partner differs, unpaired comes first, then the lower
 * partner. Refusals: 1, 2 to 6, 7, 8 (the slip), 11 (some connected group of the cells left has more than 12), 12
 * (the output is shorter than its file). */
uint32_t cells_solve(const uint8_t *list, size_t list_len,
                     const uint8_t *slip, size_t slip_len,
                     uint64_t *work_a, size_t work_a_len,
                     uint64_t *work_b, size_t work_b_len,
                     uint8_t *pairing, size_t pairing_room,
                     uint64_t *pairing_len);

/* Lifts a pairing (kind 4) of what a slip leaves to the store list: writes a pairing of the list, of *lifted_len
 * bytes, and its origin list (kind 5), of *origins_len bytes: the same pairs in the same order, each with the step of
 * the slip whose undoing last put it in, counted from 1, and that step's rule; both are 0 for a pair of the given
 * pairing that was never replaced. Where two heaviest pairings of a chain or ring are equal, the one is put in that
 * takes the pair at the first difference in reading order. Refusals: 1, 2 to 6, 7, 8 (the slip), 9 (the pairing's
 * form), 10 (a cell twice, or a pair that the slip does not leave), 12 (an output is shorter than its file: neither is
 * written). */
uint32_t cells_lift(const uint8_t *list, size_t list_len,
                    const uint8_t *slip, size_t slip_len,
                    const uint8_t *pairing, size_t pairing_len,
                    uint64_t *work_a, size_t work_a_len,
                    uint64_t *work_b, size_t work_b_len,
                    uint8_t *lifted, size_t lifted_room,
                    uint8_t *origins, size_t origins_room,
                    uint64_t *lifted_len,
                    uint64_t *origins_len);

/* Pairs a store list: reduces it, solves what is left and lifts that; writes a heaviest pairing of the list, of
 * *pairing_len bytes, and its origin list (kind 5), of *origins_len bytes, as cells_lift does with the slip of
 * cells_reduce. Refusals: 1, 2 to 6, 11 (some connected group of the cells left has more than 12), 12 (an output is
 * shorter than its file: neither is written). */
uint32_t cells_pair(const uint8_t *list, size_t list_len,
                    uint64_t *work_a, size_t work_a_len,
                    uint64_t *work_b, size_t work_b_len,
                    uint8_t *pairing, size_t pairing_room,
                    uint8_t *origins, size_t origins_room,
                    uint64_t *pairing_len,
                    uint64_t *origins_len);

/* Tidies a raw list (kind 6), the pairs in the order they were run, either cell first and some run again: writes the
 * store list (kind 1) of them, of *store_len bytes, lower cell first and ascending; of repeated pairs the last points
 * stand. Refusals, in this order: 1, 13 (a wrong kind, zero bit, n, m or length of the raw list, or an entry with one
 * cell twice or a cell not below n), 12 (the output is shorter than the store list). */
uint32_t cells_tidy(const uint8_t *raw, size_t raw_len,
                    uint64_t *work_a, size_t work_a_len,
                    uint64_t *work_b, size_t work_b_len,
                    uint8_t *store, size_t store_room,
                    uint64_t *store_len);

/* Serves the entry at a place of a store list, the first being at 0: returns 1, and *a, *b and *points are the
 * entry's cells and points. Returns 0 and changes none of the three where the list is refused (2 to 6) or has no
 * entry at that place. */
uint32_t cells_entry(const uint8_t *list, size_t list_len,
                     uint64_t place,
                     uint64_t *a,
                     uint64_t *b,
                     uint64_t *points);

#ifdef __cplusplus
}
#endif

#endif
