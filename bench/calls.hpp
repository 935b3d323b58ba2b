// The calls of include/cells.h with buffers of their own.
//
// The rooms are fixed and as large as any file of the formats, so that a timed call allocates nothing.
#ifndef BENCH_CALLS_HPP
#define BENCH_CALLS_HPP

#include <cstdio>
#include <cstdlib>

#include "cells.h"
#include "lists.hpp"

constexpr size_t WORK_WORDS = 8192;
constexpr uint32_t ACCEPTED = 0;
constexpr uint32_t GROUP_TOO_LARGE = 11;

// A buffer of bytes that a call writes a file into.
struct Output {
    Bytes room = Bytes(65536);
    uint64_t length = 0;

    // The file that was written.
    Bytes file() const { return Bytes(room.begin(), room.begin() + long(length)); }
};

// The buffers that the calls are lent, and what they wrote last.
struct Calls {
    std::vector<uint64_t> work_a = std::vector<uint64_t>(WORK_WORDS);
    std::vector<uint64_t> work_b = std::vector<uint64_t>(WORK_WORDS);
    Output slip, short_list, solved, solved_whole, lifted, pairing, origins;

    uint32_t reduce(const Bytes &list) {
        return cells_reduce(list.data(), list.size(), work_a.data(), work_a.size(), work_b.data(), work_b.size(),
                            slip.room.data(), slip.room.size(), short_list.room.data(), short_list.room.size(),
                            &slip.length, &short_list.length);
    }

    // Solves what a slip of so many bytes leaves.
    uint32_t solve_after(const Bytes &list, const uint8_t *steps, size_t length, Output &output) {
        return cells_solve(list.data(), list.size(), steps, length, work_a.data(), work_a.size(), work_b.data(),
                           work_b.size(), output.room.data(), output.room.size(), &output.length);
    }

    // Solves what the slip of the last reduce leaves.
    uint32_t solve(const Bytes &list) { return solve_after(list, slip.room.data(), slip.length, solved); }

    // Solves the whole list, which the empty slip leaves.
    uint32_t solve_whole(const Bytes &list, const Bytes &empty) {
        return solve_after(list, empty.data(), empty.size(), solved_whole);
    }

    // Lifts the pairing of the last solve through the slip of the last reduce.
    uint32_t lift(const Bytes &list) {
        return cells_lift(list.data(), list.size(), slip.room.data(), slip.length, solved.room.data(), solved.length,
                          work_a.data(), work_a.size(), work_b.data(), work_b.size(), lifted.room.data(),
                          lifted.room.size(), origins.room.data(), origins.room.size(), &lifted.length,
                          &origins.length);
    }

    uint32_t pair(const Bytes &list) {
        return cells_pair(list.data(), list.size(), work_a.data(), work_a.size(), work_b.data(), work_b.size(),
                          pairing.room.data(), pairing.room.size(), origins.room.data(), origins.room.size(),
                          &pairing.length, &origins.length);
    }

    // The points of a pairing of the list that a call wrote.
    uint64_t weigh(const Bytes &list, const Output &written) {
        uint64_t points = 0;
        const uint32_t answer =
            cells_weigh(list.data(), list.size(), written.room.data(), written.length, work_a.data(), work_a.size(),
                        work_b.data(), work_b.size(), &points);
        if (answer != ACCEPTED) {
            std::fprintf(stderr, "weigh refuses a pairing that a call wrote: %u\n", answer);
            std::exit(1);
        }
        return points;
    }
};

#endif
