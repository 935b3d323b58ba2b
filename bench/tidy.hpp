// Tidy: the call on raw lists as a rig writes them, next to std::sort and std::unique on the same bytes.
//
// Each list is taken once: on one that it has sorted just before, a processor foresees how the numbers compare.
#ifndef BENCH_TIDY_HPP
#define BENCH_TIDY_HPP

#include <cmath>

#include "families.hpp"
#include "report.hpp"

constexpr uint64_t STORE_LIST = 1, RAW_LIST = 6;
constexpr size_t ENTRY_BYTES = 5;

// A raw list of so many entries on a full store, in random order: one in eight is a pair run again, and half of them
// have the higher cell first.
inline Bytes draw_raw_list(size_t count, Random &random) {
    Draft draft;
    draw_any(draft, MOST_CELLS, count - count / 8, random);
    List list{draft.cells, {}};
    for (const auto &[a, b] : draft.pairs) list.entries.push_back({a, b, 0});
    while (list.entries.size() < count) list.entries.push_back(list.entries[random.below(draft.pairs.size())]);
    for (size_t i = count; i-- > 1;) std::swap(list.entries[i], list.entries[random.below(i + 1)]);
    for (Entry &entry : list.entries) {
        entry.points = random.between(0, LARGEST_POINTS);
        if (random.below(2) == 0) std::swap(entry.a, entry.b);
    }
    Bytes raw = store_list(list);
    raw[0] = uint8_t(RAW_LIST << 4 | (raw[0] & 0xF));
    return raw;
}

// Writes the lowest so many bytes of a number, the most significant first.
inline void put(uint8_t *bytes, uint64_t number, size_t count) {
    for (size_t i = 0; i < count; i++) bytes[i] = uint8_t(number >> 8 * (count - 1 - i));
}

// The call, with the buffers that it is lent.
struct TidyCall {
    Calls lent;
    Output store;

    uint32_t tidy(const Bytes &raw) {
        return cells_tidy(raw.data(), raw.size(), lent.work_a.data(), lent.work_a.size(), lent.work_b.data(),
                          lent.work_b.size(), store.room.data(), store.room.size(), &store.length);
    }
};

// The peer: the entries as words, in room that is there before the first call. A word has the lower cell (10 bits), the
// higher cell (10), the place counted from the end (12) and the points (20): of equal pairs the one that was run last
// is sorted first, and std::unique keeps that. Nothing is checked.
struct SortPeer {
    std::vector<uint64_t> words = std::vector<uint64_t>(MOST_ENTRIES);
    Output store;

    void read(const Bytes &raw) {
        words.resize(count_of(raw));
        for (size_t i = 0; i < words.size(); i++) {
            const uint64_t entry = number_at(&raw[HEADER_BYTES + ENTRY_BYTES * i], ENTRY_BYTES);
            const uint64_t one = entry >> 30, other = entry >> 20 & 0x3FF;
            const uint64_t pair = std::min(one, other) << 10 | std::max(one, other);
            words[i] = pair << 32 | (MOST_ENTRIES - 1 - i) << 20 | (entry & LARGEST_POINTS);
        }
    }

    void sort() {
        std::sort(words.begin(), words.end());
        const auto same_pair = [](uint64_t one, uint64_t other) { return one >> 32 == other >> 32; };
        words.erase(std::unique(words.begin(), words.end(), same_pair), words.end());
    }

    void write(uint64_t cells) {
        uint8_t *at = store.room.data();
        put(at, STORE_LIST << 28 | cells << 17 | words.size() << 4, HEADER_BYTES);
        at += HEADER_BYTES;
        for (uint64_t word : words) {
            put(at, word >> 32 << 20 | (word & LARGEST_POINTS), ENTRY_BYTES);
            at += ENTRY_BYTES;
        }
        store.length = uint64_t(at - store.room.data());
    }

    // From the bytes of the raw list to those of the store list.
    uint32_t tidy(const Bytes &raw) {
        read(raw);
        sort();
        write(cells_of(raw));
        return ACCEPTED;
    }
};

// What was measured at one number of entries, over all its lists.
struct TidyRow {
    size_t entries, pairs = 0;
    Times ours, peer, sort_alone;
};

// Adds the times of the call and of the peer on one raw list; their store lists must be equal.
inline void time_raw_list(TidyRow &row, const Bytes &raw, TidyCall &ours, SortPeer &peer) {
    time_call(row.ours, [&] { return ours.tidy(raw); });
    time_call(row.peer, [&] { return peer.tidy(raw); });
    if (ours.store.file() != peer.store.file()) fail("tidy's store list is not that of std::sort and std::unique");
    row.pairs = count_of(ours.store.room);
}

// Adds the time of the peer on one raw list without reading and writing its bytes.
inline void time_sort_alone(TidyRow &row, const Bytes &raw, SortPeer &peer) {
    peer.read(raw);
    time_call(row.sort_alone, [&] {
        peer.sort();
        return ACCEPTED;
    });
}

// Adds the times on so many lists of each row's size, which take turns, so that what disturbs one disturbs all.
inline void measure_tidy(std::vector<TidyRow> &rows, int lists, Random &random) {
    TidyCall ours;
    SortPeer peer;
    for (int i = 0; i < lists; i++)
        for (TidyRow &row : rows) {
            time_raw_list(row, draw_raw_list(row.entries, random), ours, peer);
            time_sort_alone(row, draw_raw_list(row.entries, random), peer);
        }
}

// The median time of the call in nanoseconds over m log2 m, which stays where it grows as that does.
inline double growth(const TidyRow &row) {
    return row.ours.median() * 1000 / (double(row.entries) * std::log2(double(row.entries)));
}

// The table: a line for each number of entries m.
inline void write_tidy(std::ostream &out, const std::vector<TidyRow> &rows) {
    out << "| entries m | pairs | tidy | sort and unique | sort and unique alone | ratio, medians | ratio, least | "
           "tidy over m log2 m |\n|---:|---:|---:|---:|---:|---:|---:|---:|\n";
    for (const TidyRow &row : rows)
        out << "| " << whole(row.entries) << " | " << whole(row.pairs) << " | " << least_and_median(row.ours) << " | "
            << least_and_median(row.peer) << " | " << least_and_median(row.sort_alone) << " | "
            << ratio(row.ours.median(), row.peer.median()) << " | " << ratio(row.ours.least(), row.peer.least())
            << " | " << decimals(growth(row), 2) << " ns |\n";
}

#endif
