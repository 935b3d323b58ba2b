// Store lists: entries, their bytes, and the numbers by which they are drawn.
#ifndef BENCH_LISTS_HPP
#define BENCH_LISTS_HPP

#include <algorithm>
#include <cstddef>
#include <cstdint>
#include <utility>
#include <vector>

constexpr uint64_t MOST_CELLS = 1024;
constexpr uint64_t MOST_ENTRIES = 4096;
constexpr uint64_t LARGEST_POINTS = 1048575;
constexpr size_t HEADER_BYTES = 4;

using Bytes = std::vector<uint8_t>;

// A pair of two cells with its points.
struct Entry {
    uint64_t a, b, points;
};

// Cells and the pairs between them.
struct List {
    uint64_t cells = 0;
    std::vector<Entry> entries;
};

// A splitmix generator.
class Random {
public:
    explicit Random(uint64_t seed) : state(seed) {}

    uint64_t next() {
        state += 0x9E3779B97F4A7C15;
        uint64_t x = state;
        x = (x ^ (x >> 30)) * 0xBF58476D1CE4E5B9;
        x = (x ^ (x >> 27)) * 0x94D049BB133111EB;
        return x ^ (x >> 31);
    }

    // A number below this one.
    uint64_t below(uint64_t end) { return next() % end; }

    // A number from the first to the last.
    uint64_t between(uint64_t first, uint64_t last) { return first + below(last - first + 1); }

private:
    uint64_t state;
};

// Puts the entries in file order: the lower cell first, ascending.
inline void sort_entries(std::vector<Entry> &entries) {
    for (Entry &entry : entries)
        if (entry.a > entry.b) std::swap(entry.a, entry.b);
    std::sort(entries.begin(), entries.end(), [](const Entry &one, const Entry &other) {
        return std::make_pair(one.a, one.b) < std::make_pair(other.a, other.b);
    });
}

// Appends the lowest so many bytes of a number, the most significant first.
inline void append(Bytes &bytes, uint64_t number, size_t count) {
    for (size_t i = count; i-- > 0;) bytes.push_back(uint8_t(number >> (8 * i)));
}

// The number that stands in so many bytes from a place on.
inline uint64_t number_at(const uint8_t *bytes, size_t count) {
    uint64_t number = 0;
    for (size_t i = 0; i < count; i++) number = number << 8 | bytes[i];
    return number;
}

// The count of entries or steps in a file's header.
inline size_t count_of(const Bytes &file) { return number_at(file.data(), HEADER_BYTES) >> 4 & 0x1FFF; }

// The cells in a file's header.
inline uint64_t cells_of(const Bytes &file) { return number_at(file.data(), HEADER_BYTES) >> 17 & 0x7FF; }

// The store list (kind 1) of a list whose entries are in file order.
inline Bytes store_list(const List &list) {
    Bytes bytes;
    append(bytes, uint64_t(1) << 28 | list.cells << 17 | list.entries.size() << 4, HEADER_BYTES);
    for (const Entry &entry : list.entries) append(bytes, entry.a << 30 | entry.b << 20 | entry.points, 5);
    return bytes;
}

// The slip (kind 3) without steps for a list of so many cells.
inline Bytes empty_slip(uint64_t cells) {
    Bytes bytes;
    append(bytes, uint64_t(3) << 28 | cells << 17, HEADER_BYTES);
    return bytes;
}

// What a file with entries of a and b (10 bits each) and points holds after its first bytes.
inline List entries_of(const Bytes &file, size_t first_bytes, size_t entry_bytes) {
    List list;
    list.cells = cells_of(file);
    const unsigned bits = 8 * entry_bytes - 20;
    for (size_t i = 0; i < count_of(file); i++) {
        const uint64_t number = number_at(&file[first_bytes + entry_bytes * i], entry_bytes);
        const uint64_t points = number & ((uint64_t(1) << bits) - 1);
        list.entries.push_back({number >> (bits + 10), number >> bits & 0x3FF, points});
    }
    return list;
}

// The list that an accepted store list holds.
inline List read_store_list(const Bytes &file) { return entries_of(file, HEADER_BYTES, 5); }

// The list that a short list (kind 2) holds, and its carried points.
inline List read_short_list(const Bytes &file) { return entries_of(file, HEADER_BYTES + 8, 8); }
inline uint64_t carried_of(const Bytes &file) { return number_at(&file[HEADER_BYTES], 8); }

#endif
