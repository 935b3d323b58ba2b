// The families of shapes that are measured, each at a given number of cells.
//
// A shape is drawn as a draft whose cells are numbered as they come; 'shuffled' families get the numbers mixed.
#ifndef BENCH_FAMILIES_HPP
#define BENCH_FAMILIES_HPP

#include <numeric>
#include <set>
#include <string>

#include "lists.hpp"

// Drafts

// Pairs of cells that are numbered as they come.
struct Draft {
    uint64_t cells = 0;
    std::set<std::pair<uint64_t, uint64_t>> pairs;

    uint64_t cell() { return cells++; }

    void pair(uint64_t one, uint64_t other) {
        if (one != other) pairs.insert({std::min(one, other), std::max(one, other)});
    }

    // One more cell, with a pair to this one.
    uint64_t cell_at(uint64_t cell) {
        pair(cell, cells);
        return cells++;
    }

    // A row of so many new cells between two cells; the same cell twice makes a ring.
    void chain(uint64_t from, uint64_t inner, uint64_t to) {
        uint64_t last = from;
        for (uint64_t i = 0; i < inner; i++) last = cell_at(last);
        pair(last, to);
    }

    // So many new cells with the pairs of those at most so far apart, and of the first and the last; the first of them.
    uint64_t band(uint64_t size, uint64_t reach) {
        const uint64_t first = cells;
        cells += size;
        for (uint64_t a = first; a < cells; a++)
            for (uint64_t b = a + 1; b < cells && b - a <= reach; b++) pair(a, b);
        pair(first, cells - 1);
        return first;
    }

    // So many new cells with all pairs; the first of them.
    uint64_t core(uint64_t size) { return band(size, size); }
};

// Shapes, each of n cells

inline void draw_tree(Draft &draft, uint64_t n, Random &random) {
    draft.cell();
    while (draft.cells < n) draft.cell_at(random.below(draft.cells));
}

inline void draw_path(Draft &draft, uint64_t n, Random &) {
    draft.cell();
    while (draft.cells < n) draft.cell_at(draft.cells - 1);
}

inline void draw_star(Draft &draft, uint64_t n, Random &) {
    draft.cell();
    while (draft.cells < n) draft.cell_at(0);
}

// A row of half the cells, and the others hung on cells of the row.
inline void draw_caterpillar(Draft &draft, uint64_t n, Random &random) {
    draw_path(draft, n / 2, random);
    while (draft.cells < n) draft.cell_at(random.below(n / 2));
}

inline void draw_ring(Draft &draft, uint64_t n, Random &) {
    const uint64_t first = draft.cell();
    draft.chain(first, n - 1, first);
}

// The length of a next ring of 3 to 8 cells, with no fewer than 3 cells left over unless none.
inline uint64_t next_ring(uint64_t left, Random &random) {
    const uint64_t length = random.between(3, 8);
    return length + 3 > left ? left : length;
}

inline void draw_small_rings(Draft &draft, uint64_t n, Random &random) {
    while (draft.cells < n) {
        const uint64_t left = n - draft.cells;
        const uint64_t first = draft.cell();
        draft.chain(first, next_ring(left, random) - 1, first);
    }
}

// So many different pairs of any cells.
inline void draw_any(Draft &draft, uint64_t n, uint64_t count, Random &random) {
    draft.cells = n;
    while (draft.pairs.size() < count) draft.pair(random.below(n), random.below(n));
}

// 0.9 n pairs of any cells: 1.8 pairs a cell on average.
inline void draw_sparse(Draft &draft, uint64_t n, Random &random) { draw_any(draft, n, n * 9 / 10, random); }

// A random tree and n / 6 pairs of any cells more.
inline void draw_tree_and_pairs(Draft &draft, uint64_t n, Random &random) {
    draw_tree(draft, n, random);
    const uint64_t count = draft.pairs.size() + n / 6;
    while (draft.pairs.size() < count) draft.pair(random.below(n), random.below(n));
}

// Rings of 3 to 8 cells, each of which has one cell in common with those before.
inline void draw_cactus(Draft &draft, uint64_t n, Random &random) {
    draft.cell();
    while (draft.cells < n) {
        const uint64_t at = random.below(draft.cells);
        const uint64_t inner = std::min(random.between(2, 7), n - draft.cells);
        draft.chain(at, inner, at);
    }
}

// A ring of a quarter of the cells, and trees hung on it.
inline void draw_one_ring_with_trees(Draft &draft, uint64_t n, Random &random) {
    draw_ring(draft, n / 4, random);
    while (draft.cells < n) draft.cell_at(random.below(draft.cells));
}

// Two cells, and eight chains between them.
inline void draw_hubs(Draft &draft, uint64_t n, Random &) {
    const uint64_t u = draft.cell(), v = draft.cell();
    for (uint64_t left = 8; left > 0; left--) draft.chain(u, (n - draft.cells) / left, v);
}

// All pairs of four cells, and one chain between two of them.
inline void draw_core_and_chain(Draft &draft, uint64_t n, Random &) {
    const uint64_t first = draft.core(4);
    draft.chain(first, n - draft.cells, first + 1);
}

// All pairs of 12 cells, and trees hung on them.
inline void draw_core_with_trees(Draft &draft, uint64_t n, Random &random) {
    draft.core(12);
    while (draft.cells < n) draft.cell_at(random.below(draft.cells));
}

// Groups of 2 to 8 cells beside each other: trees, half of them with one pair more.
inline void draw_small_groups(Draft &draft, uint64_t n, Random &random) {
    while (draft.cells < n) {
        const uint64_t first = draft.cell();
        const uint64_t end = std::min(first + random.between(2, 8), n);
        while (draft.cells < end) draft.cell_at(random.between(first, draft.cells - 1));
        if (random.below(2) == 0) draft.pair(first, draft.cells - 1);
    }
}

// Groups of four cells with all pairs beside each other, and cells without pairs up to n.
inline void draw_cores_of_four(Draft &draft, uint64_t n, Random &) {
    while (draft.cells + 4 <= n) draft.core(4);
    draft.cells = n;
}

// The same of groups of 12 cells, most of which have 8 pairs.
inline void draw_bands_of_twelve(Draft &draft, uint64_t n, Random &) {
    while (draft.cells + 12 <= n) draft.band(12, 4);
    draft.cells = n;
}

// Groups of four cells with all pairs, each joined to the next by a chain of four inner cells; the last group's first
// cell. At most so many cells.
inline uint64_t join_cores(Draft &draft, uint64_t most) {
    uint64_t last = draft.core(4);
    while (draft.cells + 8 <= most) {
        const uint64_t next = draft.core(4);
        draft.chain(last + 3, 4, next);
        last = next;
    }
    return last;
}

// Such groups, and cells without pairs up to n.
inline void draw_cores_and_chains(Draft &draft, uint64_t n, Random &) {
    join_cores(draft, n);
    draft.cells = n;
}

// Such groups on half of the cells, and a chain of the others from the first group to the last.
inline void draw_cores_and_long_chain(Draft &draft, uint64_t n, Random &) {
    const uint64_t last = join_cores(draft, n / 2);
    draft.chain(0, n - draft.cells, last + 3);
}

// A grid, its height the power of two at or next below the square root.
inline void draw_grid(Draft &draft, uint64_t n, Random &) {
    uint64_t width = n;
    while (width / 2 * (width / 2) >= n) width /= 2;
    draft.cells = n;
    for (uint64_t cell = 0; cell < n; cell++) {
        if (cell % width + 1 < width) draft.pair(cell, cell + 1);
        if (cell + width < n) draft.pair(cell, cell + width);
    }
}

// 4,096 pairs of any cells.
inline void draw_full(Draft &draft, uint64_t n, Random &random) { draw_any(draft, n, MOST_ENTRIES, random); }

// Lists

enum class Numbers { Ascending, Shuffled };
enum class Points { Any, Rising };

// A family: its name, how it is drawn, and whether pair accepts its lists or refuses them with 11.
struct Family {
    std::string name;
    void (*draw)(Draft &, uint64_t, Random &);
    Numbers numbers = Numbers::Shuffled;
    Points points = Points::Any;
    bool accepted = true;
};

inline const std::vector<Family> FAMILIES = {
    {"random tree", draw_tree},
    {"path, ascending", draw_path, Numbers::Ascending},
    {"path, shuffled", draw_path},
    {"star", draw_star},
    {"star, rising points", draw_star, Numbers::Ascending, Points::Rising},
    {"caterpillar", draw_caterpillar},
    {"one ring, ascending", draw_ring, Numbers::Ascending},
    {"one ring, shuffled", draw_ring},
    {"small rings", draw_small_rings},
    {"small groups", draw_small_groups},
    {"sparse, 0.9 n pairs", draw_sparse},
    {"tree and n / 6 pairs", draw_tree_and_pairs},
    {"cactus", draw_cactus},
    {"one ring with trees", draw_one_ring_with_trees},
    {"eight chains, ascending", draw_hubs, Numbers::Ascending},
    {"eight chains, shuffled", draw_hubs},
    {"core of 4 and a chain, ascending", draw_core_and_chain, Numbers::Ascending},
    {"core of 4 and a chain, shuffled", draw_core_and_chain},
    {"core of 12 with trees", draw_core_with_trees},
    {"groups of 4, all pairs", draw_cores_of_four},
    {"groups of 12, degree 8", draw_bands_of_twelve},
    {"cores joined by chains", draw_cores_and_chains, Numbers::Shuffled, Points::Any, false},
    {"cores and a long chain, ascending", draw_cores_and_long_chain, Numbers::Ascending, Points::Any, false},
    {"grid", draw_grid, Numbers::Shuffled, Points::Any, false},
    {"4,096 pairs", draw_full, Numbers::Shuffled, Points::Any, false},
};

// The numbers of so many cells: as they are, or mixed.
inline std::vector<uint64_t> numbers_of(uint64_t cells, Numbers manner, Random &random) {
    std::vector<uint64_t> numbers(cells);
    std::iota(numbers.begin(), numbers.end(), 0);
    if (manner == Numbers::Shuffled)
        for (uint64_t i = cells - 1; i > 0; i--) std::swap(numbers[i], numbers[random.below(i + 1)]);
    return numbers;
}

// A list of this family: its pairs get points from 1 to the largest, its cells their numbers.
inline List draw_list(const Family &family, uint64_t n, Random &random) {
    Draft draft;
    family.draw(draft, n, random);
    const std::vector<uint64_t> numbers = numbers_of(draft.cells, family.numbers, random);
    List list{draft.cells, {}};
    uint64_t rising = 0;
    for (const auto &[a, b] : draft.pairs) {
        rising += random.between(1, LARGEST_POINTS / MOST_CELLS);
        const uint64_t any = random.between(1, LARGEST_POINTS);
        list.entries.push_back({numbers[a], numbers[b], family.points == Points::Rising ? rising : any});
    }
    sort_entries(list.entries);
    return list;
}

#endif
