// Solving what is left: solve with the empty slip on lists of as many groups as fit, next to LEMON on the same graphs,
// and pair on the same lists. No step is allowed on them, but for the groups of 2 cells, which reduce takes as leaves.
#ifndef BENCH_GROUPS_HPP
#define BENCH_GROUPS_HPP

#include "families.hpp"
#include "report.hpp"

// A list of groups of so many cells each: two cells of a group are a pair where their places in it lie at most so far
// apart, and so are the first and the last.
struct GroupList {
    std::string name;
    uint64_t groups, cells, reach;
};

inline const std::vector<GroupList> GROUP_LISTS = {
    {"62 groups, all pairs of 12 cells", 62, 12, 12},
    {"85 groups of 12 cells, degree 8", 85, 12, 4},
    {"256 groups, all pairs of 4 cells", 256, 4, 4},
    {"512 groups of 2 cells", 512, 2, 2},
};

// Such a list with points from 1 to the largest. The groups' cells are numbered by turns: a group's lie as far apart as
// there are groups.
inline List draw_groups(const GroupList &kind, Random &random) {
    Draft draft;
    for (uint64_t group = 0; group < kind.groups; group++) draft.band(kind.cells, kind.reach);
    const auto number = [&](uint64_t cell) { return cell / kind.cells + cell % kind.cells * kind.groups; };
    List list{draft.cells, {}};
    for (const auto &[a, b] : draft.pairs)
        list.entries.push_back({number(a), number(b), random.between(1, LARGEST_POINTS)});
    sort_entries(list.entries);
    return list;
}

// Ends the run where solve refuses the whole list, or its total is not the peer's.
inline void compare_solve(Calls &calls, const Bytes &bytes, uint64_t peer_total) {
    const uint32_t answer = calls.solve_whole(bytes, empty_slip(cells_of(bytes)));
    if (answer != ACCEPTED) fail("solve refuses a list of groups: " + std::to_string(answer));
    if (PEER) agree("solve's total", calls.weigh(bytes, calls.solved_whole), peer_total);
}

// The row of one kind of list, over so many lists.
inline Row measure_groups(const GroupList &kind, int lists, int runs, Random &random) {
    Calls calls;
    Row row;
    row.family = kind.name;
    row.cells = kind.groups * kind.cells;
    for (int i = 0; i < lists; i++) {
        const Bytes bytes = store_list(draw_groups(kind, random));
        Outcome outcome = run_once(calls, bytes);
        if (!outcome.accepted) fail(kind.name + ": pair refuses a list of groups");
        compare(calls, bytes, outcome);
        compare_solve(calls, bytes, outcome.peer_total);
        row.pairs = count_of(bytes);
        time_list(row, calls, bytes, Timed::Whole, runs);
    }
    return row;
}

// The ratio of solve's median to the peer's, or a dash without a peer.
inline std::string solve_ratio(const Row &row) {
    return row.peer.none() ? "–" : ratio(row.solve_whole.median(), row.peer.median());
}

// The same of the least times on each list, summed over the same lists.
inline std::string least_solve_ratio(const Row &row) {
    return row.peer.none() ? "–" : ratio(row.solve_whole.sum_of_least(), row.peer.sum_of_least());
}

// Says in which rows solve takes more than half of the peer's time.
inline void write_goal(std::ostream &out, const std::vector<Row> &rows) {
    std::string lines;
    for (const Row &row : rows)
        if (2 * row.solve_whole.median() > row.peer.median()) lines += "\n- " + row.family + ": " + solve_ratio(row);
    out << (lines.empty() ? "Solve takes at most half of LEMON's time in every row (ratio of the medians).\n"
                          : "Solve takes more than half of LEMON's time in these rows (ratio of the medians):\n" +
                                lines + "\n");
}

// A line for each kind of list.
inline void write_groups(std::ostream &out, const std::vector<Row> &rows) {
    out << "| list | cells | pairs | solve | pair | LEMON | LEMON with its graph | solve / LEMON, medians | solve / "
           "LEMON, least | pair / LEMON, medians |\n|---|---:|---:|---:|---:|---:|---:|---:|---:|---:|\n";
    for (const Row &row : rows)
        out << "| " << row.family << " | " << whole(row.cells) << " | " << whole(row.pairs) << " | "
            << least_and_median(row.solve_whole) << " | " << least_and_median(row.pair) << " | "
            << least_and_median(row.peer) << " | " << least_and_median(row.peer_with_graph) << " | " << solve_ratio(row)
            << " | " << least_solve_ratio(row) << " | " << median_ratio(row) << " |\n";
    if (!PEER) return;
    out << "\n";
    write_goal(out, rows);
}

#endif
