// The benchmark of reduce, lift and pair over the C interface, next to LEMON's MaxWeightedMatching; of solve, next to
// it on lists of many groups; and of tidy, next to std::sort and std::unique.
//
//     bench families FOLDER SEED    measures every family, and lists of many groups; writes table.md and chart.svg into
//                                   the folder
//     bench tidy FOLDER SEED        measures tidy on raw lists; writes tidy.md into the folder
//     bench lists FILE...           measures these store lists and prints what the calls make of them
//
// It ends with status 1 where a total or a tidied list is not the peer's, or a list is refused that should not be.

#include <iostream>
#include <iterator>

#ifdef __GLIBC__
#include <malloc.h>
#endif

#include "chart.hpp"
#include "families.hpp"
#include "groups.hpp"
#include "report.hpp"
#include "tidy.hpp"

const std::vector<uint64_t> SIZES = {128, 256, 512, 1024};
constexpr int LISTS = 6;
constexpr int RUNS = 25;
constexpr int RUNS_OF_A_FILE = 100;
const std::vector<size_t> RAW_SIZES = {256, 512, 1024, 2048, 4096};
constexpr int RAW_LISTS = 150;
// So many lists are drawn for one that pair answers as the family says.
constexpr int DRAWS = 100;

// Keeps freed memory in the process, so that the peer need not fetch it from the system anew in every run.
void keep_memory() {
#ifdef __GLIBC__
    constexpr int PLENTY = 1 << 26;
    mallopt(M_MMAP_THRESHOLD, PLENTY);
    mallopt(M_TRIM_THRESHOLD, PLENTY);
    mallopt(M_TOP_PAD, PLENTY);
#endif
}

// The next list of the family that pair accepts, or refuses with 11, as the family says; the calls have run on it.
Bytes next_list(const Family &family, uint64_t n, Random &random, Calls &calls) {
    for (int draw = 0; draw < DRAWS; draw++) {
        const Bytes bytes = store_list(draw_list(family, n, random));
        Outcome outcome = run_once(calls, bytes);
        compare(calls, bytes, outcome);
        if (outcome.accepted == family.accepted) return bytes;
    }
    fail(family.name + ": pair does not answer these lists as the family says");
}

// The row of a family at one number of cells.
Row measure(const Family &family, uint64_t n, Random &random) {
    Calls calls;
    Row row;
    row.family = family.name;
    row.cells = n;
    for (int i = 0; i < LISTS; i++) {
        const Bytes bytes = next_list(family, n, random, calls);
        row.pairs = count_of(bytes);
        time_list(row, calls, bytes, family.accepted ? Timed::Pair : Timed::Reduce, RUNS);
    }
    return row;
}

// What a run says of itself in front of the tables.
void write_head(std::ostream &out) {
    out << "Times in microseconds, 'least / median' over " << LISTS * RUNS << " calls: " << LISTS
        << " lists of each family and number of cells, each call " << RUNS << " times on each list.\n"
        << (PEER ? "Every total was the same as LEMON's.\n\n"
                 : "LEMON (liblemon-dev) is not installed here: ours only, and no total was compared.\n\n");
}

// The whole table.
void write_table(std::ostream &out, const std::vector<Row> &rows, const std::vector<Row> &groups) {
    write_head(out);
    if (PEER) {
        out << "### Ratios, ours / LEMON\n\n";
        write_ratios(out, rows, SIZES);
        out << "\n";
        write_unfavourable(out, rows);
        out << "\n";
    }
    out << "### Solving what is left, group by group\n\n";
    write_groups(out, groups);
    out << "\n### Times\n\n";
    write_reduce(out, rows[SIZES.size() - 1]);
    out << "\n";
    write_times(out, rows);
}

// Measures every family and writes table and chart.
int measure_families(const std::string &folder, uint64_t seed) {
    Random random(seed);
    std::vector<Row> rows;
    for (const Family &family : FAMILIES)
        for (uint64_t n : SIZES) {
            rows.push_back(measure(family, n, random));
            std::cerr << family.name << ", " << n << " cells: " << median_ratio(rows.back()) << "\n";
        }
    std::vector<Row> groups;
    for (const GroupList &kind : GROUP_LISTS) {
        groups.push_back(measure_groups(kind, LISTS, RUNS, random));
        std::cerr << kind.name << ": " << solve_ratio(groups.back()) << "\n";
    }
    std::ofstream table(folder + "/table.md"), drawing(folder + "/chart.svg");
    write_table(table, rows, groups);
    chart::write(drawing, rows, SIZES.size());
    table.close();
    drawing.close();
    if (!table || !drawing) fail("cannot write into " + folder);
    return 0;
}

// Measures tidy at every size and writes its table.
int measure_raw_lists(const std::string &folder, uint64_t seed) {
    Random random(seed);
    std::vector<TidyRow> rows;
    for (size_t entries : RAW_SIZES) rows.push_back({entries, 0, {}, {}, {}});
    measure_tidy(rows, RAW_LISTS, random);
    std::ofstream table(folder + "/tidy.md");
    table << "Times in microseconds, 'least / median' over " << RAW_LISTS
          << " raw lists of each size, each taken once.\n"
          << "Every store list that tidy wrote was the same, byte for byte, as that of std::sort and std::unique.\n\n";
    write_tidy(table, rows);
    table.close();
    if (!table) fail("cannot write into " + folder);
    return 0;
}

// The bytes of a file.
Bytes read_file(const std::string &name) {
    std::ifstream in(name, std::ios::binary);
    if (!in) fail("cannot read " + name);
    return Bytes(std::istreambuf_iterator<char>(in), {});
}

// What the calls make of one file, in a line.
std::string describe(const Outcome &outcome) {
    std::string words = "steps " + std::to_string(outcome.steps) + ", carried " + std::to_string(outcome.carried) +
                        ", short " + std::to_string(outcome.short_entries);
    words += outcome.accepted ? ", total " + std::to_string(outcome.total) : ", pair refuses it with 11";
    return PEER ? words + ", LEMON's total " + std::to_string(outcome.peer_total) : words;
}

// Measures one store list, or says with which number reduce refuses it.
void measure_file(const std::string &name, std::vector<Row> &rows) {
    Calls calls;
    const Bytes bytes = read_file(name);
    const uint32_t refusal = calls.reduce(bytes);
    if (refusal != ACCEPTED) {
        std::cout << "- " << name << ": refused " << refusal << "\n";
        return;
    }
    Outcome outcome = run_once(calls, bytes);
    compare(calls, bytes, outcome);
    std::cout << "- " << name << ": " << describe(outcome) << "\n";
    Row row;
    row.family = name;
    row.cells = cells_of(bytes);
    row.pairs = count_of(bytes);
    time_list(row, calls, bytes, outcome.accepted ? Timed::Pair : Timed::Reduce, RUNS_OF_A_FILE);
    rows.push_back(row);
}

// Measures store lists and prints what comes of them.
int measure_files(const std::vector<std::string> &names) {
    std::vector<Row> rows;
    for (const std::string &name : names) measure_file(name, rows);
    std::cout << "\n";
    write_times(std::cout, rows);
    return 0;
}

int main(int count, char **words) {
    keep_memory();
    const std::vector<std::string> arguments(words + 1, words + count);
    if (arguments.size() == 3 && arguments[0] == "families")
        return measure_families(arguments[1], std::strtoull(arguments[2].c_str(), nullptr, 10));
    if (arguments.size() == 3 && arguments[0] == "tidy")
        return measure_raw_lists(arguments[1], std::strtoull(arguments[2].c_str(), nullptr, 10));
    if (arguments.size() >= 2 && arguments[0] == "lists")
        return measure_files({arguments.begin() + 1, arguments.end()});
    fail("use: bench families FOLDER SEED, bench tidy FOLDER SEED, or bench lists FILE...");
}
