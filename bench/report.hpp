// The report: tables in Markdown.
#ifndef BENCH_REPORT_HPP
#define BENCH_REPORT_HPP

#include <fstream>

#include "measure.hpp"

// A number with so many decimals.
inline std::string decimals(double number, int places) {
    char text[64];
    std::snprintf(text, sizeof text, "%.*f", places, number);
    return text;
}

// A whole number with commas, as 1,024.
inline std::string whole(uint64_t number) {
    std::string text = std::to_string(number);
    for (size_t i = text.size(); i > 3;) text.insert(i -= 3, ",");
    return text;
}

// The least and the median of some times, or a dash where there are none.
inline std::string least_and_median(const Times &times) {
    return times.none() ? "–" : decimals(times.least(), 1) + " / " + decimals(times.median(), 1);
}

// Ours to the peer's.
inline std::string ratio(double ours, double theirs) { return decimals(ours / theirs, 2); }

// The call of ours that stands beside the peer: pair, or reduce where pair refuses the list.
inline const Times &ours(const Row &row) { return row.pair.none() ? row.reduce : row.pair; }

// The ratio of the medians, or a dash without a peer.
inline std::string median_ratio(const Row &row) {
    return row.peer.none() ? "–" : ratio(ours(row).median(), row.peer.median());
}

// The ratio of the least times on each list, summed over the same lists, or a dash without a peer.
inline std::string least_ratio(const Row &row) {
    return row.peer.none() ? "–" : ratio(ours(row).sum_of_least(), row.peer.sum_of_least());
}

// A family's name, marked where the time is that of reduce alone.
inline std::string marked_name(const Row &row) { return row.pair.none() ? row.family + " *" : row.family; }

// The ratios of the medians: a line for each family, a column for each number of cells.
inline void write_ratios(std::ostream &out, const std::vector<Row> &rows, const std::vector<uint64_t> &sizes) {
    out << "| family |";
    for (uint64_t n : sizes) out << " n = " << whole(n) << " |";
    out << "\n|---|";
    for (size_t i = 0; i < sizes.size(); i++) out << "---:|";
    for (size_t i = 0; i < rows.size(); i++) {
        if (i % sizes.size() == 0) out << "\n| " << marked_name(rows[i]) << " |";
        out << " " << median_ratio(rows[i]) << " |";
    }
    out << "\n";
}

// All times: a line for each family and number of cells.
inline void write_times(std::ostream &out, const std::vector<Row> &rows) {
    out << "| family | cells | pairs | reduce | lift | pair | LEMON | LEMON with its graph | ratio, medians | ratio, "
           "least |\n|---|---:|---:|---:|---:|---:|---:|---:|---:|---:|\n";
    for (const Row &row : rows)
        out << "| " << marked_name(row) << " | " << whole(row.cells) << " | " << whole(row.pairs) << " | "
            << least_and_median(row.reduce) << " | " << least_and_median(row.lift) << " | "
            << least_and_median(row.pair) << " | " << least_and_median(row.peer) << " | "
            << least_and_median(row.peer_with_graph) << " | " << median_ratio(row) << " | " << least_ratio(row)
            << " |\n";
}

// One row's reduce in a sentence.
inline void write_reduce(std::ostream &out, const Row &row) {
    out << "Reduce of a " << row.family << " of " << whole(row.cells) << " cells: least "
        << decimals(row.reduce.least(), 1) << ", median " << decimals(row.reduce.median(), 1) << " microseconds.\n";
}

// Whether ours takes longer than the peer in a row.
inline bool unfavourable(const Row &row) { return !row.peer.none() && ours(row).median() > row.peer.median(); }

// The rows in which ours takes longer than the peer, a line for each family.
inline void write_unfavourable(std::ostream &out, const std::vector<Row> &rows) {
    std::string lines, family;
    for (const Row &row : rows) {
        if (!unfavourable(row)) continue;
        lines += row.family == family ? ", " : "\n- " + marked_name(row) + ": ";
        lines += median_ratio(row) + " (n = " + whole(row.cells) + ")";
        family = row.family;
    }
    out << (lines.empty() ? "Ours takes longer than LEMON in no row.\n"
                          : "Ours takes longer than LEMON in these rows (ratio of the medians):\n" + lines + "\n");
}

#endif
