// Measuring: the calls and the peer by turns on the same list, after their totals were found to agree.
#ifndef BENCH_MEASURE_HPP
#define BENCH_MEASURE_HPP

#include "calls.hpp"
#include "clock.hpp"
#include "peer.hpp"

// Times of one call in microseconds, list after list.
struct Times {
    std::vector<double> all;
    std::vector<size_t> starts;

    // From here on the times are those of a next list.
    void next_list() { starts.push_back(all.size()); }

    // The sum over the lists of the least time on each: two calls on the same lists can be compared by it.
    double sum_of_least() const {
        double sum = 0;
        for (size_t i = 0; i < starts.size(); i++) {
            const size_t end = i + 1 < starts.size() ? starts[i + 1] : all.size();
            sum += *std::min_element(all.begin() + long(starts[i]), all.begin() + long(end));
        }
        return sum;
    }

    bool none() const { return all.empty(); }
    double least() const { return *std::min_element(all.begin(), all.end()); }

    // The middle one.
    double median() const {
        std::vector<double> sorted = all;
        std::sort(sorted.begin(), sorted.end());
        return sorted[sorted.size() / 2];
    }
};

// What was measured of one family at one number of cells, over all its lists.
struct Row {
    std::string family;
    uint64_t cells = 0;
    size_t pairs = 0;
    Times reduce, lift, pair, solve_whole, peer, peer_with_graph;
};

// Which calls are timed on a list: reduce always, lift and pair where pair accepts it, and solve with the empty slip
// where all groups of the list are small.
enum class Timed { Reduce, Pair, Whole };

// What the calls make of one list.
struct Outcome {
    bool accepted = false;
    size_t steps = 0, short_entries = 0;
    uint64_t carried = 0, total = 0, peer_total = 0;
};

// Ends the run with status 1.
[[noreturn]] inline void fail(const std::string &why) {
    std::fprintf(stderr, "bench: %s\n", why.c_str());
    std::exit(1);
}

// Ends the run where two numbers that must agree do not.
inline void agree(const char *what, uint64_t ours, uint64_t theirs) {
    if (ours != theirs)
        fail(std::string(what) + ": " + std::to_string(ours) + ", but LEMON " + std::to_string(theirs));
}

// Runs every call once; the file that each wrote stays in calls.
inline Outcome run_once(Calls &calls, const Bytes &list) {
    Outcome outcome;
    const uint32_t reduced = calls.reduce(list);
    if (reduced != ACCEPTED) fail("reduce refuses the list: " + std::to_string(reduced));
    outcome.steps = count_of(calls.slip.file());
    outcome.short_entries = count_of(calls.short_list.file());
    outcome.carried = carried_of(calls.short_list.file());
    const uint32_t paired = calls.pair(list);
    if (paired == GROUP_TOO_LARGE) return outcome;
    if (paired != ACCEPTED || calls.solve(list) != ACCEPTED || calls.lift(list) != ACCEPTED)
        fail("pair, solve or lift refuses the list: pair " + std::to_string(paired));
    outcome.accepted = true;
    outcome.total = calls.weigh(list, calls.pairing);
    return outcome;
}

// Holds the outcome against the peer: the points of the pairings that pair and lift wrote, and the carried points
// with the heaviest of the short list, must all be the heaviest of the list.
inline void compare(Calls &calls, const Bytes &list, Outcome &outcome) {
    if (!PEER) return;
    outcome.peer_total = StoreGraph(read_store_list(list)).heaviest();
    const uint64_t short_total = ShortGraph(read_short_list(calls.short_list.file())).heaviest();
    agree("carried points and the short list's heaviest", outcome.carried + short_total, outcome.peer_total);
    if (!outcome.accepted) return;
    agree("pair's total", outcome.total, outcome.peer_total);
    agree("lift's total", calls.weigh(list, calls.lifted), outcome.peer_total);
}

// Adds the time of one call.
template <typename Call>
void time_call(Times &times, Call call) {
    const double start = now();
    const uint32_t answer = call();
    times.all.push_back(now() - start);
    if (answer != ACCEPTED) fail("a timed call refuses: " + std::to_string(answer));
}

// Adds the times of the calls and of the peer on one list, by turns, so many times.
inline void time_list(Row &row, Calls &calls, const Bytes &bytes, Timed timed, int runs) {
    const List list = read_store_list(bytes);
    const StoreGraph graph(list);
    const Bytes empty = empty_slip(list.cells);
    for (Times *times : {&row.reduce, &row.lift, &row.pair, &row.solve_whole, &row.peer, &row.peer_with_graph})
        times->next_list();
    for (int run = 0; run < runs; run++) {
        time_call(row.reduce, [&] { return calls.reduce(bytes); });
        if (timed != Timed::Reduce) time_call(row.lift, [&] { return calls.lift(bytes); });
        if (timed != Timed::Reduce) time_call(row.pair, [&] { return calls.pair(bytes); });
        if (timed == Timed::Whole) time_call(row.solve_whole, [&] { return calls.solve_whole(bytes, empty); });
        if (PEER) graph.time_run(row.peer.all);
        if (PEER) StoreGraph::time_build_and_run(list, row.peer_with_graph.all);
    }
}

#endif
