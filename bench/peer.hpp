// The peer: LEMON's MaxWeightedMatching, where its headers are there (HAVE_LEMON).
#ifndef BENCH_PEER_HPP
#define BENCH_PEER_HPP

#include "clock.hpp"
#include "lists.hpp"

#ifdef HAVE_LEMON

#include <lemon/matching.h>
#include <lemon/smart_graph.h>

constexpr bool PEER = true;

// A list as a graph of LEMON. Points is the type that LEMON counts in.
template <typename Points>
struct PeerGraph {
    using Weights = lemon::SmartGraph::EdgeMap<Points>;
    using Matching = lemon::MaxWeightedMatching<lemon::SmartGraph, Weights>;

    lemon::SmartGraph graph;
    Weights weights;

    explicit PeerGraph(const List &list) : weights(graph) {
        graph.reserveNode(int(list.cells));
        graph.reserveEdge(int(list.entries.size()));
        for (uint64_t i = 0; i < list.cells; i++) graph.addNode();
        for (const Entry &entry : list.entries)
            weights[graph.addEdge(graph.nodeFromId(int(entry.a)), graph.nodeFromId(int(entry.b)))] =
                Points(entry.points);
    }

    // The points of a heaviest pairing.
    uint64_t heaviest() const {
        Matching matching(graph, weights);
        matching.run();
        return uint64_t(matching.matchingWeight());
    }

    // Adds the time from before the matching object is made to the end of its run, on this graph as it stands.
    void time_run(std::vector<double> &times) const {
        const double start = now();
        Matching matching(graph, weights);
        matching.run();
        times.push_back(now() - start);
    }

    // Adds the same time with that of building the graph and its weights from decoded entries.
    static void time_build_and_run(const List &list, std::vector<double> &times) {
        const double start = now();
        const PeerGraph built(list);
        Matching matching(built.graph, built.weights);
        matching.run();
        times.push_back(now() - start);
    }
};

// Points of 20 bits fit LEMON's sums in 32 bits; those of a short list, of 44 bits, do not.
using StoreGraph = PeerGraph<int>;
using ShortGraph = PeerGraph<long long>;

#else

constexpr bool PEER = false;

// Stands in where LEMON is not there; nothing asks it.
struct StoreGraph {
    explicit StoreGraph(const List &) {}
    uint64_t heaviest() const { return 0; }
    void time_run(std::vector<double> &) const {}
    static void time_build_and_run(const List &, std::vector<double> &) {}
};
using ShortGraph = StoreGraph;

#endif
#endif
