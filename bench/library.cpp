// Times calls in-process on 100 random connected graphs in turn, with weights 1 to 20: this library beside LEMON and igraph, which build
// their graph in each call, as this library does. Least processor time of five runs of all calls.
// ./library PREFIX; g++ -O2 -std=c++17 library.cpp -IPREFIX/include PREFIX/lib/libmincut.a -ligraph -o library
// usage: library VERTICES EDGES CALLS
#include "mincut.h"
#include <cstdio>
#include <cstdlib>
#include <ctime>
#include <igraph/igraph.h>
#include <lemon/hao_orlin.h>
#include <lemon/nagamochi_ibaraki.h>
#include <lemon/smart_graph.h>
#include <random>
#include <vector>

struct Arrays {
    uint32_t n;
    std::vector<uint32_t> u, v;
    std::vector<uint64_t> w;
};

// Others than this library are given each pair once, so pairs are kept different.
static Arrays random_graph(uint32_t n, size_t m, std::mt19937 &random) {
    Arrays made{n, {}, {}, {}};
    std::vector<std::vector<char>> joined(n, std::vector<char>(n, 0));
    auto add = [&](uint32_t a, uint32_t b) {
        if (a == b || joined[a][b]) return;
        joined[a][b] = joined[b][a] = 1;
        made.u.push_back(a), made.v.push_back(b), made.w.push_back(1 + random() % 20);
    };
    for (uint32_t v = 1; v < n; ++v) add(random() % v, v);
    while (made.u.size() < m) add(random() % n, random() % n);
    return made;
}

static double seconds() { return (double)clock() / CLOCKS_PER_SEC; }

static uint64_t by_lemon(const Arrays &g, bool flows) {
    lemon::SmartGraph graph;
    graph.reserveNode(g.n), graph.reserveEdge(g.u.size());
    for (uint32_t v = 0; v < g.n; ++v) graph.addNode();
    for (size_t i = 0; i < g.u.size(); ++i) graph.addEdge(graph.nodeFromId(g.u[i]), graph.nodeFromId(g.v[i]));
    lemon::SmartGraph::EdgeMap<int64_t> weights(graph);
    for (size_t i = 0; i < g.u.size(); ++i) weights[graph.edgeFromId(i)] = g.w[i];
    if (flows) {
        lemon::HaoOrlin<lemon::SmartGraph, lemon::SmartGraph::EdgeMap<int64_t>> search(graph, weights);
        search.init(), search.calculateOut();
        return search.minCutValue();
    }
    lemon::NagamochiIbaraki<lemon::SmartGraph, lemon::SmartGraph::EdgeMap<int64_t>> search(graph, weights);
    search.run();
    return search.minCutValue();
}

static uint64_t by_igraph(const Arrays &g) {
    igraph_vector_int_t ends;
    igraph_vector_t weights;
    igraph_t graph;
    igraph_real_t value;
    igraph_vector_int_init(&ends, 2 * g.u.size());
    igraph_vector_init(&weights, g.u.size());
    for (size_t i = 0; i < g.u.size(); ++i) VECTOR(ends)[2 * i] = g.u[i], VECTOR(ends)[2 * i + 1] = g.v[i], VECTOR(weights)[i] = g.w[i];
    igraph_create(&graph, &ends, g.n, IGRAPH_UNDIRECTED);
    igraph_mincut_value(&graph, &value, &weights);
    igraph_destroy(&graph), igraph_vector_destroy(&weights), igraph_vector_int_destroy(&ends);
    return (uint64_t)value;
}

static uint64_t by_value(const Arrays &g) {
    uint64_t value = 0;
    if (mincut_value(g.n, g.u.size(), g.u.data(), g.v.data(), g.w.data(), &value)) exit(3);
    return value;
}

static uint64_t by_value_below(const Arrays &g) {
    uint64_t value = 0;
    if (mincut_value_below(g.n, g.u.size(), g.u.data(), g.v.data(), g.w.data(), 2, &value)) exit(3);
    return value;
}

static uint64_t by_cut(const Arrays &g) {
    static std::vector<uint8_t> inside;
    inside.resize(g.n);
    uint64_t value = 0;
    if (mincut_cut(g.n, g.u.size(), g.u.data(), g.v.data(), g.w.data(), &value, inside.data())) exit(3);
    return value;
}

static uint64_t by_cuts_below(const Arrays &g) {
    static std::vector<uint8_t> inside;
    inside.resize(50 * (size_t)g.n);
    uint64_t count = 0, weights[50];
    if (mincut_cuts_below(g.n, g.u.size(), g.u.data(), g.v.data(), g.w.data(), 20, 50, &count, weights, inside.data())) exit(6);
    return count ? weights[0] : 20;
}

static uint64_t by_cactus(const Arrays &g) {
    static std::vector<size_t> starts, cycles;
    static std::vector<uint32_t> vertices;
    static std::vector<mincut_bridge> bridges;
    static std::vector<uint64_t> members;
    starts.resize(2 * g.n), cycles.resize(g.n), vertices.resize(g.n), bridges.resize(2 * g.n), members.resize(3 * g.n);
    mincut_sizes sizes;
    if (mincut_cactus(g.n, g.u.size(), g.u.data(), g.v.data(), g.w.data(), &sizes, starts.data(), vertices.data(), bridges.data(), cycles.data(), members.data())) exit(4);
    return sizes.value;
}

static uint64_t by_balanced(const Arrays &g) {
    static std::vector<uint8_t> inside;
    inside.resize(g.n);
    mincut_balance balance;
    if (mincut_balanced(g.n, g.u.size(), g.u.data(), g.v.data(), g.w.data(), nullptr, &balance, inside.data())) exit(5);
    return balance.value;
}

template <class F> static void time_calls(const char *name, const std::vector<Arrays> &graphs, int calls, F call) {
    uint64_t sum = 0;
    double least = 1e9;
    for (int round = 0; round < 5; ++round) {
        const double start = seconds();
        for (int i = 0; i < calls; ++i) sum += call(graphs[i % graphs.size()]);
        const double taken = seconds() - start;
        if (taken < least) least = taken;
    }
    printf("%-24s %9.2f us a call  (%d calls, sum of values %llu)\n", name, 1e6 * least / calls, calls, (unsigned long long)sum);
    fflush(stdout);
}

int main(int count, char **words) {
    if (count != 4) return fprintf(stderr, "usage: library VERTICES EDGES CALLS\n"), 2;
    std::mt19937 random(7);
    std::vector<Arrays> graphs;
    for (int i = 0; i < 100; ++i) graphs.push_back(random_graph(atoi(words[1]), atoi(words[2]), random));
    const int calls = atoi(words[3]);
    for (auto &g : {graphs[0], graphs[1], graphs[2]})
        if (by_value(g) != by_lemon(g, false) || by_value(g) != by_igraph(g)) return puts("values differ"), 1;
    time_calls("mincut_value", graphs, calls, by_value);
    time_calls("mincut_value_below", graphs, calls, by_value_below);
    time_calls("mincut_cut", graphs, calls, by_cut);
    time_calls("mincut_cuts_below", graphs, calls, by_cuts_below);
    time_calls("mincut_cactus", graphs, calls, by_cactus);
    time_calls("mincut_balanced", graphs, calls, by_balanced);
    time_calls("LEMON NagamochiIbaraki", graphs, calls, [](const Arrays &g) { return by_lemon(g, false); });
    time_calls("LEMON HaoOrlin", graphs, calls / 20 + 1, [](const Arrays &g) { return by_lemon(g, true); });
    time_calls("igraph_mincut_value", graphs, calls / 100 + 1, by_igraph);
}
