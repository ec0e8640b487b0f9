// The value by LEMON: `lemon_peer ni` by its NagamochiIbaraki, `lemon_peer ho` by its HaoOrlin. The graph comes on standard input.
#include "metis_file.hpp"
#include <lemon/hao_orlin.h>
#include <lemon/nagamochi_ibaraki.h>
#include <lemon/smart_graph.h>

using Weights = lemon::SmartGraph::EdgeMap<int64_t>;

static int64_t nagamochi_ibaraki(const lemon::SmartGraph &graph, const Weights &weights) {
    lemon::NagamochiIbaraki<lemon::SmartGraph, Weights> search(graph, weights);
    search.run();
    return search.minCutValue();
}

// The graph is undirected, so the cuts out of the first vertex's side are all cuts.
static int64_t hao_orlin(const lemon::SmartGraph &graph, const Weights &weights) {
    lemon::HaoOrlin<lemon::SmartGraph, Weights> search(graph, weights);
    search.init();
    search.calculateOut();
    return search.minCutValue();
}

int main(int count, char **words) {
    EdgeFile file = read_edges();
    lemon::SmartGraph graph;
    graph.reserveNode(file.vertices);
    graph.reserveEdge(file.edges.size());
    for (uint32_t v = 0; v < file.vertices; ++v) graph.addNode();
    for (const Edge &edge : file.edges) graph.addEdge(graph.nodeFromId(edge.u), graph.nodeFromId(edge.v));
    Weights weights(graph);
    for (size_t i = 0; i < file.edges.size(); ++i) weights[graph.edgeFromId(i)] = file.edges[i].weight;
    file = EdgeFile();
    const bool flows = count > 1 && std::string(words[1]) == "ho";
    const double start = processor_seconds();
    const int64_t value = flows ? hao_orlin(graph, weights) : nagamochi_ibaraki(graph, weights);
    tell("value", value, processor_seconds() - start);
}
