// The value by Boost: stoer_wagner_min_cut. The graph comes on standard input.
#include "metis_file.hpp"
#include <boost/graph/adjacency_list.hpp>
#include <boost/graph/stoer_wagner_min_cut.hpp>

using Weight = boost::property<boost::edge_weight_t, int64_t>;
using Graph = boost::adjacency_list<boost::vecS, boost::vecS, boost::undirectedS, boost::no_property, Weight>;

int main() {
    EdgeFile file = read_edges();
    Graph graph(file.vertices);
    for (const Edge &edge : file.edges) add_edge(edge.u, edge.v, Weight(edge.weight), graph);
    file = EdgeFile();
    const double start = processor_seconds();
    const int64_t value = boost::stoer_wagner_min_cut(graph, get(boost::edge_weight, graph));
    tell("value", value, processor_seconds() - start);
}
