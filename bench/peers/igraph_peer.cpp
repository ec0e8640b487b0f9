// By igraph: `igraph_peer value` is igraph_mincut_value, `igraph_peer count` counts the minimum cuts, as the union of what
// igraph_all_st_mincuts lists between the first vertex and each other one. The graph comes on standard input.
#include "metis_file.hpp"
#include <igraph/igraph.h>
#include <set>

using Sides = std::set<std::vector<uint32_t>>;

struct Held {
    igraph_t graph;
    igraph_vector_t weights;
};

// Each edge once, or where `both` is set an arc in each direction, since igraph lists the cuts of directed graphs alone.
static Held held(const EdgeFile &file, bool both) {
    const size_t copies = both ? 2 : 1;
    igraph_vector_int_t ends;
    Held made;
    igraph_vector_int_init(&ends, 2 * copies * file.edges.size());
    igraph_vector_init(&made.weights, copies * file.edges.size());
    size_t arc = 0;
    for (const Edge &edge : file.edges)
        for (size_t copy = 0; copy < copies; ++copy, ++arc) {
            VECTOR(ends)[2 * arc] = copy ? edge.v : edge.u;
            VECTOR(ends)[2 * arc + 1] = copy ? edge.u : edge.v;
            VECTOR(made.weights)[arc] = edge.weight;
        }
    igraph_create(&made.graph, &ends, file.vertices, both ? IGRAPH_DIRECTED : IGRAPH_UNDIRECTED);
    igraph_vector_int_destroy(&ends);
    return made;
}

static igraph_real_t value_of(const Held &undirected) {
    igraph_real_t value;
    igraph_mincut_value(&undirected.graph, &value, &undirected.weights);
    return value;
}

// Adds the sides, without the first vertex, of the least cuts between the first vertex and `to`.
static void add_sides(const Held &directed, igraph_integer_t to, Sides &sides) {
    igraph_real_t value;
    igraph_vector_int_list_t parts;
    igraph_vector_int_list_init(&parts, 0);
    if (igraph_all_st_mincuts(&directed.graph, &value, nullptr, &parts, 0, to, &directed.weights)) exit(3);
    for (igraph_integer_t i = 0; i < igraph_vector_int_list_size(&parts); ++i) {
        const igraph_vector_int_t *part = igraph_vector_int_list_get_ptr(&parts, i);
        std::vector<char> inside(igraph_vcount(&directed.graph), 0);
        for (igraph_integer_t k = 0; k < igraph_vector_int_size(part); ++k) inside[VECTOR(*part)[k]] = 1;
        std::vector<uint32_t> side;
        for (uint32_t v = 0; v < inside.size(); ++v)
            if (inside[v] != inside[0]) side.push_back(v);
        sides.insert(side);
    }
    igraph_vector_int_list_destroy(&parts);
}

static size_t count_of(const Held &undirected, const Held &directed) {
    const igraph_real_t value = value_of(undirected);
    Sides sides;
    for (igraph_integer_t to = 1; to < igraph_vcount(&directed.graph); ++to) {
        igraph_real_t flow;
        igraph_maxflow_value(&directed.graph, &flow, 0, to, &directed.weights, nullptr);
        if (flow == value) add_sides(directed, to, sides);
    }
    return sides.size();
}

int main(int count, char **words) {
    const bool counts = count > 1 && std::string(words[1]) == "count";
    EdgeFile file = read_edges();
    const Held undirected = held(file, false);
    const Held directed = held(counts ? file : EdgeFile(), true);
    file = EdgeFile();
    const double start = processor_seconds();
    const unsigned long long answer = counts ? count_of(undirected, directed) : (unsigned long long)value_of(undirected);
    tell(counts ? "count" : "value", answer, processor_seconds() - start);
}
