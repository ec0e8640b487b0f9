// Separation of subtour constraints: in a point x of the relaxation of a tour each set of cities has to be left by edges that
// weigh 2 together. Where x falls into components, each of them gives a constraint that x breaks; else every minimum cut below 2
// does, and the cactus has all of them at once.
// c++ -std=c++17 subtours.cpp $(pkg-config --cflags --libs mincut) -o subtours
#include <algorithm>
#include <cmath>
#include <cstdio>
#include <mincut.h>
#include <vector>

struct Edge {
    uint32_t a, b;
    double x;
};

using Cities = std::vector<uint32_t>;

// Weights are whole numbers: a weight of 1 stands for SCALE.
constexpr double SCALE = 1 << 30;
// a weight may be one off, since it is rounded
constexpr uint64_t EDGE_ERROR = 1;

struct Cactus {
    mincut_sizes sizes;
    std::vector<size_t> node_starts, cycle_starts;
    std::vector<uint32_t> vertices;
    std::vector<mincut_bridge> bridges;
    std::vector<uint64_t> members;

    explicit Cactus(uint32_t n) : node_starts(2 * n), cycle_starts(n), vertices(n), bridges(2 * n), members(3 * n) {}
};

// The cities of each component: of two the second alone, as the same edges leave both.
static std::vector<Cities> cities_apart(const std::vector<uint32_t> &component_of, uint32_t count) {
    std::vector<Cities> found(count);
    for (uint32_t i = 0; i < component_of.size(); ++i) found[component_of[i]].push_back(i);
    if (count == 2) found.erase(found.begin());
    return found;
}

// The cities on one side of each minimum cut. Nodes are numbered along the tree, so what hangs from a node follows it, and the cities
// of a side stand side by side in `vertices`.
static std::vector<Cities> sides_of(const Cactus &c) {
    const size_t nodes = c.sizes.nodes;
    // each node but 0 hangs from an earlier one: the upper end of its bridge, or the first node of its cycle
    std::vector<size_t> upper(nodes), end(nodes);
    for (size_t i = 0; i < c.sizes.bridges; ++i) upper[c.bridges[i].lower] = c.bridges[i].upper;
    const auto cycle_end = [&](size_t i) { return i + 1 < c.sizes.cycles ? c.cycle_starts[i + 1] : c.sizes.members; };
    for (size_t i = 0; i < c.sizes.cycles; ++i)
        for (size_t k = c.cycle_starts[i] + 1; k < cycle_end(i); ++k) upper[c.members[k]] = c.members[c.cycle_starts[i]];
    // where the cities of a node and of all that hangs from it end
    for (size_t i = nodes; i-- > 0;) {
        end[i] = std::max(end[i], i + 1 < nodes ? c.node_starts[i + 1] : c.sizes.vertices);
        end[upper[i]] = std::max(end[upper[i]], end[i]);
    }
    std::vector<Cities> found;
    const auto add = [&](size_t first, size_t last) { found.emplace_back(c.vertices.begin() + c.node_starts[first], c.vertices.begin() + end[last]); };
    for (size_t i = 0; i < c.sizes.bridges; ++i) add(c.bridges[i].lower, c.bridges[i].lower);
    // two edges of a cycle leave the nodes between them; where there are very many, a solver takes some of them
    for (size_t i = 0; i < c.sizes.cycles; ++i)
        for (size_t k = c.cycle_starts[i] + 1; k < cycle_end(i); ++k)
            for (size_t l = k; l < cycle_end(i); ++l) add(c.members[k], c.members[l]);
    for (Cities &cities : found) std::sort(cities.begin(), cities.end());
    return found;
}

// Sets of cities that the point enters too seldom: none where it keeps all subtour constraints.
static std::vector<Cities> separate(uint32_t n, const std::vector<Edge> &edges) {
    std::vector<uint32_t> u, v, component_of(n);
    std::vector<uint64_t> w;
    for (const Edge &e : edges) u.push_back(e.a), v.push_back(e.b), w.push_back((uint64_t)std::llround(e.x * SCALE));
    uint32_t count = 0;
    if (mincut_components(n, u.size(), u.data(), v.data(), w.data(), &count, component_of.data()) != MINCUT_OK) return {};
    if (count > 1) return cities_apart(component_of, count);
    uint64_t value = 0;
    const uint64_t bound = (uint64_t)(2 * SCALE) - EDGE_ERROR * u.size();
    if (mincut_value_below(n, u.size(), u.data(), v.data(), w.data(), bound, &value) != MINCUT_OK || value == bound) return {};
    Cactus c(n);
    if (mincut_cactus(n, u.size(), u.data(), v.data(), w.data(), &c.sizes, c.node_starts.data(), c.vertices.data(), c.bridges.data(),
                      c.cycle_starts.data(), c.members.data()) != MINCUT_OK)
        return {};
    return sides_of(c);
}

int main() {
    // in place of a solver of linear programs: the points that it would come to, one after another
    const std::vector<std::vector<Edge>> points = {
        {{0, 1, 1}, {1, 2, 1}, {2, 0, 1}, {3, 4, 1}, {4, 5, 1}, {5, 3, 1}},
        {{0, 1, 1}, {1, 2, 1}, {2, 0, .75}, {3, 4, 1}, {4, 5, 1}, {5, 3, .75}, {0, 3, .25}, {2, 5, .25}},
        {{0, 1, 1}, {1, 2, 1}, {2, 5, 1}, {5, 4, 1}, {4, 3, 1}, {3, 0, 1}},
    };
    for (const std::vector<Edge> &point : points) {
        const std::vector<Cities> broken = separate(6, point);
        if (broken.empty()) {
            std::puts("all subtour constraints are kept");
            continue;
        }
        for (const Cities &cities : broken) {
            std::printf("add: at least 2 over the edges that leave");
            for (uint32_t city : cities) std::printf(" %u", city);
            std::puts("");
        }
    }
}
