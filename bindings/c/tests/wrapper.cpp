// The calls of mincut.hpp: a few graphs and faults, and random graphs whose cactus has to give the sides that are listed.
// The status is the number of the first check that fails, or 0.
#include "mincut.hpp"

#include <array>
#include <cstdio>
#include <random>
#include <set>
#include <string>

using Side = std::vector<std::uint32_t>;

template <class Call>
static bool tells(mincut_status status, Call call) {
    try {
        call();
    } catch (const mincut::Error &error) {
        return error.status() == status && error.what() == std::string(mincut_status_text(status));
    }
    return false;
}

static mincut::EdgeList ring(std::uint32_t n) {
    mincut::EdgeList edges(n);
    for (std::uint32_t i = 0; i < n; ++i) edges.add(i, (i + 1) % n);
    return edges;
}

static int faults() {
    const mincut::EdgeList four = ring(4);
    const std::vector<std::uint64_t> mass{1, 5, 1}, vast{~0ull, 1, 0, 0};
    if (!tells(MINCUT_NO_CUT, [] { mincut::value(mincut::Graph{}); })) return 1;
    if (!tells(MINCUT_NO_CUT, [] { mincut::cactus(mincut::EdgeList(1)); })) return 2;
    if (!tells(MINCUT_NO_CUT, [] { mincut::sides(mincut::EdgeList(0)); })) return 3;
    if (!tells(MINCUT_DISCONNECTED, [] { mincut::augment(mincut::EdgeList(2)); })) return 4;
    if (!tells(MINCUT_BAD_LENGTH, [&] { mincut::value({4, four.u, four.v, mass}); })) return 5;
    if (!tells(MINCUT_BAD_LENGTH, [&] { mincut::balanced(four, mass); })) return 6;
    if (!tells(MINCUT_MASS_SUM, [&] { mincut::balanced(four, vast); })) return 7;
    if (!tells(MINCUT_BAD_VERTEX, [&] { mincut::sides_between(four, 0, 4); })) return 8;
    if (!tells(MINCUT_TOO_MANY_VERTICES, [] { mincut::cactus(mincut::EdgeList(~0u)); })) return 9;
    if (!tells(MINCUT_NO_CUT, [] { mincut::cut(mincut::EdgeList(0)); })) return 22;
    if (!tells(MINCUT_BAD_LENGTH, [&] { mincut::cut_below({4, four.u, four.v, mass}, 2); })) return 23;
    if (!tells(MINCUT_NO_CUT, [] { mincut::cuts_below(mincut::EdgeList(1), 2, 3); })) return 26;
    return mincut::TooManySides(7).sides() == 7 ? 0 : 10;
}

// Whether this is the side of a minimum cut of a connected graph.
static bool is_side(const mincut::Graph &graph, const std::vector<std::uint8_t> &in_side) {
    const mincut::Sides all = mincut::sides(graph);
    for (std::size_t k = 0; k < all.size(); ++k)
        if (std::equal(all.row(k).begin(), all.row(k).end(), in_side.begin(), in_side.end())) return true;
    return false;
}

static int answers() {
    const std::array<std::uint32_t, 3> u{0, 1, 2}, v{1, 2, 3};
    const std::array<std::uint64_t, 3> w{1, 1, 1};
    const mincut::Graph path{4, u, v, w};
    if (mincut::value(path) != 1 || mincut::count(path) != 3 || mincut::value_below(ring(5), 1) != 1) return 11;
    const mincut::Cut one = mincut::cut(mincut::EdgeList(3));
    if (one.value != 0 || one.in_side.size() != 3 || one.in_side[0] != 0 || one.in_side[1] + one.in_side[2] == 0) return 24;
    const std::optional<mincut::Cut> below = mincut::cut_below(path, 2);
    if (!below || below->value != 1 || !is_side(path, below->in_side) || mincut::cut_below(path, 1)) return 25;
    const std::vector<mincut::LightCut> light = mincut::cuts_below(path, 2, 5);
    if (light.size() != 3 || mincut::cuts_below(path, 2, 2).size() != 2 || !mincut::cuts_below(path, 1, 5).empty()) return 27;
    for (const mincut::LightCut &k : light)
        if (k.weight != 1 || !is_side(path, k.in_side)) return 28;
    if (light[0].in_side == light[1].in_side || light[0].in_side == light[2].in_side || light[1].in_side == light[2].in_side) return 29;
    const mincut::Balanced best = mincut::balanced(path);
    if (best.value != 1 || best.balance != 2 || best.in_side != std::vector<std::uint8_t>{0, 0, 1, 1}) return 12;
    if (mincut::sides(path).lists() != std::vector<Side>{{1, 2, 3}, {2, 3}, {3}}) return 13;
    if (mincut::sides_between(path, 1, 2).list(0) != Side{2, 3} || mincut::sides_between(path, 1, 1).size() != 0) return 14;
    if (mincut::sides_balanced(path, {}, 2).size() != 1 || mincut::sides(path).row(2)[3] != 1) return 15;
    const mincut::Augmentation more = mincut::augment(path);
    if (more.value != 1 || more.sets != 2 || more.edges.size() != 1 || more.edges[0] != std::pair(0u, 3u) || more.set_of[3] != 2) return 16;
    const mincut::Cactus found = mincut::cactus(ring(5));
    if (found.value() != 2 || found.nodes() != 5 || found.cycles() != 1 || found.cycle(0).size() != 5 || !found.bridges().empty()) return 17;
    if (found.node(0).size() != 1 || found.node(0)[0] != 0 || found.places()[0].end != 5 || found.node_of()[0] != 0) return 18;
    return mincut::cactus(path).bridge_side(0).size() == 3 ? 0 : 19;
}

// Whether the cactus gives each side that is listed, and each once, and the single cut is one of them.
static bool agrees(const mincut::EdgeList &edges) {
    std::multiset<Side> told;
    mincut::cactus(edges).for_each_side([&](mincut::Span<const std::uint32_t> span) {
        Side side(span.begin(), span.end());
        std::sort(side.begin(), side.end());
        told.insert(side);
    });
    const std::vector<Side> lists = mincut::sides(edges).lists();
    return told == std::multiset<Side>(lists.begin(), lists.end()) && is_side(edges, mincut::cut(edges).in_side);
}

int main() {
    if (const int wrong = faults()) return wrong;
    if (const int wrong = answers()) return wrong;
    std::mt19937 random(5);
    const auto draw = [&](std::uint32_t below) { return static_cast<std::uint32_t>(random() % below); };
    for (int round = 0; round < 500; ++round) {
        const std::uint32_t n = 2 + draw(9);
        mincut::EdgeList edges(n);
        for (std::uint32_t i = 1; i < n; ++i) edges.add(i, draw(i), 1 + draw(2));
        for (std::uint32_t more = draw(n); more > 0; --more) edges.add(draw(n), draw(n), 1 + draw(2));
        if (!agrees(edges)) return std::printf("graph %d differs\n", round), 20;
    }
    // two cycles of four nodes share one, which has no vertex: the cut there is told once
    mincut::EdgeList two(6);
    for (const auto &[a, b] : {std::pair(0u, 1u), {1u, 2u}, {3u, 4u}, {4u, 5u}}) two.add(a, b, 2);
    for (const auto &[a, b] : {std::pair(0u, 3u), {0u, 5u}, {2u, 3u}, {2u, 5u}}) two.add(a, b);
    if (mincut::count(two) != 11 || mincut::cactus(two).nodes() != 7 || !agrees(two)) return 21;
    std::puts("all checks passed");
    return 0;
}
