/* The calls of mincut.h for C++17 and later: a graph is passed as spans, answers are vectors, and faults are exceptions. Everything is in
 * this header; link with the library as from C.
 *
 *     mincut::EdgeList ring(4);
 *     for (std::uint32_t i = 0; i < 4; ++i) ring.add(i, (i + 1) % 4, 5);
 *     std::uint64_t value = mincut::value(ring);                       // 10
 *     for (auto side : mincut::sides(ring).lists()) ..                 // {1}, {1, 2}, {1, 2, 3}, {2}, {2, 3}, {3}
 *
 * mincut.h says what a graph is, its limits, what each call costs, and that calls from several threads may run side by side. */
#ifndef MINCUT_HPP
#define MINCUT_HPP

#include "mincut.h"

#include <algorithm>
#include <cstddef>
#include <cstdint>
#include <iterator>
#include <optional>
#include <stdexcept>
#include <type_traits>
#include <utility>
#include <vector>
#if __cplusplus >= 202002L
#include <span>
#endif

namespace mincut {

/* Spans are those of the standard library if it has them. Both kinds may be linked into one program, so all names differ with them. */
#if __cplusplus >= 202002L
inline namespace standard_spans {

template <class T>
using Span = std::span<T>;
#else
inline namespace own_spans {

/* Adjacent entries that something else owns, like std::span of C++20. */
template <class T>
class Span {
public:
    constexpr Span() noexcept = default;
    constexpr Span(T *first, std::size_t count) noexcept : first_(first), count_(count) {}

    /* all entries of an array, a vector, or another container with data and size */
    template <class Container, class Entry = std::remove_pointer_t<decltype(std::data(std::declval<Container &>()))>,
              class = std::enable_if_t<std::is_convertible_v<Entry (*)[], T (*)[]>>>
    constexpr Span(Container &&container) noexcept : first_(std::data(container)), count_(std::size(container)) {}

    constexpr T *data() const noexcept { return first_; }
    constexpr std::size_t size() const noexcept { return count_; }
    constexpr bool empty() const noexcept { return count_ == 0; }
    constexpr T *begin() const noexcept { return first_; }
    constexpr T *end() const noexcept { return first_ + count_; }
    constexpr T &operator[](std::size_t i) const { return first_[i]; }
    constexpr T &front() const { return first_[0]; }
    constexpr T &back() const { return first_[count_ - 1]; }
    constexpr Span subspan(std::size_t offset, std::size_t count) const { return {first_ + offset, count}; }

private:
    T *first_ = nullptr;
    std::size_t count_ = 0;
};
#endif

/* Why a call has no result. */
class Error : public std::runtime_error {
public:
    explicit Error(mincut_status status) : std::runtime_error(mincut_status_text(status)), status_(status) {}
    mincut_status status() const noexcept { return status_; }

private:
    mincut_status status_;
};

/* A list would be larger than 2^30 bytes; its status is MINCUT_TOO_MANY_SIDES. */
class TooManySides : public Error {
public:
    explicit TooManySides(std::uint64_t sides) : Error(MINCUT_TOO_MANY_SIDES), sides_(sides) {}
    std::uint64_t sides() const noexcept { return sides_; }

private:
    std::uint64_t sides_;
};

inline void check(mincut_status status) {
    if (status != MINCUT_OK) throw Error(status);
}

/* A graph that a call borrows: edge i joins u[i] and v[i] and weighs w[i]; all three have the same length. */
struct Graph {
    std::uint32_t vertices = 0;
    Span<const std::uint32_t> u, v;
    Span<const std::uint64_t> w;

    /* the number of edges; an Error if the lengths differ */
    std::size_t edges() const {
        if (v.size() != u.size() || w.size() != u.size()) throw Error(MINCUT_BAD_LENGTH);
        return u.size();
    }
};

/* Edges that are added one by one; it becomes a Graph in a call. */
struct EdgeList {
    std::uint32_t vertices;
    std::vector<std::uint32_t> u, v;
    std::vector<std::uint64_t> w;

    explicit EdgeList(std::uint32_t count) : vertices(count) {}
    void add(std::uint32_t a, std::uint32_t b, std::uint64_t weight = 1) {
        u.push_back(a);
        v.push_back(b);
        w.push_back(weight);
    }
    operator Graph() const { return {vertices, u, v, w}; }
};

/* The length of an array for all vertices: one if there are none, so that it has an address. */
inline std::size_t room_of(const Graph &graph) {
    if (graph.vertices > 4194304) throw Error(MINCUT_TOO_MANY_VERTICES);
    return graph.vertices ? graph.vertices : 1;
}

/* The masses of all vertices; an empty span for a mass of 1 each. */
using Masses = Span<const std::uint64_t>;

inline const std::uint64_t *data_of(const Graph &graph, Masses masses) {
    if (!masses.empty() && masses.size() != graph.vertices) throw Error(MINCUT_BAD_LENGTH);
    return masses.empty() ? nullptr : masses.data();
}

/* The least weight of a cut; 0 if the graph is not connected. */
inline std::uint64_t value(const Graph &graph) {
    std::uint64_t found = 0;
    check(mincut_value(graph.vertices, graph.edges(), graph.u.data(), graph.v.data(), graph.w.data(), &found));
    return found;
}

/* The smaller of the bound and the value. */
inline std::uint64_t value_below(const Graph &graph, std::uint64_t bound) {
    std::uint64_t found = 0;
    check(mincut_value_below(graph.vertices, graph.edges(), graph.u.data(), graph.v.data(), graph.w.data(), bound, &found));
    return found;
}

/* A minimum cut. */
struct Cut {
    std::uint64_t value;                /* the least weight of a cut */
    std::vector<std::uint8_t> in_side;  /* 0 for vertex 0 and all vertices on its side, 1 for the others */
};

/* One minimum cut, at about the price of the value; any of several may be returned. The graph need not be connected. */
inline Cut cut(const Graph &graph) {
    Cut found{0, std::vector<std::uint8_t>(room_of(graph))};
    check(mincut_cut(graph.vertices, graph.edges(), graph.u.data(), graph.v.data(), graph.w.data(), &found.value, found.in_side.data()));
    return found;
}

/* The same if the value is below the bound, or nothing: then no cut weighs less than the bound. */
inline std::optional<Cut> cut_below(const Graph &graph, std::uint64_t bound) {
    Cut found{0, std::vector<std::uint8_t>(room_of(graph))};
    check(mincut_cut_below(graph.vertices, graph.edges(), graph.u.data(), graph.v.data(), graph.w.data(), bound, &found.value,
                           found.in_side.data()));
    if (found.value == bound) return std::nullopt;
    return found;
}

/* A cut that weighs less than a bound. */
struct LightCut {
    std::uint64_t weight;
    std::vector<std::uint8_t> in_side;  /* 0 for vertex 0 and all vertices on its side, 1 for the others */
};

/* Cuts that weigh less than the bound, at most so many and no two the same, and a minimum cut first; which others is free. None only if no
 * cut weighs less or `most` is 0. The graph need not be connected. */
inline std::vector<LightCut> cuts_below(const Graph &graph, std::uint64_t bound, std::size_t most) {
    const std::size_t n = room_of(graph), rows = std::min(most, n);
    std::uint64_t count = 0;
    std::vector<std::uint64_t> weights(rows + 1);
    std::vector<std::uint8_t> bytes(rows * n + 1);
    check(mincut_cuts_below(graph.vertices, graph.edges(), graph.u.data(), graph.v.data(), graph.w.data(), bound, rows, &count,
                            weights.data(), bytes.data()));
    std::vector<LightCut> found;
    for (std::size_t k = 0; k < count; ++k) found.push_back({weights[k], {bytes.data() + k * n, bytes.data() + (k + 1) * n}});
    return found;
}

/* The number of all minimum cuts of a connected graph. */
inline std::uint64_t count(const Graph &graph) {
    std::uint64_t found = 0;
    check(mincut_count(graph.vertices, graph.edges(), graph.u.data(), graph.v.data(), graph.w.data(), &found));
    return found;
}

/* The components of a graph, connected or not, numbered from 0 in the order of their least vertices. */
struct Components {
    std::uint32_t count;
    std::vector<std::uint32_t> component_of;  /* for each vertex */
};

inline Components components(const Graph &graph) {
    Components found{0, std::vector<std::uint32_t>(room_of(graph))};
    check(mincut_components(graph.vertices, graph.edges(), graph.u.data(), graph.v.data(), graph.w.data(), &found.count,
                            found.component_of.data()));
    found.component_of.resize(graph.vertices);
    return found;
}

/* A cactus of all minimum cuts of a connected graph. The spans it returns are of its own arrays. */
class Cactus {
public:
    explicit Cactus(const Graph &graph);

    std::uint64_t value() const noexcept { return sizes_.value; }
    std::size_t nodes() const noexcept { return sizes_.nodes; }
    std::size_t cycles() const noexcept { return sizes_.cycles; }
    Span<const mincut_bridge> bridges() const { return bridges_; }

    /* The vertices of a node, ascending; there may be none. */
    Span<const std::uint32_t> node(std::size_t i) const { return part(vertices_, node_starts_[i], node_starts_[i + 1]); }

    /* The nodes of a cycle in its order; the last is joined to the first, from which the others hang. */
    Span<const std::uint64_t> cycle(std::size_t i) const { return part(members_, cycle_starts_[i], cycle_starts_[i + 1]); }

    /* Where each node hangs. */
    Span<const mincut_place> places() const { return places_; }

    /* The node of each vertex. */
    std::vector<std::uint64_t> node_of() const;

    /* The vertices of a node and of all nodes below it, in no particular order. For each node but 0 this is one side of a minimum cut. */
    Span<const std::uint32_t> below(std::size_t node) const { return part(vertices_, places_[node].first, places_[node].end); }

    /* The side of the minimum cut of a bridge, and of two edges i < j of a cycle; edge i joins its nodes i and i + 1. */
    Span<const std::uint32_t> bridge_side(std::size_t bridge) const { return below(bridges_[bridge].lower); }
    Span<const std::uint32_t> cycle_side(std::size_t cycle, std::size_t i, std::size_t j) const {
        const mincut_range side = mincut_cycle_side(cycle_starts_.data(), members_.data(), places_.data(), cycle, i, j);
        return part(vertices_, side.first, side.end);
    }

    /* Calls its argument once for each minimum cut, with the side without vertex 0: a span of vertices in no particular order. */
    template <class Call>
    void for_each_side(Call call) const;

private:
    mincut_sizes sizes_{};
    std::vector<std::size_t> node_starts_, cycle_starts_;
    std::vector<std::uint32_t> vertices_;
    std::vector<mincut_bridge> bridges_;
    std::vector<std::uint64_t> members_;
    std::vector<mincut_place> places_;

    template <class T>
    static Span<const T> part(const std::vector<T> &all, std::size_t first, std::size_t end) {
        return Span<const T>(all.data() + first, end - first);
    }
    std::vector<bool> joints() const;
};

inline Cactus::Cactus(const Graph &graph) {
    const std::size_t n = room_of(graph);
    node_starts_.resize(2 * n), vertices_.resize(n), bridges_.resize(2 * n), cycle_starts_.resize(n), members_.resize(3 * n);
    check(mincut_cactus(graph.vertices, graph.edges(), graph.u.data(), graph.v.data(), graph.w.data(), &sizes_, node_starts_.data(),
                        vertices_.data(), bridges_.data(), cycle_starts_.data(), members_.data()));
    places_.resize(sizes_.nodes);
    mincut_places(&sizes_, node_starts_.data(), bridges_.data(), cycle_starts_.data(), members_.data(), places_.data());
    /* each list ends where the next begins, even the last one */
    node_starts_.resize(sizes_.nodes + 1), node_starts_.back() = sizes_.vertices;
    cycle_starts_.resize(sizes_.cycles + 1), cycle_starts_.back() = sizes_.members;
    bridges_.resize(sizes_.bridges), members_.resize(sizes_.members);
    node_starts_.shrink_to_fit(), cycle_starts_.shrink_to_fit(), bridges_.shrink_to_fit(), members_.shrink_to_fit();
}

inline std::vector<std::uint64_t> Cactus::node_of() const {
    std::vector<std::uint64_t> found(vertices_.size());
    mincut_node_of(&sizes_, node_starts_.data(), vertices_.data(), found.data());
    return found;
}

/* The nodes without vertices between two cycles, the lower node of one and the upper node of the other: both cycles have their cut. */
inline std::vector<bool> Cactus::joints() const {
    std::vector<std::size_t> blocks(nodes()), of_cycles(nodes());
    for (const mincut_bridge &bridge : bridges_) ++blocks[bridge.upper];
    for (std::size_t c = 0; c < cycles(); ++c) ++blocks[cycle(c)[0]], ++of_cycles[cycle(c)[0]];
    std::vector<bool> found(nodes());
    for (std::size_t i = 1; i < nodes(); ++i)
        found[i] = node(i).empty() && places_[i].position > 0 && blocks[i] == 1 && of_cycles[i] == 1;
    return found;
}

template <class Call>
void Cactus::for_each_side(Call call) const {
    const std::vector<bool> joint = joints();
    for (std::size_t k = 0; k < bridges_.size(); ++k) call(bridge_side(k));
    for (std::size_t c = 0; c < cycles(); ++c) {
        const Span<const std::uint64_t> nodes = cycle(c);
        for (std::size_t j = 1; j < nodes.size(); ++j)
            for (std::size_t i = 0; i < j; ++i)
                if (i + 1 < j || !joint[nodes[j]]) call(cycle_side(c, i, j));
    }
}

inline Cactus cactus(const Graph &graph) { return Cactus(graph); }

/* A minimum cut, and how evenly it divides the vertices. */
struct Balanced {
    std::uint64_t value, balance;       /* balance: the smaller of the masses of the two sides */
    std::vector<std::uint8_t> in_side;  /* 0 for vertex 0 and all vertices on its side, 1 for the others */
};

/* A minimum cut of a connected graph of the greatest balance; any of several such cuts may be returned. */
inline Balanced balanced(const Graph &graph, Masses masses = {}) {
    std::vector<std::uint8_t> in_side(room_of(graph));
    mincut_balance found{};
    check(mincut_balanced(graph.vertices, graph.edges(), graph.u.data(), graph.v.data(), graph.w.data(), data_of(graph, masses), &found,
                          in_side.data()));
    return {found.value, found.balance, std::move(in_side)};
}

/* Sides of minimum cuts, in the order of the lists of their vertices. */
class Sides {
public:
    Sides(std::uint64_t value, std::size_t vertices, std::vector<std::uint8_t> bytes)
        : value_(value), vertices_(vertices), bytes_(std::move(bytes)) {}

    std::uint64_t value() const noexcept { return value_; }
    std::size_t size() const noexcept { return bytes_.size() / vertices_; }

    /* A byte for each vertex: 0 for vertex 0 and all vertices on its side, 1 for the others. */
    Span<const std::uint8_t> row(std::size_t k) const { return Span<const std::uint8_t>(bytes_.data() + k * vertices_, vertices_); }

    /* The vertices of a side, ascending; vertex 0 is in none. */
    std::vector<std::uint32_t> list(std::size_t k) const {
        std::vector<std::uint32_t> found;
        const Span<const std::uint8_t> bytes = row(k);
        for (std::uint32_t v = 0; v < bytes.size(); ++v)
            if (bytes[v]) found.push_back(v);
        return found;
    }

    /* All sides as lists. */
    std::vector<std::vector<std::uint32_t>> lists() const {
        std::vector<std::vector<std::uint32_t>> found;
        for (std::size_t k = 0; k < size(); ++k) found.push_back(list(k));
        return found;
    }

private:
    std::uint64_t value_;
    std::size_t vertices_;
    std::vector<std::uint8_t> bytes_;
};

/* Lists sides by a call that takes a number of rows and an array, first with few rows, since the call says how many sides there are. */
template <class Call>
Sides listed(const Graph &graph, Call call) {
    const std::size_t n = room_of(graph);
    mincut_listing listing{};
    std::vector<std::uint8_t> bytes(std::max<std::size_t>(n, 65536));
    mincut_status status = call(bytes.size() / n, &listing, bytes.data());
    if (status == MINCUT_NO_ROOM) {
        bytes.resize(listing.sides * n);
        status = call(static_cast<std::size_t>(listing.sides), &listing, bytes.data());
    }
    if (status == MINCUT_TOO_MANY_SIDES) throw TooManySides(listing.sides);
    check(status);
    bytes.resize(listing.sides * n);
    return Sides(listing.value, n, std::move(bytes));
}

/* The minimum cuts of a connected graph whose balance, the smaller of the masses of their two sides, is `least` or more. */
inline Sides sides_balanced(const Graph &graph, Masses masses, std::uint64_t least) {
    return listed(graph, [&](std::size_t rows, mincut_listing *listing, std::uint8_t *in_side) {
        return mincut_sides_balanced(graph.vertices, graph.edges(), graph.u.data(), graph.v.data(), graph.w.data(), data_of(graph, masses),
                                     least, rows, listing, in_side);
    });
}

/* All minimum cuts of a connected graph. */
inline Sides sides(const Graph &graph) { return sides_balanced(graph, {}, 0); }

/* The minimum cuts of a connected graph that separate two vertices; none if they are the same vertex. */
inline Sides sides_between(const Graph &graph, std::uint32_t a, std::uint32_t b) {
    return listed(graph, [&](std::size_t rows, mincut_listing *listing, std::uint8_t *in_side) {
        return mincut_sides_between(graph.vertices, graph.edges(), graph.u.data(), graph.v.data(), graph.w.data(), a, b, rows, listing,
                                    in_side);
    });
}

/* The fewest edges of weight 1 that raise the value, and the sets that show that fewer are not enough. */
struct Augmentation {
    std::uint64_t value;                                           /* of the graph as it is */
    std::vector<std::pair<std::uint32_t, std::uint32_t>> edges;    /* ascending, the smaller vertex first */
    std::size_t sets;                                              /* how many sets there are */
    std::vector<std::uint64_t> set_of;                             /* for each vertex the number of its set, from 1, or 0 */
};

inline Augmentation augment(const Graph &graph) {
    const std::size_t n = room_of(graph);
    std::vector<std::uint32_t> from(n), to(n);
    std::vector<std::uint64_t> set_of(n);
    mincut_raise found{};
    check(mincut_augment(graph.vertices, graph.edges(), graph.u.data(), graph.v.data(), graph.w.data(), &found, from.data(), to.data(),
                         set_of.data()));
    Augmentation answer{found.value, {}, found.sets, std::move(set_of)};
    for (std::size_t k = 0; k < found.edges; ++k) answer.edges.emplace_back(from[k], to[k]);
    return answer;
}

}  // inline namespace
}  // namespace mincut

#endif
