/* Minimum cuts of a weighted undirected graph: their value, one of them, several light cuts, their number, a cactus of all of them, a most balanced one, lists
 * of their sides, and the fewest new edges that raise the value; and the components of a graph that is not connected.
 *
 * Graphs. A graph has n vertices, 0 to n - 1, and m edges in three arrays of m entries: edge i joins u[i] and v[i] and has the weight
 * w[i], a whole number. The edges are in any order, each of them once and not once for each end. Edges with the same ends count as one
 * edge with the sum of their weights; loops and edges of weight 0 are in no cut. A cut divides the vertices into two sides, neither
 * empty; its weight is the sum of the weights of the edges between them. The value is the least weight of a cut, and a minimum cut is
 * one of that weight.
 *
 * Limits. n is at most 4,194,304 and m at most 16,777,216. The weights of all edges but loops add up to at most 2^61.
 *
 * Checks. Lengths, limits, vertices, sums and the room in arrays are checked inside, and a status says what is wrong. Pointers are not
 * checked: an array must have as many entries as its length says, it must be aligned, and no output array may overlap another array.
 * These pointers may be null: arrays of edges if m is 0, weight and in_side of a list if rows is 0, component_of if n is 0, and mass always.
 *
 * Threads and memory. A call uses only its arrays and the heap, keeps nothing, and starts no thread. Calls in several threads may run
 * side by side, on output arrays of their own. Memory comes from the program's malloc, realloc and free, is in proportion to n + m, and
 * is freed before the call returns, even if it runs out. Calls need little stack. Do not call from a signal handler. */
#ifndef MINCUT_H
#define MINCUT_H

#include <stddef.h>
#include <stdint.h>

#ifdef __cplusplus
extern "C" {
#endif

/* The version of this header. MINCUT_VERSION is 10000 * major + 100 * minor + patch, and may be used in an #if. */
#define MINCUT_VERSION_MAJOR 0
#define MINCUT_VERSION_MINOR 4
#define MINCUT_VERSION_PATCH 0
#define MINCUT_VERSION (10000u * MINCUT_VERSION_MAJOR + 100u * MINCUT_VERSION_MINOR + MINCUT_VERSION_PATCH)

/* If there are several faults, the first of them is reported, in this order: null pointers; the number of masses, then their sum; the
 * two vertices of a pair; the lengths of the arrays (raw exports); n; m; the edges in turn, for each of them its ends and then the sum
 * of the weights up to it; fewer than two vertices; a graph that is not connected; the number of sides in a list; the room in the
 * arrays. From the edges on, MINCUT_OUT_OF_MEMORY may take the place of any of these. All of this is proved of the raw exports, except
 * that MINCUT_OUT_OF_MEMORY comes no earlier. */
typedef enum mincut_status {
    MINCUT_OK = 0,
    MINCUT_NO_CUT = 1,            /* n is 0 or 1 */
    MINCUT_OUT_OF_MEMORY = 2,
    MINCUT_BAD_LENGTH = 3,        /* a pointer is null that must not be, or (raw exports) the arrays of one graph differ in length, or
                                   * there are masses, but not n of them */
    MINCUT_TOO_MANY_VERTICES = 4, /* n is above 4,194,304 */
    MINCUT_TOO_MANY_EDGES = 5,    /* m is above 16,777,216 */
    MINCUT_BAD_VERTEX = 6,        /* an end of an edge, or a vertex of a pair, is n or more */
    MINCUT_WEIGHT_SUM = 7,        /* the weights of all edges but loops add up to more than 2^61 */
    MINCUT_DISCONNECTED = 8,      /* the graph is not connected: its value is 0, and it has no cactus */
    MINCUT_NO_ROOM = 9,           /* an output array is too short; the sizes say how long it must be */
    MINCUT_MASS_SUM = 10,         /* the masses of all vertices add up to 2^64 or more */
    MINCUT_TOO_MANY_SIDES = 11    /* n times the number of sides is above 2^30; the listing has this number */
} mincut_status;

/* The MINCUT_VERSION of the library. */
uint32_t mincut_version(void);

/* A short sentence on a status. It is never null, not even for a status that this version does not know. */
const char *mincut_status_text(uint32_t status);

/* The value, which is 0 if the graph is not connected. With a status other than MINCUT_OK, `value` is unchanged. The statuses are 0 to 7.
 * Cost: O(m log m) to sort the edges and contract, and one sweep of flows over the rest, which takes little more on most graphs. */
mincut_status mincut_value(uint32_t n, size_t m, const uint32_t *u, const uint32_t *v, const uint64_t *w, uint64_t *value);

/* The smaller of the bound and the value, to separate constraints: the value if it is below the bound, and otherwise the bound. The
 * statuses and the cost are those of mincut_value; flows end at the bound, so one far below the value saves some of them. */
mincut_status mincut_value_below(uint32_t n, size_t m, const uint32_t *u, const uint32_t *v, const uint64_t *w, uint64_t bound,
                                 uint64_t *value);

/* The value and one minimum cut; any of several may be returned. in_side has n entries: 0 for vertex 0 and all vertices on its side, 1 for
 * the others. If the graph is not connected, the value is 0 and the others are one or more whole components.
 *
 * The statuses are 0 to 7. With a status other than MINCUT_OK the outputs are unchanged. Cost: about that of mincut_value. */
mincut_status mincut_cut(uint32_t n, size_t m, const uint32_t *u, const uint32_t *v, const uint64_t *w, uint64_t *value,
                         uint8_t *in_side);

/* The same if the value is below the bound. Otherwise `value` gets the bound and in_side is unchanged: no cut weighs less. The statuses
 * and the cost are those of mincut_cut. */
mincut_status mincut_cut_below(uint32_t n, size_t m, const uint32_t *u, const uint32_t *v, const uint64_t *w, uint64_t bound,
                               uint64_t *value, uint8_t *in_side);

/* Several cuts that weigh less than the bound, to separate several constraints at a time: at most `rows` of them, no two the same, and a
 * minimum cut first. Which others are listed, in which order, is free. Cut k weighs weight[k], and its side is the row of n bytes from
 * in_side + k * n: 0 for vertex 0 and all vertices on its side, 1 for the others. `count` gets the number of the cuts; it is 0 only if no
 * cut weighs less than the bound or rows is 0. The graph need not be connected.
 *
 * weight has `rows` entries and in_side rows * n; both may be null if rows is 0. There are at most n - 1 cuts. Entries after those of the
 * last cut are unchanged. The statuses are 0 to 7. With a status other than MINCUT_OK all outputs are unchanged. Cost: one pass of
 * contraction at the bound, and one sweep of flows over the rest. A flow ends at the bound while there is room, then at the least weight
 * found. Each cut takes n / 8 bytes of memory. */
mincut_status mincut_cuts_below(uint32_t n, size_t m, const uint32_t *u, const uint32_t *v, const uint64_t *w, uint64_t bound,
                                size_t rows, uint64_t *count, uint64_t *weight, uint8_t *in_side);

/* The number of all minimum cuts of a connected graph, at most n (n - 1) / 2; none is listed. With a status other than MINCUT_OK,
 * `count` is unchanged. The statuses are 0 to 8. Cost: that of the cactus. */
mincut_status mincut_count(uint32_t n, size_t m, const uint32_t *u, const uint32_t *v, const uint64_t *w, uint64_t *count);

/* The components of any graph: two vertices are in the same component if a path of edges joins them, none of which weighs 0. Components
 * are numbered from 0 in the order of their least vertices; component_of has n entries and gets the number for each vertex. n may be 0
 * or 1. If the value is 0, each component without vertex 0 is a side of a minimum cut, and so is each union of such components.
 *
 * The statuses are 0 and 2 to 7. With a status other than MINCUT_OK the outputs are unchanged. Cost: O(m log n), and 8 bytes of memory
 * for each vertex; no edge is copied. */
mincut_status mincut_components(uint32_t n, size_t m, const uint32_t *u, const uint32_t *v, const uint64_t *w, uint32_t *count,
                                uint32_t *component_of);

/* A bridge of the cactus between two nodes. The lower one is further from node 0, and has the higher number. */
typedef struct mincut_bridge {
    uint64_t upper, lower;
} mincut_bridge;

/* The value, and how many entries a cactus has in each array. */
typedef struct mincut_sizes {
    uint64_t value;
    size_t nodes;    /* entries of node_starts: at most 2n - 2 */
    size_t vertices; /* entries of vertices: n */
    size_t bridges;  /* entries of bridges */
    size_t cycles;   /* entries of cycle_starts */
    size_t members;  /* entries of members */
} mincut_sizes;

/* The canonical cactus of all minimum cuts of a connected graph. It is in normal form: a node without vertices is in at least three
 * bridges and cycles, or in exactly two cycles. Of all such cactuses it is the one in which each cycle has four or more nodes, the bridges
 * and cycles that hang from a node are in the order of the least vertices that hang in them, and the least vertex at or below the second
 * node of a cycle is less than that at or below its last. So the arrays depend only on the minimum cuts, and the program's job `cactus`
 * prints the same, with vertices from 1.
 *
 * The vertices of node i begin at vertices[node_starts[i]] and end where node i + 1 begins, or at the end; they ascend, and there may be
 * none. Each vertex is in one node, and vertex 0 is in node 0. The nodes of cycle i begin at members[cycle_starts[i]] and end where
 * cycle i + 1 begins, or at the end. They are in the order of the cycle, at least four, and the last is joined to the first. If one
 * bridge, or two edges of one cycle, are removed, node 0 no longer reaches some nodes: their vertices are one side of a minimum cut.
 * Each minimum cut is one of these. It occurs twice only at a node without vertices between two cycles.
 *
 * The nodes are numbered in the order in which a walk through the tree enters them. Each node but 0 hangs from one earlier node: by the
 * bridge of which it is the lower node, or in the cycle in which it is not the first. The nodes that hang from a node, directly or
 * further down, follow it without a gap. So the vertices of a side are adjacent in the array: for a bridge those from its lower node
 * on, for two edges of a cycle those from the first to the last of the nodes between them. Bridges ascend by their lower nodes, cycles
 * by their second nodes, and the nodes of each cycle ascend.
 *
 * The arrays must have room for this many entries, which is enough for every graph:
 *   node_starts 2n, vertices n, bridges 2n, cycle_starts n, members 3n.
 *
 * The statuses are 0 to 8. With a status other than MINCUT_OK all outputs are unchanged. Cost: O(m log m), one sweep of flows for the
 * value, and one over regions for the cactus. */
mincut_status mincut_cactus(uint32_t n, size_t m, const uint32_t *u, const uint32_t *v, const uint64_t *w, mincut_sizes *sizes,
                            size_t *node_starts, uint32_t *vertices, mincut_bridge *bridges, size_t *cycle_starts,
                            uint64_t *members);

/* The node of each vertex. node_of has n entries; the other arrays come from mincut_cactus. Cost: O(n). */
void mincut_node_of(const mincut_sizes *sizes, const size_t *node_starts, const uint32_t *vertices, uint64_t *node_of);

/* Where a node of a cactus hangs, and which vertices hang from it. For node 0 the first three are 0. */
typedef struct mincut_place {
    uint64_t upper;    /* the node above it: the upper end of its bridge, or the first node of its cycle */
    size_t block;      /* the number of its bridge if position is 0, and otherwise of its cycle */
    size_t position;   /* 0 for the lower end of a bridge, and otherwise its place in the cycle, from 1 */
    size_t first, end; /* its vertices and those of all nodes below it are vertices[first] up to vertices[end - 1] */
} mincut_place;

/* Some vertices of a cactus: vertices[first] up to vertices[end - 1]. */
typedef struct mincut_range {
    size_t first, end;
} mincut_range;

/* The place of each node. places has as many entries as there are nodes; the other arrays come from mincut_cactus. Cost: O(n); it
 * allocates nothing. */
void mincut_places(const mincut_sizes *sizes, const size_t *node_starts, const mincut_bridge *bridges, const size_t *cycle_starts,
                   const uint64_t *members, mincut_place *places);

/* The side that node 0 no longer reaches if a bridge is removed. The places come from mincut_places. */
mincut_range mincut_bridge_side(const mincut_bridge *bridges, const mincut_place *places, size_t bridge);

/* The side that node 0 no longer reaches if edges i and j of a cycle are removed, i < j. Edge i joins the nodes i and i + 1 of the cycle,
 * the last edge its last node and its first. The places come from mincut_places. */
mincut_range mincut_cycle_side(const size_t *cycle_starts, const uint64_t *members, const mincut_place *places, size_t cycle, size_t i,
                               size_t j);

/* The value, and the balance of a cut: the smaller of the masses of its two sides. */
typedef struct mincut_balance {
    uint64_t value, balance;
} mincut_balance;

/* A minimum cut of a connected graph of the greatest balance; any of several such cuts may be returned. `mass` has n entries, the mass of
 * each vertex, 0 or more; null means a mass of 1 each. in_side has n entries: 0 for vertex 0 and all vertices on its side, 1 for the
 * others.
 *
 * The statuses are 0 to 8 and 10. With a status other than MINCUT_OK the outputs are unchanged. Cost: that of the cactus. */
mincut_status mincut_balanced(uint32_t n, size_t m, const uint32_t *u, const uint32_t *v, const uint64_t *w, const uint64_t *mass,
                              mincut_balance *balance, uint8_t *in_side);

/* The value, and the number of sides in the list. */
typedef struct mincut_listing {
    uint64_t value, sides;
} mincut_listing;

/* All minimum cuts of a connected graph, each once: side k is the row of n bytes from in_side + k * n, 0 for vertex 0 and all vertices on
 * its side, 1 for the others. The sides are in the lexicographic order of the lists of their vertices.
 *
 * in_side has rows * n bytes, and may be null if rows is 0. There are at most n (n - 1) / 2 sides. The listing has their number with
 * three statuses: MINCUT_OK; MINCUT_NO_ROOM, if there are more than rows; and MINCUT_TOO_MANY_SIDES, if they have more than 2^30 bytes,
 * whatever rows is. So a call with 0 rows asks for the room. Bytes after the last row are unchanged, and with a status other than
 * MINCUT_OK all bytes are. With a status other than these three the listing is unchanged too.
 *
 * The statuses are 0 to 9 and 11. Cost: that of the cactus, O(c log c) comparisons of n / 64 steps for c sides, and n steps for each
 * side; the memory is in proportion to n + m + c n / 8. */
mincut_status mincut_sides(uint32_t n, size_t m, const uint32_t *u, const uint32_t *v, const uint64_t *w, size_t rows,
                           mincut_listing *listing, uint8_t *in_side);

/* The same for the minimum cuts that separate two vertices, a and b; none if they are the same vertex. The statuses are 0 to 9 and 11;
 * MINCUT_BAD_VERTEX is also returned if a or b is n or more. */
mincut_status mincut_sides_between(uint32_t n, size_t m, const uint32_t *u, const uint32_t *v, const uint64_t *w, uint32_t a,
                                   uint32_t b, size_t rows, mincut_listing *listing, uint8_t *in_side);

/* The same for the minimum cuts whose balance, the smaller of the masses of their two sides, is at least `least`. `mass` has n entries;
 * null means a mass of 1 each. The statuses are 0 to 11. */
mincut_status mincut_sides_balanced(uint32_t n, size_t m, const uint32_t *u, const uint32_t *v, const uint64_t *w,
                                    const uint64_t *mass, uint64_t least, size_t rows, mincut_listing *listing, uint8_t *in_side);

/* The value, the number of edges that raise it, and the number of sets that show that fewer edges are not enough. */
typedef struct mincut_raise {
    uint64_t value;
    size_t edges, sets;
} mincut_raise;

/* The fewest edges of weight 1 that raise the value of a connected graph: edge k joins from[k] and to[k], the smaller vertex first, and
 * the edges ascend. The certificate is the inclusion-minimal sets that are one side of a minimum cut. No two of them share a vertex, and
 * each needs an end of a new edge, so there are half as many edges as sets, rounded up. set_of has the number of the set of each vertex,
 * from 1, or 0 if it is in none; the sets are in the order of their least vertices.
 *
 * from, to and set_of have n entries each; in the first two only as many entries as there are edges are written. The statuses are 0 to
 * 8. With a status other than MINCUT_OK all outputs are unchanged. Cost: that of the cactus. */
mincut_status mincut_augment(uint32_t n, size_t m, const uint32_t *u, const uint32_t *v, const uint64_t *w, mincut_raise *raise,
                             uint32_t *from, uint32_t *to, uint64_t *set_of);

/* The proved exports beneath the calls above, for bindings. Each array is a pointer, which is not null even if the length is 0, and its
 * length. The statuses are the same. Arrays for answers may have any room: if one is too short for the answer, the status is MINCUT_NO_ROOM
 * and the arrays are unchanged; mincut_raw_cactus, mincut_raw_augment and the lists of sides then fill in the sizes, and the others change
 * nothing. mincut_raw_cuts_below lists as many cuts as both of its arrays have room for. There are n masses, or none. mincut_raw_sides
 * lists the minimum cuts of balance `least` or more, which are all if that is 0. */
uint32_t mincut_raw_value(uint32_t n, const uint32_t *u, size_t u_len, const uint32_t *v, size_t v_len, const uint64_t *w,
                          size_t w_len, uint64_t *value);
uint32_t mincut_raw_value_below(uint32_t n, const uint32_t *u, size_t u_len, const uint32_t *v, size_t v_len, const uint64_t *w,
                                size_t w_len, uint64_t bound, uint64_t *value);
uint32_t mincut_raw_cut(uint32_t n, const uint32_t *u, size_t u_len, const uint32_t *v, size_t v_len, const uint64_t *w, size_t w_len,
                        uint64_t *value, uint8_t *in_side, size_t in_side_len);
uint32_t mincut_raw_cut_below(uint32_t n, const uint32_t *u, size_t u_len, const uint32_t *v, size_t v_len, const uint64_t *w,
                              size_t w_len, uint64_t bound, uint64_t *value, uint8_t *in_side, size_t in_side_len);
uint32_t mincut_raw_cuts_below(uint32_t n, const uint32_t *u, size_t u_len, const uint32_t *v, size_t v_len, const uint64_t *w,
                               size_t w_len, uint64_t bound, uint64_t *count, uint64_t *weight, size_t weight_len, uint8_t *in_side,
                               size_t in_side_len);
uint32_t mincut_raw_count(uint32_t n, const uint32_t *u, size_t u_len, const uint32_t *v, size_t v_len, const uint64_t *w,
                          size_t w_len, uint64_t *count);
uint32_t mincut_raw_components(uint32_t n, const uint32_t *u, size_t u_len, const uint32_t *v, size_t v_len, const uint64_t *w,
                               size_t w_len, uint32_t *count, uint32_t *component_of, size_t component_of_len);
uint32_t mincut_raw_cactus(uint32_t n, const uint32_t *u, size_t u_len, const uint32_t *v, size_t v_len, const uint64_t *w,
                           size_t w_len, mincut_sizes *sizes, size_t *node_starts, size_t node_starts_len, uint32_t *vertices,
                           size_t vertices_len, mincut_bridge *bridges, size_t bridges_len, size_t *cycle_starts,
                           size_t cycle_starts_len, uint64_t *members, size_t members_len);
uint32_t mincut_raw_balanced(uint32_t n, const uint32_t *u, size_t u_len, const uint32_t *v, size_t v_len, const uint64_t *w,
                             size_t w_len, const uint64_t *mass, size_t mass_len, mincut_balance *balance, uint8_t *in_side,
                             size_t in_side_len);
uint32_t mincut_raw_sides(uint32_t n, const uint32_t *u, size_t u_len, const uint32_t *v, size_t v_len, const uint64_t *w,
                          size_t w_len, const uint64_t *mass, size_t mass_len, uint64_t least, mincut_listing *listing,
                          uint8_t *in_side, size_t in_side_len);
uint32_t mincut_raw_sides_between(uint32_t n, const uint32_t *u, size_t u_len, const uint32_t *v, size_t v_len, const uint64_t *w,
                                  size_t w_len, uint32_t a, uint32_t b, mincut_listing *listing, uint8_t *in_side,
                                  size_t in_side_len);
uint32_t mincut_raw_augment(uint32_t n, const uint32_t *u, size_t u_len, const uint32_t *v, size_t v_len, const uint64_t *w,
                            size_t w_len, mincut_raise *raise, uint32_t *from, size_t from_len, uint32_t *to, size_t to_len,
                            uint64_t *set_of, size_t set_of_len);

#ifdef __cplusplus
}
#endif
#endif
