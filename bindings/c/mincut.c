/* From the calls of mincut.h to the proved exports: these take each array as a pointer that is not null, and its length. */
#include "mincut.h"

/* what an array without entries points to */
static const uint64_t nothing = 0;

static const void *some(const void *array) { return array ? array : &nothing; }

static int is_bad(size_t m, const uint32_t *u, const uint32_t *v, const uint64_t *w) { return m > 0 && (!u || !v || !w); }

/* the bytes of some rows of n; no list has more than 2^30 */
static size_t bytes_of(size_t rows, uint32_t n) { return (rows < 1 << 30 ? rows : 1 << 30) * n; }

uint32_t mincut_version(void) { return MINCUT_VERSION; }

const char *mincut_status_text(uint32_t status) {
    static const char *const texts[] = {
        [MINCUT_OK] = "there is an answer",
        [MINCUT_NO_CUT] = "the graph has fewer than two vertices",
        [MINCUT_OUT_OF_MEMORY] = "out of memory",
        [MINCUT_BAD_LENGTH] = "an array is missing or has the wrong length",
        [MINCUT_TOO_MANY_VERTICES] = "the graph has more than 4,194,304 vertices",
        [MINCUT_TOO_MANY_EDGES] = "the graph has more than 16,777,216 edges",
        [MINCUT_BAD_VERTEX] = "an end of an edge, or a vertex of a pair, is not a vertex",
        [MINCUT_WEIGHT_SUM] = "the weights add up to more than 2^61",
        [MINCUT_DISCONNECTED] = "the graph is not connected",
        [MINCUT_NO_ROOM] = "an output array is too short",
        [MINCUT_MASS_SUM] = "the masses add up to 2^64 or more",
        [MINCUT_TOO_MANY_SIDES] = "the list of sides would be larger than 2^30 bytes",
    };
    return status < sizeof texts / sizeof *texts ? texts[status] : "this status is unknown";
}

mincut_status mincut_value(uint32_t n, size_t m, const uint32_t *u, const uint32_t *v, const uint64_t *w, uint64_t *value) {
    if (is_bad(m, u, v, w) || !value) return MINCUT_BAD_LENGTH;
    return (mincut_status)mincut_raw_value(n, some(u), m, some(v), m, some(w), m, value);
}

mincut_status mincut_value_below(uint32_t n, size_t m, const uint32_t *u, const uint32_t *v, const uint64_t *w, uint64_t bound,
                                 uint64_t *value) {
    if (is_bad(m, u, v, w) || !value) return MINCUT_BAD_LENGTH;
    return (mincut_status)mincut_raw_value_below(n, some(u), m, some(v), m, some(w), m, bound, value);
}

mincut_status mincut_cut(uint32_t n, size_t m, const uint32_t *u, const uint32_t *v, const uint64_t *w, uint64_t *value,
                         uint8_t *in_side) {
    if (is_bad(m, u, v, w) || !value || !in_side) return MINCUT_BAD_LENGTH;
    return (mincut_status)mincut_raw_cut(n, some(u), m, some(v), m, some(w), m, value, in_side, n);
}

mincut_status mincut_cut_below(uint32_t n, size_t m, const uint32_t *u, const uint32_t *v, const uint64_t *w, uint64_t bound,
                               uint64_t *value, uint8_t *in_side) {
    if (is_bad(m, u, v, w) || !value || !in_side) return MINCUT_BAD_LENGTH;
    return (mincut_status)mincut_raw_cut_below(n, some(u), m, some(v), m, some(w), m, bound, value, in_side, n);
}

mincut_status mincut_cuts_below(uint32_t n, size_t m, const uint32_t *u, const uint32_t *v, const uint64_t *w, uint64_t bound,
                                size_t rows, uint64_t *count, uint64_t *weight, uint8_t *in_side) {
    uint64_t no_weight = 0;
    uint8_t no_row = 0;
    if (is_bad(m, u, v, w) || !count || (rows > 0 && (!weight || !in_side))) return MINCUT_BAD_LENGTH;
    return (mincut_status)mincut_raw_cuts_below(n, some(u), m, some(v), m, some(w), m, bound, count, weight ? weight : &no_weight, bytes_of(rows, 1),
                                                in_side ? in_side : &no_row, bytes_of(rows, n));
}

mincut_status mincut_count(uint32_t n, size_t m, const uint32_t *u, const uint32_t *v, const uint64_t *w, uint64_t *count) {
    if (is_bad(m, u, v, w) || !count) return MINCUT_BAD_LENGTH;
    return (mincut_status)mincut_raw_count(n, some(u), m, some(v), m, some(w), m, count);
}

mincut_status mincut_cactus(uint32_t n, size_t m, const uint32_t *u, const uint32_t *v, const uint64_t *w, mincut_sizes *sizes,
                            size_t *node_starts, uint32_t *vertices, mincut_bridge *bridges, size_t *cycle_starts,
                            uint64_t *members) {
    const size_t size = n;
    if (is_bad(m, u, v, w) || !sizes || !node_starts || !vertices || !bridges || !cycle_starts || !members) return MINCUT_BAD_LENGTH;
    return (mincut_status)mincut_raw_cactus(n, some(u), m, some(v), m, some(w), m, sizes, node_starts, 2 * size, vertices, size,
                                            bridges, 2 * size, cycle_starts, size, members, 3 * size);
}

mincut_status mincut_balanced(uint32_t n, size_t m, const uint32_t *u, const uint32_t *v, const uint64_t *w, const uint64_t *mass,
                              mincut_balance *balance, uint8_t *in_side) {
    if (is_bad(m, u, v, w) || !balance || !in_side) return MINCUT_BAD_LENGTH;
    return (mincut_status)mincut_raw_balanced(n, some(u), m, some(v), m, some(w), m, some(mass), mass ? n : 0, balance, in_side, n);
}

mincut_status mincut_sides(uint32_t n, size_t m, const uint32_t *u, const uint32_t *v, const uint64_t *w, size_t rows,
                           mincut_listing *listing, uint8_t *in_side) {
    return mincut_sides_balanced(n, m, u, v, w, NULL, 0, rows, listing, in_side);
}

mincut_status mincut_sides_between(uint32_t n, size_t m, const uint32_t *u, const uint32_t *v, const uint64_t *w, uint32_t a,
                                   uint32_t b, size_t rows, mincut_listing *listing, uint8_t *in_side) {
    uint8_t none = 0;
    if (is_bad(m, u, v, w) || !listing || (rows > 0 && !in_side)) return MINCUT_BAD_LENGTH;
    return (mincut_status)mincut_raw_sides_between(n, some(u), m, some(v), m, some(w), m, a, b, listing, in_side ? in_side : &none,
                                                   bytes_of(rows, n));
}

mincut_status mincut_sides_balanced(uint32_t n, size_t m, const uint32_t *u, const uint32_t *v, const uint64_t *w,
                                    const uint64_t *mass, uint64_t least, size_t rows, mincut_listing *listing, uint8_t *in_side) {
    uint8_t none = 0;
    if (is_bad(m, u, v, w) || !listing || (rows > 0 && !in_side)) return MINCUT_BAD_LENGTH;
    return (mincut_status)mincut_raw_sides(n, some(u), m, some(v), m, some(w), m, some(mass), mass ? n : 0, least, listing,
                                           in_side ? in_side : &none, bytes_of(rows, n));
}

mincut_status mincut_components(uint32_t n, size_t m, const uint32_t *u, const uint32_t *v, const uint64_t *w, uint32_t *count,
                                uint32_t *component_of) {
    uint32_t none = 0;
    if (is_bad(m, u, v, w) || !count || (n > 0 && !component_of)) return MINCUT_BAD_LENGTH;
    return (mincut_status)mincut_raw_components(n, some(u), m, some(v), m, some(w), m, count, component_of ? component_of : &none, n);
}

mincut_status mincut_augment(uint32_t n, size_t m, const uint32_t *u, const uint32_t *v, const uint64_t *w, mincut_raise *raise,
                             uint32_t *from, uint32_t *to, uint64_t *set_of) {
    if (is_bad(m, u, v, w) || !raise || !from || !to || !set_of) return MINCUT_BAD_LENGTH;
    return (mincut_status)mincut_raw_augment(n, some(u), m, some(v), m, some(w), m, raise, from, n, to, n, set_of, n);
}

void mincut_node_of(const mincut_sizes *sizes, const size_t *node_starts, const uint32_t *vertices, uint64_t *node_of) {
    for (size_t i = 0; i < sizes->nodes; ++i) {
        const size_t end = i + 1 < sizes->nodes ? node_starts[i + 1] : sizes->vertices;
        for (size_t k = node_starts[i]; k < end; ++k) node_of[vertices[k]] = i;
    }
}
