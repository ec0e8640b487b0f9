/* Stands in for the shared library in tests, with the calls of mincut.h: the value, one cut, several light cuts, the count, a most balanced cut, lists of sides and the sets of an augmentation by trying all
 * sides of up to 16 vertices, and the cactus of a ring whose edges stand in order, written down from another node than the canonical cactus begins with. A first weight
 * of 999 makes a call that does not end, one of 998 one that ends its process, one of 997 one without memory. */
#include <stddef.h>
#include <stdint.h>
#include <unistd.h>

struct bridge { uint64_t upper, lower; };
struct sizes { uint64_t value; size_t nodes, vertices, bridges, cycles, members; };

static uint64_t weight_of(size_t m, const uint32_t *u, const uint32_t *v, const uint64_t *w, uint32_t side) {
    uint64_t weight = 0;
    for (size_t k = 0; k < m; ++k) weight += (side >> u[k] & 1) != (side >> v[k] & 1) ? w[k] : 0;
    return weight;
}

static uint64_t balance_of(uint32_t n, const uint64_t *mass, uint32_t side) {
    uint64_t inside = 0, outside = 0;
    for (uint32_t i = 0; i < n; ++i) *(side >> i & 1 ? &inside : &outside) += mass ? mass[i] : 1;
    return inside < outside ? inside : outside;
}

static int best(uint32_t n, size_t m, const uint32_t *u, const uint32_t *v, const uint64_t *w, uint64_t *value, uint64_t *count) {
    if (n < 2) return 1;
    if (m && w[0] == 999) sleep(60);
    if (m && w[0] == 998) _exit(3);
    if (m && w[0] == 997) return 2;
    *value = UINT64_MAX;
    for (uint32_t side = 2; side < 1u << n; side += 2) {
        const uint64_t weight = weight_of(m, u, v, w, side);
        if (weight < *value) { *value = weight; *count = 0; }
        *count += weight == *value;
    }
    return 0;
}

/* the value of a connected graph, whose vertices have these masses, or 1 each, or the status by which it is refused */
static int check(uint32_t n, size_t m, const uint32_t *u, const uint32_t *v, const uint64_t *w, const uint64_t *mass, uint64_t *value) {
    uint64_t count, total = 0;
    const int status = best(n, m, u, v, w, value, &count);
    for (uint32_t i = 0; mass && i < n; total += mass[i++])
        if (mass[i] > UINT64_MAX - total) return 10;
    return status == 0 && *value == 0 ? 8 : status;
}

int mincut_value(uint32_t n, size_t m, const uint32_t *u, const uint32_t *v, const uint64_t *w, uint64_t *value) {
    uint64_t count;
    return best(n, m, u, v, w, value, &count);
}

int mincut_cut_below(uint32_t n, size_t m, const uint32_t *u, const uint32_t *v, const uint64_t *w, uint64_t bound, uint64_t *value,
                     uint8_t *in_side) {
    uint64_t least, count;
    const int status = best(n, m, u, v, w, &least, &count);
    if (status) return status;
    *value = least < bound ? least : bound;
    uint32_t side = 2;
    while (weight_of(m, u, v, w, side) != least) side += 2;
    for (uint32_t i = 0; least < bound && i < n; ++i) in_side[i] = side >> i & 1;
    return 0;
}

int mincut_cut(uint32_t n, size_t m, const uint32_t *u, const uint32_t *v, const uint64_t *w, uint64_t *value, uint8_t *in_side) {
    return mincut_cut_below(n, m, u, v, w, UINT64_MAX, value, in_side);
}

int mincut_cuts_below(uint32_t n, size_t m, const uint32_t *u, const uint32_t *v, const uint64_t *w, uint64_t bound, size_t rows,
                      uint64_t *count, uint64_t *weight, uint8_t *in_side) {
    uint64_t least, all;
    const int status = best(n, m, u, v, w, &least, &all);
    if (status) return status;
    uint32_t first = 2;
    while (weight_of(m, u, v, w, first) != least) first += 2;
    *count = 0;
    for (uint32_t next = 0; next < 1u << n && *count < rows; next += 2) {
        const uint32_t side = next ? next : first;
        if ((next && side == first) || weight_of(m, u, v, w, side) >= bound) continue;
        for (uint32_t i = 0; i < n; ++i) in_side[*count * n + i] = side >> i & 1;
        weight[(*count)++] = weight_of(m, u, v, w, side);
    }
    return 0;
}

int mincut_count(uint32_t n, size_t m, const uint32_t *u, const uint32_t *v, const uint64_t *w, uint64_t *count) {
    uint64_t value;
    const int status = best(n, m, u, v, w, &value, count);
    return status == 0 && value == 0 ? 8 : status;
}

int mincut_cactus(uint32_t n, size_t m, const uint32_t *u, const uint32_t *v, const uint64_t *w, struct sizes *sizes, size_t *node_starts,
                  uint32_t *vertices, struct bridge *bridges, size_t *cycle_starts, uint64_t *members) {
    const int status = check(n, m, u, v, w, 0, &sizes->value);
    if (status) return status;
    const int ring = n > 2;
    for (uint32_t i = 0; i < n; ++i) {
        node_starts[i] = i;
        vertices[i] = ring ? (n - i) % n : i;
        members[i] = (i + 1) % n;
    }
    cycle_starts[0] = 0;
    bridges[0].upper = 0;
    bridges[0].lower = 1;
    *sizes = (struct sizes){sizes->value, n, n, !ring, ring, ring ? n : 0};
    return 0;
}

struct balance { uint64_t value, balance; };

/* by trying all sides: the first that is as balanced as any */
int mincut_balanced(uint32_t n, size_t m, const uint32_t *u, const uint32_t *v, const uint64_t *w, const uint64_t *mass, struct balance *found,
                    uint8_t *in_side) {
    uint64_t value;
    const int status = check(n, m, u, v, w, mass, &value);
    if (status) return status;
    *found = (struct balance){value, 0};
    for (uint32_t side = 2; side < 1u << n; side += 2) {
        const uint64_t balance = balance_of(n, mass, side);
        if (weight_of(m, u, v, w, side) != value || (balance <= found->balance && found->balance)) continue;
        found->balance = balance;
        for (uint32_t i = 0; i < n; ++i) in_side[i] = side >> i & 1;
    }
    return 0;
}

struct listing { uint64_t value, sides; };

/* all sides with some vertices from one on, in the order of lists; those that are asked for are counted, and told where rows is not null */
static void list(uint32_t n, size_t m, const uint32_t *u, const uint32_t *v, const uint64_t *w, const uint64_t *mass, uint64_t least, uint32_t pair,
                 uint32_t side, uint32_t from, struct listing *listing, uint8_t *rows) {
    const uint32_t both = side & pair;
    if (side && weight_of(m, u, v, w, side) == listing->value && balance_of(n, mass, side) >= least && (!pair || (both && both != pair))) {
        for (uint32_t i = 0; rows && i < n; ++i) rows[listing->sides * n + i] = side >> i & 1;
        ++listing->sides;
    }
    for (uint32_t next = from; next < n; ++next) list(n, m, u, v, w, mass, least, pair, side | 1u << next, next + 1, listing, rows);
}

static int sides(uint32_t n, size_t m, const uint32_t *u, const uint32_t *v, const uint64_t *w, const uint64_t *mass, uint64_t least, uint32_t pair,
                 size_t rows, struct listing *listing, uint8_t *in_side) {
    uint64_t value;
    const int status = check(n, m, u, v, w, mass, &value);
    if (status) return status;
    *listing = (struct listing){value, 0};
    list(n, m, u, v, w, mass, least, pair, 0, 1, listing, 0);
    if (listing->sides > rows) return 9;
    *listing = (struct listing){value, 0};
    list(n, m, u, v, w, mass, least, pair, 0, 1, listing, in_side);
    return 0;
}

int mincut_sides_balanced(uint32_t n, size_t m, const uint32_t *u, const uint32_t *v, const uint64_t *w, const uint64_t *mass, uint64_t least,
                          size_t rows, struct listing *listing, uint8_t *in_side) {
    return sides(n, m, u, v, w, mass, least, 0, rows, listing, in_side);
}

int mincut_sides_between(uint32_t n, size_t m, const uint32_t *u, const uint32_t *v, const uint64_t *w, uint32_t a, uint32_t b, size_t rows,
                         struct listing *listing, uint8_t *in_side) {
    return a == b ? sides(n, m, u, v, w, 0, UINT64_MAX, 0, rows, listing, in_side) : sides(n, m, u, v, w, 0, 0, 1u << a | 1u << b, rows, listing, in_side);
}

struct raise { uint64_t value; size_t edges, sets; };

/* the smallest sides, of those with vertex 0 too, by trying all; the edges join them one after another, which need not raise the value */
int mincut_augment(uint32_t n, size_t m, const uint32_t *u, const uint32_t *v, const uint64_t *w, struct raise *raise, uint32_t *from, uint32_t *to,
                   uint64_t *set_of) {
    uint64_t value;
    const int status = check(n, m, u, v, w, 0, &value);
    if (status) return status;
    uint32_t firsts[32];
    *raise = (struct raise){value, 0, 0};
    for (uint32_t i = 0; i < n; ++i) set_of[i] = 0;
    for (uint32_t first = 0; first < n; ++first) {
        uint32_t least = 0;
        for (uint32_t side = 1; side < (1u << n) - 1; ++side)
            if (side >> first & 1 && !(side & ((1u << first) - 1)) && weight_of(m, u, v, w, side) == value) {
                int minimal = 1;
                for (uint32_t part = (side - 1) & side; part; part = (part - 1) & side) minimal &= weight_of(m, u, v, w, part) != value;
                if (minimal) least = side;
            }
        if (!least) continue;
        firsts[raise->sets++] = first;
        for (uint32_t i = 0; i < n; ++i)
            if (least >> i & 1) set_of[i] = raise->sets;
    }
    for (; 2 * raise->edges < raise->sets; ++raise->edges) {
        from[raise->edges] = firsts[raise->edges];
        to[raise->edges] = firsts[raise->edges + raise->sets / 2];
    }
    return 0;
}
