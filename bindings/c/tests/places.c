/* Random cactuses: each side that mincut_places gives as a range is compared with what node 0 does not reach without the bridge, or
 * without the two edges of the cycle. `places COUNT [SEED]`; the status is 1 at the first difference. */
#include "mincut.h"
#include <stdio.h>
#include <stdlib.h>
#include <string.h>

enum { NODES = 24, VERTICES = 2 * NODES, BLOCKS = NODES };

static uint64_t state;

static uint64_t draw(uint64_t below) {
    state ^= state << 13, state ^= state >> 7, state ^= state << 17;
    return (state >> 11) % below;
}

/* cycles as they grow, and then all in the arrays of mincut.h */
static uint64_t grown[BLOCKS][NODES];
static size_t lengths[BLOCKS];
static mincut_sizes sizes;
static size_t node_starts[NODES], cycle_starts[BLOCKS];
static uint32_t vertices[VERTICES];
static mincut_bridge bridges[BLOCKS];
static uint64_t members[3 * NODES], node_of[VERTICES];
static mincut_place places[NODES];

static void put_vertices(void) {
    uint32_t own[NODES][VERTICES], count[NODES] = {0};
    const uint64_t n = sizes.nodes + draw(sizes.nodes);
    for (uint32_t v = 0; v < n; ++v) {
        const uint64_t node = v ? draw(sizes.nodes) : 0;
        own[node][count[node]++] = v;
    }
    for (size_t i = 0; i < sizes.nodes; ++i) {
        node_starts[i] = sizes.vertices;
        memcpy(vertices + sizes.vertices, own[i], count[i] * sizeof **own);
        sizes.vertices += count[i];
    }
}

/* Adds a node: at a bridge, as the second of a new cycle, or to a cycle that there is. */
static void add_node(size_t cycle) {
    const uint64_t node = sizes.nodes++;
    if (cycle < sizes.cycles) grown[cycle][lengths[cycle]++] = node;
    else if (draw(2)) bridges[sizes.bridges++] = (mincut_bridge){draw(node), node};
    else {
        grown[cycle][0] = draw(node), grown[cycle][1] = node;
        lengths[sizes.cycles++] = 2;
    }
}

/* Numbers a node, and then all below it, one block after another; returns the next number. */
static uint64_t enter(uint64_t node, uint64_t next, uint64_t *numbers) {
    numbers[node] = next++;
    for (size_t k = 0; k < sizes.bridges; ++k)
        if (bridges[k].upper == node) next = enter(bridges[k].lower, next, numbers);
    for (size_t k = 0; k < sizes.cycles; ++k)
        for (size_t at = 1; at < lengths[k] && grown[k][0] == node; ++at) next = enter(grown[k][at], next, numbers);
    return next;
}

static void renumber(void) {
    uint64_t numbers[NODES];
    enter(0, 0, numbers);
    for (size_t k = 0; k < sizes.bridges; ++k) bridges[k] = (mincut_bridge){numbers[bridges[k].upper], numbers[bridges[k].lower]};
    for (size_t k = 0; k < sizes.cycles; ++k)
        for (size_t at = 0; at < lengths[k]; ++at) grown[k][at] = numbers[grown[k][at]];
}

static void grow(void) {
    sizes = (mincut_sizes){.nodes = 1};
    for (uint64_t more = draw(NODES / 2); more > 0; --more) add_node(draw(2) ? sizes.cycles : draw(sizes.cycles + 1));
    for (size_t k = 0; k < sizes.cycles; ++k)
        if (lengths[k] < 3) add_node(k);
    renumber();
    for (size_t k = 0; k < sizes.cycles; ++k) {
        cycle_starts[k] = sizes.members;
        memcpy(members + sizes.members, grown[k], lengths[k] * sizeof **grown);
        sizes.members += lengths[k];
    }
    put_vertices();
}

/* The nodes that node 0 reaches if a bridge (cycle: BLOCKS) or the edges i and j of a cycle are removed. */
static void reach(size_t bridge, size_t cycle, size_t i, size_t j, int *reached) {
    for (size_t k = 0; k < sizes.nodes; ++k) reached[k] = k == 0;
    for (size_t round = 0; round < sizes.nodes; ++round) {
        for (size_t k = 0; k < sizes.bridges; ++k) {
            const mincut_bridge *b = &bridges[k];
            if (k != bridge && (reached[b->upper] || reached[b->lower])) reached[b->upper] = reached[b->lower] = 1;
        }
        for (size_t k = 0; k < sizes.cycles; ++k)
            for (size_t e = 0; e < lengths[k]; ++e) {
                const uint64_t a = grown[k][e], b = grown[k][e + 1 < lengths[k] ? e + 1 : 0];
                if ((k != cycle || (e != i && e != j)) && (reached[a] || reached[b])) reached[a] = reached[b] = 1;
            }
    }
}

static int is_side(mincut_range side, const int *reached) {
    int inside[VERTICES] = {0};
    if (side.first > side.end || side.end > sizes.vertices) return 0;
    for (size_t k = side.first; k < side.end; ++k) ++inside[vertices[k]];
    for (size_t v = 0; v < sizes.vertices; ++v)
        if (inside[v] != !reached[node_of[v]]) return 0;
    return 1;
}

static int are_places(void) {
    for (size_t i = 1; i < sizes.nodes; ++i) {
        const mincut_place *p = &places[i];
        const int at_bridge = p->position == 0 && p->block < sizes.bridges && bridges[p->block].lower == i && bridges[p->block].upper == p->upper;
        const int at_cycle = p->position > 0 && p->block < sizes.cycles && p->position < lengths[p->block] &&
                             grown[p->block][p->position] == i && grown[p->block][0] == p->upper;
        if (!at_bridge && !at_cycle) return 0;
    }
    return places[0].upper == 0 && places[0].first == 0 && places[0].end == sizes.vertices;
}

static int differs(void) {
    int reached[NODES];
    mincut_places(&sizes, node_starts, bridges, cycle_starts, members, places);
    mincut_node_of(&sizes, node_starts, vertices, node_of);
    if (!are_places()) return 1;
    for (size_t k = 0; k < sizes.bridges; ++k) {
        reach(k, BLOCKS, 0, 0, reached);
        if (!is_side(mincut_bridge_side(bridges, places, k), reached)) return 1;
    }
    for (size_t k = 0; k < sizes.cycles; ++k)
        for (size_t j = 1; j < lengths[k]; ++j)
            for (size_t i = 0; i < j; ++i) {
                reach(BLOCKS, k, i, j, reached);
                if (!is_side(mincut_cycle_side(cycle_starts, members, places, k, i, j), reached)) return 1;
            }
    return 0;
}

int main(int count, char **words) {
    const unsigned long calls = count > 1 ? strtoul(words[1], NULL, 10) : 1000;
    state = count > 2 ? strtoull(words[2], NULL, 10) : 1;
    for (unsigned long k = 0; k < calls; ++k) {
        grow();
        if (differs()) return printf("cactus %lu differs\n", k), 1;
    }
    printf("%lu cactuses, as taken apart by hand\n", calls);
    return 0;
}
