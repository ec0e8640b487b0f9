/* Where the nodes of a cactus hang, from its arrays. Each node but 0 hangs below an earlier one, by one bridge or in one cycle, and all nodes
 * below a node follow it without a gap. */
#include "mincut.h"

void mincut_places(const mincut_sizes *sizes, const size_t *node_starts, const mincut_bridge *bridges, const size_t *cycle_starts,
                   const uint64_t *members, mincut_place *places) {
    const size_t nodes = sizes->nodes, cycles = sizes->cycles;
    for (size_t i = 0; i < nodes; ++i)
        places[i] = (mincut_place){0, 0, 0, node_starts[i], i + 1 < nodes ? node_starts[i + 1] : sizes->vertices};
    for (size_t k = 0; k < sizes->bridges; ++k) {
        mincut_place *place = &places[bridges[k].lower];
        place->upper = bridges[k].upper, place->block = k;
    }
    for (size_t k = 0; k < cycles; ++k) {
        const size_t start = cycle_starts[k], end = k + 1 < cycles ? cycle_starts[k + 1] : sizes->members;
        for (size_t at = start + 1; at < end; ++at) {
            mincut_place *place = &places[members[at]];
            place->upper = members[start], place->block = k, place->position = at - start;
        }
    }
    /* from the last node on, so that a node has all that is below it when its upper node takes that in */
    for (size_t i = nodes; i-- > 1;) {
        mincut_place *upper = &places[places[i].upper];
        if (places[i].end > upper->end) upper->end = places[i].end;
    }
}

mincut_range mincut_bridge_side(const mincut_bridge *bridges, const mincut_place *places, size_t bridge) {
    const mincut_place *lower = &places[bridges[bridge].lower];
    return (mincut_range){lower->first, lower->end};
}

mincut_range mincut_cycle_side(const size_t *cycle_starts, const uint64_t *members, const mincut_place *places, size_t cycle, size_t i,
                               size_t j) {
    const uint64_t *nodes = members + cycle_starts[cycle];
    return (mincut_range){places[nodes[i + 1]].first, places[nodes[j]].end};
}
