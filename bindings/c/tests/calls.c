/* A few graphs and faults through mincut.h. It ends with the number of the first check that fails, or 0. */
#include "mincut.h"
#include <stdio.h>
#include <string.h>

#define MOST 64

static mincut_sizes sizes;
static size_t starts[2 * MOST], cycles[MOST];
static uint32_t vertices[MOST];
static mincut_bridge bridges[2 * MOST];
static uint64_t members[3 * MOST], node_of[MOST];

static mincut_status cactus(uint32_t n, size_t m, const uint32_t *u, const uint32_t *v, const uint64_t *w) {
    return mincut_cactus(n, m, u, v, w, &sizes, starts, vertices, bridges, cycles, members);
}

int main(void) {
    const uint32_t u[] = {0, 1, 2, 3, 2, 2}, v[] = {1, 2, 3, 0, 2, 1};
    const uint64_t one[] = {1, 1, 1, 1, 9, 0}, great[] = {1ull << 61, 1, 1, 1, 1, 1};
    uint64_t value = 77;
    if (mincut_version() != MINCUT_VERSION) return 16;
    for (uint32_t status = 0; status < 40; ++status)
        if (!mincut_status_text(status) || strlen(mincut_status_text(status)) < 10) return 60;
    if (mincut_value(4, 6, u, v, one, &value) != MINCUT_OK || value != 2) return 1;
    if (mincut_value_below(4, 6, u, v, one, 1, &value) != MINCUT_OK || value != 1) return 17;
    if (mincut_value_below(4, 6, u, v, one, 3, &value) != MINCUT_OK || value != 2) return 18;
    uint8_t side[] = {9, 9, 9, 9, 9, 9, 9};
    const uint64_t uneven[] = {3, 1, 3, 1, 9, 0}, light[] = {1, 0, 1, 0, 9, 0};
    if (mincut_cut(4, 6, u, v, uneven, &value, side) != MINCUT_OK || value != 2 || side[0] != 0 || side[1] != 0) return 61;
    if (side[2] != 1 || side[3] != 1 || side[4] != 9) return 62;
    side[2] = side[3] = 9;
    if (mincut_cut_below(4, 6, u, v, uneven, 2, &value, side) != MINCUT_OK || value != 2 || side[2] != 9 || side[3] != 9) return 63;
    if (mincut_cut_below(4, 6, u, v, uneven, 0, &value, side) != MINCUT_OK || value != 0 || side[2] != 9 || side[3] != 9) return 64;
    if (mincut_cut_below(4, 6, u, v, uneven, 3, &value, side) != MINCUT_OK || value != 2 || side[0] != 0 || side[1] != 0) return 65;
    if (side[2] != 1 || side[3] != 1 || side[4] != 9) return 66;
    if (mincut_cut(4, 6, u, v, light, &value, side) != MINCUT_OK || value != 0) return 67;
    if (side[0] != 0 || side[1] != 0 || side[2] != 1 || side[3] != 1 || side[4] != 9) return 68;
    if (mincut_cut_below(6, 6, u, v, one, 1, &value, side) != MINCUT_OK || value != 0 || side[0] != 0 || side[4] + side[5] < 1 || side[6] != 9) return 69;
    if (side[1] != 0 || side[2] != 0 || side[3] != 0) return 70;
    value = 77, side[0] = 9;
    if (mincut_cut(3, 4, u, v, one, &value, side) != MINCUT_BAD_VERTEX || value != 77 || side[0] != 9) return 71;
    if (mincut_cut_below(4, 6, u, v, great, 5, &value, side) != MINCUT_WEIGHT_SUM || value != 77 || side[0] != 9) return 72;
    if (mincut_cut(1, 0, NULL, NULL, NULL, &value, side) != MINCUT_NO_CUT || mincut_cut_below(0, 0, NULL, NULL, NULL, 5, &value, side) != MINCUT_NO_CUT) return 73;
    if (mincut_cut(4, 6, u, v, one, &value, NULL) != MINCUT_BAD_LENGTH || mincut_cut(4, 6, u, v, one, NULL, side) != MINCUT_BAD_LENGTH) return 74;
    if (mincut_cut_below(4, 6, u, v, NULL, 5, &value, side) != MINCUT_BAD_LENGTH || mincut_cut_below(4, 6, u, v, one, 5, &value, NULL) != MINCUT_BAD_LENGTH) return 75;
    if (mincut_raw_cut(4, u, 6, v, 6, one, 6, &value, side, 3) != MINCUT_NO_ROOM || mincut_raw_cut_below(4, u, 6, v, 6, one, 6, 9, &value, side, 3) != MINCUT_NO_ROOM) return 76;
    if (value != 77 || side[0] != 9) return 77;
    uint64_t light_count = 77, weights[] = {9, 9, 9, 9};
    uint8_t several[13];
    for (int i = 0; i < 13; ++i) several[i] = 9;
    if (mincut_cuts_below(4, 6, u, v, uneven, 2, 3, &light_count, weights, several) != MINCUT_OK || light_count != 0) return 78;
    if (mincut_cuts_below(4, 6, u, v, uneven, 9, 0, &light_count, NULL, NULL) != MINCUT_OK || light_count != 0) return 79;
    if (weights[0] != 9 || several[0] != 9) return 80;
    if (mincut_cuts_below(4, 6, u, v, uneven, 3, 3, &light_count, weights, several) != MINCUT_OK || light_count != 1 || weights[0] != 2) return 81;
    if (several[0] != 0 || several[1] != 0 || several[2] != 1 || several[3] != 1 || several[4] != 9 || weights[1] != 9) return 82;
    if (mincut_cuts_below(4, 6, u, v, uneven, 5, 3, &light_count, weights, several) != MINCUT_OK || light_count != 3) return 83;
    if (weights[0] != 2 || weights[1] != 4 || weights[2] != 4 || weights[3] != 9 || several[12] != 9) return 84;
    if (several[1] != 0 || several[2] != 1 || several[3] != 1 || several[4] != 0 || several[8] != 0) return 85;
    if (mincut_cuts_below(6, 6, u, v, one, 1, 2, &light_count, weights, several) != MINCUT_OK || light_count < 1 || weights[0] != 0) return 86;
    light_count = 77, weights[0] = several[0] = 9;
    if (mincut_cuts_below(3, 4, u, v, one, 5, 3, &light_count, weights, several) != MINCUT_BAD_VERTEX) return 87;
    if (mincut_cuts_below(4, 6, u, v, great, 5, 3, &light_count, weights, several) != MINCUT_WEIGHT_SUM) return 88;
    if (mincut_cuts_below(0, 0, NULL, NULL, NULL, 5, 3, &light_count, weights, several) != MINCUT_NO_CUT) return 89;
    if (mincut_cuts_below(4, 6, u, v, one, 5, 3, &light_count, NULL, several) != MINCUT_BAD_LENGTH) return 90;
    if (mincut_cuts_below(4, 6, u, v, one, 5, 3, &light_count, weights, NULL) != MINCUT_BAD_LENGTH) return 91;
    if (mincut_cuts_below(4, 6, u, v, one, 5, 3, NULL, weights, several) != MINCUT_BAD_LENGTH) return 92;
    if (light_count != 77 || weights[0] != 9 || several[0] != 9) return 93;
    if (mincut_raw_cuts_below(4, u, 6, v, 6, one, 6, 9, &light_count, weights, 3, several, 3) != MINCUT_OK || light_count != 0 || several[0] != 9) return 94;
    value = 77;
    if (mincut_value(3, 4, u, v, one, &value) != MINCUT_BAD_VERTEX || value != 77) return 2;
    if (mincut_value(4, 6, u, v, great, &value) != MINCUT_WEIGHT_SUM || value != 77) return 3;
    if (mincut_value(0, 0, NULL, NULL, NULL, &value) != MINCUT_NO_CUT) return 4;
    if (mincut_value(1, 0, NULL, NULL, NULL, &value) != MINCUT_NO_CUT) return 5;
    if (mincut_value(2, 0, NULL, NULL, NULL, &value) != MINCUT_OK || value != 0) return 6;
    if (mincut_value(4194305, 0, NULL, NULL, NULL, &value) != MINCUT_TOO_MANY_VERTICES) return 7;
    if (mincut_value(4, 6, u, NULL, one, &value) != MINCUT_BAD_LENGTH) return 8;
    if (cactus(2, 0, NULL, NULL, NULL) != MINCUT_DISCONNECTED) return 9;
    if (cactus(4, 6, u, v, one) != MINCUT_OK) return 10;
    if (sizes.value != 2 || sizes.nodes != 4 || sizes.bridges != 0 || sizes.cycles != 1 || sizes.members != 4) return 11;
    mincut_node_of(&sizes, starts, vertices, node_of);
    if (node_of[0] != 0 || sizes.vertices != 4) return 12;
    uint64_t count = 77;
    if (mincut_count(4, 6, u, v, one, &count) != MINCUT_OK || count != 6) return 14;
    count = 77;
    if (mincut_count(2, 0, NULL, NULL, NULL, &count) != MINCUT_DISCONNECTED || count != 77) return 15;
    mincut_balance balance = {77, 77};
    uint8_t inside[] = {9, 9, 9, 9, 9};
    const uint64_t mass[] = {1, 5, 1, 1}, vast[] = {~0ull, 1, 0, 0};
    if (mincut_balanced(4, 6, u, v, one, NULL, &balance, inside) != MINCUT_OK || balance.value != 2 || balance.balance != 2) return 19;
    if (inside[0] != 0 || inside[1] + inside[2] + inside[3] != 2 || inside[4] != 9) return 20;
    if (mincut_balanced(4, 6, u, v, one, mass, &balance, inside) != MINCUT_OK || balance.balance != 3) return 21;
    if (inside[0] != 0 || inside[1] != 1 || inside[2] != 0 || inside[3] != 0) return 22;
    balance.balance = 77, inside[1] = 9;
    if (mincut_balanced(4, 6, u, v, one, vast, &balance, inside) != MINCUT_MASS_SUM || balance.balance != 77 || inside[1] != 9) return 23;
    if (mincut_balanced(2, 0, NULL, NULL, NULL, NULL, &balance, inside) != MINCUT_DISCONNECTED || balance.balance != 77) return 24;
    if (mincut_balanced(4, 6, u, v, one, NULL, &balance, NULL) != MINCUT_BAD_LENGTH) return 25;
    if (mincut_raw_balanced(4, u, 6, v, 6, one, 6, mass, 3, &balance, inside, 4) != MINCUT_BAD_LENGTH || balance.balance != 77) return 26;
    if (mincut_raw_balanced(4, u, 6, v, 6, one, 6, mass, 4, &balance, inside, 3) != MINCUT_NO_ROOM || balance.balance != 77 || inside[1] != 9) return 27;
    mincut_listing listing = {77, 77};
    uint8_t rows[25];
    for (int i = 0; i < 25; ++i) rows[i] = 9;
    if (mincut_sides(4, 6, u, v, one, 5, &listing, rows) != MINCUT_NO_ROOM || listing.value != 2 || listing.sides != 6 || rows[0] != 9) return 28;
    if (mincut_sides(4, 6, u, v, one, 0, &listing, NULL) != MINCUT_NO_ROOM || listing.sides != 6) return 29;
    if (mincut_sides(4, 6, u, v, one, 6, &listing, rows) != MINCUT_OK || listing.sides != 6 || rows[24] != 9) return 30;
    const uint8_t all[24] = {0, 1, 0, 0, 0, 1, 1, 0, 0, 1, 1, 1, 0, 0, 1, 0, 0, 0, 1, 1, 0, 0, 0, 1};
    if (memcmp(rows, all, sizeof all)) return 31;
    if (mincut_sides_between(4, 6, u, v, one, 2, 3, 2, &listing, rows) != MINCUT_NO_ROOM || listing.sides != 3 || memcmp(rows, all, sizeof all)) return 32;
    if (mincut_sides_between(4, 6, u, v, one, 2, 2, 0, &listing, NULL) != MINCUT_OK || listing.sides != 0) return 33;
    listing.sides = 77;
    if (mincut_sides_between(4, 6, u, v, one, 2, 4, 6, &listing, rows) != MINCUT_BAD_VERTEX || listing.sides != 77) return 34;
    if (mincut_sides_balanced(4, 6, u, v, one, mass, 3, 1, &listing, rows) != MINCUT_OK || listing.sides != 1 || rows[1] != 1 || rows[2] != 0) return 35;
    if (mincut_sides_balanced(4, 6, u, v, one, vast, 3, 1, &listing, rows) != MINCUT_MASS_SUM || listing.sides != 1) return 36;
    if (mincut_sides(4, 6, u, v, one, 6, &listing, NULL) != MINCUT_BAD_LENGTH || mincut_sides(4, 6, u, v, one, 6, NULL, rows) != MINCUT_BAD_LENGTH) return 37;
    if (mincut_sides(2, 0, NULL, NULL, NULL, 1, &listing, rows) != MINCUT_DISCONNECTED || listing.sides != 1) return 38;
    mincut_raise raise = {77, 77, 77};
    uint32_t from[5] = {9, 9, 9, 9, 9}, to[5] = {9, 9, 9, 9, 9};
    uint64_t set_of[5] = {9, 9, 9, 9, 9};
    if (mincut_augment(4, 6, u, v, one, &raise, from, to, set_of) != MINCUT_OK || raise.value != 2 || raise.edges != 2 || raise.sets != 4) return 39;
    for (uint64_t i = 0; i < 4; ++i)
        if (set_of[i] != i + 1) return 40;
    if (from[0] != 0 || to[0] != 2 || from[1] != 1 || to[1] != 3 || from[2] != 9 || to[2] != 9 || set_of[4] != 9) return 41;
    raise.edges = 77, from[0] = 9;
    if (mincut_raw_augment(4, u, 6, v, 6, one, 6, &raise, from, 1, to, 2, set_of, 4) != MINCUT_NO_ROOM || raise.edges != 2 || from[0] != 9) return 42;
    if (mincut_augment(2, 0, NULL, NULL, NULL, &raise, from, to, set_of) != MINCUT_DISCONNECTED || raise.sets != 4 || from[0] != 9) return 43;
    if (mincut_augment(4, 6, u, v, one, &raise, from, NULL, set_of) != MINCUT_BAD_LENGTH) return 44;
    uint32_t parts = 77, part_of[7] = {9, 9, 9, 9, 9, 9, 9};
    if (mincut_components(6, 6, u, v, one, &parts, part_of) != MINCUT_OK || parts != 3) return 45;
    for (uint32_t i = 0; i < 6; ++i)
        if (part_of[i] != (i < 4 ? 0 : i - 3)) return 46;
    if (part_of[6] != 9) return 47;
    if (mincut_components(4, 6, u, v, light, &parts, part_of) != MINCUT_OK || parts != 2 || part_of[1] != 0 || part_of[2] != 1 || part_of[3] != 1) return 48;
    if (mincut_components(0, 0, NULL, NULL, NULL, &parts, NULL) != MINCUT_OK || parts != 0) return 49;
    if (mincut_components(1, 0, NULL, NULL, NULL, &parts, part_of) != MINCUT_OK || parts != 1 || part_of[0] != 0) return 50;
    parts = 77, part_of[0] = 9;
    if (mincut_components(3, 4, u, v, one, &parts, part_of) != MINCUT_BAD_VERTEX || parts != 77 || part_of[0] != 9) return 51;
    if (mincut_components(4, 6, u, v, great, &parts, part_of) != MINCUT_WEIGHT_SUM || parts != 77 || part_of[0] != 9) return 52;
    if (mincut_components(4, 6, u, v, one, &parts, NULL) != MINCUT_BAD_LENGTH || mincut_components(4, 6, u, v, one, NULL, part_of) != MINCUT_BAD_LENGTH) return 53;
    if (mincut_raw_components(4, u, 6, v, 6, one, 6, &parts, part_of, 3) != MINCUT_NO_ROOM || parts != 77 || part_of[0] != 9) return 54;
    const uint32_t a[] = {0, 1}, b[] = {1, 2};
    if (cactus(3, 2, a, b, one) != MINCUT_OK || sizes.bridges != 2 || sizes.cycles != 0) return 13;
    puts("all checks passed");
    return 0;
}
