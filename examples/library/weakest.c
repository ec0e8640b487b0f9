/* The weakest places of a small network: its value, all its minimum cuts as a cactus, and a most balanced one.
 * cc weakest.c $(pkg-config --cflags --libs --static mincut) -o weakest */
#include <mincut.h>
#include <stdio.h>

enum { N = 6, M = 8 };

int main(void) {
    /* two triangles, joined by two edges */
    const uint32_t u[M] = {0, 1, 2, 3, 4, 5, 0, 3}, v[M] = {1, 2, 0, 4, 5, 3, 3, 1};
    const uint64_t w[M] = {3, 3, 3, 3, 3, 3, 1, 1};
    mincut_sizes sizes;
    size_t node_starts[2 * N], cycle_starts[N];
    uint32_t vertices[N];
    mincut_bridge bridges[2 * N];
    uint64_t members[3 * N], count;
    mincut_balance balance;
    uint8_t in_side[N];
    mincut_status status = mincut_cactus(N, M, u, v, w, &sizes, node_starts, vertices, bridges, cycle_starts, members);
    if (status == MINCUT_OK) status = mincut_count(N, M, u, v, w, &count);
    if (status == MINCUT_OK) status = mincut_balanced(N, M, u, v, w, NULL, &balance, in_side);
    if (status != MINCUT_OK) {
        fprintf(stderr, "no answer: %s\n", mincut_status_text(status));
        return 1;
    }
    printf("value %llu, %llu minimum cuts\n", (unsigned long long)sizes.value, (unsigned long long)count);
    printf("most balanced, with %llu on the lighter side:", (unsigned long long)balance.balance);
    for (uint32_t i = 0; i < N; ++i)
        if (in_side[i]) printf(" %u", i);
    puts("");
    for (size_t i = 0; i < sizes.nodes; ++i) {
        const size_t end = i + 1 < sizes.nodes ? node_starts[i + 1] : sizes.vertices;
        printf("node %zu:", i);
        for (size_t k = node_starts[i]; k < end; ++k) printf(" %u", vertices[k]);
        puts("");
    }
    for (size_t i = 0; i < sizes.bridges; ++i)
        printf("bridge %llu - %llu\n", (unsigned long long)bridges[i].upper, (unsigned long long)bridges[i].lower);
    for (size_t i = 0; i < sizes.cycles; ++i) {
        const size_t end = i + 1 < sizes.cycles ? cycle_starts[i + 1] : sizes.members;
        printf("cycle %zu:", i);
        for (size_t k = cycle_starts[i]; k < end; ++k) printf(" %llu", (unsigned long long)members[k]);
        puts("");
    }
    return 0;
}
