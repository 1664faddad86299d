/* Builds the planar board of side 2, lists it, and decodes one lit vertex on it: the correction runs off the board. No planar board has
 * side 32.
 *
 *     (cd crates/table && rt lib)
 *     cc -Iinclude examples/c/planar.c crates/table/out/libtable.a -o crates/table/out/example && crates/table/out/example
 */
#include "refused.h"

enum { VERTICES = 6, EDGES = 5 };

static uint16_t ends[2 * EDGES];
static uint8_t marks[EDGES], open_bytes[VERTICES];

static void build(uint32_t side)
{
    uint64_t built = surface_planar(side, ends, 2 * EDGES, marks, EDGES, open_bytes, VERTICES);
    if (surface_refusal(built) != SURFACE_NOT_REFUSED) {
        print_refusal(built);
        return;
    }
    printf("side %" PRIu32 ", vertices %" PRIu32 ", open", side, surface_first(built));
    for (int vertex = 0; vertex < VERTICES; vertex++)
        if (open_bytes[vertex] == 1)
            printf(" %d", vertex);
    printf("\n");
    for (int edge = 0; edge < EDGES; edge++)
        printf("edge %d: %d to %d, mark %d\n", edge, ends[2 * edge], ends[2 * edge + 1], marks[edge]);
}

static void decode(const uint8_t syndrome[VERTICES])
{
    const uint8_t loss[EDGES] = {0};
    uint8_t support[EDGES], correction[EDGES];
    uint64_t key = surface_decode(VERTICES, ends, 2 * EDGES, marks, EDGES, open_bytes, VERTICES, syndrome, VERTICES,
                                  loss, EDGES, support, EDGES, correction, EDGES);
    if (surface_refusal(key) != SURFACE_NOT_REFUSED) {
        print_refusal(key);
        return;
    }
    printf("growths %" PRIu32 ", correction by edges", surface_first(key));
    for (int edge = 0; edge < EDGES; edge++)
        if (correction[edge] == 1)
            printf(" %d", edge);
    printf("\n");
}

int main(void)
{
    const uint8_t inner_lit[VERTICES] = {0, 0, 0, 0, 1, 0};
    const uint8_t open_lit[VERTICES] = {0, 0, 0, 1, 1, 0};
    build(2);
    decode(inner_lit);
    decode(open_lit);
    build(32);
    return 0;
}
