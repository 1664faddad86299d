/* Builds the tori of sides 1 and 2 and lists their edges; both edges of side 1 return to its one vertex. No torus has side 33.
 *
 *     (cd crates/table && rt lib)
 *     cc -Iinclude examples/c/torus.c crates/table/out/libtable.a -o crates/table/out/example && crates/table/out/example
 */
#include "refused.h"

enum { ROOM = 8 };

static void build(uint32_t side, size_t edges)
{
    uint16_t ends[2 * ROOM];
    uint8_t marks[ROOM];
    uint64_t built = surface_torus(side, ends, 2 * edges, marks, edges);
    if (surface_refusal(built) != SURFACE_NOT_REFUSED) {
        print_refusal(built);
        return;
    }
    printf("side %" PRIu32 ", vertices %" PRIu32 "\n", side, surface_first(built));
    for (size_t edge = 0; edge < edges; edge++)
        printf("edge %zu: %d to %d, mark %d\n", edge, ends[2 * edge], ends[2 * edge + 1], marks[edge]);
}

int main(void)
{
    build(1, 2);
    build(2, ROOM);
    build(33, ROOM);
    return 0;
}
