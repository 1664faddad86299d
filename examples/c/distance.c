/* Finds the distance of the ring, of the ring with vertices 0 and 2 open, and of the ring with all its marks rubbed out.
 *
 *     (cd crates/table && rt lib)
 *     cc -Iinclude examples/c/distance.c crates/table/out/libtable.a -o crates/table/out/example && crates/table/out/example
 */
#include "refused.h"

enum { VERTICES = 4, EDGES = 4 };

static const uint16_t ends[2 * EDGES] = {0, 1, 1, 2, 2, 3, 3, 0};

static void measure(const uint8_t marks[EDGES], const uint8_t open_bytes[VERTICES], size_t room)
{
    uint8_t shown[EDGES];
    uint64_t distance = surface_distance(VERTICES, ends, 2 * EDGES, marks, EDGES, open_bytes, VERTICES, shown, room);
    if (surface_refusal(distance) != SURFACE_NOT_REFUSED) {
        print_refusal(distance);
        return;
    }
    if (surface_second(distance) == 0) {
        printf("no loop winds\n");
        return;
    }
    printf("distance %" PRIu32 ", shown by edges", surface_first(distance));
    for (int edge = 0; edge < EDGES; edge++)
        if (shown[edge] == 1)
            printf(" %d", edge);
    printf("\n");
}

int main(void)
{
    const uint8_t marks[EDGES] = {0, 0, 0, 1};
    const uint8_t unmarked[EDGES] = {0};
    const uint8_t none_open[VERTICES] = {0};
    const uint8_t two_open[VERTICES] = {1, 0, 1, 0};
    measure(marks, none_open, EDGES);
    measure(marks, two_open, EDGES);
    measure(unmarked, none_open, EDGES);
    measure(marks, none_open, EDGES - 1);
    return 0;
}
