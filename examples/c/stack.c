/* Reads the torus of side 5 in three rounds, builds the stack of the readings, and decodes it. Edge 12, from vertex 6 to 7, flips before
 * round 1, and vertex 17 is read wrongly in round 0: the correction says so. 41 rounds of side 5 are more than 1,024 vertices. With one
 * vertex wrong in the last round, which must be right, there is no correction; and a reading is 0 or 1.
 *
 *     (cd crates/table && rt lib)
 *     cc -Iinclude examples/c/stack.c crates/table/out/libtable.a -o crates/table/out/example && crates/table/out/example
 */
#include "refused.h"

/* Layer k has the vertices from k * LAYER on and the edges from 2 * k * LAYER on; edges from FLAT on lead from a layer to the next. */
enum { SIDE = 5, ROUNDS = 3, LAYER = SIDE * SIDE, VERTICES = ROUNDS * LAYER, FLAT = 2 * VERTICES, EDGES = FLAT + VERTICES - LAYER };

static uint16_t ends[2 * EDGES];
static uint8_t marks[EDGES], syndrome[VERTICES];

static void print_places(const uint8_t *bytes, int count)
{
    for (int place = 0; place < count; place++)
        if (bytes[place] == 1)
            printf(" %d", place);
    printf("\n");
}

/* Whether a stack was built. */
static int build(uint32_t rounds, const uint8_t readings[VERTICES])
{
    uint64_t built = surface_stack(SIDE, rounds, readings, VERTICES, ends, 2 * EDGES, marks, EDGES, syndrome, VERTICES);
    if (surface_refusal(built) != SURFACE_NOT_REFUSED) {
        print_refusal(built);
        return 0;
    }
    printf("vertices %" PRIu32 ", lit", surface_first(built));
    print_places(syndrome, VERTICES);
    return 1;
}

static void decode(void)
{
    const uint8_t none_open[VERTICES] = {0}, loss[EDGES] = {0};
    uint8_t support[EDGES], correction[EDGES];
    uint64_t key = surface_decode(VERTICES, ends, 2 * EDGES, marks, EDGES, none_open, VERTICES, syndrome, VERTICES,
                                  loss, EDGES, support, EDGES, correction, EDGES);
    if (surface_refusal(key) != SURFACE_NOT_REFUSED) {
        print_refusal(key);
        return;
    }
    printf("growths %" PRIu32 ", correction edges %" PRIu32 "\n", surface_first(key), surface_second(key));
    for (int edge = 0; edge < EDGES; edge++) {
        if (correction[edge] == 0)
            continue;
        if (edge < FLAT)
            printf("edge %d flipped in round %d\n", edge % (2 * LAYER), edge / (2 * LAYER));
        else
            printf("vertex %d read wrongly in round %d\n", (edge - FLAT) % LAYER, (edge - FLAT) / LAYER);
    }
}

int main(void)
{
    uint8_t readings[VERTICES] = {0};
    readings[17] = 1;
    for (int round = 1; round < ROUNDS; round++)
        readings[round * LAYER + 6] = readings[round * LAYER + 7] = 1;
    for (int round = 0; round < ROUNDS; round++) {
        printf("round %d reads", round);
        print_places(readings + round * LAYER, LAYER);
    }
    if (build(ROUNDS, readings))
        decode();
    build(41, readings);
    readings[2 * LAYER + 20] = 1;
    if (build(ROUNDS, readings))
        decode();
    readings[2 * LAYER + 20] = 2;
    build(ROUNDS, readings);
    return 0;
}
