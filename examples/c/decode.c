/* Decodes three sheets on the ring. The second has no correction; the third has, since vertex 0 is open there.
 *
 *     (cd crates/table && rt lib)
 *     cc -Iinclude examples/c/decode.c crates/table/out/libtable.a -o crates/table/out/example && crates/table/out/example
 */
#include "refused.h"

enum { VERTICES = 4, EDGES = 4 };

static const uint16_t ends[2 * EDGES] = {0, 1, 1, 2, 2, 3, 3, 0};
static const uint8_t marks[EDGES] = {0, 0, 0, 1};
static const uint8_t loss[EDGES] = {0};

static void decode(const uint8_t open_bytes[VERTICES], const uint8_t syndrome[VERTICES])
{
    uint8_t support[EDGES], correction[EDGES];
    uint64_t key = surface_decode(VERTICES, ends, 2 * EDGES, marks, EDGES, open_bytes, VERTICES, syndrome, VERTICES,
                                  loss, EDGES, support, EDGES, correction, EDGES);
    if (surface_refusal(key) != SURFACE_NOT_REFUSED) {
        print_refusal(key);
        return;
    }
    printf("growths %" PRIu32 ", correction edges %" PRIu32 "\n", surface_first(key), surface_second(key));
    for (int edge = 0; edge < EDGES; edge++)
        printf("edge %d: support %d, correction %d\n", edge, support[edge], correction[edge]);
}

int main(void)
{
    const uint8_t none_open[VERTICES] = {0};
    const uint8_t first_open[VERTICES] = {1, 0, 0, 0};
    const uint8_t two_lit[VERTICES] = {1, 0, 0, 1};
    const uint8_t one_lit[VERTICES] = {0, 0, 1, 0};
    decode(none_open, two_lit);
    decode(none_open, one_lit);
    decode(first_open, one_lit);
    return 0;
}
