/* Decodes a sheet on a path in rounds and then one growth at a time, and a sheet that has no correction.
 *
 *     (cd crates/table && rt lib)
 *     cc -Iinclude examples/c/decode_rounds.c crates/table/out/libtable.a -o crates/table/out/example && crates/table/out/example
 */
#include "refused.h"

enum { VERTICES = 5, EDGES = 4 };

static const uint16_t ends[2 * EDGES] = {0, 1, 1, 2, 2, 3, 3, 4};
static const uint8_t marks[EDGES] = {0};
static const uint8_t none_open[VERTICES] = {0};
static const uint8_t loss[EDGES] = {0};

static uint8_t support[EDGES], correction[EDGES];

/* Prints a key, whose first value counts what the name says. */
static void print_key(const char *counted, uint64_t key)
{
    if (surface_refusal(key) != SURFACE_NOT_REFUSED) {
        print_refusal(key);
        return;
    }
    printf("%s %" PRIu32 ", correction edges %" PRIu32 "\n", counted, surface_first(key), surface_second(key));
    for (int edge = 0; edge < EDGES; edge++)
        printf("edge %d: support %d, correction %d\n", edge, support[edge], correction[edge]);
}

static void decode_rounds(const uint8_t syndrome[VERTICES])
{
    print_key("rounds", surface_decode_rounds(VERTICES, ends, 2 * EDGES, marks, EDGES, none_open, VERTICES, syndrome,
                                              VERTICES, loss, EDGES, support, EDGES, correction, EDGES));
}

static void decode(const uint8_t syndrome[VERTICES])
{
    print_key("growths", surface_decode(VERTICES, ends, 2 * EDGES, marks, EDGES, none_open, VERTICES, syndrome, VERTICES,
                                        loss, EDGES, support, EDGES, correction, EDGES));
}

int main(void)
{
    const uint8_t two_lit[VERTICES] = {1, 0, 0, 1, 0};
    const uint8_t one_lit[VERTICES] = {0, 0, 1, 0, 0};
    decode_rounds(two_lit);
    decode(two_lit);
    decode_rounds(one_lit);
    return 0;
}
