/* Decodes packed sheets on the ring: vertices 0 and 3 lit; the same with edges 0, 1 and 2 lost; one lit vertex, which has no correction;
 * and words with a bit for a vertex, or for an edge, that isn't there.
 *
 *     (cd crates/table && rt lib)
 *     cc -Iinclude examples/c/decode_packed.c crates/table/out/libtable.a -o crates/table/out/example && crates/table/out/example
 */
#include "refused.h"

/* Four bits fill one word. */
enum { VERTICES = 4, EDGES = 4, WORDS = 1 };

static const uint16_t ends[2 * EDGES] = {0, 1, 1, 2, 2, 3, 3, 0};
static const uint8_t marks[EDGES] = {0, 0, 0, 1};
static const uint8_t open_bytes[VERTICES] = {0};

static void decode(uint64_t syndrome_word, uint64_t loss_word)
{
    uint8_t support[EDGES], correction[EDGES];
    uint64_t key = surface_decode_packed(VERTICES, ends, 2 * EDGES, marks, EDGES, open_bytes, VERTICES, &syndrome_word,
                                         WORDS, &loss_word, WORDS, support, EDGES, correction, EDGES);
    if (surface_refusal(key) != SURFACE_NOT_REFUSED) {
        print_refusal(key);
        return;
    }
    printf("growths %" PRIu32 ", correction edges %" PRIu32 ":", surface_first(key), surface_second(key));
    for (int edge = 0; edge < EDGES; edge++)
        if (correction[edge] == 1)
            printf(" %d", edge);
    printf("\n");
}

int main(void)
{
    decode(0x9, 0x0);
    decode(0x9, 0x7);
    decode(0x8, 0x0);
    decode(0x19, 0x0);
    decode(0x9, 0x10);
    return 0;
}
