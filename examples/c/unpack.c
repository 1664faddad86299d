/* Unpacks the words of a syndrome of 66 vertices and of the losses of three edges; then words with a bit for an edge that isn't there, and
 * words that have one for a vertex that isn't there as well, which is found first.
 *
 *     (cd crates/table && rt lib)
 *     cc -Iinclude examples/c/unpack.c crates/table/out/libtable.a -o crates/table/out/example && crates/table/out/example
 */
#include "refused.h"

enum { VERTICES = 66, EDGES = 3, SYNDROME_WORDS = (VERTICES + 63) / 64, LOSS_WORDS = (EDGES + 63) / 64 };

static void unpack(const uint64_t syndrome_words[SYNDROME_WORDS], const uint64_t loss_words[LOSS_WORDS])
{
    uint8_t syndrome[VERTICES], loss[EDGES];
    uint64_t counts = surface_unpack(VERTICES, EDGES, syndrome_words, SYNDROME_WORDS, loss_words, LOSS_WORDS, syndrome,
                                     VERTICES, loss, EDGES);
    if (surface_refusal(counts) != SURFACE_NOT_REFUSED) {
        print_refusal(counts);
        return;
    }
    printf("vertices %" PRIu32 ", edges %" PRIu32 "\n", surface_first(counts), surface_second(counts));
    for (int vertex = 0; vertex < VERTICES; vertex++)
        if (syndrome[vertex] == 1)
            printf("vertex %d is lit\n", vertex);
    for (int edge = 0; edge < EDGES; edge++)
        if (loss[edge] == 1)
            printf("edge %d is lost\n", edge);
}

int main(void)
{
    const uint64_t syndrome_words[SYNDROME_WORDS] = {UINT64_C(0x8000000000000021), 0x1};
    const uint64_t loss_words[LOSS_WORDS] = {0x4};
    const uint64_t vertex_66[SYNDROME_WORDS] = {0, 0x4};
    const uint64_t edge_3[LOSS_WORDS] = {0x8};
    unpack(syndrome_words, loss_words);
    unpack(syndrome_words, edge_3);
    unpack(vertex_66, edge_3);
    return 0;
}
