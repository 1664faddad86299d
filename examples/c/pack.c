/* Packs a syndrome of 66 vertices, of which those past the first 64 stand in a second word, and the losses of three edges. Then one of the
 * loss bytes is above 1.
 *
 *     (cd crates/table && rt lib)
 *     cc -Iinclude examples/c/pack.c crates/table/out/libtable.a -o crates/table/out/example && crates/table/out/example
 */
#include "refused.h"

enum { VERTICES = 66, EDGES = 3, SYNDROME_WORDS = (VERTICES + 63) / 64, LOSS_WORDS = (EDGES + 63) / 64 };

static void pack(const uint8_t syndrome[VERTICES], const uint8_t loss[EDGES])
{
    uint64_t syndrome_words[SYNDROME_WORDS], loss_words[LOSS_WORDS];
    uint64_t counts = surface_pack(VERTICES, EDGES, syndrome, VERTICES, loss, EDGES, syndrome_words, SYNDROME_WORDS,
                                   loss_words, LOSS_WORDS);
    if (surface_refusal(counts) != SURFACE_NOT_REFUSED) {
        print_refusal(counts);
        return;
    }
    for (uint32_t word = 0; word < surface_first(counts); word++)
        printf("syndrome word %" PRIu32 ": %016" PRIx64 "\n", word, syndrome_words[word]);
    for (uint32_t word = 0; word < surface_second(counts); word++)
        printf("loss word %" PRIu32 ": %016" PRIx64 "\n", word, loss_words[word]);
}

int main(void)
{
    uint8_t syndrome[VERTICES] = {0};
    uint8_t loss[EDGES] = {0, 0, 1};
    syndrome[0] = syndrome[5] = syndrome[63] = syndrome[64] = 1;
    pack(syndrome, loss);
    loss[1] = 2;
    pack(syndrome, loss);
    return 0;
}
