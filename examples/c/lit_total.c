/* Counts the lit vertices of a packed syndrome of 66 vertices; then with a word too few, and of 1,025 vertices.
 *
 *     (cd crates/table && rt lib)
 *     cc -Iinclude examples/c/lit_total.c crates/table/out/libtable.a -o crates/table/out/example && crates/table/out/example
 */
#include "refused.h"

enum { VERTICES = 66, WORDS = (VERTICES + 63) / 64 };

static const uint64_t words[WORDS] = {UINT64_C(0x8000000000000021), 0x1};

static void count(size_t vertices, size_t words_count)
{
    uint64_t total = surface_lit_total(vertices, words, words_count);
    if (surface_refusal(total) != SURFACE_NOT_REFUSED) {
        print_refusal(total);
        return;
    }
    printf("lit vertices: %" PRIu32 "\n", surface_first(total));
}

int main(void)
{
    count(VERTICES, WORDS);
    count(VERTICES, WORDS - 1);
    count(1025, WORDS);
    return 0;
}
