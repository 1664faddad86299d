/* Lists the lit vertices of a packed syndrome of 66 vertices; then of words with a bit for a vertex that isn't there.
 *
 *     (cd crates/table && rt lib)
 *     cc -Iinclude examples/c/list_lit.c crates/table/out/libtable.a -o crates/table/out/example && crates/table/out/example
 */
#include "refused.h"

enum { VERTICES = 66, WORDS = (VERTICES + 63) / 64 };

static void list_lit(const uint64_t words[WORDS])
{
    uint16_t list[VERTICES];
    uint64_t total = surface_list_lit(VERTICES, words, WORDS, list, VERTICES);
    if (surface_refusal(total) != SURFACE_NOT_REFUSED) {
        print_refusal(total);
        return;
    }
    printf("lit vertices:");
    for (uint32_t i = 0; i < surface_first(total); i++)
        printf(" %d", list[i]);
    printf("\n");
}

int main(void)
{
    const uint64_t four[WORDS] = {UINT64_C(0x8000000000000021), 0x1};
    const uint64_t vertex_66[WORDS] = {0, 0x4};
    list_lit(four);
    list_lit(vertex_66);
    return 0;
}
