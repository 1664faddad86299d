/* Judges sets that are handed in for one sheet on the ring. Its correction is edge 3.
 *
 *     (cd crates/table && rt lib)
 *     cc -Iinclude examples/c/verdict.c crates/table/out/libtable.a -o crates/table/out/example && crates/table/out/example
 */
#include "refused.h"

enum { VERTICES = 4, EDGES = 4 };

static const uint16_t ends[2 * EDGES] = {0, 1, 1, 2, 2, 3, 3, 0};
static const uint8_t marks[EDGES] = {0, 0, 0, 1};
static const uint8_t none_open[VERTICES] = {0};
static const uint8_t syndrome[VERTICES] = {1, 0, 0, 1};
static const uint8_t loss[EDGES] = {0};

static void judge(const char *set, const uint8_t handed[EDGES])
{
    uint64_t verdict = surface_verdict(VERTICES, ends, 2 * EDGES, marks, EDGES, none_open, VERTICES, syndrome, VERTICES,
                                       loss, EDGES, handed, EDGES);
    printf("%s: ", set);
    if (surface_refusal(verdict) != SURFACE_NOT_REFUSED) {
        print_refusal(verdict);
        return;
    }
    switch (surface_first(verdict)) {
    case SURFACE_OFF: printf("off at vertex %" PRIu32 "\n", surface_second(verdict)); break;
    case SURFACE_SAME: printf("same\n"); break;
    case SURFACE_WOUND: printf("wound, marks %" PRIu32 "\n", surface_second(verdict)); break;
    }
}

int main(void)
{
    const uint8_t correction[EDGES] = {0, 0, 0, 1};
    const uint8_t long_way[EDGES] = {1, 1, 1, 0};
    const uint8_t too_short[EDGES] = {1, 1, 0, 0};
    const uint8_t miscounted[EDGES] = {1, 1, 2, 0};
    judge("the correction itself", correction);
    judge("the long way round", long_way);
    judge("an edge too few", too_short);
    judge("an edge twice", miscounted);
    return 0;
}
