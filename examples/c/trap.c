/* Sets traps on the planar board of side 3, whose distance is 3: with nothing lost; with the edge in the middle lost, where one edge alone
 * misleads the table; and with all marks rubbed out. Shows the verdict on each trap, and of the second, which is the only smallest one,
 * what the table answers. The torus of side 3 has too many edges.
 *
 *     (cd crates/table && rt lib)
 *     cc -Iinclude examples/c/trap.c crates/table/out/libtable.a -o crates/table/out/example && crates/table/out/example
 */
#include "refused.h"

enum { SIDE = 3, VERTICES = 12, EDGES = 13, TORUS_VERTICES = 9, TORUS_EDGES = 18 };

static uint16_t ends[2 * TORUS_EDGES];
static uint8_t marks[TORUS_EDGES], open_bytes[VERTICES], set[TORUS_EDGES];
static uint8_t syndrome[VERTICES], support[EDGES], correction[EDGES];

/* Puts the syndrome of the set, which is empty at open vertices, and says how the table's correction compares with the set. */
static void put(const uint8_t loss[EDGES])
{
    for (int vertex = 0; vertex < VERTICES; vertex++)
        syndrome[vertex] = 0;
    for (int end = 0; end < 2 * EDGES; end++)
        if (set[end / 2] == 1 && open_bytes[ends[end]] == 0)
            syndrome[ends[end]] ^= 1;
    surface_decode(VERTICES, ends, 2 * EDGES, marks, EDGES, open_bytes, VERTICES, syndrome, VERTICES, loss, EDGES, support, EDGES,
                   correction, EDGES);
    uint64_t verdict = surface_verdict(VERTICES, ends, 2 * EDGES, marks, EDGES, open_bytes, VERTICES, syndrome, VERTICES, loss, EDGES,
                                       set, EDGES);
    printf(", verdict %s\n", surface_first(verdict) == SURFACE_WOUND ? "wound" : "another");
}

static void examine(const char *when, const uint8_t loss[EDGES])
{
    uint64_t trap = surface_trap(VERTICES, ends, 2 * EDGES, marks, EDGES, open_bytes, VERTICES, loss, EDGES, set, EDGES);
    printf("%s: ", when);
    if (surface_refusal(trap) != SURFACE_NOT_REFUSED) {
        print_refusal(trap);
        return;
    }
    if (surface_second(trap) == 0) {
        printf("no trap\n");
        return;
    }
    int lost = 0, kept = 0;
    for (int edge = 0; edge < EDGES; edge++) {
        lost += loss[edge];
        kept += set[edge] == 1 && loss[edge] == 0;
    }
    printf("edges of the trap %" PRIu32 ", t + 2s = %d", surface_first(trap), lost + 2 * kept);
    put(loss);
}

static void list(const char *what, const uint8_t *bytes, int count)
{
    printf("  %s", what);
    for (int i = 0; i < count; i++)
        if (bytes[i] == 1)
            printf(" %d", i);
    printf("\n");
}

int main(void)
{
    const uint8_t none[TORUS_EDGES] = {0};
    const uint8_t middle[EDGES] = {0, 0, 0, 0, 1, 0, 0, 0, 0, 0, 0, 0, 0};
    surface_planar(SIDE, ends, 2 * EDGES, marks, EDGES, open_bytes, VERTICES);
    examine("nothing lost", none);
    examine("edge 4 lost", middle);
    list("trap: edges", set, EDGES);
    list("lit: vertices", syndrome, VERTICES);
    list("correction: edges", correction, EDGES);
    for (int edge = 0; edge < EDGES; edge++)
        marks[edge] = 0;
    examine("no marks", none);

    surface_torus(SIDE, ends, 2 * TORUS_EDGES, marks, TORUS_EDGES);
    printf("on the torus: ");
    print_refusal(surface_trap(TORUS_VERTICES, ends, 2 * TORUS_EDGES, marks, TORUS_EDGES, none, TORUS_VERTICES, none, TORUS_EDGES, set,
                               TORUS_EDGES));
    return 0;
}
