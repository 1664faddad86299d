/* Reads the text of a sheet, one whose third line names a vertex that isn't there, and one that lights an open vertex.
 *
 *     (cd crates/table && rt lib)
 *     cc -Iinclude examples/c/read.c crates/table/out/libtable.a -o crates/table/out/example && crates/table/out/example
 */
#include <string.h>

#include "refused.h"

static uint16_t ends[SURFACE_ENDS];
static uint8_t marks[SURFACE_MARKS], open_bytes[SURFACE_OPEN], syndrome[SURFACE_SYNDROME], loss[SURFACE_LOSS];

static void read_sheet(const char *text)
{
    uint64_t counts = surface_read((const uint8_t *)text, strlen(text), ends, SURFACE_ENDS, marks, SURFACE_MARKS,
                                   open_bytes, SURFACE_OPEN, syndrome, SURFACE_SYNDROME, loss, SURFACE_LOSS);
    if (surface_refusal(counts) != SURFACE_NOT_REFUSED) {
        print_refusal(counts);
        return;
    }
    uint32_t vertices = surface_first(counts), edges = surface_second(counts);
    printf("vertices %" PRIu32 ", edges %" PRIu32 "\n", vertices, edges);
    for (uint32_t edge = 0; edge < edges; edge++)
        printf("edge %" PRIu32 ": %d to %d, mark %d%s\n", edge, ends[2 * edge], ends[2 * edge + 1], marks[edge],
               loss[edge] == 1 ? ", lost" : "");
    for (uint32_t vertex = 0; vertex < vertices; vertex++)
        if (open_bytes[vertex] == 1)
            printf("vertex %" PRIu32 " is open\n", vertex);
        else if (syndrome[vertex] == 1)
            printf("vertex %" PRIu32 " is lit\n", vertex);
}

int main(void)
{
    read_sheet("V\t3\nE\t0\t1\t0\nE\t1\t2\t3\nO\t1\nS\t0\nS\t2\nX\t1\n");
    read_sheet("V\t3\nE\t0\t1\t0\nE\t1\t3\t0\n");
    read_sheet("V\t3\nE\t0\t1\t0\nO\t1\nS\t1\n");
    return 0;
}
