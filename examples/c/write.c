/* Writes the text of a sheet on the ring, vertex 2 open, which the decode program reads; then asks for it in a buffer that is too short.
 *
 *     (cd crates/table && rt lib)
 *     cc -Iinclude examples/c/write.c crates/table/out/libtable.a -o crates/table/out/example && crates/table/out/example
 */
#include "refused.h"

enum { VERTICES = 4, EDGES = 4 };

static const uint16_t ends[2 * EDGES] = {0, 1, 1, 2, 2, 3, 3, 0};
static const uint8_t marks[EDGES] = {0, 0, 0, 1};
static const uint8_t open_bytes[VERTICES] = {0, 0, 1, 0};
static const uint8_t syndrome[VERTICES] = {1, 0, 0, 1};
static const uint8_t loss[EDGES] = {0, 1, 0, 0};

static uint8_t text[SURFACE_TEXT];

static void write_sheet(size_t room)
{
    uint64_t written = surface_write(VERTICES, ends, 2 * EDGES, marks, EDGES, open_bytes, VERTICES, syndrome, VERTICES,
                                     loss, EDGES, text, room);
    if (surface_refusal(written) != SURFACE_NOT_REFUSED) {
        print_refusal(written);
        return;
    }
    fwrite(text, 1, surface_first(written), stdout);
}

int main(void)
{
    write_sheet(SURFACE_TEXT);
    write_sheet(10);
    return 0;
}
