/* Each call on what it is lent, which is as long as the vertices and edges at hand say, and the list of the calls. */
#include "calls.h"

size_t vertices, edges, text_count;
uint32_t side, rounds;
uint16_t ends[SURFACE_ENDS];
uint8_t marks[SURFACE_MARKS], open_bytes[SURFACE_OPEN], syndrome[SURFACE_SYNDROME], loss[SURFACE_LOSS], handed[SURFACE_EDGES];
uint8_t readings[SURFACE_VERTICES], correction[SURFACE_EDGES], position[SURFACE_EDGES];
uint64_t syndrome_words[SURFACE_SYNDROME_WORDS], loss_words[SURFACE_LOSS_WORDS];

uint64_t returned;

/* The rest of what they are lent, which the calls alone fill and read. */
static uint8_t support[SURFACE_EDGES], shown[SURFACE_EDGES], set[SURFACE_EDGES], face_bytes[SURFACE_VERTICES], text[SURFACE_TEXT];
static uint8_t unpacked_syndrome[SURFACE_SYNDROME], unpacked_loss[SURFACE_LOSS];
static uint16_t list[SURFACE_VERTICES];

/* The words that so many items fill. */
static size_t words(size_t items) { return (items + 63) / 64; }

static void decode(void)
{
    returned = surface_decode(vertices, ends, 2 * edges, marks, edges, open_bytes, vertices, syndrome, vertices, loss, edges, support, edges,
                              correction, edges);
}

static void decode_rounds(void)
{
    returned = surface_decode_rounds(vertices, ends, 2 * edges, marks, edges, open_bytes, vertices, syndrome, vertices, loss, edges, support,
                                     edges, correction, edges);
}

static void decode_packed(void)
{
    returned = surface_decode_packed(vertices, ends, 2 * edges, marks, edges, open_bytes, vertices, syndrome_words, words(vertices), loss_words,
                                     words(edges), support, edges, correction, edges);
}

static void verdict(void)
{
    returned = surface_verdict(vertices, ends, 2 * edges, marks, edges, open_bytes, vertices, syndrome, vertices, loss, edges, handed, edges);
}

static void faces(void) { returned = surface_faces(side, syndrome, vertices, loss, edges, handed, edges, face_bytes, vertices); }

static void distance(void) { returned = surface_distance(vertices, ends, 2 * edges, marks, edges, open_bytes, vertices, shown, edges); }

static void torus(void) { returned = surface_torus(side, ends, 2 * edges, marks, edges); }

static void planar(void) { returned = surface_planar(side, ends, 2 * edges, marks, edges, open_bytes, vertices); }

static void torus_stack(void)
{
    returned = surface_stack(side, rounds, readings, vertices, ends, 2 * edges, marks, edges, syndrome, vertices);
}

static void write_text(void)
{
    returned = surface_write(vertices, ends, 2 * edges, marks, edges, open_bytes, vertices, syndrome, vertices, loss, edges, text, SURFACE_TEXT);
}

static void read_text(void)
{
    returned = surface_read(text, text_count, ends, SURFACE_ENDS, marks, SURFACE_MARKS, open_bytes, SURFACE_OPEN, syndrome, SURFACE_SYNDROME,
                            loss, SURFACE_LOSS);
}

static void pack(void)
{
    returned = surface_pack(vertices, edges, syndrome, vertices, loss, edges, syndrome_words, words(vertices), loss_words, words(edges));
}

static void unpack(void)
{
    returned = surface_unpack(vertices, edges, syndrome_words, words(vertices), loss_words, words(edges), unpacked_syndrome, vertices,
                              unpacked_loss, edges);
}

static void lit_total(void) { returned = surface_lit_total(vertices, syndrome_words, words(vertices)); }

static void list_lit(void) { returned = surface_list_lit(vertices, syndrome_words, words(vertices), list, vertices); }

static void game(void) { returned = surface_game(vertices, ends, 2 * edges, marks, edges, open_bytes, vertices, position, edges); }

static void trap(void)
{
    returned = surface_trap(vertices, ends, 2 * edges, marks, edges, open_bytes, vertices, loss, edges, set, edges);
}

struct call calls[CALLS] = {
    {"surface_decode", decode, SURFACE_STACK_DECODE, 0, false, false},
    {"surface_decode_rounds", decode_rounds, SURFACE_STACK_DECODE_ROUNDS, 0, false, false},
    {"surface_decode_packed", decode_packed, SURFACE_STACK_DECODE_PACKED, 0, false, false},
    {"surface_verdict", verdict, SURFACE_STACK_VERDICT, 0, false, false},
    {"surface_faces", faces, SURFACE_STACK_FACES, 0, false, false},
    {"surface_distance", distance, SURFACE_STACK_DISTANCE, 0, false, false},
    {"surface_torus", torus, SURFACE_STACK_TORUS, 0, false, false},
    {"surface_planar", planar, SURFACE_STACK_PLANAR, 0, false, false},
    {"surface_stack", torus_stack, SURFACE_STACK_STACK, 0, false, false},
    {"surface_read", read_text, SURFACE_STACK_READ, 0, false, false},
    {"surface_write", write_text, SURFACE_STACK_WRITE, 0, false, false},
    {"surface_pack", pack, SURFACE_STACK_PACK, 0, false, false},
    {"surface_unpack", unpack, SURFACE_STACK_UNPACK, 0, false, false},
    {"surface_lit_total", lit_total, SURFACE_STACK_LIT_TOTAL, 0, false, false},
    {"surface_list_lit", list_lit, SURFACE_STACK_LIST_LIT, 0, false, false},
    {"surface_game", game, SURFACE_STACK_GAME, 0, false, false},
    {"surface_trap", trap, SURFACE_STACK_TRAP, 0, false, false},
};
