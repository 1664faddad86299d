/* The calls that are measured, and what they are lent. */
#ifndef CALLS_H
#define CALLS_H

#include <stdbool.h>

#include "surface_table.h"

extern size_t vertices, edges, text_count;
extern uint32_t side, rounds;
extern uint16_t ends[SURFACE_ENDS];
extern uint8_t marks[SURFACE_MARKS], open_bytes[SURFACE_OPEN], syndrome[SURFACE_SYNDROME], loss[SURFACE_LOSS], handed[SURFACE_EDGES];
extern uint8_t readings[SURFACE_VERTICES], correction[SURFACE_EDGES], position[SURFACE_EDGES];
extern uint64_t syndrome_words[SURFACE_SYNDROME_WORDS], loss_words[SURFACE_LOSS_WORDS];

/* What the last call returned. */
extern uint64_t returned;

/* A call, how many bytes the header says that it needs, the most that it was seen to use, and which answers were seen. */
struct call {
    const char *name;
    void (*make)(void);
    size_t said;
    size_t most;
    bool answered, refused;
};

enum {
    DECODE,
    DECODE_ROUNDS,
    DECODE_PACKED,
    VERDICT,
    FACES,
    DISTANCE,
    TORUS,
    PLANAR,
    TORUS_STACK,
    READ,
    WRITE,
    PACK,
    UNPACK,
    LIT_TOTAL,
    LIST_LIT,
    GAME,
    TRAP,
    CALLS
};

extern struct call calls[CALLS];

#endif
