/* How much stack memory each call needs, beside what the header says of it.
 *
 * A call is made on a painted stack; what it used is counted from the top down to the lowest byte that lost its paint, the return address
 * and the arguments that pass over the stack among it. What a call can use shows once every frame of it is made: arrays have fixed lengths
 * and are filled when they are made, and of the two recursions the one over the digits of a number that is written is at its deepest with
 * numbers of four digits, and the one over the moves of a game where ten edges are free and the last is taken. So each call is made on
 * boards at the limits, on the smallest board, and where it refuses. The lowest bytes of a frame may stay unwritten, 16 of them in
 * surface_write; the page that the header adds has room for them.
 */
#define _XOPEN_SOURCE 700
#include <stdio.h>
#include <stdlib.h>
#include <string.h>
#include <ucontext.h>

#include "calls.h"

/* PAGE is what the header adds for the C library, and what it rounds up to; LIMIT what no call may need. */
enum { STACK = 1024 * 1024, PAGE = 4096, LIMIT = 256 * 1024 };

static unsigned char stack[STACK];
static ucontext_t outside, inside;

/* The bytes that a call uses of a stack of this paint. */
static size_t used(void (*make)(void), unsigned char paint)
{
    memset(stack, paint, STACK);
    if (getcontext(&inside) != 0)
        abort();
    inside.uc_stack.ss_sp = stack;
    inside.uc_stack.ss_size = STACK;
    inside.uc_link = &outside;
    makecontext(&inside, make, 0);
    if (swapcontext(&outside, &inside) != 0)
        abort();
    size_t untouched = 0;
    while (untouched < STACK && stack[untouched] == paint)
        untouched++;
    return STACK - untouched;
}

/* Makes a call on stacks of two paints: a byte that is written may have one of them. */
static void measure(int which)
{
    struct call *call = &calls[which];
    const unsigned char paints[] = {0xa5, 0x5a};
    for (int i = 0; i < 2; i++) {
        size_t bytes = used(call->make, paints[i]);
        if (bytes > call->most)
            call->most = bytes;
    }
    if (surface_refusal(returned) == SURFACE_NOT_REFUSED)
        call->answered = true;
    else
        call->refused = true;
}

/* The calls that are lent words, on those at hand. */
static void measure_words(void)
{
    measure(UNPACK);
    measure(LIT_TOTAL);
    measure(LIST_LIT);
    measure(DECODE_PACKED);
}

/* All calls that are lent a board, on the one at hand; what is written is then read, and what is packed unpacked. */
static void measure_board(void)
{
    measure(PACK);
    measure_words();
    measure(DECODE);
    measure(DECODE_ROUNDS);
    measure(VERDICT);
    measure(DISTANCE);
    measure(GAME);
    measure(TRAP);
    measure(WRITE);
    text_count = surface_refusal(returned) == SURFACE_NOT_REFUSED ? surface_first(returned) : 0;
    measure(READ);
}

/* Every seventh vertex lit, but an even number of them; every fifth edge lost, the last one among them. No vertex is open. */
static void light_and_lose(void)
{
    memset(open_bytes, 0, sizeof open_bytes);
    memset(syndrome, 0, sizeof syndrome);
    memset(loss, 0, sizeof loss);
    memset(handed, 0, sizeof handed);
    for (size_t v = 0; v + 7 < vertices; v += 14)
        syndrome[v] = syndrome[v + 7] = 1;
    for (size_t e = 0; e < edges; e++)
        loss[edges - 1 - e] = e % 5 == 0;
}

/* The verdict with faces, which must be this one. */
static void measure_faces_as(uint32_t verdict)
{
    measure(FACES);
    if (surface_refusal(returned) != SURFACE_NOT_REFUSED || surface_first(returned) != verdict)
        abort();
}

/* The verdict with faces on the torus at hand: on no edges; same, on the correction; wound, on the first row too. Then a handed-in byte
 * above 1, an odd number of lit vertices, and a buffer too long. */
static void measure_faces(void)
{
    measure(FACES);
    calls[DECODE].make();
    memcpy(handed, correction, edges);
    measure_faces_as(SURFACE_SAME);
    for (size_t c = 0; c < side; c++)
        handed[2 * c] ^= 1;
    measure_faces_as(SURFACE_WOUND);
    handed[edges - 1] = 2;
    measure(FACES);
    memset(handed, 0, sizeof handed);
    syndrome[vertices - 1] ^= 1;
    measure(FACES);
    syndrome[vertices - 1] ^= 1;
    edges++;
    measure(FACES);
    edges--;
}

/* The torus of the largest side. */
static void largest_torus(void)
{
    side = 32;
    vertices = SURFACE_VERTICES;
    edges = 2 * SURFACE_VERTICES;
    measure(TORUS);
    light_and_lose();
    measure_board();
    measure_faces();
    side = 33;
    measure(TORUS);
    measure(FACES);
}

/* The planar board of the largest side, with an odd number of lit vertices. Then one of the open vertices is lit, and the last has an open
 * byte above 1; at last there are bits past the last edge and past the last vertex. */
static void largest_planar(void)
{
    side = 31;
    vertices = (size_t)side * (side + 1);
    edges = (size_t)side * side + (size_t)(side - 1) * (side - 1);
    measure(PLANAR);
    memset(syndrome, 0, sizeof syndrome);
    memset(loss, 0, sizeof loss);
    memset(handed, 0, sizeof handed);
    for (size_t v = 0; v < vertices; v += 6)
        syndrome[v] = open_bytes[v] == 0;
    for (size_t e = 0; e < edges; e += 5)
        loss[e] = 1;
    measure_board();
    syndrome[vertices - 1] = 1;
    measure_board();
    open_bytes[vertices - 1] = 2;
    measure_board();
    loss_words[edges / 64] |= UINT64_C(1) << 63;
    measure_words();
    syndrome_words[vertices / 64] |= UINT64_C(1) << 63;
    measure_words();
    side = 32;
    measure(PLANAR);
}

/* The stack of a side and so many rounds, every third reading 1, and the calls that are lent its board. It has a correction where the last
 * layer has an even number of these, as those of sides 8 and 32 below. */
static void measure_stack(uint32_t stacked_side, uint32_t stacked_rounds)
{
    side = stacked_side;
    rounds = stacked_rounds;
    vertices = (size_t)rounds * side * side;
    edges = 3 * vertices - (size_t)side * side;
    for (size_t v = 0; v < vertices; v++)
        readings[v] = v % 3 == 0;
    measure(TORUS_STACK);
    memset(open_bytes, 0, sizeof open_bytes);
    memset(loss, 0, sizeof loss);
    memset(handed, 0, sizeof handed);
    measure_board();
}

/* Stacks of as many vertices as there may be, with one layer, some, and as many as there may be; then a reading byte above 1, a buffer too
 * long, a round too many, and a side too large. */
static void largest_stacks(void)
{
    measure_stack(32, 1);
    measure_stack(1, SURFACE_VERTICES);
    measure_stack(8, 16);
    readings[vertices - 1] = 2;
    measure(TORUS_STACK);
    edges++;
    measure(TORUS_STACK);
    rounds++;
    measure(TORUS_STACK);
    side = 33;
    measure(TORUS_STACK);
}

/* As many vertices and edges as there may be: four rings through all vertices, with steps 1, 3, 5 and 7, and every mark. */
static void most_edges(void)
{
    vertices = SURFACE_VERTICES;
    edges = SURFACE_EDGES;
    for (size_t e = 0; e < edges; e++) {
        size_t v = e % vertices, step = 2 * (e / vertices) + 1;
        ends[2 * e] = (uint16_t)v;
        ends[2 * e + 1] = (uint16_t)((v + step) % vertices);
        marks[e] = (uint8_t)(e % 4);
    }
    light_and_lose();
    measure_board();
    for (size_t v = 1; v < vertices; v += 2) /* half of the vertices open, of which none is lit */
        open_bytes[v] = syndrome[v] == 0;
    measure_board();
}

/* A path through all vertices whose two ends alone are lit: the most growths that its vertices allow. No loop winds. */
static void long_path(void)
{
    vertices = SURFACE_VERTICES;
    edges = vertices - 1;
    for (size_t e = 0; e < edges; e++) {
        ends[2 * e] = (uint16_t)e;
        ends[2 * e + 1] = (uint16_t)(e + 1);
        marks[e] = 0;
    }
    memset(open_bytes, 0, sizeof open_bytes);
    memset(syndrome, 0, sizeof syndrome);
    memset(loss, 0, sizeof loss);
    syndrome[0] = syndrome[vertices - 1] = 1;
    measure_board();
    syndrome[0] = 0; /* no correction */
    measure_board();
    open_bytes[0] = 1; /* the error may have run off there */
    measure_board();
    marks[edges - 1] = 4;
    measure_board();
}

/* The game from the start, and from each position in which so many of the first edges are taken in turn. */
static void measure_positions(void)
{
    for (size_t taken = 0; taken <= edges; taken++) {
        for (size_t e = 0; e < edges; e++)
            position[e] = e >= taken ? 0 : e % 2 == 0 ? SURFACE_WINDER : SURFACE_BLOCKER;
        measure(GAME);
    }
    memset(position, 0, sizeof position);
}

/* Games on as many edges as there may be, among as many vertices: first pairs of edges, each of them a winding loop, so that the other edge
 * of a pair is the reply to each, down to the last; then a path without a mark, on which no loop winds; then the path with a mark and all
 * vertices open, on which the marked edge wins. Then two edges of Winder's and none of Blocker's, a byte above 2, and an edge too many. */
static void longest_games(void)
{
    vertices = SURFACE_VERTICES;
    edges = SURFACE_GAME_EDGES;
    memset(open_bytes, 0, sizeof open_bytes);
    for (size_t e = 0; e < edges; e++) {
        ends[2 * e] = (uint16_t)(vertices - 1 - e / 2);
        ends[2 * e + 1] = (uint16_t)(e / 2);
        marks[e] = (uint8_t)(e % 2);
    }
    measure_positions();
    for (size_t e = 0; e < edges; e++) {
        ends[2 * e] = (uint16_t)e;
        ends[2 * e + 1] = (uint16_t)(e + 1);
        marks[e] = 0;
    }
    measure_positions();
    marks[edges - 1] = 3;
    memset(open_bytes, 1, sizeof open_bytes);
    measure_positions();
    position[0] = position[1] = SURFACE_WINDER;
    measure(GAME);
    position[edges - 1] = 3;
    measure(GAME);
    edges++;
    measure(GAME);
    memset(position, 0, sizeof position);
}

/* The search for a trap, which must find so many edges; none is 0. Where these are fewer than those of the shortest winding loop, sets were
 * decoded. */
static void measure_trap_as(uint32_t fewest)
{
    measure(TRAP);
    if (surface_refusal(returned) != SURFACE_NOT_REFUSED || surface_first(returned) != fewest)
        abort();
}

/* Traps on as many edges as there may be, among as many vertices: on a ring, which winds and is the only loop, first with nothing lost, so
 * that sets of half its edges are decoded until one is a trap, then with every third edge lost; then on the ring without a mark, on which
 * nothing winds and no set is decoded. Then with every other vertex open, and the mark again: two edges from one of them to another wind. At
 * last a loss byte above 1, and an edge too many. */
static void largest_traps(void)
{
    vertices = SURFACE_VERTICES;
    edges = SURFACE_TRAP_EDGES;
    memset(open_bytes, 0, sizeof open_bytes);
    memset(loss, 0, sizeof loss);
    for (size_t e = 0; e < edges; e++) {
        ends[2 * e] = (uint16_t)(vertices - 1 - e);
        ends[2 * e + 1] = (uint16_t)(vertices - 1 - (e + 1) % edges);
        marks[e] = 0;
    }
    marks[edges - 1] = 3;
    measure_trap_as((uint32_t)edges / 2);
    for (size_t e = 0; e < edges; e += 3)
        loss[e] = 1;
    measure_trap_as(6);
    marks[edges - 1] = 0;
    measure_trap_as(0);
    for (size_t v = 0; v < vertices; v += 2)
        open_bytes[v] = 1;
    marks[edges - 1] = 3;
    measure_trap_as(1);
    loss[edges - 1] = 2;
    measure(TRAP);
    loss[edges - 1] = 0;
    edges++;
    measure(TRAP);
}

/* The torus of side 1, whose edges are loop edges; one vertex without an edge, and none; the planar board of side 2; the stack of side 1
 * that is read once. */
static void smallest(void)
{
    side = 1;
    vertices = 1;
    edges = 2;
    measure(TORUS);
    light_and_lose();
    measure_board();
    measure_faces();
    edges = 0;
    memset(syndrome, 0, sizeof syndrome);
    measure_board();
    vertices = 0;
    measure_board();
    side = 2;
    vertices = 6;
    edges = 5;
    measure(PLANAR);
    measure_board();
    measure_stack(1, 1);
}

int main(void)
{
    largest_torus();
    largest_planar();
    largest_stacks();
    most_edges();
    long_path();
    longest_games();
    largest_traps();
    smallest();

    bool good = true;
    for (int i = 0; i < CALLS; i++) {
        struct call call = calls[i];
        bool fits = call.most <= LIMIT && call.said <= LIMIT && call.most + PAGE <= call.said && call.said < call.most + 2 * PAGE;
        bool seen = call.answered && call.refused;
        printf("%-21s %6zu bytes of stack, the header says %6zu%s%s\n", call.name, call.most, call.said, fits ? "" : ": doesn't fit",
               seen ? "" : ": not seen to answer and to refuse");
        good = good && fits && seen;
    }
    return good ? 0 : 1;
}
