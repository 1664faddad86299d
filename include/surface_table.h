/* The surface code table: a proved Union-Find decoder for one error kind on a graph with lost edges.
 *
 * `rt lib` in crates/table proves the calls below and writes them to crates/table/out/libtable.a. What
 * each answers and writes is told in docs/RULES.md, and is proved of every input, refused ones too.
 *
 * A buffer is a pointer and a count of elements. The calls test everything that they are lent, the
 * counts too. What a caller owes is what no call can test:
 *   - each pointer is valid, and aligned, for so many elements, and is not null where its count is 0;
 *   - a buffer that is written overlaps no other buffer of the same call;
 *   - nobody else writes to any of the buffers until the call returns, or reads one that is written;
 *   - the thread's stack has room for the call (SURFACE_STACK_.. below).
 *
 * Threads: a call keeps nothing from one call to the next, allocates nothing and looks at nothing but
 * what it is lent, so any number of threads may make calls at once. Buffers that are only read may be
 * lent to several of them at the same time.
 *
 * A board has `vertices` vertices, numbered from 0, and edges numbered from 0: two `ends` for each
 * edge, and one of `marks`, 0 to 3. The two ends may be one vertex: such a loop edge adds nothing to
 * any syndrome. `open` has a byte for each vertex, 1 where it is open and 0 where it is not; a board
 * without open sides lends a 0 for each. `syndrome` has a byte for each vertex and `loss` a byte for
 * each edge, each 0 or 1.
 *
 * At an open vertex an error may run off the board. Such a vertex has no syndrome: its syndrome byte
 * must be 0, and a set of edges is closed where all vertices that are not open touch an even number of
 * its edges. So a set that runs from one open vertex to another is closed, and winds where its marks
 * say so; winding, the distance and the rule on t + 2s mean loops in this wider sense. A cluster, or a
 * part of the board, that holds an open vertex is never odd. With zeros lent all of this is empty: no
 * vertex may be run off, and closed means even everywhere.
 *
 * A packed sheet has its syndrome and its losses in 64-bit words, a bit for each vertex and for each
 * edge: item i is bit i % 64 of word i / 64, bit 0 being the lowest. So n items fill exactly
 * (n + 63) / 64 words, none where there is no edge, and a bit past the last item must be 0.
 */
#ifndef SURFACE_TABLE_H
#define SURFACE_TABLE_H

#include <stddef.h>
#include <stdint.h>

#ifdef __cplusplus
extern "C" {
#endif

/* Raised by one whenever a call changes: its parameters, its tests or its answers, or a call more or
 * less. Programs and library must be built from one version; nothing else keeps them together. */
#define SURFACE_VERSION 9

/* The largest number of vertices and of edges of a board, of edges of a board that is played on and of
 * one that a trap is set on, and of bytes of a text. */
#define SURFACE_VERTICES 1024
#define SURFACE_EDGES 4096
#define SURFACE_GAME_EDGES 10
#define SURFACE_TRAP_EDGES 16
#define SURFACE_TEXT 65536

/* The counts of the buffers that surface_read fills. */
#define SURFACE_ENDS (2 * SURFACE_EDGES)
#define SURFACE_MARKS SURFACE_EDGES
#define SURFACE_OPEN SURFACE_VERTICES
#define SURFACE_SYNDROME SURFACE_VERTICES
#define SURFACE_LOSS SURFACE_EDGES

/* The largest numbers of words of a packed syndrome and of packed losses. */
#define SURFACE_SYNDROME_WORDS (SURFACE_VERTICES / 64)
#define SURFACE_LOSS_WORDS (SURFACE_EDGES / 64)

/* Every call returns 64 bits. Bits 0 to 7 are the refusal's number, or 0 where nothing is refused. */
static inline unsigned surface_refusal(uint64_t returned) { return (unsigned)(returned & 0xff); }

/* Where it is refused, bits 8 to 63 are the place. */
static inline uint64_t surface_place(uint64_t returned) { return returned >> 8; }

/* Otherwise bits 8 to 39 are the first value of the answer and bits 40 to 63 the second. */
static inline uint32_t surface_first(uint64_t returned) { return (uint32_t)(returned >> 8); }
static inline uint32_t surface_second(uint64_t returned) { return (uint32_t)(returned >> 40); }

/* The refusal's numbers, each with its place. A call that refuses has written nothing. Of all the
 * rules that are broken, the one that the call tests first is returned, at its smallest place. Calls
 * test in the order of the numbers, but for these: 16 and 17 come before 10, 12 and 14, and 19 before
 * 16; a call that is lent a side tests it first, surface_faces, surface_torus and surface_stack by 11
 * and surface_planar by 18; surface_stack tests 15 next. By 19 the words of the syndrome are tested
 * before those of the losses, whatever the place. Number 5 is not in use. */
enum surface_refusal_number {
    SURFACE_NOT_REFUSED = 0,
    SURFACE_REFUSED_VERTEX_COUNT = 1,    /* place 0 */
    SURFACE_REFUSED_END_COUNT = 2,       /* place 0; of a board that is given. In surface_pack and
                                            surface_unpack the edge count is above 4,096 */
    SURFACE_REFUSED_BUFFER_LENGTH = 3,   /* place 0 */
    SURFACE_REFUSED_END_RANGE = 4,       /* the edge */
    SURFACE_REFUSED_MARK_RANGE = 6,      /* the edge */
    SURFACE_REFUSED_SYNDROME_BYTE = 7,   /* the vertex; in surface_stack that of a reading byte */
    SURFACE_REFUSED_LOSS_BYTE = 8,       /* the edge */
    SURFACE_REFUSED_HANDED_BYTE = 9,     /* the edge */
    SURFACE_REFUSED_NO_CORRECTION = 10,  /* the vertex; surface_decode, surface_decode_rounds,
                                            surface_decode_packed, surface_verdict and surface_faces
                                            alone give it, where nothing else is refused */
    SURFACE_REFUSED_TORUS_SIDE = 11,     /* the side */
    SURFACE_REFUSED_TEXT_LENGTH = 12,    /* place 0 */
    SURFACE_REFUSED_MALFORMED_LINE = 13, /* the line, from 1; the first such */
    SURFACE_REFUSED_TEXT_BUFFER = 14,    /* place 0 */
    SURFACE_REFUSED_ROUND_COUNT = 15,    /* place 0 */
    SURFACE_REFUSED_OPEN_BYTE = 16,      /* the vertex */
    SURFACE_REFUSED_LIT_OPEN = 17,       /* the vertex */
    SURFACE_REFUSED_PLANAR_SIDE = 18,    /* the side */
    SURFACE_REFUSED_PAST_LAST = 19,      /* the word, in its own sheet */
    SURFACE_REFUSED_GAME_EDGES = 20,     /* place 0 */
    SURFACE_REFUSED_POSITION_BYTE = 21,  /* the edge */
    SURFACE_REFUSED_MOVE_COUNT = 22,     /* place 0 */
    SURFACE_REFUSED_TRAP_EDGES = 23      /* place 0 */
};

/* What a refusal's number says; where it speaks of the edge, the vertex, the side, the line or the
 * word, the place tells which. The string lasts as long as the program. */
static inline const char *surface_refusal_text(unsigned number)
{
    switch (number) {
    case SURFACE_NOT_REFUSED: return "nothing is refused";
    case SURFACE_REFUSED_VERTEX_COUNT: return "the vertex count is 0 or above 1,024";
    case SURFACE_REFUSED_END_COUNT:
        return "the count of ends is odd or above 8,192, or that of edges above 4,096";
    case SURFACE_REFUSED_BUFFER_LENGTH: return "a lent buffer has the wrong length";
    case SURFACE_REFUSED_END_RANGE: return "the edge has an end at or above the vertex count";
    case SURFACE_REFUSED_MARK_RANGE: return "the edge has a mark above 3";
    case SURFACE_REFUSED_SYNDROME_BYTE: return "the vertex has a syndrome byte above 1";
    case SURFACE_REFUSED_LOSS_BYTE: return "the edge has a loss byte above 1";
    case SURFACE_REFUSED_HANDED_BYTE: return "the edge has a handed-in byte above 1";
    case SURFACE_REFUSED_NO_CORRECTION: return "no correction: the vertex is the smallest of all odd parts";
    case SURFACE_REFUSED_TORUS_SIDE: return "the side is outside 1 to 32";
    case SURFACE_REFUSED_TEXT_LENGTH: return "the text has more than 65,536 bytes";
    case SURFACE_REFUSED_MALFORMED_LINE: return "the line is malformed";
    case SURFACE_REFUSED_TEXT_BUFFER: return "the buffer is shorter than the text";
    case SURFACE_REFUSED_ROUND_COUNT: return "the round count is 0 or makes more than 1,024 vertices";
    case SURFACE_REFUSED_OPEN_BYTE: return "the vertex has an open byte above 1";
    case SURFACE_REFUSED_LIT_OPEN: return "the vertex is open and lit";
    case SURFACE_REFUSED_PLANAR_SIDE: return "the side of a planar board is outside 2 to 31";
    case SURFACE_REFUSED_PAST_LAST: return "the word has a bit past the last item";
    case SURFACE_REFUSED_GAME_EDGES: return "the board of a game has more than 10 edges";
    case SURFACE_REFUSED_POSITION_BYTE: return "the edge has a position byte above 2";
    case SURFACE_REFUSED_MOVE_COUNT: return "Winder has neither as many edges as Blocker nor one more";
    case SURFACE_REFUSED_TRAP_EDGES: return "the board of a trap has more than 16 edges";
    default: return "no refusal has this number";
    }
}

/* Bytes of the thread's stack that each call needs: what was measured, rounded up to a multiple of
 * 4,096, and 4,096 more for memcpy and memset, all that the library asks of the C library. The calls
 * of one thread don't nest, so the largest of those that it makes is enough. */
#define SURFACE_STACK_DECODE 86016
#define SURFACE_STACK_DECODE_ROUNDS 86016
#define SURFACE_STACK_DECODE_PACKED 90112
#define SURFACE_STACK_VERDICT 94208
#define SURFACE_STACK_FACES 102400
#define SURFACE_STACK_DISTANCE 69632
#define SURFACE_STACK_TORUS 8192
#define SURFACE_STACK_PLANAR 8192
#define SURFACE_STACK_STACK 8192
#define SURFACE_STACK_READ 32768
#define SURFACE_STACK_WRITE 98304
#define SURFACE_STACK_PACK 8192
#define SURFACE_STACK_UNPACK 8192
#define SURFACE_STACK_LIT_TOTAL 8192
#define SURFACE_STACK_LIST_LIT 8192
#define SURFACE_STACK_GAME 8192
#define SURFACE_STACK_TRAP 90112

/* Decodes. Fills `support` with 0 to 2 half-edges and `correction` with 0 or 1, a byte for each edge.
 * The correction has the syndrome, and may end at open vertices, which have none.
 * First value: the growths. Second: the number of correction edges. */
uint64_t surface_decode(size_t vertices,
                        const uint16_t *ends, size_t ends_count,
                        const uint8_t *marks, size_t marks_count,
                        const uint8_t *open, size_t open_count,
                        const uint8_t *syndrome, size_t syndrome_count,
                        const uint8_t *loss, size_t loss_count,
                        uint8_t *support, size_t support_count,
                        uint8_t *correction, size_t correction_count);

/* Decodes by growing in rounds: in each all odd clusters grow together, where surface_decode grows
 * them one at a time. It is lent what surface_decode is, makes the same tests, and fills the same.
 * First value: the rounds, which are no growths. Second: the number of correction edges.
 *
 * The correction has the syndrome and lies inside the edges with support 2. For every set E that has
 * the syndrome, s of its edges not lost, there are at most 2s rounds. The rule on t + 2s is not
 * claimed of this call: that E and the correction together do not wind, where every winding loop has
 * more than t + 2s edges and t edges are lost, may be relied on with surface_decode alone. */
uint64_t surface_decode_rounds(size_t vertices,
                               const uint16_t *ends, size_t ends_count,
                               const uint8_t *marks, size_t marks_count,
                               const uint8_t *open, size_t open_count,
                               const uint8_t *syndrome, size_t syndrome_count,
                               const uint8_t *loss, size_t loss_count,
                               uint8_t *support, size_t support_count,
                               uint8_t *correction, size_t correction_count);

/* Decodes a packed sheet. Fills and answers as surface_decode does on the bytes that surface_unpack
 * makes of the words: the growths, and the number of correction edges. It refuses as surface_decode
 * does, but for 7 and 8: in their place, after 6 and before 16, it tests the words by 19. */
uint64_t surface_decode_packed(size_t vertices,
                               const uint16_t *ends, size_t ends_count,
                               const uint8_t *marks, size_t marks_count,
                               const uint8_t *open, size_t open_count,
                               const uint64_t *syndrome_words, size_t syndrome_words_count,
                               const uint64_t *loss_words, size_t loss_words_count,
                               uint8_t *support, size_t support_count,
                               uint8_t *correction, size_t correction_count);

/* What the first value of surface_verdict and of surface_faces says of the handed-in set. */
enum surface_verdict_value {
    SURFACE_OFF = 1,   /* its syndrome differs; second value: the smallest vertex where it does, which
                          is not open */
    SURFACE_SAME = 2,  /* together with the correction it doesn't wind */
    SURFACE_WOUND = 3  /* together they wind; second value: the exclusive or of their marks, 1 to 3 */
};

/* Compares the handed-in set, a byte for each edge, with the correction. Writes nothing. */
uint64_t surface_verdict(size_t vertices,
                         const uint16_t *ends, size_t ends_count,
                         const uint8_t *marks, size_t marks_count,
                         const uint8_t *open, size_t open_count,
                         const uint8_t *syndrome, size_t syndrome_count,
                         const uint8_t *loss, size_t loss_count,
                         const uint8_t *handed, size_t handed_count);

/* Compares the handed-in set with the correction on the torus of a side, 1 to 32, and answers as
 * surface_verdict does on the board that surface_torus fills. Where it answers SURFACE_SAME it fills
 * `faces` as evidence, else it writes nothing. There are exactly side² bytes of syndrome and of faces,
 * and 2 side² of loss and of the handed-in set.
 *
 * Face r side + c lies between rows r and r + 1 and columns c and c + 1, counted modulo side. Of a
 * vertex v edge 2v leads to the next column, and edge 2v + 1 to the next row; so the face has edges 2v
 * and 2v + 1 of vertex (r, c), 2v of (r + 1, c), and 2v + 1 of (r, c + 1). Its byte is 1 where it is
 * marked, else 0. The marked faces, an edge of two of them cancelling, make up the handed-in set and
 * the correction together. All other faces would make them up as well; those without face 0 are
 * marked. No faces make up sets that wind together. */
uint64_t surface_faces(uint32_t side,
                       const uint8_t *syndrome, size_t syndrome_count,
                       const uint8_t *loss, size_t loss_count,
                       const uint8_t *handed, size_t handed_count,
                       uint8_t *faces, size_t faces_count);

/* Fills `shown` with a winding loop of fewest edges, a byte for each edge; all 0 where no loop winds.
 * First value: its number of edges. Second: 1. Where no loop winds both are 0. */
uint64_t surface_distance(size_t vertices,
                          const uint16_t *ends, size_t ends_count,
                          const uint8_t *marks, size_t marks_count,
                          const uint8_t *open, size_t open_count,
                          uint8_t *shown, size_t shown_count);

/* Fills the ends and marks of the torus of a side, 1 to 32: exactly 4 side² ends and 2 side² marks.
 * It has no open vertex, so a call that takes it is lent a zero for each. First value: the vertex
 * count. */
uint64_t surface_torus(uint32_t side,
                       uint16_t *ends, size_t ends_count,
                       uint8_t *marks, size_t marks_count);

/* Fills the ends, marks and open bytes of the planar board of a side, 2 to 31: exactly two ends and a
 * mark for each of its side² + (side - 1)² edges, and an open byte for each of its side (side + 1)
 * vertices, 1 at both ends of each row and 0 between. First value: the vertex count. */
uint64_t surface_planar(uint32_t side,
                        uint16_t *ends, size_t ends_count,
                        uint8_t *marks, size_t marks_count,
                        uint8_t *open, size_t open_count);

/* Fills the ends, marks and syndrome of the stack of a torus of a side, 1 to 32, that is read in so
 * many rounds: one board with a layer for each round, of at most 1,024 vertices in all. `readings`
 * has a byte for each vertex in each round, 0 or 1, round after round: exactly rounds side² of them,
 * and there are as many syndrome bytes. The edges are (3 rounds - 1) side², with exactly two ends and
 * a mark for each.
 *
 * Rounds, and so layers, are counted from 0. Layer k is the torus, with its vertex v as k side² + v
 * and its edge e as 2 k side² + e. After the edges of all layers, edge 2 rounds side² + k side² + v
 * runs from v in layer k to v in layer k + 1, and has mark 0. The syndrome of layer 0 is its reading;
 * that of a later layer is where its reading differs from the one before. No vertex is open, so a
 * call that takes the stack is lent a zero for each.
 *
 * A flip is the edge of the torus in its round's layer, and a wrong reading is the edge from its
 * layer to the next. Where each reading is the torus's syndrome of all flips so far, changed at its
 * wrong readings, and the last reading has no wrong one, the flips and the wrong readings together
 * have the syndrome: what surface_decode promises of every set E that has it, it promises of them.
 * First value: the vertex count. */
uint64_t surface_stack(uint32_t side, uint32_t rounds,
                       const uint8_t *readings, size_t readings_count,
                       uint16_t *ends, size_t ends_count,
                       uint8_t *marks, size_t marks_count,
                       uint8_t *syndrome, size_t syndrome_count);

/* Reads a text into buffers of exactly SURFACE_ENDS, SURFACE_MARKS, SURFACE_OPEN, SURFACE_SYNDROME and
 * SURFACE_LOSS elements, and leaves entries past the board's counts as they were.
 * First value: the vertex count. Second: the edge count. */
uint64_t surface_read(const uint8_t *text, size_t text_count,
                      uint16_t *ends, size_t ends_count,
                      uint8_t *marks, size_t marks_count,
                      uint8_t *open, size_t open_count,
                      uint8_t *syndrome, size_t syndrome_count,
                      uint8_t *loss, size_t loss_count);

/* Writes the text of a board with its syndrome and losses to the front of `text`, and touches no byte
 * after it. First value: its number of bytes. */
uint64_t surface_write(size_t vertices,
                       const uint16_t *ends, size_t ends_count,
                       const uint8_t *marks, size_t marks_count,
                       const uint8_t *open, size_t open_count,
                       const uint8_t *syndrome, size_t syndrome_count,
                       const uint8_t *loss, size_t loss_count,
                       uint8_t *text, size_t text_count);

/* Packs a syndrome and losses, a byte for each vertex and for each edge, each 0 or 1, into exactly
 * (vertices + 63) / 64 and (edges + 63) / 64 words. Bits past the last item are filled with 0.
 * First value: the number of syndrome words. Second: the number of loss words. */
uint64_t surface_pack(size_t vertices, size_t edges,
                      const uint8_t *syndrome, size_t syndrome_count,
                      const uint8_t *loss, size_t loss_count,
                      uint64_t *syndrome_words, size_t syndrome_words_count,
                      uint64_t *loss_words, size_t loss_words_count);

/* Unpacks the words of a syndrome and of losses into a byte for each vertex and for each edge, 0 or 1.
 * It undoes surface_pack, and surface_pack undoes it. First value: the vertices. Second: the edges. */
uint64_t surface_unpack(size_t vertices, size_t edges,
                        const uint64_t *syndrome_words, size_t syndrome_words_count,
                        const uint64_t *loss_words, size_t loss_words_count,
                        uint8_t *syndrome, size_t syndrome_count,
                        uint8_t *loss, size_t loss_count);

/* Counts the lit vertices of a packed syndrome, which are the set bits in all its words. Writes
 * nothing. First value: the total. */
uint64_t surface_lit_total(size_t vertices,
                           const uint64_t *syndrome_words, size_t syndrome_words_count);

/* Lists the lit vertices of a packed syndrome: writes them, rising, to the front of `list`, which has
 * exactly one entry for each vertex, and leaves the entries after them as they were. First value: the
 * total. */
uint64_t surface_list_lit(size_t vertices,
                          const uint64_t *syndrome_words, size_t syndrome_words_count,
                          uint16_t *list, size_t list_count);

/* The two players: what the first value of surface_game says, and in a position the byte of an edge
 * that is taken. */
enum surface_player {
    SURFACE_WINDER = 1,  /* moves first; wants a winding loop */
    SURFACE_BLOCKER = 2
};

/* Says who can force the win from a position of a game on a board of at most SURFACE_GAME_EDGES edges.
 * Writes nothing.
 *
 * Winder and Blocker take free edges in turn, Winder first. `position` has a byte for each edge: 0
 * where it is free, else the player whose it is. So Winder is to move where both have as many edges,
 * and Blocker where she has one more. Winder has won as soon as some of her edges are a winding loop,
 * which on a board with open vertices may run from one of them to another; Blocker has won where no
 * edge is free and she has not won.
 *
 * First value: the player who has won, or who can win whatever the other one does. Second: where that
 * is the player to move, one more than the smallest free edge that keeps the win; 0 where the other
 * player is to move, or where the position is finished. Taking the edge that is given, whenever it is
 * the winner's turn, wins. */
uint64_t surface_game(size_t vertices,
                      const uint16_t *ends, size_t ends_count,
                      const uint8_t *marks, size_t marks_count,
                      const uint8_t *open, size_t open_count,
                      const uint8_t *position, size_t position_count);

/* Finds a set of fewest edges on which the key misleads, on a board of at most SURFACE_TRAP_EDGES edges
 * of which `loss` says which are lost. A set is a trap where the correction that surface_decode gives
 * for its syndrome winds together with it: surface_verdict then says SURFACE_WOUND of the set.
 *
 * Fills `set` with a trap of fewest edges, a byte for each edge; which one, where there are several, is
 * left open. All bytes are 0 where there is none. First value: its number of edges. Second: 1. Where
 * there is no trap both are 0.
 *
 * There is a trap exactly where some loop winds, which on a board with open vertices may run from one
 * of them to another, and the smallest has at most half as many edges as the distance, rounded up. With
 * t lost edges on the board, and s edges of the trap not lost, t + 2s is no smaller than the distance. */
uint64_t surface_trap(size_t vertices,
                      const uint16_t *ends, size_t ends_count,
                      const uint8_t *marks, size_t marks_count,
                      const uint8_t *open, size_t open_count,
                      const uint8_t *loss, size_t loss_count,
                      uint8_t *set, size_t set_count);

#ifdef __cplusplus
}
#endif

#endif
