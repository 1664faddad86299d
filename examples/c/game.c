/* Plays on a triangle of which two sides are doubled: edges 0 and 1 join vertices 0 and 1, edge 2 joins 1 and 2, and edges 3 and 4, which
 * have mark 1, join 2 and 0. Winder wants an edge of each side. Says who wins from the start, and after each first move of hers; then plays
 * all games in which she takes the edge that is shown and Blocker any; then asks about two positions that are refused.
 *
 *     (cd crates/table && rt lib)
 *     cc -Iinclude examples/c/game.c crates/table/out/libtable.a -o crates/table/out/example && crates/table/out/example
 */
#include "refused.h"

enum { VERTICES = 3, EDGES = 5 };

static const uint16_t ends[2 * EDGES] = {0, 1, 0, 1, 1, 2, 2, 0, 2, 0};
static const uint8_t marks[EDGES] = {0, 0, 0, 1, 1};
static const uint8_t none_open[VERTICES] = {0};

static uint64_t ask(const uint8_t position[EDGES])
{
    return surface_game(VERTICES, ends, 2 * EDGES, marks, EDGES, none_open, VERTICES, position, EDGES);
}

static void say(const char *when, const uint8_t position[EDGES])
{
    uint64_t game = ask(position);
    printf("%s: ", when);
    if (surface_refusal(game) != SURFACE_NOT_REFUSED) {
        print_refusal(game);
        return;
    }
    printf("%s wins", surface_first(game) == SURFACE_WINDER ? "Winder" : "Blocker");
    if (surface_second(game) != 0)
        printf(", by edge %" PRIu32, surface_second(game) - 1);
    printf("\n");
}

/* Goes on with a game of so many moves, and says how each course ends that it can take. */
static void play(uint8_t position[EDGES], char *course, int moves)
{
    if (moves == EDGES) {
        say(course, position);
        return;
    }
    int winder = moves % 2 == 0;
    uint32_t shown = surface_second(ask(position));
    for (uint32_t edge = 0; edge < EDGES; edge++) {
        if (position[edge] != 0 || (winder && edge + 1 != shown))
            continue;
        position[edge] = winder ? SURFACE_WINDER : SURFACE_BLOCKER;
        course[2 * moves] = (char)('0' + edge);
        play(position, course, moves + 1);
        position[edge] = 0;
    }
}

int main(void)
{
    uint8_t position[EDGES] = {0};
    say("from the start", position);
    char when[] = "after edge 0";
    for (int edge = 0; edge < EDGES; edge++) {
        when[sizeof when - 2] = (char)('0' + edge);
        position[edge] = SURFACE_WINDER;
        say(when, position);
        position[edge] = 0;
    }
    char course[] = "0 0 0 0 0";
    play(position, course, 0);

    const uint8_t twice[EDGES] = {SURFACE_WINDER, 0, SURFACE_WINDER, 0, 0};
    const uint8_t third[EDGES] = {SURFACE_WINDER, 0, 0, 3, 0};
    say("Winder moves twice", twice);
    say("a third player moves", third);
    return 0;
}
