/* Judges sets that are handed in for one sheet on the torus of side 3, and draws the marked faces where a set is same. Its correction is
 * edge 0, from vertex 0 to 1. Edges 12, 13 and 15 go from 0 to 1 round the other sides of face 6, and edges 1, 3 and 6 round those of face
 * 0, which is never marked: all other faces are. Edges 2 and 4 go round the torus. No torus has side 33.
 *
 *     (cd crates/table && rt lib)
 *     cc -Iinclude examples/c/faces.c crates/table/out/libtable.a -o crates/table/out/example && crates/table/out/example
 */
#include "refused.h"

/* A torus has as many faces as vertices. */
enum { SIDE = 3, VERTICES = SIDE * SIDE, EDGES = 2 * VERTICES, FACES = VERTICES };

static const uint8_t syndrome[VERTICES] = {1, 1};
static const uint8_t loss[EDGES] = {0};

static void draw(const uint8_t faces[FACES])
{
    for (int face = 0; face < FACES; face++)
        printf("%s%s", faces[face] == 1 ? "#" : ".", face % SIDE == SIDE - 1 ? "\n" : " ");
}

static void judge(const char *set, uint32_t side, const uint8_t handed[EDGES])
{
    uint8_t faces[FACES];
    uint64_t verdict = surface_faces(side, syndrome, VERTICES, loss, EDGES, handed, EDGES, faces, FACES);
    printf("%s: ", set);
    if (surface_refusal(verdict) != SURFACE_NOT_REFUSED) {
        print_refusal(verdict);
        return;
    }
    switch (surface_first(verdict)) {
    case SURFACE_OFF: printf("off at vertex %" PRIu32 "\n", surface_second(verdict)); break;
    case SURFACE_SAME:
        printf("same, by these faces\n");
        draw(faces);
        break;
    case SURFACE_WOUND: printf("wound, marks %" PRIu32 "\n", surface_second(verdict)); break;
    }
}

int main(void)
{
    const uint8_t correction[EDGES] = {1};
    const uint8_t round_face_6[EDGES] = {0, 0, 0, 0, 0, 0, 0, 0, 0, 0, 0, 0, 1, 1, 0, 1};
    const uint8_t round_face_0[EDGES] = {0, 1, 0, 1, 0, 0, 1};
    const uint8_t long_way[EDGES] = {0, 0, 1, 0, 1};
    const uint8_t too_short[EDGES] = {0, 1, 0, 0, 0, 0, 1};
    const uint8_t miscounted[EDGES] = {0, 1, 0, 2, 0, 0, 1};
    judge("the correction itself", SIDE, correction);
    judge("round face 6", SIDE, round_face_6);
    judge("round face 0", SIDE, round_face_0);
    judge("the long way round", SIDE, long_way);
    judge("an edge too few", SIDE, too_short);
    judge("an edge twice", SIDE, miscounted);
    judge("on side 33", 33, correction);
    return 0;
}
