/* What the header's own functions give, for numbers written out by hand. The header stands first, so that it must bring all it needs. */
#include "surface_table.h"

#include <stdio.h>
#include <string.h>

static int failures = 0;

static void hold(int kept, const char *what)
{
    if (!kept) {
        printf("header: %s\n", what);
        failures++;
    }
}

/* Each number up to the last has a sentence of its own, but for 5, which is not in use: it and the numbers past the last share one more. */
static void hold_sentences(void)
{
    const char *none = surface_refusal_text(SURFACE_REFUSED_TRAP_EDGES + 1);
    for (unsigned number = 0; number <= 256; number++) {
        const char *text = surface_refusal_text(number);
        if (number == 5 || number > SURFACE_REFUSED_TRAP_EDGES) {
            hold(strcmp(text, none) == 0, "a number that no refusal has");
            continue;
        }
        hold(strlen(text) > 0 && strcmp(text, none) != 0, "a number without its sentence");
        for (unsigned smaller = 0; smaller < number; smaller++)
            hold(strcmp(text, surface_refusal_text(smaller)) != 0, "two numbers with one sentence");
    }
}

int main(void)
{
    const uint64_t key = UINT64_C(0xabcdef0123456700);
    hold(surface_refusal(key) == SURFACE_NOT_REFUSED, "an answer");
    hold(surface_first(key) == 0x01234567, "the first value");
    hold(surface_second(key) == 0xabcdef, "the second value");

    const uint64_t refused = (UINT64_C(0xfedcba9876543) << 8) + 13;
    hold(surface_refusal(refused) == SURFACE_REFUSED_MALFORMED_LINE, "the refusal's number");
    hold(surface_place(refused) == UINT64_C(0xfedcba9876543), "the refusal's place");

    hold(SURFACE_ENDS == 8192 && SURFACE_MARKS == 4096 && SURFACE_OPEN == 1024, "the reader's buffers of a board");
    hold(SURFACE_SYNDROME == 1024 && SURFACE_LOSS == 4096, "the reader's other buffers");
    hold(SURFACE_SYNDROME_WORDS == 16 && SURFACE_LOSS_WORDS == 64, "the words of a packed sheet");
    hold(SURFACE_GAME_EDGES == 10 && SURFACE_WINDER == 1 && SURFACE_BLOCKER == 2, "the game");
    hold(SURFACE_TRAP_EDGES == 16, "the trap");
    hold(SURFACE_VERSION >= 9, "the version");
    hold_sentences();
    return failures == 0 ? 0 : 1;
}
