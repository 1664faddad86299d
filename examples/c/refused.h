/* How the examples show a refusal: its number, its place, and what it says. */
#ifndef REFUSED_H
#define REFUSED_H

#include <inttypes.h>
#include <stdio.h>

#include "surface_table.h"

static inline void print_refusal(uint64_t returned)
{
    unsigned number = surface_refusal(returned);
    printf("refused, number %u at %" PRIu64 ": %s\n", number, surface_place(returned), surface_refusal_text(number));
}

#endif
