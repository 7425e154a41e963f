/* A state of the second machine, as both machines are handed it. */
#ifndef SECOND_STATE_H
#define SECOND_STATE_H

#include "crossing.h"

/* Bit n of a word, and the largest magnitude. */
#define ON(n) (UINT64_C(1) << (47 - (n)))
#define LARGEST ((UINT64_C(1) << 39) - 1)

struct state {
    uint64_t core[MOST];
    size_t length;
    struct second_registers g;
};

#endif
