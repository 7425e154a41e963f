/* One state on both machines: the number, all registers and the whole core are compared. */
#ifndef SECOND_BOTH_H
#define SECOND_BOTH_H

#include "state.h"

/* The state moves on; `difference` is NULL, or says in what the two machines differ. */
struct verdict {
    uint64_t number, completed;
    const char *difference;
};
struct verdict both_step(struct state *st);
struct verdict both_run(struct state *st, uint64_t budget);

#endif
