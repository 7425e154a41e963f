/* A segment that passed, step by step on both machines, each held to the sheet and to the other. */
#ifndef SECOND_WATCH_H
#define SECOND_WATCH_H

#include "../making/segment.h"

/* How many steps were completed; what each machine did that the sheet does not let it do, and in what
   the two differ, or NULL. */
struct watched {
    uint64_t steps;
    const char *ours, *second, *difference;
};
struct watched watch_segment(const struct segment *seg, uint64_t budget);

/* How often each stop ended or, with COM, interrupted a watched segment. */
extern uint64_t stops_seen[22];

#endif
