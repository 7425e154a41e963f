/* One sheet with its core on both sides: inspected, posted. */
#ifndef SECOND_BOTH_SHEETS_H
#define SECOND_BOTH_SHEETS_H

#include "making/segment.h"

/* The second machine's answer; `difference` is NULL, or says in what the two differ. */
struct inspected {
    uint64_t number, place;
    const char *difference;
};
struct inspected both_inspect(const struct segment *seg);

/* The core moves on in `seg` where the post ran. */
struct posted {
    uint64_t number, place, stop, completed;
    const char *difference;
};
struct posted both_post(struct segment *seg, uint64_t budget, size_t row_length);

#endif
