/* A whole run, by the core before it and all that it left. */
#include "ended.h"
#include "done.h"

#include <string.h>

static uint64_t before[MOST];

void run_begins(const struct segment *seg)
{
    read_rights(seg);
    memcpy(before, seg->st.core, sizeof *before * seg->st.length);
}

const char *run_broken(const struct segment *seg, uint64_t stop)
{
    struct done done = {.number = stop, .g = seg->st.g};
    for (size_t i = 0; i < seg->st.length; i++) {
        if (seg->st.core[i] == before[i])
            continue;
        must(&done, may_write(i), "a write outside the sheet");
        must_be_plain(&done, i, seg->st.core[i]);
    }
    must_end_well(&done);
    return done.broken;
}
