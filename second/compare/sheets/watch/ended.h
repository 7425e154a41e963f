/* A whole run of a passed segment, held to the sheet by how it ended. */
#ifndef SECOND_ENDED_H
#define SECOND_ENDED_H

#include "rights.h"

/* The core before the run. */
void run_begins(const struct segment *seg);
/* The core moved on in `seg`: what the sheet does not let the run do, or NULL. */
const char *run_broken(const struct segment *seg, uint64_t stop);

#endif
