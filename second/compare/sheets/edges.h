/* The bounds of the rules, each seen from its good side in a segment that passes. */
#ifndef SECOND_EDGES_H
#define SECOND_EDGES_H

#include "making/segment.h"

void note_edges(const struct segment *seg);

/* Prints how often each was seen; answers how many never were, of how many. */
unsigned edges_missing(void);
unsigned edges_all(void);

#endif
