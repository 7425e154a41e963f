/* The table of a segment: its length, the kind of each cell, the sizes of the arrays. */
#ifndef SECOND_CELLS_H
#define SECOND_CELLS_H

#include "segment.h"

void make_cells(struct segment *seg, const struct wish *wish);
unsigned any_of(const struct cells *cells);

#endif
