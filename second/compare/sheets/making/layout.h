/* Where code, stack, table and arrays stand, and every word of core. */
#ifndef SECOND_LAYOUT_H
#define SECOND_LAYOUT_H

#include "segment.h"

/* Answers false if they find no room. */
bool make_layout(struct segment *seg, const struct wish *wish);
void write_sheet(struct segment *seg);

#endif
