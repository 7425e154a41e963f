/* Segments that pass. */
#ifndef SECOND_PASSING_H
#define SECOND_PASSING_H

#include "segment.h"

struct wish any_wish(void);
/* Cells and code with its room, no layout yet. */
void make_code(struct segment *seg, const struct wish *wish);
/* All of it. */
void make_segment(struct segment *seg, const struct wish *wish);

#endif
