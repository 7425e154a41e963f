/* What the makers of expressions, stores and statements share: the segment whose code is made. */
#ifndef SECOND_CODE_H
#define SECOND_CODE_H

#include "segment.h"

extern struct segment *seg;
extern struct program *code;
void make_in(struct segment *segment);

/* The next syllable of the code, and how many items it adds or takes. */
void put(unsigned syllable, int more_items);

#endif
