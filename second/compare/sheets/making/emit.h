/* Code grows by a syllable. */
#ifndef SECOND_EMIT_H
#define SECOND_EMIT_H

#include "segment.h"

/* The next syllable, and how many items it adds or takes. */
void emit(struct program *to, unsigned syllable, int more_items);

#endif
